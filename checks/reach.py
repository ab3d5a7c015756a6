"""A relay that has its schema from its first upstream, and addresses beyond loopback."""
import errno
import json
import os
import re
import socket
import subprocess
import sys
import time

import commands
from commands import fails
from data import FIRST_ID, FIRST_ROW, NET, insert, select
from debian import alone, clustered, schema_file, tool
from ends import TAKEN, UNFED, closing, shows
from harness import END_SECONDS, START_SECONDS, Node, Skip, check, equal, holds
from processes import PATIENCE, TICK, TIMED, free_port, wait_until
from upstream import Upstream
from upstreams import LONGEST_PAUSE, PAUSES, SLACK, sound, tells, with_schema

HERE = os.path.dirname(os.path.abspath(__file__))
# What a relay asks that has no schema of its own.
REQUEST = {"id": "schema", "method": "get_schema", "params": ["net"]}
OTHER = {**NET, "tables": {**NET["tables"], "Bridge": {"columns": {"name": {"type": "string"}}}}}
# For how long a port is watched at which nothing may listen yet.
WATCHED = 2
# Addresses that are none of loopback.
BEYOND = ("10.77.0.1", "0.0.0.0", "[::]", "[2001:db8::1]")


def learning_words(lab, port, upstreams, *more, database="net"):
    words = [lab.program, "relay", "--database", database, "--listen", f"127.0.0.1:{port}"]
    for upstream in upstreams:
        words += ["--upstream", f"127.0.0.1:{getattr(upstream, 'port', upstream)}"]
    return words + list(more)


def learning(lab, upstreams, *more, database="net", name="relay"):
    """A relay that is begun without a schema, and needn't listen yet."""
    port = free_port()
    return Node(lab, learning_words(lab, port, upstreams, *more, database=database), name, port)


def said(child):
    """What a node said on standard error so far, with a word in the place of each time."""
    return TIMED.sub(r"\1TIME ", child.read(1))


def schema_at(node, database="net"):
    with node.session() as session:
        return session.ask("get_schema", database)


def is_shut(port):
    """Whether nothing listens at a port of 127.0.0.1."""
    with socket.socket() as probe:
        return probe.connect_ex(("127.0.0.1", port)) == errno.ECONNREFUSED


def stays_shut(node, seconds):
    """Watches for so long that a node goes on and doesn't listen."""
    until = time.monotonic() + seconds
    while time.monotonic() < until:
        holds(is_shut(node.port), f"{node.name} listens without a schema")
        holds(node.child.is_running(), f"ended without a schema: {node.child.told()}")
        time.sleep(TICK)


@check(240)
def learned_schema(lab):
    """A relay with `--database` has its source's schema, passes on what it is asked and shows it, and so does a relay of that kind behind it."""
    source = lab.source()
    relay = learning(lab, [source]).serving().with_source()
    below = learning(lab, [relay], name="below").serving().with_source()
    wanted = schema_at(source)
    equal(wanted, NET, "the source's schema")
    for node in (relay, below):
        equal(schema_at(node), wanted, f"{node.name}: get_schema")
        with node.session() as session:
            equal(session.ask("list_dbs"), ["net"], f"{node.name}: list_dbs")
    with below.session() as session:
        equal(session.transact("net", insert(name="p")), [{"uuid": ["uuid", FIRST_ROW]}], "the insert's result")
    for node in (source, relay, below):
        with node.session() as session:
            shows(session, "p")
        equal(node.child.complaints(), "", f"{node.name}: standard error")


@check(240)
def learned_and_given_schema(lab):
    """A relay with a file is followed by one with `--database`, and the other way round."""
    source = lab.source()
    for given_first in (True, False):
        first = lab.relay([source]) if given_first else learning(lab, [source]).serving()
        last = learning(lab, [first]).serving() if given_first else lab.relay([first])
        with last.with_source().session() as session:
            read = select([["_uuid", "==", session.transact("net", insert(name="p"))[0]["uuid"]]], columns=["name"])
            wait_until(lambda: session.transact("net", read) == [{"rows": [{"name": "p"}]}], 15, "the row is shown")


@check(240)
def schema_of_a_late_upstream(lab):
    """A relay with `--database` whose upstream isn't there yet goes on without listening, and listens once the upstream is there."""
    port = free_port()
    relay = learning(lab, [port])
    stays_shut(relay, WATCHED)
    lab.source(port=port)
    with relay.serving().session() as session:
        equal(session.transact("net", insert(name="p")), [{"uuid": ["uuid", FIRST_ROW]}], "the insert's result")
        shows(session, "p")
    equal(relay.child.complaints(), "", "the relay's standard error")


@check(240)
def an_upstream_that_answers_late(lab):
    """Until its first upstream has answered, a relay with `--database` doesn't listen, and asks no other upstream."""
    asked, is_let = [], []

    def late(connection):
        asked.append(connection.receive())
        wait_until(lambda: is_let, 60, "the upstream may answer")
        connection.reply(asked[0]["id"], NET)
        asked.extend(connection.wait_closed())

    first, second = lab.keep(Upstream(NET, late, tells(1, 1))), lab.keep(Upstream(NET, tells(1, 1)))
    relay = learning(lab, [first, second])
    wait_until(lambda: asked, START_SECONDS, "the relay asks for the schema")
    stays_shut(relay, WATCHED)
    equal((len(first.connections), len(second.connections)), (1, 0), "the connections with the two upstreams")
    is_let.append(True)
    with relay.serving().session() as session:
        shows(session, "p1")
        equal(session.ask("get_schema", "net"), NET, "the relay's schema")
    wait_until(lambda: second.asked, 15, "the second upstream is followed, too")
    equal(asked, [REQUEST], "what the first upstream was asked before it was followed")
    sound(first, second)


@check(240)
def names_of_databases(lab):
    """The name behind `--database` is asked for as it stands, whatever it is."""
    for name in ("Open_vSwitch", "a b", 'a"\\b', "é😀", "_Server"):
        asked = []

        def takes(connection, asked=asked):
            asked.append(connection.receive())

        upstream = lab.keep(Upstream(NET, takes))
        relay = learning(lab, [upstream], "--tries", "1", database=name)
        equal(relay.child.wait(START_SECONDS), 3, f"the status with {name!r}")
        equal(asked, [{**REQUEST, "params": [name]}], f"what is asked with {name!r}")


def no_database(connection):
    connection.send({"id": connection.receive()["id"], "result": None, "error": {"error": "unknown database"}})
    connection.wait_closed()


def no_schema(connection):
    with_schema(connection, {"name": "net", "version": "1.0.0"})
    connection.wait_closed()


def the_schema(connection):
    with_schema(connection, NET)
    connection.wait_closed()


@check(240)
def schema_refused(lab):
    """An upstream that answers with an error, or with what is no schema, is asked again; the first such answer alone is told, in any case."""
    lines = {no_database: 'has no database "net"', no_schema: r"has a schema that is refused: [^\n]*\w"}
    for first, second in ((no_database, no_schema), (no_schema, no_database)):
        upstream = lab.keep(Upstream(NET, first, second, first, the_schema, tells(1, 1)))
        relay = learning(lab, [upstream])
        with relay.serving().session() as session:
            shows(session, "p1")
        wanted = rf"ovs_relay: TIME upstream 127\.0\.0\.1:{upstream.port} {lines[first]}\n"
        holds(re.fullmatch(wanted, said(relay.child)), f"{first.__name__}, and then the schema: {said(relay.child)!r}, and not {wanted!r}")
        sound(upstream)


@check(240)
def results_that_are_no_schema(lab):
    """Whatever an upstream answers that is no schema, a relay goes on without listening, and tells that it is refused."""
    port = NET["tables"]["Port"]["columns"]
    reals = {**NET, "tables": {"Port": {"columns": {**port, "speed": {"type": "real"}}}}}
    bounds = {**NET, "tables": {"Port": {"columns": {**port, "tags": {"type": {"key": "integer", "min": 2, "max": 3}}}}}}
    for result in (None, True, 0, "net", [], {}, [NET], json.dumps(NET), {**NET, "tables": []}, {**NET, "name": "a-b"}, reals, bounds):
        upstream = lab.keep(Upstream(NET, lambda connection, result=result: with_schema(connection, result)))
        relay = learning(lab, [upstream], "--tries", "2")
        equal((relay.child.wait(START_SECONDS), relay.child.output()), (3, ""), f"{result!r}: the relay's status and output")
        told = said(relay.child).splitlines()
        wanted = f"ovs_relay: TIME upstream 127.0.0.1:{upstream.port} has a schema that is refused: "
        holds(told[0].startswith(wanted) and len(told[0]) > len(wanted), f"{result!r}: {told!r}, and not first {wanted!r}")
        equal(told[1:], [untold(upstream.port)], f"{result!r}: the lines that follow")
        sound(upstream)


def closes(_connection):
    pass


def closes_when_asked(connection):
    connection.receive()


def rubbish(connection):
    connection.receive()
    connection.send_bytes(b"SSH-2.0-server\r\n")
    connection.wait_closed()


def no_message(connection):
    connection.receive()
    connection.send_bytes(b"{}")
    connection.wait_closed()


def half_a_reply(connection):
    text = json.dumps({"id": connection.receive()["id"], "result": NET, "error": None}).encode()
    connection.send_bytes(text[:-1])


def other_replies(connection):
    connection.receive()
    connection.reply("another", OTHER)
    connection.reply(None, None)


# Upstreams that answer nothing to what they are asked.
MUTE = (closes, closes_when_asked, rubbish, no_message, half_a_reply, other_replies)


@check(240)
def upstreams_that_tell_no_schema(lab):
    """An upstream that hangs up, sends what is no message, half a reply, or replies to others is asked again, and nothing is said of it."""
    upstream = lab.keep(Upstream(NET, *MUTE, the_schema, tells(1, 1)))
    relay = learning(lab, [upstream])
    with relay.serving().session() as session:
        shows(session, "p1")
        equal(session.ask("get_schema", "net"), NET, "the relay's schema")
    equal(relay.child.complaints(), "", "the relay's standard error")
    sound(upstream)


@check(240)
def a_reply_in_pieces(lab):
    """A reply that comes byte by byte, behind a notification, a request and replies to what wasn't asked, is taken at the first try."""

    def in_pieces(connection):
        asked = connection.receive()["id"]
        messages = [
            {"id": None, "method": "update", "params": [None, {"Port": {}}]},
            {"id": "echo", "method": "echo", "params": []},
            {"id": "another", "result": OTHER, "error": None},
            {"id": 1, "result": None, "error": {"error": "unknown database"}},
            {"error": None, "result": NET, "id": asked},
        ]
        connection.socket.setsockopt(socket.IPPROTO_TCP, socket.TCP_NODELAY, 1)
        for byte in "\r\n\t ".join(json.dumps(message) for message in messages).encode():
            connection.send_bytes(bytes([byte]))
        connection.wait_closed()

    upstream = lab.keep(Upstream(NET, in_pieces, tells(1, 1)))
    relay = learning(lab, [upstream])
    with relay.serving().session() as session:
        shows(session, "p1")
        equal(session.ask("get_schema", "net"), NET, "the relay's schema")
    equal((len(upstream.connections), relay.child.complaints()), (2, ""), "the connections, and the relay's standard error")
    sound(upstream)


@check(240)
def pauses_before_a_schema(lab):
    """An upstream that tells no schema, whether it says so or hangs up, is asked again after pauses that grow to at most a second."""

    def greets(connection):
        connection.send({"id": "echo", "method": "echo", "params": []})
        connection.receive()
        connection.send({"id": None, "method": "update", "params": [None, {}]})

    scripts = (no_database, no_schema, *MUTE, greets)
    upstreams = [lab.keep(Upstream(NET, script)) for script in scripts]
    for upstream in upstreams:
        learning(lab, [upstream])
    for script, upstream in zip(scripts, upstreams):
        wait_until(lambda upstream=upstream: len(upstream.times()) > PAUSES + 1, 60, f"{script.__name__}: {PAUSES + 1} pauses")
        times = upstream.times()[: PAUSES + 2]
        pauses = [later - earlier for earlier, later in zip(times, times[1:])]
        holds(pauses[-1] > LONGEST_PAUSE / 4, f"{script.__name__}: the pauses don't grow: {pauses!r}")
        holds(max(pauses) <= (LONGEST_PAUSE + SLACK) * PATIENCE, f"{script.__name__}: the longest pause is {max(pauses):.2f} seconds")
        sound(upstream)


def untold(port):
    """What a relay says that has no schema after all tries."""
    return f"ovs_relay: upstream 127.0.0.1:{port} told no schema, and isn't tried any more"


@check(240)
def no_schema_after_all_tries(lab):
    """A relay that is told no schema in all its `--tries` ends with status 3 and a line, whether there is no such database, or nobody."""
    source, nobody = lab.source(), free_port()
    absent = f'ovs_relay: TIME upstream {source.address} has no database "ten"'
    for port, told in ((source.port, [absent]), (nobody, [])):
        relay = learning(lab, [port], "--tries", "2", database="ten")
        equal((relay.child.wait(START_SECONDS), relay.child.output()), (3, ""), "the relay's status and output")
        equal(said(relay.child).splitlines(), [*told, untold(port)], "the lines of the relay's standard error")


@check(240)
def tries_for_a_schema_are_bounded(lab):
    """`--tries N` bounds how often an upstream is asked for the schema, whatever it answers, and whatever other upstreams there are."""
    for script in (no_database, no_schema, closes_when_asked):
        upstream, other = lab.keep(Upstream(NET, script)), lab.keep(Upstream(NET, the_schema))
        relay = learning(lab, [upstream, other], "--tries", "4", "--accepts", "1", "--end-on-refusal")
        equal((relay.child.wait(START_SECONDS), relay.child.output()), (3, ""), f"{script.__name__}: the relay's status and output")
        equal((len(upstream.connections), len(other.connections)), (4, 0), f"{script.__name__}: the connections that were made")
        equal(said(relay.child).splitlines()[-1], untold(upstream.port), f"{script.__name__}: the last line of standard error")


@check(commands.LIMIT)
def words_of_schema_and_database(lab):
    """Status 2 and a line for a relay with `--schema` and `--database`, with neither, or one twice, and for `--database` with other commands."""
    relay, rest = commands.relay_words(lab), commands.relay_words(lab)[3:]
    both = "ovs_relay: '--schema <FILE>' and '--database <NAME>' exclude each other\n"
    equal(lab.run(*relay, "--database", "net"), (2, "", both), "both")
    equal(lab.run("relay", "--database", "net", *relay[1:]), (2, "", both), "both, the other way round")
    equal(lab.run("relay", *rest), (2, "", "ovs_relay: '--schema <FILE>' is missing\n"), "neither")
    fails(lab, ["relay", "--database", "net", "--database", "net", *rest], 2)
    fails(lab, ["relay", *rest, "--database"], 2)
    fails(lab, ["relay", "--database", "net", *rest, "--first-id", FIRST_ID], 2)
    source = commands.source_words(lab)
    fails(lab, ["source", "--database", "net", *source[3:]], 2, "--database")
    fails(lab, [*source, "--database", "net"], 2, "--database")
    for command in ("fold", "world"):
        fails(lab, [command, "--database", "net"], 2, "--database")


@check(240)
def a_port_in_use(lab):
    """A relay with `--database` whose port is taken ends with status 3 and a line that names it."""
    source = lab.source()
    with socket.create_server(("127.0.0.1", 0)) as other:
        port = other.getsockname()[1]
        fails(lab, learning_words(lab, port, [source])[1:], 3, f"127.0.0.1:{port}", "in use")


@check(240)
def changed_schema(lab):
    """With `--database` and `--end-on-refusal` a relay whose upstream has another schema ends with status 1, and begun anew it has that one."""
    source = lab.source()
    relay = learning(lab, [source], "--end-on-refusal").serving().with_source()
    with relay.session() as session:
        session.transact("net", insert(name="p"))
        shows(session, "p")
        source.stop()
        lab.source(port=source.port, schema=OTHER)
        equal((relay.child.wait(END_SECONDS), relay.child.output()), (1, closing(FIRST_ID, 1, 1)), "the relay's status and output")
    equal(said(relay.child), f"ovs_relay: TIME upstream {source.address} has another schema\n", "the relay's standard error")
    again = Node(lab, learning_words(lab, relay.port, [source], "--end-on-refusal"), "again", relay.port).serving().with_source()
    equal(schema_at(again), schema_at(source), "the schema of the relay that was begun anew")
    bridge = {"op": "insert", "table": "Bridge", "row": {"name": "b"}}
    with again.session() as session:
        session.transact("net", bridge)
        read = {"op": "select", "table": "Bridge", "where": [], "columns": ["name"]}
        wait_until(lambda: session.transact("net", read) == [{"rows": [{"name": "b"}]}], 15, "the row of the new table is shown")


@check(240)
def loopback_says_nothing(lab):
    """With `--beyond-loopback` a node that listens at a loopback address says nothing of it."""
    alone = lab.source("--accepts", "1", "--beyond-loopback")
    equal((alone.end()[0], alone.child.complaints()), (0, TAKEN), "the source's status and standard error")
    source = lab.source("--beyond-loopback")
    relays = [lab.relay([source], "--accepts", "1", "--tries", "1", "--beyond-loopback")]
    relays.append(learning(lab, [source], "--accepts", "1", "--tries", "1", "--beyond-loopback").serving())
    for relay in relays:
        relay.with_source()
    source.stop()
    for relay in relays:
        equal(relay.end()[0], 0, "the relay's status")
        equal(sorted(relay.child.complaints().splitlines(True)), [TAKEN, UNFED], "the lines of the relay's standard error")


@check(commands.LIMIT)
def addresses_without_the_option(lab):
    """Status 2 and a line that names the word for an address beyond loopback, of a source, a relay or an upstream, without `--beyond-loopback`."""
    near = f"127.0.0.1:{free_port()}"
    for host in BEYOND:
        address = f"{host}:{free_port()}"
        fails(lab, commands.source_words(lab, listen=address), 2, "--listen", address)
        fails(lab, commands.relay_words(lab, listen=address), 2, "--listen", address)
        fails(lab, commands.relay_words(lab, near, address), 2, "--upstream", address)
        fails(lab, ["relay", "--database", "net", "--listen", near, "--upstream", address], 2, "--upstream", address)


@check(commands.LIMIT)
def words_with_the_option(lab):
    """Status 2 and a line with `--beyond-loopback`, too, for a word that is no address, and where a relay is to follow itself."""
    for word in ("", "10.77.0.1", "10.77.0.1:", "10.77.0.1:65536", "10.77.0.256:1", "localhost:1", "[::]", "::1:1", "*:1"):
        fails(lab, [*commands.source_words(lab, listen=word), "--beyond-loopback"], 2, "--listen")
        fails(lab, [*commands.relay_words(lab, word), "--beyond-loopback"], 2, "--upstream")
    for host in BEYOND:
        address = f"{host}:{free_port()}"
        fails(lab, [*commands.relay_words(lab, address, listen=address), "--beyond-loopback"], 2, address, "own address")
    for command in ("fold", "world"):
        fails(lab, [command, "--beyond-loopback"], 2, "--beyond-loopback")


def namespace_words():
    """What begins a command in a network of its own, which has no way to any other."""
    tool("ip")
    for words in ([tool("unshare"), "--net"], [tool("unshare"), "--map-root-user", "--net"]):
        tried = subprocess.run([*words, "true"], stdout=subprocess.DEVNULL, stderr=subprocess.PIPE, check=False)
        if tried.returncode == 0:
            return words
    raise Skip(f"a network namespace isn't permitted: {' '.join(tried.stderr.decode(errors='replace').split())}")


def told_inside(lab, story):
    """Runs a story of `beyond.py` in a network of its own, which has to come to a good end."""
    words = [sys.executable, os.path.join(HERE, "beyond.py"), lab.program, os.readlink("/proc/self/ns/net"), story]
    ran = subprocess.run([*namespace_words(), *words], stdout=subprocess.PIPE, stderr=subprocess.STDOUT, cwd=lab.folder, check=False)
    holds(ran.returncode == 0, f"status {ran.returncode}: {ran.stdout.decode(errors='replace')[-500:]}")


@check(240)
def beyond_loopback(lab):
    """With `--beyond-loopback` a source at an address of its host and a relay at all of them serve who comes there, and say where they listen."""
    told_inside(lab, "tier")


@check(240)
def beyond_loopback_in_version_six(lab):
    """The same at all addresses of IPv6, with a relay that has its schema from the source."""
    if not os.path.exists("/proc/net/if_inet6"):
        raise Skip("there is no IPv6")
    told_inside(lab, "version_six")


@check(240)
def a_port_that_the_system_chose(lab):
    """Where port 0 is given beyond loopback, the line has the port that the system chose, at which the node serves."""
    told_inside(lab, "chosen_port")


@check(240)
def an_address_of_another_host(lab):
    """Where the address to listen at is another host's, a node ends with status 3 and a line that names it, and says nothing of listening."""
    told_inside(lab, "another_host")


@check(300)
def schema_of_a_cluster(lab):
    """A relay with `--database` before a clustered ovsdb-server has its schema, shows its rows and passes on what is written."""
    server = clustered(lab, NET)
    relay = learning(lab, [server]).serving()
    equal(schema_at(relay), schema_at(server), "the schema")
    with server.session() as near, relay.with_source().session() as far:
        near.transact("net", insert(name="near"))
        shows(far, "near")
        far.transact("net", {"op": "update", "table": "Port", "where": [], "row": {"name": "far"}})
        for session in (near, far):
            shows(session, "far")
    below = learning(lab, [relay]).serving()
    equal(schema_at(below), schema_at(server), "the schema of a relay behind it")
    with below.session() as session:
        shows(session, "far")
    absent = learning(lab, [server], "--tries", "1", database="ten")
    equal(absent.child.wait(START_SECONDS), 3, "the status with a database that the server hasn't")
    lines = [f'ovs_relay: TIME upstream {server.address} has no database "ten"', untold(server.port)]
    equal(said(absent.child).splitlines(), lines, "the lines with a database that the server hasn't")


@check(300)
def schemas_of_debian(lab):
    """A relay with `--database` before an ovsdb-server, clustered or not, has the schemas of Open vSwitch and OVN as the server tells them."""
    for name in ("vswitch", "ovn-nb", "ovn-sb"):
        schema = schema_file(name)
        for server in (clustered(lab, schema), alone(lab, schema)):
            relay = learning(lab, [server], database=schema["name"]).serving()
            equal(schema_at(relay, schema["name"])["tables"], schema_at(server, schema["name"])["tables"], f"{name}: the tables")
            relay.stop()
            server.stop()
