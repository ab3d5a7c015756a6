"""Nodes that listen at Unix sockets, and whose upstreams do."""
import json
import os
import re
import socket
import stat

import commands
from client import Session
from commands import fails
from data import FIRST_ID, FIRST_ROW, NET, insert, nth, select
from debian import environment, run, schema_file, tool, wait_for, watch
from ends import TAKEN, UNFED, closing, shows
from harness import END_SECONDS, START_SECONDS, Node, check, equal, holds
from processes import TIMED, free_port, wait_until
from reach import OTHER

# The longest path that a socket may have (unix(7)).
LONGEST_PATH = 107
# More sessions than all workers take up at once, each of which inserts a row.
MANY = 200
# A row of so many bytes doesn't go into what the system keeps of a connection.
LARGE = 4_000_000


def answers(path):
    """Whether a process listens at a path."""
    with socket.socket(socket.AF_UNIX) as probe:
        return probe.connect_ex(path) == 0


def is_socket(path):
    try:
        return stat.S_ISSOCK(os.lstat(path).st_mode)
    except FileNotFoundError:
        return False


class UnixNode(Node):
    """A process that serves at a path."""

    def __init__(self, lab, words, name, path, environment=None):
        self.lab, self.name, self.path = lab, name, path
        self.address = f"unix:{path}"
        self.child = lab.start(words, name, environment)

    def serving(self):
        def serving():
            holds(self.child.is_running(), f"ended before it served: {self.child.told()}")
            return answers(self.path)

        wait_until(serving, START_SECONDS, f"{self.name} listens at {self.path}")
        return self

    def session(self, seconds=20.0, buffer=None):
        return self.lab.keep(Session(None, seconds, buffer, path=self.path))

    def with_source(self):
        with self.session() as session:
            database = session.ask("list_dbs")[0]
            equal(session.transact(database, {"op": "abort"})[0]["error"], "aborted", "the answer of the source")
        return self


def source_at(lab, *more, path=None, schema=NET):
    path = path or lab.path(f"source-{free_port()}.sock")
    words = [lab.program, *commands.source_words(lab, listen=f"unix:{path}", schema=lab.schema(schema)), *more]
    return UnixNode(lab, words, "source", path).serving()


def begun_relay(lab, *upstreams, more=(), path=None, schema=NET, name="relay"):
    """A relay of these upstreams, each an address or a node, or several of them, which may not serve yet, or have ended."""
    path = path or lab.path(f"{name}-{free_port()}.sock")
    origin = ["--schema", lab.schema(schema)] if schema else ["--database", "net"]
    words = [lab.program, "relay", *origin, "--listen", f"unix:{path}", *more]
    for upstream in upstreams:
        addresses = upstream if isinstance(upstream, list) else [upstream]
        words += ["--upstream", ",".join(getattr(address, "address", address) for address in addresses)]
    return UnixNode(lab, words, name, path)


def relay_at(lab, *upstreams, **how):
    """Such a relay, once it serves."""
    return begun_relay(lab, *upstreams, **how).serving()


def ovsdb_server(lab, schema):
    """Debian's server at a Unix socket."""
    number = free_port()
    database, path = lab.path(f"{number}.db"), lab.path(f"ovsdb-{number}.sock")
    run(lab, "ovsdb-tool", "create-cluster", database, lab.schema(schema), f"tcp:127.0.0.1:{free_port()}")
    words = [tool("ovsdb-server"), f"--remote=punix:{path}", f"--unixctl={lab.path(f'control-{number}')}", "--no-chdir", "-vconsole:warn", database]
    return UnixNode(lab, words, "ovsdb-server", path, environment(lab)).serving()


def lines(child):
    return [TIMED.sub("", line) for line in child.read(1).splitlines()]


def names(session):
    return sorted(row["name"] for row in session.transact("net", select())[0]["rows"])


@check(300)
def ovsdb_client_and_monitors(lab):
    """ovsdb-client at the Unix sockets of a source and of a relay behind it: list-dbs, get-schema, transact, dump and monitor."""
    source = source_at(lab)
    relay = relay_at(lab, source).with_source()
    for node in (source, relay):
        equal(run(lab, "ovsdb-client", "list-dbs", node.address), "net\n", f"{node.name}: list-dbs")
        equal(json.loads(run(lab, "ovsdb-client", "get-schema", node.address, "net"))["tables"], NET["tables"], f"{node.name}: get-schema")
    watched = [watch(lab, "ovsdb-client", "monitor", node.address, "net", "Port", "name") for node in (source, relay)]
    for node, name in ((relay, "first"), (source, "second")):
        told = json.loads(run(lab, "ovsdb-client", "transact", node.address, json.dumps(["net", insert(name=name)])))
        equal(told[0]["uuid"][0], "uuid", f"{node.name}: transact")
        for child in watched:
            wait_for(child, name)
    for node in (source, relay):
        dumped = run(lab, "ovsdb-client", "--format=csv", "dump", node.address, "net", "Port", "name")
        holds("first" in dumped and "second" in dumped, f"{node.name}: dump: {dumped!r}")


@check(300)
def ovs_vsctl_behind_a_server(lab):
    """A relay follows `unix:` of ovsdb-server and another the relay's own; ovs-vsctl writes and reads at the last."""
    schema = schema_file("vswitch")
    server = ovsdb_server(lab, schema)
    first = relay_at(lab, server, schema=schema).with_source()
    last = relay_at(lab, first, schema=schema, name="last").with_source()
    base = ["ovs-vsctl", f"--db={last.address}", "--no-wait", "--timeout=15"]
    run(lab, *base, "init")
    run(lab, *base, "add-br", "br0", "--", "add-port", "br0", "p0", "tag=7")
    equal(run(lab, *base, "list-ports", "br0"), "p0\n", "list-ports")
    equal(run(lab, "ovs-vsctl", f"--db={server.address}", "--no-wait", "get", "port", "p0", "tag"), "7\n", "what the server has")
    equal([first.child.complaints(), last.child.complaints()], ["", ""], "what the relays say")


@check(240)
def schema_over_a_unix_socket(lab):
    """A relay with `--database` learns the schema over a Unix socket, and one at a port follows it there."""
    source = source_at(lab)
    relay = relay_at(lab, source, schema=None).with_source()
    port = free_port()
    words = [lab.program, "relay", "--database", "net", "--listen", f"127.0.0.1:{port}", "--upstream", relay.address]
    below = Node(lab, words, "below", port).serving().with_source()
    with below.session() as session:
        equal(session.transact("net", insert(name="p")), [{"uuid": ["uuid", FIRST_ROW]}], "the insert's result")
        shows(session, "p")


@check(240)
def addresses_of_both_kinds(lab):
    """An upstream with Unix sockets and ports among its addresses: those where nobody listens are passed over, and each is told of."""
    source = lab.source()
    absent = [f"unix:{lab.path('nobody.sock')}", f"127.0.0.1:{free_port()}"]
    relay = relay_at(lab, [*absent, source], more=["--verbose"]).with_source()
    wanted = [*(f"upstream {address} not found" for address in absent), f"upstream {source.address} found"]
    wait_until(lambda: wanted[-1] in lines(relay.child), 15, "the relay says that its upstream was found")
    told = [line.split(": ")[0] for line in lines(relay.child) if line.startswith("upstream ")]
    equal(told, wanted, "what the relay says of its upstream")
    with relay.session() as session:
        session.transact("net", insert(name="p"))
        shows(session, "p")


@check(240)
def a_relay_that_comes_again(lab):
    """A relay that is killed leaves its socket; begun anew at the same path it listens there, and the relay below it follows it again."""
    source = source_at(lab)
    middle = relay_at(lab, source, name="middle").with_source()
    last = relay_at(lab, middle, name="last").with_source()
    middle.stop()
    holds(is_socket(middle.path) and not answers(middle.path), "the socket isn't left")
    relay_at(lab, source, path=middle.path, name="again").with_source()
    with source.session() as near, last.session() as far:
        near.transact("net", insert(name="p"))
        shows(far, "p")
    last.with_source()


@check(240)
def an_upstream_that_comes_late(lab):
    """A relay whose upstream's socket isn't there yet goes on trying, and has all once it is."""
    path = lab.path("late.sock")
    relay = relay_at(lab, f"unix:{path}")
    with relay.session() as session:
        equal(names(session), [], "what the relay shows before")
        with source_at(lab, path=path).session() as near:
            near.transact("net", insert(name="p"))
        shows(session, "p")


@check(240)
def what_nodes_say(lab):
    """With `--verbose` a node says `unix` of a client at its Unix socket, and gives the path of an upstream."""
    source = source_at(lab, "--verbose")
    relay = relay_at(lab, source, more=["--verbose"]).with_source()
    opened = re.compile(r"worker \d session \d+ opened by unix")
    wait_until(lambda: any(opened.fullmatch(line) for line in lines(source.child)), 15, "the source says that a session was opened")
    wait_until(lambda: f"upstream {source.address} found" in lines(relay.child), 15, "the relay says that its upstream was found")


@check(240)
def the_file_at_the_end(lab):
    """A node that comes to its end takes its socket away, a source and a relay, also one that ends on a refusal."""
    source = source_at(lab, "--accepts", "1")
    equal(source.end(), (0, closing("00000000-0000-0000-0000-000000000000", 0, 0)), "the source's status and output")
    equal(source.child.complaints(), TAKEN, "the source's standard error")
    holds(not os.path.lexists(source.path), "the source's socket is left")
    source = source_at(lab)
    relay = relay_at(lab, source, more=["--accepts", "1", "--tries", "1"]).with_source()
    source.stop()
    equal(relay.end()[0], 0, "the relay's status")
    equal(sorted(relay.child.complaints().splitlines(True)), [TAKEN, UNFED], "the lines of the relay's standard error")
    holds(not os.path.lexists(relay.path), "the relay's socket is left")
    other = source_at(lab, schema=OTHER)
    refusing = begun_relay(lab, other, more=["--end-on-refusal"])
    equal(refusing.child.wait(END_SECONDS), 1, "the status of a relay whose upstream has another schema")
    holds(not os.path.lexists(refusing.path), "the socket of a relay that ended on a refusal is left")


@check(commands.LIMIT)
def what_is_in_the_way(lab):
    """Status 3 and a line that names the path where something else is there, which is left as it is; a socket that was left is replaced."""
    live = source_at(lab)
    with live.session() as session:
        session.transact("net", insert(name="p"))
        file, folder, pipe = lab.path("file", "kept"), lab.path("folder"), lab.path("pipe")
        os.mkdir(folder)
        os.mkfifo(pipe)
        link, broken = lab.path("link"), lab.path("broken")
        os.symlink(live.path, link)
        os.symlink(lab.path("nothing"), broken)
        for path in (live.path, file, folder, pipe, link, broken):
            before = os.lstat(path)
            fails(lab, commands.source_words(lab, listen=f"unix:{path}"), 3, f"unix:{path}", "in use")
            fails(lab, commands.relay_words(lab, listen=f"unix:{path}"), 3, f"unix:{path}", "in use")
            equal((os.lstat(path).st_ino, os.lstat(path).st_mode), (before.st_ino, before.st_mode), f"what is at {path}")
        with open(file, encoding="ascii") as kept:
            equal(kept.read(), "kept", "what is in the file")
        equal(names(session), ["p"], "what the node shows whose path was to be taken")
    fails(lab, commands.source_words(lab, listen=f"unix:{lab.path('no/such.sock')}"), 3, "no/such.sock")
    left = lab.path("left.sock")
    with socket.socket(socket.AF_UNIX) as one:
        one.bind(left)
        one.listen()
    with source_at(lab, path=left).session() as session:
        equal(session.ask("list_dbs"), ["net"], "list_dbs at a path where a socket was left")


@check(commands.LIMIT)
def words_that_are_no_paths(lab):
    """Status 2 and a line with the option for a path that is empty or too long, and where a relay is to follow itself; the longest path serves."""
    near = f"127.0.0.1:{free_port()}"
    longest = lab.path("x" * (LONGEST_PATH - len(lab.path(""))))
    equal(len(longest), LONGEST_PATH, "the longest path")
    for word in ("unix:", f"unix:{longest}x", "unix:" + "é" * 54, "unix", "punix:/tmp/x", "UNIX:/tmp/x", "tcp:127.0.0.1:1", f"unix:{longest}{longest}"):
        fails(lab, commands.source_words(lab, listen=word), 2, "--listen", "107 bytes")
        fails(lab, commands.relay_words(lab, word), 2, "--upstream", "107 bytes")
    fails(lab, commands.relay_words(lab, f"{near},unix:"), 2, "--upstream", '"unix:"')
    for upstreams in (["unix:a.sock"], [near, "unix:a.sock"], [f"{near},unix:a.sock"]):
        fails(lab, commands.relay_words(lab, *upstreams, listen="unix:a.sock"), 2, "unix:a.sock", "own address")
    holds(not os.path.lexists(lab.path("a.sock")), "a socket is there whose relay wasn't begun")
    with source_at(lab, path=longest).session() as session:
        equal(session.ask("list_dbs"), ["net"], "list_dbs at the longest path")


@check(240)
def many_clients(lab):
    """Many clients at once at a relay's Unix socket, some of which break off: each insert is answered, and all rows are shown."""
    source = source_at(lab)
    relay = relay_at(lab, source).with_source()
    sessions = [relay.session() for _ in range(MANY)]
    for number, session in enumerate(sessions):
        session.request("transact", "net", insert(name=f"p{number}"))
    for session in sessions[::2]:
        equal(session.receive()["error"], None, "the error of an insert")
    for session in sessions:
        session.close()
    for node in (source, relay):
        with node.session() as session:
            wait_until(lambda session=session: len(names(session)) >= MANY // 2, 30, f"{node.name} shows the rows that were answered")
            equal(session.ask("echo", "a"), ["a"], f"{node.name}: echo")


@check(240)
def large_messages_and_clients_that_stall(lab):
    """A row that doesn't go into a socket's room passes up and down; a client that reads nothing of it keeps no other waiting."""
    source = source_at(lab)
    relay = relay_at(lab, source).with_source()
    stalled = relay.session()
    stalled.ask("monitor", "net", "m", {"Port": {}})
    text = "x" * LARGE
    with relay.session(60) as session:
        equal(session.transact("net", insert(name=text)), [{"uuid": ["uuid", FIRST_ROW]}], "the insert's result")
        for _ in range(20):
            stalled.request("transact", "net", select())
        wait_until(lambda: names(session) == [text], 30, "the relay shows the row")
        equal(session.ask("echo", "a"), ["a"], "echo beside a client that stalls")
    with source.session(60) as session:
        equal(names(session), [text], "what the source shows")
