"""A relay of ours behind a clustered ovsdb-server, and Debian's programs as its clients."""
import json
import os
import re
import subprocess

import own_writes
from client import Closed, Refused, Session
from data import NET, ZEROS, insert, select
from debian import alone, clustered, environment, run, schema_file, Server, tool, wait_for, watch
from ends import shows
from harness import END_SECONDS, Skip, check, equal, holds
from processes import wait_until
from upstream import Passage

LIMIT = 300
HERE = os.path.dirname(os.path.abspath(__file__))
DEBIAN_PYTHON = "/usr/bin/python3"
OWN_WRITES = 40
# A clustered server remembers this many commits at most.
REMEMBERED = 100


def behind_a_cluster(lab, schema=NET, *more):
    server = clustered(lab, schema)
    return server, lab.relay([server], *more, schema=schema).with_source()


def chain_behind_a_cluster(lab, schema):
    """A clustered server, and the last of two relays in a chain behind it."""
    server, first = behind_a_cluster(lab, schema)
    return server, lab.relay([first], schema=schema).with_source()


def at(node):
    return f"tcp:{node.address}"


def names(session):
    return sorted(row["name"] for row in session.transact("net", select())[0]["rows"])


@check(LIMIT)
def ovsdb_client_asks(lab):
    """ovsdb-client at a relay: list-dbs, get-schema, get-schema-version, list-tables, transact, query and dump."""
    _, relay = behind_a_cluster(lab)
    equal(run(lab, "ovsdb-client", "list-dbs", at(relay)), "net\n", "list-dbs")
    equal(json.loads(run(lab, "ovsdb-client", "get-schema", at(relay), "net"))["tables"], NET["tables"], "get-schema")
    equal(run(lab, "ovsdb-client", "get-schema-version", at(relay), "net"), "1.0.0\n", "get-schema-version")
    holds("Port" in run(lab, "ovsdb-client", "list-tables", at(relay), "net"), "list-tables")
    told = json.loads(run(lab, "ovsdb-client", "transact", at(relay), json.dumps(["net", insert(name="p", tags=["set", [1, 2]])])))
    equal(told[0]["uuid"][0], "uuid", "transact")
    with relay.session() as session:
        shows(session, "p")
    equal(json.loads(run(lab, "ovsdb-client", "query", at(relay), json.dumps(["net", select(columns=["tags"])]))), [{"rows": [{"tags": ["set", [1, 2]]}]}], "query")
    dumped = run(lab, "ovsdb-client", "--format=csv", "dump", at(relay), "net", "Port", "name", "tags")
    holds("p,\"[1, 2]\"" in dumped, f"dump: {dumped!r}")


@check(LIMIT)
def ovsdb_client_watches(lab):
    """ovsdb-client at a relay: monitor, monitor-cond and monitor-cond-since tell of rows that are there and of later commits."""
    server, relay = behind_a_cluster(lab)
    with server.session() as writer, relay.session() as reader:
        writer.transact("net", insert(name="first"))
        shows(reader, "first")
        watched = [
            watch(lab, "ovsdb-client", "monitor", at(relay), "net", "Port", "name"),
            watch(lab, "ovsdb-client", "monitor-cond", at(relay), "net", '[["name","!=","hidden"]]', "Port", "name"),
            watch(lab, "ovsdb-client", "monitor-cond-since", at(relay), "net", ZEROS, "[true]", "Port", "name"),
        ]
        for child in watched:
            wait_for(child, "first")
        writer.transact("net", insert(name="hidden"), insert(name="second"))
        for child in watched:
            wait_for(child, "second")
        equal(["hidden" in child.output() for child in watched], [True, False, True], "whether the hidden row is told")
        writer.transact("net", {"op": "update", "table": "Port", "where": [["name", "==", "second"]], "row": {"name": "third"}})
        for child in watched:
            wait_for(child, "third")
        holds(all(child.is_running() for child in watched), "a monitor ended")


@check(LIMIT)
def ovsdb_client_locks(lab):
    """ovsdb-client at a relay: a lock is told as locked, and stolen from it by a steal."""
    _, relay = behind_a_cluster(lab)
    first = watch(lab, "ovsdb-client", "lock", at(relay), "L")
    wait_for(first, "locked")
    with relay.session() as session:
        session.ask("lock", "L")
        holds(session.is_quiet(0.5), "a second client is told something while ovsdb-client owns the lock")
        second = watch(lab, "ovsdb-client", "steal", at(relay), "L")
        wait_for(second, "true")
        wait_for(first, "stolen")
        second.stop()
        equal(session.notice(), ("locked", ["L"]), "what the second client is told when the thief left")


@check(LIMIT)
def rows_of_a_cluster(lab):
    """Rows written at the server and through the relay are the same on both, and monitors of the relay are told the server's ids."""
    server, relay = behind_a_cluster(lab)
    with server.session() as near, relay.session() as far, relay.session() as watcher:
        watcher.ask("monitor_cond_since", "net", "m", {"Port": {}}, ZEROS)
        _, begun, _ = near.ask("monitor_cond_since", "net", "m", {"Port": {}}, ZEROS)
        for number in range(20):
            (near, far)[number % 2].transact("net", insert(name=f"p{number}", opts=["map", [["k", str(number)]]]))
        wanted = sorted(f"p{number}" for number in range(20))
        wait_until(lambda: names(far) == wanted, 15, "the relay shows all rows")
        equal(names(near), wanted, "the server's rows")
        # The server's answer names an id although it has no rows yet; the relay has a link of that, too.
        wanted = [begun] * (begun != ZEROS) + [near.notice()[1][1] for _ in range(20)]
        equal([watcher.notice()[1][1] for _ in wanted], wanted, "the ids that the relay tells")


def idl(lab, relay, *words):
    """A client of the Python library that Debian brings, which prints a line for each thing that it did or saw."""
    if not os.path.exists(DEBIAN_PYTHON) or subprocess.run([DEBIAN_PYTHON, "-c", "import ovs.db.idl"], stderr=subprocess.DEVNULL, check=False).returncode != 0:
        raise Skip("python3-openvswitch isn't installed")
    script = os.path.join(HERE, "idl_client.py")
    return lab.start([DEBIAN_PYTHON, script, f"tcp:127.0.0.1:{relay.port}", lab.schema(NET), *words], "idl", environment(lab))


@check(LIMIT)
def python_idl(lab):
    """The Python IDL reads what a relay has, is told of changes, and writes through it."""
    server, relay = behind_a_cluster(lab)
    with server.session() as writer:
        writer.transact("net", insert(name="first"))
        client = idl(lab, relay, "written")
        wait_for(client, "rows first\n")
        wait_for(client, "rows first written\n")
        writer.transact("net", {"op": "delete", "table": "Port", "where": [["name", "==", "first"]]})
        wait_for(client, "rows written\n")
        equal(names(writer), ["written"], "the server's rows")


@check(LIMIT)
def python_idl_sees_what_it_wrote(lab):
    """The Python IDL at the last of two relays has each row that it inserts once the commit is answered."""
    server, relay = chain_behind_a_cluster(lab, NET)
    written = [f"written-{number}" for number in range(OWN_WRITES)]
    with server.session() as writer:
        writer.transact("net", insert(name="first"))
        client = idl(lab, relay, *written)
        wait_for(client, f" {written[-1]} ", 40)
    told = [line.partition(" ")[2] for line in client.output().splitlines() if line.startswith("commit")]
    missing = [line for line, name in zip(told, written) if line != f"success {name} is there"]
    holds(not missing, f"{len(missing)} of {len(written)} rows weren't there when the commit was answered: {missing[:3]!r}")


@check(LIMIT)
def own_writes_behind_a_cluster(lab):
    """Behind a clustered server, too, a client is told of its own insert before the reply, and a select then shows it, at one relay and at two."""
    server, relay = behind_a_cluster(lab)
    counts = []
    for node in (server, relay, lab.relay([relay], name="second").with_source()):
        for kind in own_writes.KINDS:
            counts.append(own_writes.Count(f"{node.name}, {kind}"))
            own_writes.writes(own_writes.watching(node, kind), 5 * OWN_WRITES, counts[-1])
    own_writes.all_good(counts)


@check(LIMIT)
def python_idl_reconnects(lab):
    """The Python IDL, cut from a relay, connects again and has what was committed meanwhile."""
    server, relay = behind_a_cluster(lab)
    passage = lab.keep(Passage(relay.port))
    with server.session() as writer:
        writer.transact("net", insert(name="first"))
        client = idl(lab, passage)
        wait_for(client, "rows first\n")
        passage.shut()
        writer.transact("net", insert(name="second"))
        passage.open()
        wait_for(client, "rows first second\n", 40)
        writer.transact("net", insert(name="third"))
        wait_for(client, "rows first second third\n")


@check(LIMIT)
def ovs_vsctl(lab):
    """ovs-vsctl writes through the last of two relays of a clustered server with the schema of Open vSwitch, and reads from it."""
    schema = schema_file("vswitch")
    server, relay = chain_behind_a_cluster(lab, schema)
    base = ["ovs-vsctl", f"--db={at(relay)}", "--no-wait", "--timeout=15"]
    run(lab, *base, "init")
    run(lab, *base, "add-br", "br0", "--", "add-port", "br0", "p0", "tag=7", "--", "set", "interface", "p0", "type=internal")
    run(lab, *base, "set", "open", ".", "external_ids:a=b")
    with Session(relay.port) as session:
        bridges = {"op": "select", "table": "Bridge", "where": [], "columns": ["name"]}
        wait_until(lambda: session.transact(schema["name"], bridges) == [{"rows": [{"name": "br0"}]}], 10, "the relay shows the bridge")
    equal(run(lab, *base, "list-ports", "br0"), "p0\n", "list-ports")
    equal(run(lab, *base, "get", "port", "p0", "tag"), "7\n", "get")
    run(lab, *base, "del-br", "br0")
    wait_until(lambda: run(lab, *base, "list-br") == "", 10, "the relay shows no bridge")
    equal(run(lab, "ovs-vsctl", f"--db={at(server)}", "--no-wait", "get", "open", ".", "external_ids:a"), "b\n", "what the server has")


@check(LIMIT)
def ovn_nbctl(lab):
    """ovn-nbctl writes through a relay of a clustered server with OVN's northbound schema, and reads from it."""
    server, relay = behind_a_cluster(lab, schema_file("ovn-nb"))
    base = ["ovn-nbctl", f"--db={at(relay)}", "--no-leader-only", "--timeout=15"]
    run(lab, *base, "ls-add", "sw0", "--", "lsp-add", "sw0", "p0", "--", "lsp-set-addresses", "p0", "00:00:00:00:00:01 10.0.0.1")
    run(lab, *base, "acl-add", "sw0", "to-lport", "1000", "ip4", "drop")
    wait_until(lambda: "sw0" in run(lab, *base, "ls-list"), 10, "the relay shows the switch")
    holds("p0" in run(lab, *base, "lsp-list", "sw0"), "lsp-list")
    holds("10.0.0.1" in run(lab, "ovn-nbctl", f"--db={at(server)}", "lsp-get-addresses", "p0"), "what the server has")
    run(lab, *base, "ls-del", "sw0")
    wait_until(lambda: run(lab, *base, "ls-list") == "", 10, "the relay shows no switch")


@check(LIMIT)
def a_relay_of_ovsdb_server_behind_ours(lab):
    """An ovsdb-server in its relay mode follows a relay of ours: rows go up and come down through both."""
    server, relay = behind_a_cluster(lab)
    behind = Server(lab, f"relay:net:{at(relay)}")
    with server.session() as near:
        near.transact("net", insert(name="down"))
        wait_until(lambda: names_at(behind) == ["down"], 20, "the row comes down")
        with behind.session() as far:
            far.transact("net", insert(name="up"))
        wait_until(lambda: names(near) == ["down", "up"], 20, "the row goes up")
        wait_until(lambda: names_at(behind) == ["down", "up"], 20, "the row comes down again")


def names_at(node):
    """The names at a server that closes its sessions, or refuses to answer, until it has the database."""
    try:
        with Session(node.port) as session:
            return names(session)
    except (Closed, Refused):
        return None


@check(LIMIT)
def a_server_that_starts_again(lab):
    """A relay goes on when its clustered server has started again, over the same port."""
    server, relay = behind_a_cluster(lab)
    with relay.session() as session:
        session.transact("net", insert(name="before"))
        shows(session, "before")
        server.stop()
        server = Server(lab, server.database, server.port)
        equal(session.transact("net", insert(name="after"), seconds=30)[0]["uuid"][0], "uuid", "an insert after the server started again")
        wait_until(lambda: names(session) == ["after", "before"], 20, "the relay shows both rows")


def forgotten(lab, *more):
    """A relay that was cut from its server for more commits than the server remembers, and is let in again."""
    server = clustered(lab, NET)
    passage = lab.keep(Passage(server.port))
    relay = lab.relay([passage], *more)
    with relay.session() as session, server.session() as writer:
        writer.transact("net", insert(name="kept"))
        shows(session, "kept")
        passage.shut()
        for number in range(2 * REMEMBERED):
            writer.transact("net", {"op": "update", "table": "Port", "where": [], "row": {"name": f"p{number}"}})
        passage.open()
        return server, relay, session


@check(LIMIT)
def a_server_that_forgot(lab):
    """A relay whose server has forgotten its id goes on serving what it has: the whole copy that it is sent is refused."""
    _, relay, _ = forgotten(lab)
    with relay.session() as session:
        holds(session.is_quiet(4), "something came unasked")
        equal(names(session), ["kept"], "the relay's rows")
        holds(relay.child.is_running(), "the relay ended")


@check(LIMIT)
def a_server_that_forgot_with_the_option(lab):
    """With `--end-on-refusal` a relay whose server has forgotten its id ends with status 1, so that it can be started anew."""
    _, relay, _ = forgotten(lab, "--end-on-refusal")
    equal(relay.child.wait(END_SECONDS), 1, "the relay's status")
    holds(re.search(r"\nlinks (\d+) chain \1 parked 0\n$", relay.child.output()), f"the closing lines: {relay.child.output()!r}")


@check(LIMIT)
def a_server_that_is_in_no_cluster(lab):
    """A server that is in no cluster gives ids that don't hold: a relay of ours takes nothing of it that contradicts, and goes on serving."""
    server = alone(lab, NET)
    relay = lab.relay([server])
    with server.session() as writer, relay.session() as session:
        writer.transact("net", insert(name="p"))
        holds(session.is_quiet(2), "something came unasked")
        holds(names(session) in ([], ["p"]), f"the relay's rows: {names(session)!r}")
        equal(session.ask("echo", 1), [1], "an echo")


@check(LIMIT)
def ovn_controller(lab):
    """ovn-controller, without a datapath, registers its chassis in a southbound database through the last of two relays."""
    tool("ovn-controller")
    server, relay = chain_behind_a_cluster(lab, schema_file("ovn-sb"))
    with server.session() as writer:
        writer.transact("OVN_Southbound", {"op": "insert", "table": "SB_Global", "row": {}})
    local = alone(lab, schema_file("vswitch"))
    base = ["ovs-vsctl", f"--db={at(local)}", "--no-wait", "--timeout=15"]
    run(lab, *base, "init")
    settings = {"system-id": "chassis-1", "ovn-remote": at(relay), "ovn-encap-type": "geneve", "ovn-encap-ip": "127.0.0.1", "ovn-monitor-all": "true"}
    run(lab, *base, "set", "open", ".", *(f'external_ids:{name}="{value}"' for name, value in settings.items()))
    run(lab, *base, "add-br", "br-int")
    controller = lab.start([tool("ovn-controller"), at(local), "--no-chdir"], "ovn-controller", environment(lab))
    chassis = {"op": "select", "table": "Chassis", "where": [], "columns": ["name"]}
    with relay.session() as session:
        wait_until(lambda: session.transact("OVN_Southbound", chassis) == [{"rows": [{"name": "chassis-1"}]}], 30, f"a chassis; {controller.complaints()[-600:]}")
    holds(controller.is_running(), f"ovn-controller ended: {controller.told()}")
