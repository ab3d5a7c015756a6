"""`--resync`: a relay whose upstream has forgotten the id that it asks goes on by the difference, and none of its clients is closed."""
from data import NET, ZEROS, insert, select
from debian import clustered, tool
from ends import closing, shows
from harness import END_SECONDS, check, equal, holds
from mirror import Mirror, selected
from processes import wait_until
from upstream import Passage, Upstream, unknown
from upstreams import ROW, commit_id, sound, tell

LIMIT = 240
COLUMNS = {"columns": ["name", "tags", "up"]}
OTHER = "22222222-2222-4222-8222-222222222222"
THIRD = "33333333-3333-4333-8333-333333333333"
# More than a clustered ovsdb-server remembers, and rows beside those that change.
FORGOTTEN, STEADY = 151, 30


def monitored(session, name="m"):
    """A copy of the ports that a client keeps by its monitor alone."""
    return Mirror(session, NET, "Port", "monitor_cond_since", name, COLUMNS, ZEROS)


def breaks_off(last):
    """The script of an upstream that tells the commits up to this one, the second row with the second, and breaks off once it is told to go on."""

    def script(connection):
        connection.begin(unknown)
        connection.update3(commit_id(1), {"Port": {ROW: {"insert": {"name": "p1", "tags": 7}}, OTHER: {"insert": {"name": "gone"}}}})
        tell(connection, range(2, last + 1))
        connection.receive()

    return script


def copy_at(number, rows):
    """The script of an upstream that answers with a whole copy at this commit, and goes on from there."""

    def script(connection):
        connection.begin(lambda asked: [False, commit_id(number), {"Port": {row: {"initial": data} for row, data in rows.items()}}])
        tell(connection, [number + 1])
        connection.wait_closed()

    return script


def break_first(upstream):
    """Breaks the first connection off."""
    upstream.connections[0].socket.shutdown(2)


def has_head(mirror, commit):
    return mirror.head == commit


@check(LIMIT)
def a_whole_copy_is_told_as_the_difference(lab):
    """A whole copy at another id is one update of what differs, with that id, for clients with each kind of monitor at the relay and at one below it; none is closed, and both relays go on from there."""
    rows = {ROW: {"name": "p3", "tags": ["set", [7, 9]]}, THIRD: {"name": "new", "up": True}}
    upstream = lab.keep(Upstream(NET, breaks_off(3), copy_at(9, rows)))
    relay = lab.relay([upstream], "--resync", "--end-on-refusal")
    below = lab.relay([relay], "--end-on-refusal", name="below")
    with relay.session() as near, below.session() as far, relay.session() as plain:
        wait_until(lambda: "p3" in [row["name"] for row in far.transact("net", select())[0]["rows"]], 15, "the relay below shows p3")
        mirrors = [monitored(near), monitored(far)]
        for mirror in mirrors:
            mirror.follow(lambda it: has_head(it, commit_id(3)), 15)
        plain_mirror = Mirror(plain, NET, "Port", "monitor", "plain", COLUMNS)
        break_first(upstream)
        wanted = {ROW: {"modify": {"tags": 9}}, OTHER: {"delete": None}, THIRD: {"insert": {"name": "new", "up": True}}}
        for session in (near, far):
            method, params = session.notice()
            equal((method, params[1]), ("update3", commit_id(9)), "the notification, and its id")
            equal(params[2]["Port"], wanted, "what differs")
            equal(session.notice()[1][1], commit_id(10), "the commit after it")
        plain_mirror.take()
        plain_mirror.take()
        equal(sorted(plain_mirror.rows), sorted([ROW, THIRD]), "the rows that a client with `monitor` keeps")
        for session in (near, far, plain):
            equal(sorted(row["name"] for row in session.transact("net", select())[0]["rows"]), ["new", "p10"], "the rows that are shown")
        again = monitored(near, "again")
        again.follow(lambda it: has_head(it, commit_id(10)), 15)
        equal(again.commits, [commit_id(number) for number in (1, 2, 3, 9, 10)], "the ids on the relay's chain")
        # The rows that the copy changed have its id as their version, and the others keep theirs.
        versions = {row["name"]: row["_version"][1] for row in near.transact("net", select(columns=["name", "_version"]))[0]["rows"]}
        equal(versions, {"new": commit_id(9), "p10": commit_id(10)}, "the versions")
    equal(upstream.asked, [ZEROS, commit_id(3)], "the ids that were asked for")
    holds(relay.child.is_running() and below.child.is_running(), "a relay ended")
    sound(upstream)


@check(LIMIT)
def an_empty_copy(lab):
    """A whole copy without rows deletes all, and a relay that has nothing yet takes a whole copy as ever. `--verbose` tells the first."""
    upstream = lab.keep(Upstream(NET, breaks_off(1), copy_at(5, {})))
    relay = lab.relay([upstream], "--resync", "--verbose")
    with relay.session() as session:
        mirror = monitored(session)
        mirror.follow(lambda it: has_head(it, commit_id(1)), 15)
        break_first(upstream)
        mirror.take()
        equal((mirror.head, mirror.rows), (commit_id(5), {}), "what is told of an empty copy")
    line = f"upstream 127.0.0.1:{upstream.port} told a whole copy at {commit_id(5)}: 2 rows differ\n"
    wait_until(lambda: line in relay.child.complaints(), 15, "`--verbose` tells of the copy")
    # The commit after it modifies a row that isn't there, so that it is never shown.
    fresh = lab.keep(Upstream(NET, copy_at(4, {ROW: {"name": "p4"}})))
    second = lab.relay([fresh], "--resync", "--verbose")
    with second.session() as session:
        shows(session, "p5")
        told = monitored(session)
        told.follow(lambda it: has_head(it, commit_id(5)), 15)
        equal(told.commits, [commit_id(4), commit_id(5)], "the links of a relay that began with a copy")
    holds("whole copy" not in second.child.complaints(), f"what is told of a first copy: {second.child.complaints()!r}")
    sound(fresh)


@check(LIMIT)
def a_copy_at_the_same_id(lab):
    """A whole copy at the id that was asked makes no link where it has the same rows; with other rows it is refused, and the relay goes on with what it has."""
    same = {ROW: {"name": "p1", "tags": 7}, OTHER: {"name": "gone"}}
    upstream = lab.keep(Upstream(NET, breaks_off(1), copy_at(1, {ROW: {"name": "other"}}), copy_at(1, same)))
    relay = lab.relay([upstream], "--resync", "--end-on-refusal", "--verbose")
    with relay.session() as session:
        mirror = monitored(session)
        mirror.follow(lambda it: has_head(it, commit_id(1)), 15)
        break_first(upstream)
        mirror.take(30)
        equal(mirror.commits, [commit_id(1), commit_id(2)], "the links")
    equal(upstream.asked, [ZEROS, commit_id(1), commit_id(1)], "the ids that were asked for")
    wait_until(lambda: "is refused: updates to a start id, or to the id before them" in relay.child.complaints(), 15, "the other rows are told as refused")
    sound(upstream)


@check(LIMIT)
def a_copy_at_an_older_id(lab):
    """A whole copy at an id that the relay has passed contradicts its chain, and is refused by name; with `--end-on-refusal` the relay ends with status 1."""
    upstream = lab.keep(Upstream(NET, breaks_off(3), copy_at(2, {ROW: {"name": "p2"}})))
    relay = lab.relay([upstream], "--resync", "--end-on-refusal")
    with relay.session() as session:
        mirror = monitored(session)
        mirror.follow(lambda it: has_head(it, commit_id(3)), 15)
    break_first(upstream)
    equal(relay.child.wait(END_SECONDS), 1, "the relay's status")
    equal(relay.child.output(), closing(commit_id(3), 3, 3), "the closing lines")
    holds(f"link {commit_id(3)} {commit_id(2)} refused fork" in relay.child.complaints(), f"the refusal: {relay.child.complaints()!r}")


@check(LIMIT)
def without_the_option(lab):
    """Without the option a whole copy is a link from the beginning, and is refused."""
    upstream = lab.keep(Upstream(NET, breaks_off(3), copy_at(9, {ROW: {"name": "p9"}})))
    relay = lab.relay([upstream], "--end-on-refusal")
    with relay.session() as session:
        monitored(session).follow(lambda it: has_head(it, commit_id(3)), 15)
    break_first(upstream)
    equal(relay.child.wait(END_SECONDS), 1, "the relay's status")
    holds(f"link {ZEROS} {commit_id(9)} refused fork" in relay.child.complaints(), f"the refusal: {relay.child.complaints()!r}")


@check(LIMIT)
def a_server_that_forgot(lab):
    """Behind a clustered ovsdb-server that was given more commits than it remembers while a relay was cut off, clients of the relay and of one below it are told one difference, stay connected, and have what the server has."""
    tool("ovsdb-tool")
    server = clustered(lab, NET)
    passage = lab.keep(Passage(server.port))
    relay = lab.relay([passage], "--resync", "--end-on-refusal")
    below = lab.relay([relay], "--end-on-refusal", name="below")
    with server.session() as writer, relay.session() as near, below.session() as far:
        writer.transact("net", *(insert(name=f"s{number}", tags=["set", list(range(number % 7))]) for number in range(STEADY)))
        writer.transact("net", insert(name="changes"), insert(name="goes"))
        mirrors = [monitored(near), monitored(far)]
        for mirror in mirrors:
            mirror.follow(lambda it: len(it.rows) == STEADY + 2, 30)
        before = [len(mirror.commits) for mirror in mirrors]
        passage.shut()
        for number in range(FORGOTTEN):
            writer.transact("net", {"op": "update", "table": "Port", "where": [["name", "==", "changes"]], "row": {"tags": number}})
        writer.transact("net", {"op": "delete", "table": "Port", "where": [["name", "==", "goes"]]}, insert(name="comes"))
        passage.open()
        for session, mirror, old in zip((near, far), mirrors, before):
            method, params = session.notice(60)
            equal(method, "update3", "the notification")
            equal(len(params[2]["Port"]), 3, f"rows that differ: {params[2]!r}")
            mirror.head, mirror.commits = params[1], mirror.commits + [params[1]]
            mirror.update(params[2])
            equal(len(mirror.commits) - old, 1, "notifications since the way was cut")
            equal(mirror.rows, selected(writer, "net", "Port", columns=COLUMNS["columns"]), "the copy that a client keeps, and what the server has")
        # Both go on, and their ids are the server's.
        writer.transact("net", insert(name="later"))
        for mirror in mirrors:
            mirror.follow(lambda it: any(row["name"] == ("later",) for row in it.rows.values()), 30)
        server_copy = Mirror(writer, NET, "Port", "monitor_cond_since", "its", COLUMNS, ZEROS)
        equal({mirror.head for mirror in mirrors}, {server_copy.head}, "the ids at the end")
        # What only the source can answer still is.
        holds("uuid" in far.transact("net", insert(name="through both"))[0], "the answer of the source")
    equal(relay.child.complaints() + below.child.complaints(), "", "standard error of the relays")


@check(60)
def several_upstreams(lab):
    """Status 2 and one line where a relay with the option has several upstreams."""
    schema = lab.schema()
    words = ["relay", "--schema", schema, "--listen", "127.0.0.1:6640", "--upstream", "127.0.0.1:6641", "--upstream", "127.0.0.1:6642", "--resync"]
    status, out, errors = lab.run(*words)
    equal((status, out), (2, ""), "status and output")
    equal(errors, "ovs_relay: '--resync' goes with one '--upstream <ADDR>' alone\n", "standard error")
