"""A client is told of its own commit before the reply, and a select that it sends after the reply shows the row (ovsdb-server(7) 4.1.6)."""
import json

from data import NET, insert, select
from harness import check, equal, holds
from processes import wait_until
from upstream import Upstream, unknown
from upstreams import commit_id, tell

INSERTS = 1_000
AT_ONCE = 100
SESSIONS = 8
ROUNDS = 40
KINDS = ("monitor_cond_since", "monitor_cond", "monitor")
# An id that no commit has: a monitor that asks for what comes after it is told everything, commit by commit.
NOWHERE = "ffffffff-ffff-4fff-8fff-ffffffffffff"


def watching(node, kind, **request):
    """A session with one monitor of this kind, which shows all rows where nothing else is asked for."""
    session = node.session()
    since = [NOWHERE] if kind == "monitor_cond_since" else []
    session.ask(kind, "net", "m", {"Port": {"columns": ["name"], **request}}, *since)
    return session


def told_rows(session):
    """The rows of which the session was told as inserted, so far; what it was told is taken off."""
    rows = set()
    while session.notices:
        _, params = session.notices.pop(0)
        rows.update(row for row, change in params[-1].get("Port", {}).items() if "insert" in change or "old" not in change and "new" in change)
    return rows


def inserted(result):
    ((_, row),) = [one["uuid"] for one in result]
    return row


def shows(session, row):
    """Whether a select that is sent now shows the row."""
    return bool(session.transact("net", select([["_uuid", "==", ["uuid", row]]], columns=["name"]))[0]["rows"])


class Count:
    """How many replies to writes there were, how many of them came before their update, and how many selects after them didn't show the row."""

    def __init__(self, what):
        self.what = what
        self.replies = self.early = self.blind = 0

    def add(self, was_told, is_shown):
        self.replies += 1
        self.early += not was_told
        self.blind += not is_shown

    def told(self):
        return f"{self.what} {self.early:,} and {self.blind:,} of {self.replies:,}"


def all_good(counts):
    """Where anything is off, what was counted everywhere is told."""
    told = ", ".join(count.told() for count in counts)
    holds(not any(count.early or count.blind for count in counts), f"replies before their update, and selects after them without the row: {told}")


def writes(session, inserts, count):
    """Inserts one after another, each with a select after its reply. Whatever was told until the reply counts as before it."""
    for number in range(inserts):
        row = inserted(session.transact("net", insert(name=f"p{number}")))
        count.add(row in told_rows(session), shows(session, row))


def nodes_of(lab):
    """A source, a relay behind it, and a relay behind that."""
    source, relay = lab.tier()
    return source, relay, lab.relay([relay], name="second").with_source()


@check(240)
def updates_before_replies(lab):
    """A thousand inserts at a source, at a relay and at a second one behind it: each is told before its reply, and a select then shows it."""
    counts = []
    for node in nodes_of(lab):
        for kind, inserts in zip(KINDS, (INSERTS, INSERTS, INSERTS // 4)):
            counts.append(Count(f"{node.name}, {kind}"))
            writes(watching(node, kind), inserts, counts[-1])
    all_good(counts)


@check(240)
def updates_before_replies_of_many(lab):
    """Eight sessions that write at once, at a source and at a relay, are each told of their own row before the reply."""
    counts = []
    for node in lab.tier():
        counts.append(Count(node.name))
        sessions = [watching(node, KINDS[place % len(KINDS)]) for place in range(SESSIONS)]
        for number in range(ROUNDS):
            asked = [session.request("transact", "net", insert(name=f"p{number}")) for session in sessions]
            for session, one in zip(sessions, asked):
                row = inserted(session.reply(one))
                counts[-1].add(row in told_rows(session), shows(session, row))
    all_good(counts)


@check(240)
def updates_before_replies_of_a_piece(lab):
    """A hundred inserts that are sent at once, at a source and at a relay, are answered in order, each behind its own update."""
    counts = []
    for node in lab.tier():
        counts.append(Count(node.name))
        session, rows = watching(node, "monitor_cond_since"), set()
        asked = [session.request("transact", "net", insert(name=f"p{number}")) for number in range(AT_ONCE)]
        for one in asked:
            row = inserted(session.reply(one))
            rows |= told_rows(session)
            counts[-1].add(row in rows, True)
    all_good(counts)


@check(240)
def replies_without_an_update(lab):
    """What shows a client nothing is answered as well: writes of a session without a monitor or with another filter, and such as change nothing."""
    for node in lab.tier():
        alone, filtered = node.session(), watching(node, "monitor_cond", where=[["name", "==", "none"]])
        for number in range(AT_ONCE):
            for session in (alone, filtered):
                row = inserted(session.transact("net", insert(name=f"p{number}")))
                holds(shows(session, row), f"{node.name}: a select after the reply doesn't show row {number}")
        for session in (alone, filtered):
            nothing = {"op": "update", "table": "Port", "where": [["name", "==", "none"]], "row": {"name": "p"}}
            equal(session.transact("net", nothing), [{"count": 0}], f"{node.name}: an update of no row")
            equal(session.transact("net", insert(name=1)), [{"error": "bad value"}], f"{node.name}: an insert that is refused")
            equal(session.transact("net", insert(name="p"), {"op": "abort"})[1], {"error": "aborted"}, f"{node.name}: an insert that is taken back")
        equal(filtered.notices, [], f"{node.name}: what the filtered monitor is told")


def row_of(number):
    return f"00000000-0000-4000-8000-{number:012x}"


def commits(connection, asked, number):
    """Tells a commit of one row, and answers an insert by it, in one piece."""
    update = {"Port": {row_of(number): {"insert": {"name": f"p{number}"}}}}
    told = {"id": None, "method": "update3", "params": [connection.name, commit_id(number), update]}
    reply = {"id": asked["id"], "result": [{"uuid": ["uuid", row_of(number)]}], "error": None}
    connection.send_bytes((json.dumps(told) + json.dumps(reply)).encode())


@check(240)
def replies_in_one_piece_with_their_commits(lab):
    """Where the upstream's update and its reply come in one piece, the relay's client is told the one before the other."""

    def answers(connection):
        connection.begin(unknown)
        for number in range(1, ROUNDS + 1):
            commits(connection, connection.receive(), number)
        connection.wait_closed()

    upstream = lab.keep(Upstream(NET, answers))
    relay = lab.relay([upstream])
    count = Count("relay")
    writes(watching(relay, "monitor_cond_since"), ROUNDS, count)
    all_good([count])
    equal(upstream.faults, [], "the stand-in's faults")


@check(240)
def replies_where_a_commit_is_refused(lab):
    """Where a relay refused what its upstream says of the chain, its clients' writes are answered all the same, and in order."""

    def first(connection):
        connection.begin(unknown)
        tell(connection, [1])
        commits(connection, connection.receive(), 2)

    def other(connection):
        # A copy at an id of its own, which contradicts what the relay holds.
        connection.begin(lambda asked: [False, commit_id(9), {"Port": {row_of(9): {"initial": {"name": "p9"}}}}])
        for number in range(10, 10 + ROUNDS):
            commits(connection, connection.receive(), number)
        connection.wait_closed()

    upstream = lab.keep(Upstream(NET, first, other))
    relay = lab.relay([upstream])
    session = relay.session()
    equal(inserted(session.transact("net", insert(name="p"))), row_of(2), "the insert before")
    wait_until(lambda: len(upstream.asked) == 2, 20, "the relay connects again")
    for number in range(10, 10 + ROUNDS):
        equal(inserted(session.transact("net", insert(name="p"))), row_of(number), "an insert after a commit was refused")
    holds(not shows(session, row_of(10)), "the relay shows a row of the chain that it refused")
    equal(upstream.faults, [], "the stand-in's faults")
