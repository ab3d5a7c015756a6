"""Thousands of sessions, slow ones among them, and what they cost."""
import time

from client import Closed, hear_all
from data import FIRST_ID, NET, ZEROS, insert, nth
from harness import check, equal, holds
from mirror import Mirror
from processes import wait_until

SESSIONS = 1_000
COMMITS = 20
IDLE_SECONDS = 5
MOST_TICKS = 2
# A client that reads nothing may leave its part of the notifications in the relay's memory, but not all that is told it.
MOST_GROWTH = 60_000
BIG = 20_000
BIG_COMMITS = 400
SMALL_BUFFER = 65_536


def crowd(node, number):
    return [node.session(60) for _ in range(number)]


def monitor_all(sessions):
    """Begins a monitor on each session, all at once."""
    numbers = [session.request("monitor_cond_since", "net", "m", {"Port": {"columns": ["name"]}}, ZEROS) for session in sessions]
    left = hear_all(sessions, lambda session: len(session.replies) == 1, 60)
    holds(not left, f"{len(left)} of {len(sessions)} monitors weren't answered")
    for session, number in zip(sessions, numbers):
        session.reply(number)


@check(300)
def a_thousand_sessions(lab):
    """A thousand sessions on one relay, each with a monitor, are each told each of twenty commits, in order."""
    _, relay = lab.tier()
    sessions = crowd(relay, SESSIONS)
    monitor_all(sessions)
    with relay.session() as writer:
        for number in range(COMMITS):
            writer.transact("net", insert(name=f"p{number}"))
    left = hear_all(sessions, lambda session: len(session.notices) >= COMMITS, 60)
    holds(not left, f"{len(left)} of {SESSIONS} sessions weren't told all")
    ids = [nth(FIRST_ID, number) for number in range(1, COMMITS + 1)]
    for session in sessions:
        equal([params[1] for _, params in session.notices], ids, "what a session is told")
    for session in sessions[::2]:
        session.close()
    with relay.session() as writer:
        writer.transact("net", insert(name="after"))
    left = hear_all(sessions[1::2], lambda session: len(session.notices) > COMMITS, 60)
    holds(not left, f"{len(left)} of the sessions that stayed weren't told of a commit after half of them left")


@check(300)
def idle_sessions_cost_nothing(lab):
    """A relay with a thousand idle sessions, each with a monitor, takes no processor time."""
    source, relay = lab.tier()
    monitor_all(crowd(relay, SESSIONS))
    time.sleep(1)
    for node in (relay, source):
        before = node.child.ticks()
        time.sleep(IDLE_SECONDS)
        spent = node.child.ticks() - before
        holds(spent < MOST_TICKS, f"the {node.name} takes {spent} ticks in {IDLE_SECONDS} seconds")


@check(300)
def a_client_that_never_reads(lab):
    """Beside a client that never reads what its monitors are told another is told all, and memory doesn't grow with what is told."""
    _, relay = lab.tier()
    writer = relay.session()
    row = writer.transact("net", insert(name="p"))[0]["uuid"]
    reader = Mirror(relay.session(), NET, "Port", "monitor_cond", "m", {"columns": ["name"]})
    # Another session's reply to its insert may come before the commit is told here.
    if not reader.rows:
        reader.take(20)
    change(writer, row, 0)
    reader.take(20)
    for _ in range(4):
        lazy = relay.session(buffer=SMALL_BUFFER)
        for number in range(25):
            lazy.request("monitor_cond", "net", number, {"Port": {"columns": ["name"]}})
    grown = measured_growth(relay, writer, row, reader)
    told = BIG * BIG_COMMITS * 100 // 1_024
    holds(grown < MOST_GROWTH + kept_by_steps(), f"the relay grew by {grown:,} kilobytes while {told:,} were to be told")


def change(writer, row, number):
    operation = {"op": "update", "table": "Port", "where": [["_uuid", "==", row]], "row": {"name": f"{number:08}" + "x" * BIG}}
    equal(writer.transact("net", operation), [{"count": 1}], "an update")


def kept_by_steps():
    """What a node keeps for good of so many commits: a row for each, and the link."""
    return 3 * BIG * BIG_COMMITS // 1_024


def measured_growth(relay, writer, row, reader):
    """The kilobytes by which the relay grows in the commits, of which the reader has to be told each within a second or two."""
    before = relay.child.kilobytes()
    for number in range(1, BIG_COMMITS + 1):
        change(writer, row, number)
        reader.take(20)
    ((shown,),) = [row["name"] for row in reader.rows.values()]
    equal(shown[:8], f"{BIG_COMMITS:08}", "the last update that the reader was told")
    return relay.child.kilobytes() - before


@check(300)
def out_of_file_handles(lab):
    """A node that has no file handles left goes on with the sessions that it has, and takes connections again once some are closed."""
    for node in lab.tier():
        first = node.session()
        first.ask("echo", 1)
        node.child.limit_files(node.child.open_files() + 20)
        sessions = crowd(node, 60)
        for session in sessions:
            session.request("echo", 2)
        left = hear_some(sessions, 3)
        holds(0 < len(left) < 60, f"{len(left)} of 60 sessions weren't answered under the limit of the {node.name}")
        equal(first.ask("echo", 3), [3], f"the {node.name}'s first session under the limit")
        for session in sessions:
            session.close()
        with node.session() as session:
            equal(session.ask("echo", 4, seconds=20), [4], f"a session of the {node.name} after that")
        equal(first.ask("echo", 5), [5], f"the {node.name}'s first session after that")


def hear_some(sessions, seconds):
    """The sessions that weren't answered within the time; a connection that was closed counts among them."""
    left = []
    until = time.monotonic() + seconds
    for session in sessions:
        try:
            session.hear(max(0.01, until - time.monotonic()))
        except (TimeoutError, Closed):
            left.append(session)
    return left


@check(300)
def sessions_that_come_and_go(lab):
    """After three thousand sessions that came, asked and left, cut or closed, a relay has no more files open than before."""
    _, relay = lab.tier()
    with relay.session() as stays:
        stays.ask("echo", 1)
        before = relay.child.open_files()
        for number in range(60):
            sessions = crowd(relay, 50)
            for session in sessions:
                session.request("monitor_cond", "net", 1, {"Port": {}})
            for session in sessions:
                session.reset() if number % 2 else session.close()
        wait_until(lambda: relay.child.open_files() <= before, 20, "the relay closes the connections of those who left")
        equal(stays.ask("echo", 2), [2], "the session that stayed")
