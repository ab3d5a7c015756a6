"""How nodes end, and what they say while they run."""
import os
import re
from datetime import datetime, timedelta, timezone

from client import Closed
from data import FIRST_ID, NET, ZEROS, insert, nth, select
from harness import END_SECONDS, WORKERS, Node, check, equal, holds
from memory import Memory
from processes import TIMED, free_port, wait_until


# What a relay says, once and in any case, when none of its upstreams is tried any more.
UNFED = "ovs_relay: no upstream is tried any more\n"
# What a node says when the last of its workers has taken as many connections as it may.
TAKEN = "ovs_relay: no connection is taken any more: each worker has taken as many as it may\n"
# What it says where some of its threads were refused, before their number.
UNSTARTED = "ovs_relay: threads that could not be started: "
# The threads of a node in the order in which they are begun: the one that writes what the node says; of a source the one that publishes
# commits, and then its workers; of a relay its workers, and then one for each upstream.
PUBLISHING, FIRST_UPSTREAM = 2, WORKERS + 2
# What it says of lines for which there was no room, before their number.
DROPPED = "lines dropped, since nobody read or there was no memory:"
# So many that a node has more to say of them than a pipe holds, and than a node keeps.
MANY_SESSIONS = 2_000


def shows(session, name, seconds=15):
    """Waits until a node shows one row, with this name."""
    wait_until(lambda: [row["name"] for row in session.transact("net", select())[0]["rows"]] == [name], seconds, f"the node shows {name}")


def closing(head, links, chain, parked=0):
    return f"head {head}\nlinks {links} chain {chain} parked {parked}\n"


@check(240)
def accepts_end_a_source(lab):
    """A source whose workers have each accepted as many connections as they may ends with status 0 and the two closing lines."""
    source = lab.source("--accepts", "2")
    with source.session() as session:
        for number in range(3):
            session.transact("net", insert(name=f"p{number}"))
    equal(source.end(), (0, closing(nth(FIRST_ID, 3), 3, 3)), "the source's status and output")
    equal(source.child.complaints(), TAKEN, "the source's standard error")


@check(240)
def accepts_and_tries_end_a_relay(lab):
    """A relay ends with status 0 and the two closing lines once its workers have accepted all, and its upstream was tried often enough."""
    source = lab.source()
    relay = lab.relay([source], "--accepts", "1", "--tries", "1")
    with relay.session() as session:
        session.transact("net", insert(name="p"))
        shows(session, "p")
        source.stop()
    equal(relay.end(), (0, closing(FIRST_ID, 1, 1)), "the relay's status and output")
    equal(sorted(relay.child.complaints().splitlines(True)), [TAKEN, UNFED], "the lines of the relay's standard error")


@check(240)
def tries_used_up_are_told(lab):
    """A relay none of whose upstreams is tried any more says so once, and goes on serving what it has."""
    source = lab.source()
    relay = lab.relay([source, free_port()], "--tries", "2")
    with relay.session() as session:
        session.transact("net", insert(name="p"))
        shows(session, "p")
        source.stop()
        wait_until(lambda: relay.child.complaints() == UNFED, 15, "the relay says that no upstream is tried any more")
        holds(session.is_quiet(1), "something came unasked")
        shows(session, "p")
    equal(relay.child.complaints(), UNFED, "the relay's standard error")


@check(240)
def tries_used_up_end_a_relay_with_the_option(lab):
    """With `--end-on-refusal` such a relay ends with status 3 and the two closing lines, also while a session lasts."""
    source = lab.source()
    relay = lab.relay([source, free_port()], "--tries", "2", "--end-on-refusal")
    with relay.session() as session:
        session.transact("net", insert(name="p"))
        shows(session, "p")
        source.stop()
        holds(session.is_closed(15), "the session isn't closed")
    equal((relay.child.wait(END_SECONDS), relay.child.output()), (3, closing(FIRST_ID, 1, 1)), "the relay's status and output")
    equal(relay.child.complaints(), UNFED, "the relay's standard error")


def is_served(node):
    """Whether one who comes is answered within a second."""
    try:
        with node.session(1) as session:
            session.ask("echo", 1)
    except (Closed, OSError):
        return False
    return True


@check(240)
def sessions_outlive_the_last_accept(lab):
    """A node whose workers accept no more serves the sessions that it has, and ends when the last of them has left."""
    source = lab.source("--accepts", "1")
    kept = [source.session() for _ in range(WORKERS)]
    for session in kept:
        session.ask("echo", 1)
    wait_until(lambda: source.child.complaints() == TAKEN, 15, "the source says that it takes no more")
    holds(not is_served(source), "a session more is served")
    equal(kept[0].transact("net", insert(name="p"))[0]["uuid"][0], "uuid", "the first session's insert")
    holds(source.child.is_running(), "the source ended while it had sessions")
    for session in kept:
        session.close()
    equal((source.child.wait(END_SECONDS), source.child.output()), (0, closing(FIRST_ID, 1, 1)), "the source's status and output")
    equal(source.child.complaints(), TAKEN, "the source's standard error")


@check(240)
def a_relay_without_an_upstream_ends(lab):
    """Tries are counted where nothing listens, too: the relay ends with nothing in it."""
    port = free_port()
    relay = Node(lab, lab.relay_words(port, [free_port()], "--accepts", "1", "--tries", "3"), "relay", port).serving()
    equal(relay.end(), (0, closing(ZEROS, 0, 0)), "the relay's status and output")


def told_by_a_source(lab, *more):
    source = lab.source("--accepts", "1", *more)
    with source.session() as session:
        session.transact("net", insert(name="p"))
    return source


def told_by_a_relay(lab, *more):
    source = lab.source()
    relay = lab.relay([source], "--accepts", "1", "--tries", "1", *more)
    with relay.session() as session:
        session.transact("net", insert(name="p"))
        shows(session, "p")
        source.stop()
    return relay


@check(240)
def verbose_tells_more(lab):
    """With `--verbose` a node tells of its sessions and upstreams, without it the closing lines, and that it takes or tries no more."""
    last = closing(FIRST_ID, 1, 1)
    for told_by, always in ((told_by_a_source, [TAKEN]), (told_by_a_relay, [TAKEN, UNFED])):
        for more in ((), ("--verbose",)):
            node = told_by(lab, *more)
            status, out = node.end()
            holds(status == 0 and out.endswith(last), f"the {node.name} {more}: {node.child.told()}")
            told = (out[: -len(last)] + node.child.complaints()).splitlines(True)
            equal(sorted(line for line in told if line in always), always, f"what the {node.name} tells in any case {more}")
            lines = [line for line in told if line not in always]
            holds(bool(lines) == bool(more), f"what the {node.name} tells beside the closing lines {more}: {lines[:5]!r}")
            holds(all(re.search(r"\w", line) for line in lines), f"an empty line of the {node.name} {more}: {lines[:5]!r}")


@check(240)
def lines_bear_the_time(lab):
    """Each line that a node says while it runs begins with the time at which it was said, in UTC and to the millisecond."""
    begun = datetime.now(timezone.utc)
    source = lab.source("--verbose")
    with source.session() as session:
        session.ask("echo", 1)
    wait_until(lambda: source.child.complaints().count("\n") >= 2, 15, "the source says that a session was opened and has ended")
    lines = source.child.read(1).splitlines()
    times = [datetime.fromisoformat(TIMED.match(line)[2][:-1] + "+00:00") for line in lines]
    holds(times == sorted(times), f"the times don't ascend: {lines[:5]!r}")
    holds(begun - timedelta(milliseconds=1) <= times[0] and times[-1] <= datetime.now(timezone.utc), f"another time than now: {lines[:5]!r}")


@check(240)
def workers_that_are_refused(lab):
    """A node of which all workers but one are refused a thread says how many there are not, and the one serves all."""
    refused = Memory(lab)
    refused.refuse_threads(PUBLISHING + 2, PUBLISHING + WORKERS)
    source = lab.source(environment=refused.environment)
    sessions = [lab.keep(source.session()) for _ in range(2 * WORKERS)]
    for number, session in enumerate(sessions):
        equal(session.ask("echo", number), [number], f"an echo in session {number}")
    sessions[0].transact("net", insert(name="p"))
    equal([row["name"] for row in sessions[1].transact("net", select())[0]["rows"]], ["p"], "the row that was inserted")
    wait_until(lambda: source.child.complaints() == f"{UNSTARTED}{WORKERS - 1}\n", 15, "the source says how many workers there are not")


@check(240)
def an_upstream_that_is_refused(lab):
    """A relay whose only upstream is refused a thread says so, and that none is tried any more, and serves what it has."""
    source, refused = lab.source(), Memory(lab)
    refused.refuse_threads(FIRST_UPSTREAM)
    relay = lab.relay([source], environment=refused.environment)
    with relay.session() as session:
        equal(session.transact("net", select()), [{"rows": []}], "the relay's rows")
        wait_until(lambda: sorted(relay.child.complaints().splitlines(True)) == [UNFED, f"{UNSTARTED}1\n"], 15, "the relay says both")


@check(240)
def a_source_that_cannot_publish(lab):
    """A source whose publishing is refused a thread says so and ends, with status 3."""
    refused = Memory(lab)
    refused.refuse_threads(PUBLISHING)
    port = free_port()
    source = Node(lab, lab.source_words(port), "source", port, refused.environment)
    equal((source.child.wait(END_SECONDS), source.child.output()), (3, ""), "the source's status and output")
    told = ["ovs_relay: out of memory\n", "ovs_relay: there is no thread to publish commits\n", f"{UNSTARTED}1\n"]
    equal(sorted(source.child.complaints().splitlines(True)), told, "the lines of the source's standard error")


class Unread:
    """A pipe for the standard error of a node, of which nothing is read but by `lines`."""

    def __init__(self):
        self.near, self.far = os.pipe()
        os.set_blocking(self.near, False)
        self.told = b""

    def lines(self):
        """The whole lines that were said so far: one may stand in the pipe in part."""
        try:
            while piece := os.read(self.near, 1 << 16):
                self.told += piece
        except BlockingIOError:
            pass
        return self.told[: self.told.rfind(b"\n") + 1].decode().splitlines()

    def close(self):
        os.close(self.near)
        os.close(self.far)


def visited(node, times):
    for number in range(times):
        with node.session() as session:
            equal(session.ask("echo", number), [number], f"an echo in session {number}")


@check(240)
def standard_error_that_nobody_reads(lab):
    """Where nobody reads what a node says, lines are dropped and counted, nobody waits for it, and the count is told once somebody reads."""
    unread = lab.keep(Unread())
    source = lab.source("--verbose", errors=unread.far)
    visited(source, MANY_SESSIONS)

    def counted():
        lines = unread.lines()
        dropped = [int(line.rpartition(" ")[2]) for line in lines if DROPPED in line]
        return (len(lines) - len(dropped), sum(dropped)) if len(lines) - len(dropped) + sum(dropped) == 2 * MANY_SESSIONS else None

    told, dropped = wait_until(counted, 15, "each session's two lines are told or counted")
    holds(told > 0 and dropped > 0, f"{told} lines are told, and {dropped} were dropped")


@check(240)
def an_end_that_nobody_reads(lab):
    """A node whose standard error nobody reads ends as others do."""
    unread = lab.keep(Unread())
    source = lab.source("--verbose", "--accepts", str(MANY_SESSIONS // WORKERS), errors=unread.far)
    visited(source, MANY_SESSIONS // WORKERS * WORKERS)
    equal((source.child.wait(END_SECONDS), source.child.output()), (0, closing(ZEROS, 0, 0)), "the source's status and output")


@check(240)
def another_schema_upstream(lab):
    """A relay takes nothing from an upstream of another schema, and goes on serving."""
    other = {**NET, "tables": {"Port": {"columns": {"name": {"type": "string"}}}}}
    source = lab.source()
    relay = lab.relay([source], schema=other)
    with source.session() as writer, relay.session() as reader:
        writer.transact("net", insert(name="p"))
        holds(reader.is_quiet(1), "something came unasked")
        equal(reader.ask("get_schema", "net"), other, "the relay's schema")
        equal(reader.transact("net", select()), [{"rows": []}], "the relay's rows")
