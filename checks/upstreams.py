"""How a relay follows its upstreams: late ones, silent ones, those that break off, and those that contradict."""
import json
import os
import time

from data import FIRST_ID, NET, ZEROS, insert, nth, select
from desk import source_is_lost
from ends import closing, shows
from harness import END_SECONDS, Node, check, equal, holds
from processes import free_port, wait_until
from upstream import Upstream, known, unknown

ROW = "11111111-1111-4111-8111-111111111111"
OTHER_ID = "bbbbbbbb-bbbb-4bbb-8bbb-bbbbbbbbbbbb"
LONGEST_PAUSE = 1.0
SLACK = 0.6
# How often a relay comes again behind a refused link, and what each time may take of a processor, in seconds.
RECONNECTS = 20
PROCESSOR_A_RECONNECT = 0.010
TICKS_A_SECOND = os.sysconf("SC_CLK_TCK")
# So many pauses, of 10 ms and then twice as long each time, come to the longest.
PAUSES = 8
# For so many seconds clients ask at a relay whose upstream is lost.
ASKED_FOR = 4
# How often an upstream breaks off behind a link.
MANY_BREAKS = 12
LONGEST_MESSAGE = 16_777_216


def commit_id(number):
    return nth(FIRST_ID, number)


def change(number):
    """The change of commit `number`: the first inserts the row, and the others rename it."""
    return {"Port": {ROW: {"insert" if number == 1 else "modify": {"name": f"p{number}"}}}}


def tell(connection, numbers):
    for number in numbers:
        connection.update3(commit_id(number), change(number))


def tells(first, last):
    """The script of an upstream that tells these commits behind what is asked for, and then stays."""

    def script(connection):
        connection.begin(unknown if first == 1 else known)
        tell(connection, range(first, last + 1))
        connection.wait_closed()

    return script


def silent(connection):
    connection.wait_closed()


def sound(*upstreams):
    for upstream in upstreams:
        equal(upstream.faults, [], "the stand-in's faults")


@check(240)
def an_upstream_that_comes_late(lab):
    """A relay whose upstream isn't there yet serves what it has, and follows the upstream once it is there."""
    port = free_port()
    relay = lab.relay([port])
    with relay.session() as session:
        equal(session.transact("net", select()), [{"rows": []}], "a read without an upstream")
        time.sleep(2)
        with lab.source(port=port).session() as writer:
            writer.transact("net", insert(name="p"))
        shows(session, "p")


@check(240)
def a_relay_asks_for_what_it_lacks(lab):
    """A relay that connects anew asks for what comes after the id at which it stands."""

    def breaks(first, last):
        def script(connection):
            connection.begin(known)
            tell(connection, range(first, last + 1))

        return script

    upstream = lab.keep(Upstream(NET, breaks(1, 2), breaks(3, 3), breaks(4, 5), tells(6, 6)))
    relay = lab.relay([upstream])
    with relay.session() as session:
        shows(session, "p6")
    equal(upstream.asked, [ZEROS, commit_id(2), commit_id(3), commit_id(5)], "the ids that were asked for")
    sound(upstream)


@check(240)
def a_stream_cut_anywhere(lab):
    """A stream that is cut after any byte leaves whole links alone: the relay asks for what comes after the last whole one."""
    texts = [json.dumps({"id": None, "method": "update3", "params": ["relay", commit_id(number), change(number)]}).encode() for number in (1, 2, 3)]
    whole = b"".join(texts)
    cuts = [len(texts[0]) - 1, len(texts[0]), len(texts[0]) + 1, len(whole) - len(texts[2]) + 30, len(whole) - 1]

    def cut_after(length):
        def script(connection):
            connection.begin(known)
            connection.send_bytes(rest_of(connection.asked)[:length])

        return script

    def rest_of(asked):
        known_ids = [ZEROS, *(commit_id(number) for number in (1, 2, 3))]
        return b"".join(texts[known_ids.index(asked):])

    upstream = lab.keep(Upstream(NET, cut_after(5), *(cut_after(cut) for cut in cuts[:3]), cut_after(40), cut_after(len(whole))))
    relay = lab.relay([upstream])
    with relay.session() as session:
        shows(session, "p3")
    holds(all(one in (ZEROS, commit_id(1), commit_id(2), commit_id(3)) for one in upstream.asked), f"asked {upstream.asked!r}")
    equal(upstream.asked[:3], [ZEROS, ZEROS, ZEROS], "what is asked after streams with no whole message")
    equal(upstream.asked[3], commit_id(1), "what is asked after one whole message")
    sound(upstream)


@check(240)
def an_upstream_that_stops_in_mid_message(lab):
    """An upstream that stops in the middle of a message holds up nobody: reads are answered, and a cut message is no link."""
    stopped = []

    def stops(connection):
        connection.begin(unknown)
        tell(connection, [1])
        connection.send_bytes(b'{"id":null,"method":"update3","params":["relay","')
        stopped.append(connection)
        connection.wait_closed()

    upstream = lab.keep(Upstream(NET, stops, tells(2, 2)))
    relay = lab.relay([upstream])
    with relay.session() as session:
        shows(session, "p1")
        wait_until(lambda: stopped, 5, "the upstream stops")
        equal(session.ask("echo", 1), [1], "an echo while the upstream says nothing")
        shows(session, "p1")
        stopped[0].socket.shutdown(2)
        shows(session, "p2")
    equal(upstream.asked, [ZEROS, commit_id(1)], "the ids that were asked for")
    sound(upstream)


@check(240)
def pauses_between_tries(lab):
    """An upstream that hangs up at once is tried again after pauses that grow to at most a second."""
    upstream = lab.keep(Upstream(NET, lambda connection: None))
    relay = lab.relay([upstream])
    time.sleep(8)
    times = upstream.times()
    pauses = [later - earlier for earlier, later in zip(times, times[1:])]
    holds(7 <= len(times) <= 80, f"{len(times)} tries in 8 seconds")
    holds(max(pauses) <= LONGEST_PAUSE + SLACK, f"the longest pause is {max(pauses):.2f} seconds")
    holds(pauses[0] < LONGEST_PAUSE and pauses[-1] > pauses[0], f"the pauses don't grow: {pauses!r}")
    with relay.session() as session:
        equal(session.ask("echo", 1), [1], "an echo meanwhile")


@check(240)
def pauses_while_clients_ask(lab):
    """Clients that come, ask for transactions and go don't have a lost upstream tried sooner."""
    upstream = lab.keep(Upstream(NET, lambda connection: None))
    relay = lab.relay([upstream])
    wait_until(lambda: len(upstream.times()) > PAUSES, 30, f"{PAUSES} pauses")
    tries, until = len(upstream.times()), time.monotonic() + ASKED_FOR
    while time.monotonic() < until:
        with relay.session() as session:
            for number in range(MANY_BREAKS):
                session.request("transact", "net", insert(name=f"p{number}"))
            equal(session.ask("echo", 1), [1], "an echo meanwhile")
    found = len(upstream.times()) - tries
    holds(found <= ASKED_FOR / LONGEST_PAUSE + 1, f"{found} tries in {ASKED_FOR} seconds")


def with_schema(connection, schema):
    """Answers the first request of a relay, for the schema."""
    connection.reply(connection.receive()["id"], schema)


def another_schema(connection):
    with_schema(connection, {**NET, "tables": {"Port": {"columns": {"name": {"type": "string"}}}}})
    connection.wait_closed()


def standalone(connection):
    """As a standalone ovsdb-server: all that it has, under the id of zeros."""
    connection.begin(lambda asked: [False, ZEROS, change(1)])
    connection.wait_closed()


def bad_answer(connection):
    connection.begin(lambda asked: "all")
    connection.wait_closed()


def above_the_limit(connection):
    with_schema(connection, NET)
    connection.receive()
    connection.send_bytes(b'{"id":"monitor","error":null,"result":["' + b"x" * LONGEST_MESSAGE)
    connection.wait_closed()


def schema_alone(connection):
    with_schema(connection, NET)
    connection.receive()


@check(240)
def pauses_before_refused_upstreams(lab):
    """An upstream that gives no link, whether what it says is refused or it hangs up behind its schema, is tried again after such pauses, too."""
    upstreams = [lab.keep(Upstream(NET, script)) for script in (another_schema, standalone, bad_answer, above_the_limit, schema_alone)]
    for upstream in upstreams:
        lab.relay([upstream])
    for upstream in upstreams:
        name = upstream.scripts[0].__name__
        # However long a try takes, as that with a message above the limit does on a slow machine.
        wait_until(lambda upstream=upstream: len(upstream.times()) > PAUSES, 60, f"{name}: {PAUSES} pauses")
        times = upstream.times()[: PAUSES + 1]
        pauses = [later - earlier for earlier, later in zip(times, times[1:])]
        holds(pauses[-1] > LONGEST_PAUSE / 4, f"{name}: the pauses don't grow: {pauses!r}")
        sound(upstream)


# Upstreams that can't be followed, and what a relay says of them in any case.
UNFIT = ((another_schema, "has another schema"), (above_the_limit, f"sent a message above {LONGEST_MESSAGE} bytes"))


def unfit(upstream, why):
    return f"ovs_relay: upstream 127.0.0.1:{upstream.port} {why}\n"


@check(240)
def upstreams_that_cannot_be_followed(lab):
    """An upstream that has another schema, or sends a message above the limits, is told of once, also without `--verbose`; it is tried again, and
    followed once it has the schema."""
    for script, why in UNFIT:
        upstream = lab.keep(Upstream(NET, script, script, script, tells(1, 1)))
        relay = lab.relay([upstream])
        with relay.session() as session:
            shows(session, "p1", 30)
        equal(relay.child.complaints(), unfit(upstream, why), f"{script.__name__}: the relay's standard error")
        relay.stop()
        sound(upstream)


@check(240)
def upstreams_that_end_a_relay(lab):
    """With `--end-on-refusal` such an upstream ends a relay with status 1, also while another upstream is followed and a session lasts."""
    for script, why in UNFIT:
        source = lab.source()
        with source.session() as session:
            session.transact("net", insert(name="p"))
        asked = []

        def late(connection, script=script, asked=asked):
            wait_until(lambda: asked, 30, "the reader is shown the row")
            script(connection)

        upstream = lab.keep(Upstream(NET, late))
        relay = lab.relay([source, upstream], "--end-on-refusal")
        with relay.session() as session:
            shows(session, "p")
            asked.append(True)
            holds(session.is_closed(15), f"{script.__name__}: the session isn't closed")
        equal((relay.child.wait(END_SECONDS), relay.child.output()), (1, closing(FIRST_ID, 1, 1)), f"{script.__name__}: the relay's status and output")
        equal(relay.child.complaints(), unfit(upstream, why), f"{script.__name__}: the relay's standard error")
        source.stop()
        sound(upstream)


@check(240)
def what_was_refused_is_told(lab):
    """With `--verbose` a relay tells what was wrong with what an upstream said."""
    for script, why in ((standalone, "a message that may not come"), (bad_answer, "a message that may not come")):
        upstream = lab.keep(Upstream(NET, script))
        relay = lab.relay([upstream], "--verbose")
        line = unfit(upstream, f"is refused: {why}")
        wait_until(lambda relay=relay, line=line: line in relay.child.complaints(), 15, f"{script.__name__}: the relay says {line!r}")
        relay.stop()


@check(240)
def pauses_after_links(lab):
    """An upstream that tells a link in each session and breaks off in the middle of the next is tried again soon each time."""

    def breaks(connection):
        connection.begin(known)
        tell(connection, [len(upstream.connections)])
        connection.send_bytes(b'{"id":null,"method":"upd')

    upstream = lab.keep(Upstream(NET, *[breaks] * MANY_BREAKS, tells(MANY_BREAKS + 1, MANY_BREAKS + 1)))
    relay = lab.relay([upstream])
    with relay.session() as session:
        shows(session, f"p{MANY_BREAKS + 1}", 60)
    times = upstream.times()
    pauses = sorted(later - earlier for earlier, later in zip(times, times[1:]))
    holds(pauses[len(pauses) // 2] <= LONGEST_PAUSE / 4, f"the pauses grow: {pauses!r}")
    sound(upstream)


@check(240)
def tries_are_bounded(lab):
    """`--tries N` bounds how often an upstream is tried, whether it hangs up or nothing listens; the relay then ends by itself."""
    upstream = lab.keep(Upstream(NET, lambda connection: None))
    relay = lab.relay([upstream], "--tries", "4", "--accepts", "1")
    equal(relay.end(30), (0, closing(ZEROS, 0, 0)), "the relay's status and output")
    equal(len(upstream.connections), 4, "the connections that were made")
    begun = time.monotonic()
    relay = lab.relay([free_port()], "--tries", "12", "--accepts", "1")
    equal(relay.end(30), (0, closing(ZEROS, 0, 0)), "the status and output of a relay without an upstream")
    holds(time.monotonic() - begun >= 1, "twelve tries took less than a second")


@check(240)
def a_pause_is_short_after_a_good_session(lab):
    """After a session that told links, the next try comes soon, however long the pauses had grown before."""
    hang_up = [lambda connection: None] * 6

    def short(connection):
        connection.begin(known)
        tell(connection, [1])

    upstream = lab.keep(Upstream(NET, *hang_up, short, tells(2, 2)))
    relay = lab.relay([upstream])
    with relay.session() as session:
        shows(session, "p2", 30)
    times = upstream.times()
    holds(times[7] - times[6] <= LONGEST_PAUSE + SLACK, f"the pause after a good session is {times[7] - times[6]:.2f} seconds")
    sound(upstream)


@check(240)
def upstreams_side_by_side(lab):
    """With two upstreams, of which the first says nothing after the connection, the relay follows the second."""
    first, second = lab.keep(Upstream(NET, silent)), lab.keep(Upstream(NET, tells(1, 3)))
    relay = lab.relay([first, second])
    with relay.session() as session:
        shows(session, "p3")
    equal(len(first.connections), 1, "the connections with the silent upstream")
    sound(first, second)


@check(240)
def one_history_by_many_ways(lab):
    """Four upstreams that tell the same commits, each broken off at another place, make one chain in which nothing is refused."""
    ways = []
    for place in range(4):
        def short(connection, place=place):
            connection.begin(lambda asked: known(asked))
            tell(connection, numbers_after(connection.asked, place + 1))

        def whole(connection):
            connection.begin(known)
            tell(connection, numbers_after(connection.asked, 8))

        ways.append(lab.keep(Upstream(NET, short, whole)))

    def numbers_after(asked, last):
        first = 1 if asked == ZEROS else 1 + next(number for number in range(1, 9) if commit_id(number) == asked)
        return range(first, last + 1)

    relay = lab.relay(ways, "--tries", "2", "--accepts", "1")
    with relay.session() as session:
        shows(session, "p8")
    sound(*ways)
    equal(relay.end(), (0, closing(commit_id(8), 8, 8)), "the relay's status and output")


@check(240)
def the_second_upstream_takes_over(lab):
    """When a relay's first upstream is lost it goes on from the second, and transactions wait for the first."""
    source = lab.source()
    middle = lab.relay([source], name="middle")
    last = lab.relay([middle, source], name="last")
    with last.session() as session, source.session() as writer:
        session.transact("net", insert(name="p"))
        shows(session, "p")
        middle.stop()
        source_is_lost(session)
        asked = session.request("transact", "net", insert(name="waits"))
        writer.transact("net", {"op": "update", "table": "Port", "where": [], "row": {"name": "q"}})
        wait_until(lambda: "q" in [row["name"] for row in session.transact("net", select())[0]["rows"]], 15, "the last relay shows q")
        lab.relay([source], port=middle.port, name="again")
        holds(session.reply(asked, 20) is not None, "the transaction isn't answered")


def forks(connection):
    """Two commits, the second of which has another change than the one that the relay has: as from another history."""
    connection.begin(unknown)
    connection.update3(commit_id(1), change(1))
    connection.update3(OTHER_ID, {"Port": {ROW: {"modify": {"name": "other"}}}})
    connection.wait_closed()


@check(240)
def contradictions_without_the_option(lab):
    """A relay counts links that contradict what it has and goes on with what it has; it ends with status 1."""
    upstream = lab.keep(Upstream(NET, tells_and_breaks, forks))
    relay = lab.relay([upstream], "--tries", "2", "--accepts", "1")
    with relay.session() as session:
        shows(session, "p2")
        wait_until(lambda: len(upstream.asked) == 2, 10, "the relay asks again")
        holds(session.is_quiet(1), "something came unasked")
        shows(session, "p2")
        holds(relay.child.is_running(), "the relay ended")
    upstream.close()
    equal(relay.end(), (1, closing(commit_id(2), 2, 2)), "the relay's status and output")


@check(240)
def a_refused_link_costs_no_processor(lab):
    """A relay whose upstream ends each connection behind a link that contradicts what it has comes again soon, and takes hardly any processor for it."""

    def forks_and_breaks(connection):
        connection.begin(unknown)
        connection.update3(commit_id(1), change(1))
        connection.update3(OTHER_ID, {"Port": {ROW: {"modify": {"name": "other"}}}})

    upstream = lab.keep(Upstream(NET, tells_and_breaks, forks_and_breaks))
    relay = lab.relay([upstream])
    wait_until(lambda: len(upstream.connections) >= 2, 15, "the relay asks again")
    before, ticks = len(upstream.connections), relay.child.ticks()
    wait_until(lambda: len(upstream.connections) >= before + RECONNECTS, 30, f"the relay asks {RECONNECTS} times more")
    each = (relay.child.ticks() - ticks) / TICKS_A_SECOND / (len(upstream.connections) - before)
    holds(each < PROCESSOR_A_RECONNECT, f"each connection costs {each * 1000:.1f} ms of processor")


@check(240)
def contradictions_with_the_option(lab):
    """With `--end-on-refusal` a relay ends by itself with status 1 and the closing lines where a link contradicts what it has."""
    upstream = lab.keep(Upstream(NET, tells_and_breaks, forks))
    port = free_port()
    # It may have ended before anybody could see it serve.
    relay = Node(lab, lab.relay_words(port, [upstream.port], "--end-on-refusal"), "relay", port)
    equal((relay.child.wait(END_SECONDS), relay.child.output()), (1, closing(commit_id(2), 2, 2)), "the relay's status and output")


@check(240)
def no_contradiction_with_the_option(lab):
    """With `--end-on-refusal` a relay goes on over repeats, breaks and silence: they are no refusals."""

    def repeats(connection):
        connection.begin(unknown)
        tell(connection, [1, 2])

    upstream = lab.keep(Upstream(NET, repeats, repeats, tells(1, 3)))
    relay = lab.relay([upstream], "--end-on-refusal")
    with relay.session() as session:
        shows(session, "p3")
        holds(session.is_quiet(1) and relay.child.is_running(), "the relay ended")
    sound(upstream)


def tells_and_breaks(connection):
    connection.begin(unknown)
    tell(connection, [1, 2])
