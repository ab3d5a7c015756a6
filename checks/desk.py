"""What a relay passes on: each answer to its asker, and what becomes of requests when the source is lost."""
from client import Refused, hear_all, refusal
from data import FIRST_ROW, NET, insert, nth, select
from harness import check, equal, holds
from processes import wait_until
from upstream import Upstream, unknown

CLIENTS = 8
EACH = 40
# How many requests may be on their way from a relay, and how many of them from one session.
MOST = 4_096
OF_ONE = 128


@check(240)
def answers_to_their_askers(lab):
    """Eight clients that each ask forty transactions at once are each answered their own, in order, under their own ids."""
    _, relay = lab.tier()
    sessions = [relay.session() for _ in range(CLIENTS)]
    for place, session in enumerate(sessions):
        for number in range(EACH):
            names = [f"{place}-{number}"] * (1 + place % 3)
            request = {"id": ["ask", place, number], "method": "transact", "params": ["net", *(insert(name=name) for name in names)]}
            session.send(request)
    rows = {}
    for place, session in enumerate(sessions):
        for number in range(EACH):
            message = session.receive()
            equal((message["id"], message["error"], len(message["result"])), (["ask", place, number], None, 1 + place % 3), f"reply {number} of client {place}")
            rows.update({result["uuid"][1]: f"{place}-{number}" for result in message["result"]})
    with relay.session() as reader:
        wait_until(lambda: len(reader.transact("net", select())[0]["rows"]) == len(rows), 20, "the relay shows all rows")
        shown = {row["_uuid"][1]: row["name"] for row in reader.transact("net", select())[0]["rows"]}
    equal(shown, rows, "the rows behind the ids that were answered")


@check(240)
def clients_that_leave(lab):
    """Clients that leave with requests open do no harm: what they asked is committed or not, and others are answered."""
    _, relay = lab.tier()
    with relay.session() as other:
        for _ in range(30):
            session = relay.session()
            for _ in range(10):
                session.request("transact", "net", insert(name="left"))
            session.reset()
            equal(other.transact("net", insert(name="stays"))[0]["uuid"][0], "uuid", "another's insert")
        rows = wait_until(lambda: count(other, "stays") == 30 and other.transact("net", select())[0]["rows"], 20, "the relay shows what stays")
        holds(len(rows) <= 330, f"{len(rows)} rows")


def count(session, name):
    return len(session.transact("net", select([["name", "==", name]]))[0]["rows"])


def source_is_lost(session):
    """Waits until a relay knows that its source is lost: a steal that is refused so was asked then, or is answered so when it is lost."""
    equal(refusal(session, "steal", "probe"), "source lost", "a steal when the source was stopped")


@check(240)
def requests_without_a_source(lab):
    """What is asked while the source is lost waits, and is carried out once there is a source; reads are answered all the while."""
    source = lab.source()
    relay = lab.relay([source])
    with relay.session() as session, relay.session() as reader:
        session.transact("net", insert(name="before"))
        wait_until(lambda: count(reader, "before") == 1, 10, "the relay shows the row")
        source.stop()
        source_is_lost(reader)
        asked = session.request("transact", "net", insert(name="waits"))
        equal(count(reader, "before"), 1, "a read without a source")
        holds(session.is_quiet(1), "a transaction is answered without a source")
        lab.source(port=source.port)
        equal(session.reply(asked, 20), [{"uuid": ["uuid", FIRST_ROW]}], "the transaction that waited")


@check(240)
def requests_whose_source_is_lost(lab):
    """What went up and wasn't answered when the source is lost is answered `source lost`."""
    heard = []

    def mute(connection):
        connection.begin(unknown)
        while True:
            message = connection.receive()
            heard.append(message["method"])
            if len(heard) == 3:
                return

    def silent(connection):
        connection.begin(unknown)
        connection.wait_closed()

    upstream = lab.keep(Upstream(NET, mute, silent))
    relay = lab.relay([upstream])
    sessions = [relay.session() for _ in range(3)]
    numbers = [session.request("transact", "net", insert(name="p")) for session in sessions]
    for session, number in zip(sessions, numbers):
        try:
            raise AssertionError(f"answered {session.reply(number)!r}")
        except Refused as refused:
            equal(refused.args[0], {"error": "source lost"}, "the answer")
    equal(heard, ["transact"] * 3, "what went up")
    equal(upstream.faults, [], "the stand-in's faults")


@check(240)
def requests_go_up_under_numbers(lab):
    """Requests go up whole, with different integers as ids, and an answer that comes late or twice goes to nobody else."""
    params = []

    def answers(connection):
        connection.begin(unknown)
        messages = [connection.receive() for _ in range(3)]
        params.extend(message["params"] for message in messages)
        equal(len({message["id"] for message in messages}), 3, "different ids")
        for message in reversed(messages):
            for _ in range(2):
                connection.reply(message["id"], [{"uuid": ["uuid", nth(FIRST_ROW, message["params"][1]["row"]["up"])]}])
        connection.wait_closed()

    upstream = lab.keep(Upstream(NET, answers))
    relay = lab.relay([upstream])
    sessions = [relay.session() for _ in range(3)]
    numbers = [session.request("transact", "net", insert(up=place)) for place, session in enumerate(sessions, 1)]
    results = [session.reply(number) for session, number in zip(sessions, numbers)]
    equal(results, [[{"uuid": ["uuid", nth(FIRST_ROW, place)]}] for place in (1, 2, 3)], "the answers")
    equal(sorted(one[1]["row"]["up"] for one in params), [1, 2, 3], "what went up")
    equal({one[0] for one in params}, {"net"}, "the database's name")
    holds(all(session.is_quiet(0.2) for session in sessions), "a second answer is handed on")
    equal(upstream.faults, [], "the stand-in's faults")


@check(240)
def too_many_requests(lab):
    """The request after the 4,096th that isn't answered and collected is refused, and once they are answered others are taken."""
    messages = []

    def holds_back(connection):
        connection.begin(unknown)
        while len(messages) < MOST:
            messages.append(connection.receive())
        wait_until(lambda: refused, 30, "the next request is refused")
        for message in messages:
            connection.reply(message["id"], [{}])
        message = connection.receive()
        connection.reply(message["id"], [{"count": 1}])
        connection.wait_closed()

    refused = []
    upstream = lab.keep(Upstream(NET, holds_back))
    relay = lab.relay([upstream])
    one, many = relay.session(), [relay.session() for _ in range(MOST // OF_ONE)]
    for session in many:
        for _ in range(OF_ONE):
            session.request("transact", "net", insert())
    wait_until(lambda: len(messages) == MOST, 30, "all requests went up")
    try:
        raise AssertionError(f"answered {one.transact('net', insert())!r}")
    except Refused as fault:
        refused.append(fault.args[0])
    equal(refused, [{"error": "too many requests"}], "the refusal")
    waiting = hear_all(many, lambda session: len(session.replies) == OF_ONE, 30)
    holds(not waiting, f"{len(waiting)} of {len(many)} sessions weren't answered all")
    equal(one.transact("net", insert()), [{"count": 1}], "the next request")
    equal(upstream.faults, [], "the stand-in's faults")
