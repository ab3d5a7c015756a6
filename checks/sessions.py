"""What a session is answered before it ends, and when it reads."""
import json
import socket

from data import insert, select
from harness import check, equal, holds
from processes import wait_until

# So many requests a client sends before it shuts its writing side.
REQUESTS = 5


def said(*messages):
    return "".join(json.dumps(message) for message in messages).encode()


def request(number, method, *params):
    return {"id": number, "method": method, "params": list(params)}


def replies(session, numbers):
    """The results that come to these requests before the peer closes the connection."""
    holds(session.is_closed(20), "the session isn't closed")
    equal(sorted(session.replies), sorted(numbers), "the requests that were answered")
    return [session.replies[number]["result"] for number in numbers]


@check(240)
def answers_before_a_message_that_says_nothing(lab):
    """What was asked before is answered, by a relay's source too, also where the next message says nothing, or bytes begin none; then the session
    ends."""
    for place, node in enumerate(lab.tier()):
        for number, rest in enumerate([b'{"foo":1}', b"[", b'{"id":3,"method":7,"params":[]}']):
            session = node.session()
            session.send_bytes(said(request(1, "echo", "x"), request(2, "transact", "net", insert(name=f"p{place}{number}"))) + rest)
            echoed, made = replies(session, [1, 2])
            equal(echoed, ["x"], "the echo")
            equal(made[0]["uuid"][0], "uuid", "the insert")


@check(240)
def clients_that_shut_their_writing_side(lab):
    """A client that says no more is answered all that it asked, by a source and by a relay; then its session ends."""
    source, relay = lab.tier()
    for place, node in enumerate((source, relay)):
        sessions = []
        for number in range(REQUESTS):
            session = node.session()
            session.send_bytes(said(request(1, "transact", "net", insert(name=f"p{place}{number}")), request(2, "echo", number)))
            session.socket.shutdown(socket.SHUT_WR)
            sessions.append(session)
        for number, session in enumerate(sessions):
            made, echoed = replies(session, [1, 2])
            equal(made[0]["uuid"][0], "uuid", "the insert")
            equal(echoed, [number], "the echo")
    with relay.session() as session:
        names = lambda: {row["name"] for row in session.transact("net", select())[0]["rows"]}  # noqa: E731
        wanted = {f"p{place}{number}" for place in range(2) for number in range(REQUESTS)}
        wait_until(lambda: names() == wanted, 15, "the rows of all of them are there")


@check(120)
def requests_in_pieces_of_all_lengths(lab):
    """A request is answered whatever pieces it comes in, of as many bytes as a session reads at once among them, and so is its end."""
    source = lab.source()
    for length in (1, 4_095, 4_096, 4_097, 8_192, 12_288):
        session = source.session()
        head = len(said(request(1, "echo", "")))
        text = said(request(1, "echo", "x" * max(0, length - head)))
        session.send_bytes(text)
        equal(len(session.reply(1)[0]), max(0, length - head), f"the echo of {length} bytes")
        # The end comes together with the last request.
        session.send_bytes(said(request(2, "echo", length)))
        session.socket.shutdown(socket.SHUT_WR)
        equal(replies(session, [2]), [[length]], "the answer to the last request")


@check(240)
def sessions_that_leave_are_noticed(lab):
    """A session whose client closes or breaks the connection ends, though nothing is to be said to it and nothing was asked."""
    source = lab.source("--verbose")
    sessions = [source.session() for _ in range(40)]
    for session in sessions:
        equal(session.ask("echo", 1), [1], "the echo")
    for number, session in enumerate(sessions):
        if number % 2:
            session.reset()
        else:
            session.close()
    wait_until(lambda: source.child.complaints().count(" ended: ") >= len(sessions), 20, "all sessions have ended")
