"""Sessions that end: what a client asked before is answered first."""
import json
import socket

from client import Closed
from data import FIRST_ROW, insert, nth, select
from harness import check, equal, holds
from processes import wait_until

CLIENTS = 20
EACH = 20
CLOSES = 20
# What ends a session: objects that say nothing, and what begins none.
BAD_ENDS = {
    "no message": b'{"foo":1}',
    "no JSON": b'{"id":1,}',
    "a reply without an id": b'{"id":null,"result":1,"error":null}',
    "a list": b"[",
    "a word": b"x",
}


def message(number, method, *params):
    return json.dumps({"id": number, "method": method, "params": list(params)}).encode()


def until_closed(session, seconds=CLOSES):
    """The replies that come until the node closes the connection, by their ids; None where it stays open."""
    return session.replies if session.is_closed(seconds) else None


def names(session):
    return sorted(row["name"] for row in session.transact("net", select(columns=["name"]))[0]["rows"])


@check(240)
def bad_input_behind_requests(lab):
    """An echo, an insert and what is no message, in one piece: a source answers both, and then the session ends."""
    source = lab.source()
    missing = {}
    for what, text in BAD_ENDS.items():
        with source.session() as session:
            session.send_bytes(message(1, "echo", what) + message(2, "transact", "net", insert(name=what)) + text)
            replies = until_closed(session)
        holds(replies is not None, f"{what}: the session doesn't end")
        if set(replies) != {1, 2}:
            missing[what] = sorted(replies)
    shows(source, BAD_ENDS, "the rows that were inserted")
    holds(not missing, f"of the requests 1 and 2, which were carried out, these were answered: {missing!r}")


@check(240)
def bad_input_behind_reads(lab):
    """An echo, a select and what is no message, in one piece: a relay answers both, and then the session ends."""
    _, relay = lab.tier()
    missing = {}
    for what, text in BAD_ENDS.items():
        with relay.session() as session:
            session.send_bytes(message(1, "echo", what) + message(2, "transact", "net", select()) + text)
            replies = until_closed(session)
        holds(replies is not None, f"{what}: the session doesn't end")
        if set(replies) != {1, 2}:
            missing[what] = sorted(replies)
    holds(not missing, f"of the requests 1 and 2 these were answered: {missing!r}")


def answers(session, texts):
    """What a client that sends these and shuts its writing side is sent, and whether the session ends then."""
    session.send_bytes(b"".join(texts))
    session.socket.shutdown(socket.SHUT_WR)
    found = []
    try:
        while True:
            found.append(session.receive())
    except TimeoutError:
        return found, False
    except Closed:
        return found, True


def is_answered(node, session, texts, results, what):
    """A client that sends these and shuts its writing side is given these results, in order, and then the session ends."""
    found, is_over = answers(session, texts)
    wanted = [{"id": number, "result": result, "error": None} for number, result in enumerate(results)]
    holds(found == wanted, f"{node.name}, {what}: {len(found)} of {len(wanted)} answers, the last {found[-1:]!r}, and not {wanted[-1]!r}")
    holds(is_over, f"{node.name}, {what}: all is answered, and the session stays open")


def row(number):
    """What the insert is answered that is the `number`th at its source, counted from 1."""
    return [{"uuid": ["uuid", nth(FIRST_ROW, number)]}]


def shows(node, wanted, what):
    """Waits until a node shows rows of these names, in whatever order."""
    with node.session() as session:
        try:
            wait_until(lambda: names(session) == sorted(wanted), 10, what)
        except AssertionError as fault:
            raise AssertionError(f"{what}: {names(session)!r}, and not {sorted(wanted)!r}") from fault


@check(240)
def a_client_that_shuts_its_side(lab):
    """A client that sends a transaction and shuts its writing side is answered, at a source and at a relay, and then the session ends."""
    for node in lab.tier():
        answered = 0
        for number in range(CLIENTS):
            with node.session() as session:
                found, is_over = answers(session, [message(number, "transact", "net", insert(name=node.name))])
            holds(is_over, f"{node.name}: a session stays open")
            answered += [(one["id"], one["error"]) for one in found] == [(number, None)]
        with node.session() as session:
            wait_until(lambda session=session: names(session).count(node.name) >= answered, 10, f"the {node.name} shows what was answered")
            rows = names(session).count(node.name)
        holds(answered == rows == CLIENTS, f"{node.name}: {answered} of {CLIENTS} clients were answered, and {rows} rows are there")


@check(240)
def many_requests_behind_which_a_side_is_shut(lab):
    """So it is with twenty transactions, which are answered in order, and with reads and a lock."""
    rows = []
    for node in lab.tier():
        texts = [message(number, "transact", "net", insert(name=f"{node.name} {number}")) for number in range(EACH)]
        results = [row(len(rows) + number + 1) for number in range(EACH)]
        with node.session() as session:
            is_answered(node, session, texts, results, "transactions")
        with node.session() as session:
            if not session.ask("lock", "L")["locked"]:
                equal(session.notice(), ("locked", ["L"]), f"{node.name}: the lock")
            texts = [message(0, "echo", 1), message(1, "list_dbs"), message(2, "unlock", "L")]
            is_answered(node, session, texts, [[1], ["net"], {}], "reads and a lock")
        rows += [f"{node.name} {number}" for number in range(EACH)]
        shows(node, rows, f"{node.name}: the rows")


@check(240)
def a_side_shut_in_mid_message(lab):
    """What a client asked before it shuts its side in the middle of a message is answered, and the rest is let go."""
    rows = 0
    for node in lab.tier():
        for _ in range(EACH):
            rows += 1
            texts = [message(0, "transact", "net", insert(name="whole")), message(1, "transact", "net", insert(name="cut"))[:-5]]
            with node.session() as session:
                is_answered(node, session, texts, [row(rows)], "a message that is cut")
        shows(node, ["whole"] * rows, f"{node.name}: the rows")
