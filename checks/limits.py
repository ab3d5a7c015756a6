"""Messages and lines at the limits of length and depth, of clients, of an upstream and of scripts: those at a limit are answered, those past it end
their own session or are refused, and nothing past a limit is kept."""
import json
import time

from client import Closed
from data import FIRST_ID, NET, ZEROS, select
from harness import check, equal, holds
from memory import Memory
from processes import wait_until
from scripts import INSERT, database, link, script
from upstream import Upstream, known, unknown
from upstreams import LONGEST_PAUSE, SLACK, change, commit_id, sound
from wire import CLOSES, LONGEST, SLOW, nested

PIECE = 4_096
# What a client or an upstream would go on to send past the limit.
MUCH = 256 << 20
# Room for a message at the limit grows by doubling; and beside what is read stand the message that is answered, and what is said of it.
MOST_AT_ONCE = 2 * LONGEST
MOST_GROWTH = 128 << 10
ROUNDS = 3
OVER = 6


def padded(message, length):
    """The message with so much white space within it that it has this length."""
    text = json.dumps(message).encode()
    return text[:1] + b" " * (length - len(text)) + text[1:]


def in_pieces(send, text):
    for begin in range(0, len(text), PIECE):
        send(text[begin : begin + PIECE])


def unless_closed(says):
    try:
        says()
    except Closed:
        pass


def pour(send, text):
    """Sends this again and again until the connection is closed, or MUCH is sent; gives how much was."""
    sent = 0
    try:
        while sent < MUCH:
            send(text)
            sent += len(text)
    except Closed:
        pass
    return sent


def growth(node, before):
    return node.child.kilobytes("VmHWM") - before


def held_by(node, memory, before, what):
    """What is past the limit isn't kept: neither is so much asked for at once, nor is so much resident."""
    holds(memory.rules.largest <= MOST_AT_ONCE, f"{node.name}, {what}: {memory.told()}")
    holds(growth(node, before) <= MOST_GROWTH, f"{node.name}, {what}: its memory grew by {growth(node, before):,} KiB")


def of_clients(lab, node, memory):
    before = node.child.kilobytes("VmHWM")
    text = "x" * (LONGEST - len(json.dumps({"id": 1, "method": "no", "params": [""]})))
    longest = json.dumps({"id": 1, "method": "no", "params": [text]}).encode()
    equal(len(longest), LONGEST, "the length of a message at the limit")
    with node.session(SLOW) as other, node.session(SLOW) as session:
        in_pieces(session.send_bytes, longest)
        equal(refused(session, 1), "unknown method", f"{node.name}: a message at the limit, in pieces")
        equal(session.ask("echo", "behind"), ["behind"], f"{node.name}: what comes behind it")
        unless_closed(lambda: in_pieces(session.send_bytes, longest.replace(b'["', b'["x')))
        holds(session.is_closed(CLOSES), f"{node.name}: a message of a byte more leaves its session open")
        equal(other.ask("echo", "other"), ["other"], f"{node.name}: another session")
        held_by(node, memory, before, "messages at the limit")
        for _ in range(ROUNDS):
            with node.session(SLOW) as endless:
                endless.send_bytes(b'{"id":"')
                sent = pour(endless.send_bytes, b"x" * (1 << 20))
                holds(sent < MUCH and endless.is_closed(CLOSES), f"{node.name}: {sent:,} bytes of a message without an end are taken")
            equal(other.ask("echo", "other"), ["other"], f"{node.name}: another session beside a message without an end")
        held_by(node, memory, before, "messages without an end")
    return before, growth(node, before)


def refused(session, number):
    """The text with which the request of this number is refused, or None."""
    while number not in session.replies:
        session.hear()
    error = session.replies.pop(number)["error"]
    return error and error["error"]


@check(300)
def long_messages_at_a_source(lab):
    """A client's message of 16,777,216 bytes, in pieces of 4,096, is answered by a source; a byte more, or a message without an end, ends that
    session alone, and nothing past the limit is kept."""
    memory = Memory(lab)
    return of_clients(lab, lab.source(environment=memory.environment), memory)


@check(300)
def long_messages_at_a_relay(lab):
    """A client's message of 16,777,216 bytes, in pieces of 4,096, is answered by a relay; a byte more, or a message without an end, ends that
    session alone, and nothing past the limit is kept."""
    memory = Memory(lab)
    return of_clients(lab, lab.relay([lab.source()], environment=memory.environment).with_source(), memory)


class AtTheLimits:
    """What an upstream says at the limits and past them, over one connection after another."""

    def __init__(self):
        self.nested, self.ended = [], []

    def commit(self, connection, number, length):
        message = {"id": None, "method": "update3", "params": [connection.name, commit_id(number), change(number)]}
        in_pieces(connection.send_bytes, padded(message, length))

    def at_the_limits(self, connection):
        """A request that nests 100 deep, which is answered; a commit of the longest message, and another whose message is a byte longer."""
        connection.begin(unknown)
        connection.update3(commit_id(1), change(1))
        connection.send_bytes(nested(100))
        self.nested.append(connection.receive())
        self.commit(connection, 2, LONGEST)
        self.ends(connection, lambda: self.commit(connection, 3, LONGEST + 1))

    def too_deep(self, connection):
        connection.begin(known)
        self.ends(connection, lambda: connection.send_bytes(nested(101)))

    def endless(self, connection):
        connection.begin(known)
        self.ends(connection, lambda: pour(connection.send_bytes, b'{"id":"' + b"x" * PIECE * 256))

    def ends(self, connection, says):
        """Says this, and waits until the relay has ended the session."""
        unless_closed(says)
        equal(connection.wait_closed(), [], "what a relay says to a message past a limit")
        self.ended.append(time.monotonic())

    def rightly(self, connection):
        connection.begin(known)
        connection.update3(commit_id(3), change(3))
        connection.wait_closed()


def answers_until(session, is_so, seconds, what):
    """Waits until it is so, while each select of this session is answered: gives the longest that one took."""
    longest = 0.0

    def asked():
        nonlocal longest
        begun = time.monotonic()
        rows = session.transact("net", select(columns=["name"]))[0]["rows"]
        longest = max(longest, time.monotonic() - begun)
        return is_so(rows)

    wait_until(asked, seconds, what)
    return longest


@check(300)
def messages_of_an_upstream_at_the_limits(lab):
    """What an upstream says at the limits is taken; past them it ends the session with that upstream, which is tried again after growing pauses.
    The reader's session goes on meanwhile, and nothing past the limit is kept."""
    memory, says = Memory(lab), AtTheLimits()
    upstream = lab.keep(Upstream(NET, says.at_the_limits, says.too_deep, *[says.endless] * OVER, says.rightly))
    relay = lab.relay([upstream], environment=memory.environment)
    before = relay.child.kilobytes("VmHWM")
    with relay.session() as session:
        longest = answers_until(session, lambda rows: rows == [{"name": "p3"}], 60, "the relay shows what is said rightly in the end")
    sound(upstream)
    equal(upstream.asked, [ZEROS, *[commit_id(2)] * (OVER + 2)], "the ids that were asked for")
    equal(json.dumps(says.nested).count("[") - 1, 99, "the lists of the answer to a request that nests 100 deep")
    pauses = [began - ended for ended, began in zip(says.ended, upstream.times()[1:])]
    holds(pauses[-1] > LONGEST_PAUSE / 8 and pauses[-1] > pauses[1], f"the pauses don't grow: {pauses!r}")
    holds(max(pauses) <= LONGEST_PAUSE + SLACK, f"the longest pause is {max(pauses):.2f} seconds")
    held_by(relay, memory, before, "an upstream's messages")
    return longest, pauses, growth(relay, before), memory.told()


@check(300)
def lines_above_the_limit(lab):
    """A line far above the limit is refused by its word, of `fold` and of `world`, and asks for no more memory than one at the limit."""
    memory = Memory(lab)
    long = b"x" * (4 * LONGEST) + b"\n"
    head, rest = script(NET), script(link(1, INSERT))
    ending = f"head {FIRST_ID}\nlinks 1 chain 1 parked 0\n{database(FIRST_ID, ['set', []])}\n"
    told = lab.run("fold", text=head + long + rest, environment=memory.environment)
    equal(told, (1, "1 refused too-long\n2 took\n" + ending, ""), "fold of a line far above the limit")
    holds(memory.rules.largest <= MOST_AT_ONCE, f"fold: {memory.told()}")
    memory.forget()
    told = lab.run("world", text=head + b"1\n" + long + script(["restart", 1]), environment=memory.environment)
    ends = [f"node {node} head {ZEROS} links 0 chain 0\n" for node in (0, 1)]
    equal(told, (1, "1 refused too-long\n2 ok\n" + "".join(ends), ""), "world of a line far above the limit")
    holds(memory.rules.largest <= MOST_AT_ONCE, f"world: {memory.told()}")
