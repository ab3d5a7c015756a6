"""What one session may ask for at a time, so that others go on as if it weren't there."""
import json
import os
import signal
import statistics
import time

from client import Refused, hear_all, refusal
from data import NET, insert, select
from harness import check, equal, holds
from processes import PATIENCE, wait_until
from upstream import Upstream, unknown

# How many requests of a session may be on their way, and how many names of locks it may have asked for.
ON_THEIR_WAY = 128
NAMES = 1_024
# What a client asks that asks for more than it may have, and how many ask for all that they may.
ASKED = 4_600
ASKED_NAMES = 20_000
CLIENTS = 32
LONG_ROWS = 20
LONG = 1_000
# Of two clients what they may have on their way, and what is about to be written, with room to spare: all their answers are five times as much.
MOST_GROWTH = 40_000
PAIRS = 40
SETTLES = 20
# A write beside those who ask for so much takes at most so many times what it takes elsewhere, and this much more for what else runs.
MOST_TIMES = 1.5
NOISE_SECONDS = 0.001 * PATIENCE
SMALL_BUFFER = 65_536
QUIET = 0.5


def seconds_of(writer, number):
    """How long a small write takes."""
    begun = time.monotonic()
    writer.transact("net", {"op": "update", "table": "Port", "where": [["name", "==", "small"]], "row": {"tags": number}})
    return time.monotonic() - begun


def carried_out(writes, what):
    """What `writes` gives, or a fault that says in which case they aren't answered, or are refused."""
    try:
        return writes()
    except Refused as refused:
        raise AssertionError(f"{what}: a write is refused: {refused.args[0]!r}") from refused
    except TimeoutError as fault:
        raise AssertionError(f"{what}: a write isn't answered") from fault


class Pair:
    """A writer beside sessions that ask for much, and one elsewhere: they write in turn, so that what else runs slows both."""

    def __init__(self, beside, elsewhere):
        self.writers = [node.session() for node in (beside, elsewhere)]
        for node, writer in zip((beside, elsewhere), self.writers):
            writer.transact("net", insert(name="small"))
            wait_until(lambda writer=writer: writer.transact("net", select([["name", "==", "small"]]))[0]["rows"], 20, f"the {node.name} has a small row")
            # One that asked for a lock is looked after with those who ask for many.
            writer.ask("lock", f"writer_at_{node.port}")
        self.number = 0

    def medians(self):
        """What a write takes, beside and elsewhere."""
        taken = [], []
        for _ in range(PAIRS):
            self.number += 1
            for writer, times in zip(self.writers, taken):
                times.append(seconds_of(writer, self.number))
        return tuple(statistics.median(times) for times in taken)

    def is_undisturbed(self, what):
        """Writes beside take no longer than elsewhere, once those who ask for much have what they get."""
        until = time.monotonic() + SETTLES * PATIENCE
        while True:
            beside, elsewhere = carried_out(self.medians, what)
            if beside <= MOST_TIMES * elsewhere + NOISE_SECONDS:
                return
            told = f"{what}: a small write takes {beside * 1_000:.2f} ms, and {elsewhere * 1_000:.2f} ms elsewhere"
            holds(time.monotonic() < until, told)


# The requests of one session.


def holding_back(messages):
    """The script of an upstream that takes requests in and answers none by itself."""

    def script(connection):
        connection.begin(unknown)
        while True:
            messages.append(connection.receive())

    return script


@check(240)
def requests_on_their_way(lab):
    """Of a session's requests 128 go up; what it asks then, reads too, waits until one was answered. Another's goes up meanwhile."""
    messages = []
    upstream = lab.keep(Upstream(NET, holding_back(messages)))
    relay = lab.relay([upstream])
    many, one = relay.session(), relay.session()
    numbers = [many.request("transact", "net", insert(name=str(number))) for number in range(ON_THEIR_WAY + 3)]
    last = many.request("echo", "last")
    wait_until(lambda: len(messages) >= ON_THEIR_WAY, 20, "the first requests go up")
    time.sleep(QUIET)
    equal(len(messages), ON_THEIR_WAY, "how many requests of one session went up")
    holds(many.is_quiet(QUIET), "what comes behind them is answered")
    other = one.request("transact", "net", insert(name="other"))
    wait_until(lambda: len(messages) > ON_THEIR_WAY, 20, "another session's request goes up")
    connection = upstream.connections[0]
    connection.reply(messages[-1]["id"], ["other"])
    equal(one.reply(other), ["other"], "another session's answer")
    for place, number in enumerate(numbers):
        connection.reply(messages[place + (place >= ON_THEIR_WAY)]["id"], [place])
        equal(many.reply(number), [place], f"answer {place}")
        wait_until(lambda place=place: len(messages) == min(len(numbers), ON_THEIR_WAY + place + 1) + 1, 20, f"the request behind answer {place} goes up")
    equal(many.reply(last), ["last"], "the echo behind the requests")
    names = [message["params"][1]["row"]["name"] for message in messages]
    names.remove("other")
    equal(names, [str(number) for number in range(len(numbers))], "the requests in their order")
    equal(upstream.faults, [], "the stand-in's faults")


class Asking:
    """A client that asks for many transactions with long answers, at once, and reads nothing."""

    def __init__(self, node):
        self.socket = node.session(buffer=SMALL_BUFFER).socket
        self.socket.setblocking(False)
        reads = select([["name", "!=", "small"]], columns=["name"])
        writes = {"op": "update", "table": "Port", "where": [["name", "==", "none"]], "row": {"up": True}}
        requests = ({"id": number, "method": "transact", "params": ["net", reads, writes]} for number in range(ASKED))
        self.left = "".join(map(json.dumps, requests)).encode()

    def send(self):
        """Sends what is taken. Whether anything was."""
        try:
            sent = self.socket.send(self.left)
        except BlockingIOError:
            sent = 0
        self.left = self.left[sent:]
        return sent > 0


def ask_on(clients, seconds=QUIET):
    """Has clients ask until all is asked, or nothing more of it is taken for a while."""
    last = time.monotonic()
    while any(client.left for client in clients) and time.monotonic() < last + seconds:
        # All of them have to be tried.
        if any([client.send() for client in clients if client.left]):
            last = time.monotonic()
        time.sleep(0.001)
    time.sleep(seconds)


def stops_itself_alone(lab, nodes, source):
    """Two clients of a node ask while its source stands still, and read nothing. A write of another that is asked then is carried out once
    the source goes on; further ones take what they take elsewhere, and the node doesn't keep all the answers."""
    with source.session() as session:
        for number in range(LONG_ROWS):
            session.transact("net", insert(name=f"{number:04}" + "x" * LONG))
    node, pair = nodes[0], Pair(*nodes)
    pair.is_undisturbed(f"{node.name}, before")
    before = node.child.kilobytes()
    clients = [Asking(node) for _ in range(2)]
    what = f"{node.name}, beside two clients that ask {ASKED:,} times and read nothing"
    os.kill(source.child.served_by, signal.SIGSTOP)
    ask_on(clients)
    asked = pair.writers[0].request("transact", "net", insert(name="asked meanwhile"))
    time.sleep(QUIET)
    os.kill(source.child.served_by, signal.SIGCONT)
    carried_out(lambda: pair.writers[0].reply(asked), what)
    ask_on(clients)
    pair.is_undisturbed(what)
    grown = node.child.kilobytes() - before
    holds(grown < MOST_GROWTH, f"{what}: it grew by {grown:,} kilobytes")


@check(280)
def a_client_that_asks_and_never_reads_at_a_relay(lab):
    """Beside clients of a relay that ask thousands of times and read nothing another's small write takes what it takes elsewhere."""
    source = lab.source()
    stops_itself_alone(lab, [lab.relay([source], name=name).with_source() for name in ("relay", "other")], source)


@check(280)
def a_client_that_asks_and_never_reads_at_a_source(lab):
    """Beside clients of a source that ask thousands of times and read nothing another's small write takes what it takes elsewhere."""
    sources = [lab.source(), lab.source()]
    stops_itself_alone(lab, sources, sources[0])


# The names of locks.


def names_of(place, number=NAMES):
    return [f"n{place}_{one}" for one in range(number)]


def ask_for(session, names, seconds=60):
    """Asks for locks of these names at once, and gives what is answered for each: the result, or the error of a refusal."""
    numbers = [session.request("lock", name) for name in names]
    begun = time.monotonic()
    left = hear_all([session], lambda one: numbers[-1] in one.replies, seconds)
    holds(not left, f"{len(session.replies):,} of {len(names):,} names are answered after {time.monotonic() - begun:.0f} seconds")
    replies = [session.replies.pop(number) for number in numbers]
    return {name: reply["result"] if reply["error"] is None else reply["error"] for name, reply in zip(names, replies)}


def owns(session, names):
    """Waits until a session of a relay was told that it owns these locks."""
    wanted = {("locked", name) for name in names}
    found = set()
    while found != wanted:
        method, params = session.notice()
        found.add((method, params[0]))
    return True


@check(240)
def names_of_a_session(lab):
    """A session may ask for 1,024 names of locks; the next is refused, until one is unlocked; and all are free once it has ended."""
    for node in lab.tier():
        names = names_of(node.name)
        with node.session() as session:
            equal(set(map(repr, ask_for(session, names).values())), {repr({"locked": node.name == "source"})}, f"{node.name}: what is answered to lock")
            if node.name == "relay":
                owns(session, names)
            for method in ("lock", "steal"):
                equal(refusal(session, method, "next"), "too many requests", f"{node.name}: {method} of the next name")
            equal(refusal(session, "unlock", "next"), "never asked", f"{node.name}: unlock of the name that was refused")
            with node.session() as other:
                equal(refusal(other, "lock", "next"), None, f"{node.name}: another session's lock of that name")
                other.ask("unlock", "next")
            session.ask("unlock", names[0])
            equal(refusal(session, "lock", "next"), None, f"{node.name}: the next name once another is unlocked")
            equal(refusal(session, "lock", names[0]), "too many requests", f"{node.name}: and the name that was unlocked")
        with node.session() as other:
            for name in (names[1], names[-1], "next"):
                if other.ask("lock", name) != {"locked": True}:
                    equal(other.notice(), ("locked", [name]), f"{node.name}: {name} once its owner has left")


def names_beside(nodes, clients):
    """A write beside a session that asks for far more names than it may have, and then beside so many with as many as they may have."""
    pair, node = Pair(*nodes), nodes[0]
    pair.is_undisturbed(f"{node.name}, before")
    answers = ask_for(node.session(), names_of("many", ASKED_NAMES)).values()
    pair.is_undisturbed(f"{node.name}, beside a session that was given {sum('locked' in answer for answer in answers):,} names of {ASKED_NAMES:,}")
    for place in range(1, clients):
        ask_for(node.session(), names_of(place))
    pair.is_undisturbed(f"{node.name}, beside {clients} sessions with {NAMES:,} names of locks each")


@check(280)
def clients_with_many_names_at_a_source(lab):
    """Beside sessions of a source with as many names of locks as they may have another's small write takes what it takes elsewhere."""
    names_beside([lab.source(), lab.source()], CLIENTS)


@check(280)
def clients_with_many_names_at_a_relay(lab):
    """Beside sessions of a relay with as many names of locks as they may have another's small write takes what it takes elsewhere."""
    names_beside([lab.tier()[1], lab.tier()[1]], CLIENTS)


@check(240)
def names_of_a_relay(lab):
    """A relay is one session of its source, which gives it 1,024 names: past them locks wait and steals are refused, and nobody else is disturbed."""
    _, relay = lab.tier()
    names = names_of(0, 3 * NAMES // 4)
    first = relay.session()
    ask_for(first, names)
    owns(first, names)
    ask_for(relay.session(), names_of(1, 3 * NAMES // 4))
    writer = relay.session()
    for number in range(3):
        carried_out(lambda number=number: writer.transact("net", insert(name=f"row{number}")), "relay, once its source refuses it more names")
    equal(refusal(writer, "steal", "z"), "too many requests", "a steal of a further name")
    waiting = relay.session()
    equal(waiting.ask("lock", "z"), {"locked": False}, "a lock of that name")
    equal(refusal(writer, "steal", "z"), "too many requests", "a steal of that name while another session waits for it")
    equal(first.ask("unlock", names[0]), {}, "what is answered to who owns its lock still")
    equal(writer.ask("lock", "z"), {"locked": False}, "a lock of that name by who was refused, once another is unlocked")
    equal(waiting.notice(), ("locked", ["z"]), "who waits for it, now that it was asked for again")
    equal(waiting.ask("unlock", "z"), {}, "what is answered to who owns it")
    equal(writer.notice(), ("locked", ["z"]), "who asked for it after that")
