"""Each call for memory of a node that serves refused in turn, each read and write of it that fails or passes little, and input with each byte
cut or replaced: who asks rightly is answered as ever."""
import errno
import json
import os
import re
import socket

from client import Closed, Refused, refusal
from commands import is_one_line
from data import FIRST_ID, FIRST_ROW, NET, ZEROS, insert, nth, select
from harness import check, equal, holds
from memory import ALL as EACH
from memory import READ, RECEIVE, SEND, WRITE, Memory
from processes import wait_until
from scripts import INSERT, MODIFY, link, script
from upstream import Upstream, known, unknown

ID = re.compile(r"[0-9a-f]{8}-[0-9a-f]{4}-[0-9a-f]{4}-[0-9a-f]{4}-[0-9a-f]{12}")
MOST_CALLS = 5_000
# Of calls that are tried in turn each is, where OVS_WHOLE is set, and else one of so many.
STEP = 1 if os.environ.get("OVS_WHOLE") else 5
# The commits of a story.
COMMITS = 4
REPLACED_BY = (b'"', b"}", b"\0")
ANSWERS = 10
ALL = [["name", "!=", ""]]


def in_order(told):
    """What was told, with each id as the number of its first standing in it: stories that differ in their ids alone are equal."""
    names = {}
    return ID.sub(lambda found: names.setdefault(found.group(), f"id {len(names)}"), json.dumps(told, sort_keys=True))


class Lost(Exception):
    """The relay lost its source: locks are lost then, and what the client asked may have been done or not."""


def methods(session):
    """The notifications that have come, once what is at hand is taken in."""
    session.is_quiet(0.002)
    return [method for method, _ in session.notices]


def locked(session, name):
    """Asks for a lock, and waits until it is given: at once, or by a notification."""
    if not session.ask("lock", name)["locked"]:
        wait_until(lambda: "locked" in methods(session), ANSWERS, "the client is given its lock")


def begun(node):
    """A session that was answered once. A node without memory for it may let a connection go before it answers anything: then another."""
    for _ in range(3):
        session = node.session()
        try:
            session.ask("list_dbs")
            return session
        except Closed:
            session.close()
    raise AssertionError(f"the {node.name} lets each connection go")


def story(node):
    """What a client is answered and told that asks for everything once, and leaves the node's rows and locks as they were."""
    with begun(node) as session:
        told = [session.ask("get_schema", "net"), session.ask("echo", "a", 1)]
        told.append(session.ask("monitor_cond", "net", "m", {"Port": {"columns": ["name", "tags", "opts", "up"]}}))
        locked(session, "l")
        told.append(session.transact("net", insert(name="p", tags=["set", [1, 2]], opts=["map", [["k", "v"]]])))
        told.append(session.transact("net", select(ALL)))
        mutations = {"op": "mutate", "table": "Port", "where": ALL, "mutations": [["tags", "insert", 3]]}
        told.append(session.transact("net", {"op": "assert", "lock": "l"}, mutations))
        told.append(session.transact("net", {"op": "update", "table": "Port", "where": ALL, "row": {"up": True}}, select(ALL, columns=["name", "tags", "up"])))
        told.append(session.transact("net", {"op": "delete", "table": "Port", "where": ALL}))
        told.append(session.ask("unlock", "l"))
        wait_until(lambda: "stolen" in methods(session) or methods(session).count("update2") == COMMITS, ANSWERS, "the client is told of each commit")
        if "stolen" in methods(session):
            raise Lost
        # A notice of a lock may come before or behind any update.
        told += [session.ask("monitor_cancel", "m"), sorted(session.notices, key=lambda notice: notice[0])]
        for method, *params in (("transact", "no", select()), ("monitor_cancel", "m"), ("no",)):
            told.append(refusal(session, method, *params))
    return in_order(told)


def unless_lost(node):
    """The story, or None where the relay lost its source meanwhile."""
    try:
        return story(node)
    except Lost:
        return None
    except Refused as refused:
        equal(refused.args[0], {"error": "source lost"}, f"{node.name}: how a request is refused")
        return None


def begin_again(node):
    """The node's rows as they were before a story that broke off, once it has its source."""
    with node.with_source().session() as session:
        session.transact("net", {"op": "delete", "table": "Port", "where": ALL})


def in_turn(node, rules, disturb, disturbed, breaks):
    """A client's story in rounds, in each of which another call is disturbed, until none is: how many calls there are, and how many rounds broke
    off because the session did, which has to be one of `breaks`, or since the relay lost its source. Behind each the next client is answered and
    told as it is undisturbed."""
    ample, broken = story(node), 0
    for first in range(1, MOST_CALLS, STEP):
        rules.forget()
        disturb(first)
        try:
            told = unless_lost(node)
        except breaks:
            told = None
        is_last = disturbed() == 0
        rules.give_all()
        rules.fail_none()
        if told is None:
            broken += 1
            begin_again(node)
            told = story(node)
        equal(told, ample, f"{node.name}: what a client is told where call {first} is disturbed")
        if is_last:
            holds(node.child.is_running(), f"the {node.name} has ended")
            return first, broken
    raise AssertionError(f"after {MOST_CALLS} calls the {node.name} still makes such that are disturbed")


def each_call(lab, node_of):
    """A client's story, in which one call for memory is refused, another in each round: it is answered and told as it is with memory.

    A relay may lose its source for want of memory, and finds it again: then the next client is.
    """
    memory = Memory(lab)
    node = node_of(memory.environment)
    calls, lost = in_turn(node, memory, memory.refuse_calls, lambda: memory.rules.refused, ())
    holds(calls > 100, f"the story of a {node.name} has {calls} calls for memory")
    holds(lost < calls / STEP / 3, f"of {calls // STEP} calls that were refused {lost} lost the source")
    return calls, lost


@check(300)
def each_call_of_a_source(lab):
    """A source that is refused one call for memory, another in each round, answers and tells a client the same."""
    return each_call(lab, lambda environment: lab.source(environment=environment))


@check(300)
def each_call_of_a_relay(lab):
    """A relay that is refused one call for memory, another in each round, answers and tells a client the same."""
    return each_call(lab, lambda environment: lab.relay([lab.source()], environment=environment).with_source())


def breaking(lab, node_of):
    """A client's story, in which one read or write of a socket fails, another in each round: its session breaks, or the relay loses its source;
    the next client is answered and told as ever, and has the lock."""
    devices = Memory(lab)
    node = node_of(devices.environment)
    calls, broken = in_turn(node, devices, lambda first: devices.fail_calls(RECEIVE | SEND, errno.ECONNRESET, first), lambda: devices.rules.failed, Closed)
    holds(calls > 20, f"the story of a {node.name} has {calls} reads and writes")
    holds(broken > calls / STEP / 4, f"of {calls // STEP} reads and writes that failed {broken} broke something")
    return calls, broken


@check(300)
def breaking_at_a_source(lab):
    """A source one of whose reads and writes of sockets fails ends that session alone, and its lock is free."""
    return breaking(lab, lambda environment: lab.source(environment=environment))


@check(300)
def breaking_at_a_relay(lab):
    """A relay one of whose reads and writes of sockets fails ends that session alone, or finds its source again."""
    return breaking(lab, lambda environment: lab.relay([lab.source()], environment=environment).with_source())


TALE = ("world", script(NET, 1, ["commit", nth(FIRST_ID, 1), [insert(name="p")]], ["connect", 1, 0], ["deliver", 1, 10_000], ["read", 1, [select()]]))
LINKS = ("fold", script(NET, link(2, MODIFY), link(1, INSERT), *(link(number, {}) for number in range(3, 2_000))))


def each_device_call(lab, command, text):
    """Each read and write of a run that passes one byte alone, that is interrupted, or that fails, another in each run."""
    devices, path = Memory(lab), lab.path("script", text)

    def ran(error, first, last):
        devices.forget()
        devices.fail_calls(READ | WRITE, error, first, last)
        # A pipe passes what is there by then; a file passes all that it is asked for, so that each run has the same calls.
        with open(path, "rb") as stdin:
            return lab.run(command, stdin=stdin, environment=devices.environment)

    ample = ran(0, EACH, EACH)
    calls = devices.rules.passed
    equal((ample[0], ample[2]), (0, ""), f"{command} with devices that do as they are asked")
    for number in range(1, calls + 1):
        what = f"{command} where call {number} of {calls} of a device"
        for error, does in ((0, "passes a byte"), (errno.EINTR, "is interrupted")):
            equal(ran(error, number, number), ample, f"{what} {does}")
            equal(devices.rules.failed, 1, f"{what} {does}: how many calls")
        status, out, told = ran(errno.EIO, number, number)
        holds(status == 3 and ample[1].startswith(out) and is_one_line(told), f"{what} fails: {status}, {out!r}, {told!r}")
        equal(devices.rules.failed, 1, f"{what} fails: how many calls")
    equal(ran(0, 1, EACH), ample, f"{command} where each call of a device passes a byte")


@check(300)
def devices_of_fold(lab):
    """`fold`, of whose reads and writes each passes a byte, is interrupted or fails: it goes on, or ends with status 3 and a beginning."""
    each_device_call(lab, *LINKS)


@check(300)
def devices_of_world(lab):
    """`world`, of whose reads and writes each passes a byte, is interrupted or fails: it goes on, or ends with status 3 and a beginning."""
    each_device_call(lab, *TALE)


def variants(text):
    """The text cut before each of its bytes, and with each replaced; one of so many places where not all are tried."""
    for place in range(0, len(text), STEP):
        yield place, text[:place]
        for byte in REPLACED_BY:
            yield place, text[:place] + byte + text[place + 1 :]


def each_byte(lab, command, text):
    """Each variant of a script: what comes of the lines before is the same, and the run ends with status 0 or 1."""
    ample = lab.run(command, text=text)[1]
    tried = 0
    for place, variant in variants(text):
        status, out, told = lab.run(command, text=variant)
        # The first line, with the schema, and in a world the next, have no line of output.
        whole = text[:place].count(b"\n") - (1 if command == "fold" else 2)
        before = "".join(ample.splitlines(True)[: max(0, whole)])
        holds(status in (0, 1) and out.startswith(before) and told == "", f"{command} of a text that differs from byte {place} on: {status}, {out!r}, {told!r}; {variant!r}")
        tried += 1
    return tried


@check(300)
def bytes_of_links(lab):
    """A schema and links with each byte cut or replaced: `fold` tells of it with status 0 or 1, and of what comes before as ever."""
    return each_byte(lab, "fold", script(NET, link(1, INSERT), link(2, MODIFY)))


@check(300)
def bytes_of_events(lab):
    """A schema and events with each byte cut or replaced: `world` tells of it with status 0 or 1, and of what comes before as ever."""
    return each_byte(lab, *TALE)


# What the source commits, its results, and what of it a session tells: the first inserts a row, and the others modify it.
MODIFIES = ({"op": "update", "table": "Port", "where": [], "row": {"up": True}}, {"op": "mutate", "table": "Port", "where": [], "mutations": [["tags", "insert", 1]]})
DONE = [{"uuid": ["uuid", FIRST_ROW]}], [{"count": 1}], [{"count": 1}]
ALL_BYTES = 1_000_000


def cut_after(lab, length):
    """How many of three links a relay takes of a session that is cut behind so many bytes. The next session, from whose beginning on it goes
    on, brings it the rest, each link once."""
    commits = [["commit", nth(FIRST_ID, number), [done]] for number, done in enumerate((insert(name="p1"), *MODIFIES), 1)]
    events = [["connect", 1, 0], ["deliver", 1, length], ["cut", 1], ["connect", 1, 0], ["deliver", 2, ALL_BYTES]]
    status, out, told = lab.run("world", text=script(NET, 1, *commits, *events))
    took = next((number for number in range(4) if f"5 took {number} held 0\n" in out), None)
    holds(took is not None, f"world, cut behind {length} bytes: {status}, {out!r}, {told!r}")
    wanted = [f"{number} {json.dumps(done, separators=(',', ':'))}" for number, done in enumerate(DONE, 1)]
    wanted += ["4 session 1", f"5 took {took} held 0", "6 ok", "7 session 2", f"8 took {3 - took} held 0"]
    wanted += [f"node {node} head {nth(FIRST_ID, 3)} links 3 chain 3" for node in (0, 1)]
    equal((status, out, told), (0, "".join(line + "\n" for line in wanted), ""), f"world, cut behind {length} bytes")
    return took


def least(is_so, most):
    """The least number up to this one of which it is so, and of all above it."""
    below = -1
    while most - below > 1:
        middle = (below + most) // 2
        below, most = (below, middle) if is_so(middle) else (middle, most)
    return most


@check(300)
def sessions_cut_in_a_world(lab):
    """A session that is cut behind each of its bytes, in a world of its own: the relay takes the links whose messages are whole, the next session
    brings the others, and it ends with all three, none of which came twice."""
    ends = [least(lambda length, number=number: cut_after(lab, length) >= number, ALL_BYTES) for number in (1, 2, 3)]
    second = {"id": None, "method": "update3", "params": ["relay", nth(FIRST_ID, 2), {"Port": {FIRST_ROW: {"modify": {"up": True}}}}]}
    equal(ends[1] - ends[0], len(json.dumps(second, separators=(",", ":"))), "the bytes of the second commit's message")
    for length in (*range(0, ends[2], STEP), ends[2], ends[2] + 1):
        equal(cut_after(lab, length), sum(end <= length for end in ends), f"the links of the first {length} of {ends[2]} bytes")
    return ends


def bytes_of_requests(lab, node):
    """Requests with each byte cut or replaced, each by a session of its own: the node answers or closes it, and others go on."""
    asked = (
        ("transact", ["net", select(ALL, columns=["name"])]),
        ("monitor_cond_since", ["net", "m", {"Port": [{"columns": ["name"], "where": ALL}]}, ZEROS]),
        ("lock", ["l"]),
        ("echo", ["a"]),
    )
    requests = b"".join(json.dumps({"id": number, "method": method, "params": params}).encode() for number, (method, params) in enumerate(asked))
    tried = 0
    with node.session() as other:
        for _, variant in variants(requests):
            with node.session() as session:
                try:
                    session.send_bytes(variant)
                    session.socket.shutdown(socket.SHUT_WR)
                except (Closed, OSError):
                    pass
                holds(session.is_closed(ANSWERS), f"{node.name}: a session isn't closed behind {variant!r}")
                equal(other.ask("echo", tried), [tried], f"{node.name}: another client beside {variant!r}")
            tried += 1
    ample = story(node)
    equal(story(node), ample, f"{node.name}: a story after all")
    holds(node.child.is_running(), f"the {node.name} has ended")
    return tried


@check(300)
def bytes_of_requests_at_a_source(lab):
    """Requests with each byte cut or replaced: a source answers others, and its locks are free."""
    return bytes_of_requests(lab, lab.source())


@check(300)
def bytes_of_requests_at_a_relay(lab):
    """Requests with each byte cut or replaced: a relay answers others, and its locks are free."""
    return bytes_of_requests(lab, lab.relay([lab.source()]).with_source())


@check(300)
def bytes_of_an_upstream(lab):
    """Commits of an upstream with each byte cut or replaced, each over a connection of its own: the relay takes what is a commit, asks for what
    comes after it, serves its readers, and follows what is said rightly in the end."""

    def commit(number):
        """What an upstream says of a commit with an id, and a row, of its own."""
        change = {"Port": {nth(FIRST_ROW, number): {"insert": {"name": "p", "tags": ["set", [1, 2]]}}}}
        return json.dumps({"id": None, "method": "update3", "params": ["relay", nth(FIRST_ID, number), change]}).encode()

    def saying(number, place, byte):
        """One connection, over which a variant of the commit of this number is said."""

        def script(connection):
            connection.begin(unknown if connection.upstream.asked == [] else known)
            text = commit(number)
            connection.send_bytes(text[:place] + (byte + text[place + 1 :] if byte else b""))
            if byte:
                # What follows may end a text that was opened, or be a message of its own.
                connection.send_bytes(b'"}]}')

        return script

    def rightly(connection):
        connection.begin(known)
        connection.send_bytes(commit(number_after))
        connection.wait_closed()

    places = [(place, byte) for place in range(0, len(commit(1)), STEP) for byte in (None, *REPLACED_BY)]
    number_after = len(places) + 1
    scripts = [saying(number, place, byte) for number, (place, byte) in enumerate(places, 1)]
    upstream = lab.keep(Upstream(NET, *scripts, rightly))
    relay = lab.relay([upstream])
    last = nth(FIRST_ID, number_after)
    with relay.session() as session:
        wait_until(lambda: [row for row in session.transact("net", select())[0]["rows"] if row["_version"][1] == last], 200, "the relay shows the last commit")
    equal(upstream.faults, [], "the stand-in's faults")
    # It stands at ids that it was told, and never goes back.
    asked = upstream.asked
    holds(len(asked) == number_after and asked == sorted(asked), f"of {number_after} connections the relay asked for what comes after {asked[-10:]}")
    holds(set(asked) <= {ZEROS, *(nth(FIRST_ID, number) for number in range(1, number_after))}, "the relay asked for what comes after an id that nobody said")
    return len(asked), len(set(asked))
