"""Devices that pass nothing for good, and memory of which nothing is given any more, or too little: scripts end, nodes wait without a processor and serve
who can be served, and go on once it is over."""
import errno
import json
import threading

from client import Closed, hear_all
from commands import is_one_line
from data import FIRST_ID, NET, ZEROS, insert, nth, select
from harness import check, equal, holds
from hostile import ANSWERS, LINKS, STEP, TALE, begun
from memory import ALL as EACH
from memory import READ, RECEIVE, SEND, WRITE, Memory
from processes import PATIENCE, free_port, wait_until
from refusals import MOST_OF_A_SECOND, MOST_TRIES, measured
from scripts import INSERT, MODIFY, link, script

# What a call of a device may answer of which nothing has passed, and which isn't a failure; of a socket that it has timed out is one.
PASSING = (errno.EINTR, errno.EAGAIN, errno.ETIMEDOUT)
SOCKET_PASSING = (errno.EINTR, errno.EAGAIN)
MOST_CALLS = 1_000_000
# So often a script's device may pass nothing, and then pass on.
A_WHILE = 1_000
INPUT, OUTPUT = 0, 1
# So many sessions come that each worker has some.
CAME = 16
CLIENTS = 12
# So long is a message for which there is no memory, where calls for more than so many bytes are refused: while it is read, or once it is.
LONG, SHORT = 4 << 20, (1 << 20, 5 << 20)
WAITS = 30


# Scripts.


def from_call_on(lab, command, text, kind, file):
    """A script of whose calls of one device all pass nothing from one on, a later one in each run: it ends within its calls, with status 3 and a
    beginning. Where they pass on after a while it does as ever."""
    devices, path = Memory(lab), lab.path("script", text)

    def ran(error, first, last):
        devices.forget()
        devices.fail_calls(kind, error, first, last, file)
        # A pipe passes what is there by then; a file passes all that it is asked for, so that each run has the same calls.
        with open(path, "rb") as stdin:
            return lab.run(command, stdin=stdin, environment=devices.environment)

    ample = ran(0, EACH, EACH)
    calls = devices.rules.passed
    equal((ample[0], ample[2]), (0, ""), f"{command} with devices that pass all")
    for number in range(1, calls + 1):
        for error in PASSING:
            what = f"{command}, {errno.errorcode[error]} from call {number} of {calls} of file {file} on"
            status, out, told = ran(error, number, EACH)
            holds(status == 3 and ample[1].startswith(out) and is_one_line(told), f"{what}: {status}, {out!r}, {told!r}")
            holds(A_WHILE < devices.rules.passed <= MOST_CALLS, f"{what}: {devices.rules.passed:,} calls")
            equal(ran(error, number, number + A_WHILE - 1), ample, f"{what}, for {A_WHILE} calls")
            equal(devices.rules.failed, A_WHILE, f"{what}: how often nothing passed")
    return calls


@check(300)
def input_that_never_comes(lab):
    """`fold` and `world` whose input passes nothing from a call on end with status 3 and one line, after at most 1,000,000 calls."""
    return [from_call_on(lab, *run, READ, INPUT) for run in (LINKS, TALE)]


@check(300)
def output_that_is_never_taken(lab):
    """`fold` and `world` whose output takes nothing from a call on end with status 3, one line and a beginning, after at most 1,000,000 calls."""
    return [from_call_on(lab, *run, WRITE, OUTPUT) for run in (LINKS, TALE)]


@check(300)
def no_device_passes_anything(lab):
    """`fold`, `world` and a source none of whose files passes anything end with status 3, although they can't even say so."""
    devices = Memory(lab)
    for words, text in (([LINKS[0]], LINKS[1]), ([TALE[0]], TALE[1]), (lab.source_words(free_port())[1:], b"")):
        for error in PASSING:
            devices.forget()
            devices.fail_calls(READ | WRITE, error, 1, EACH)
            told = lab.run(*words, text=text, environment=devices.environment)
            equal(told, (3, "", ""), f"{words[0]}, {errno.errorcode[error]}")


# One session's device.


def is_served(node, others):
    """Whether those who have a session, and those who come, are answered."""
    for number, other in enumerate(others):
        equal(other.ask("echo", number), [number], f"{node.name}: another session")
    for number in range(CAME):
        with node.session() as session:
            equal(session.ask("echo", number), [number], f"{node.name}: a session that comes")


def one_that_passes_nothing(node, devices, kind, error):
    """One session of whose reads, or writes, none passes anything: the others are served, and it is answered once they pass and more comes."""
    what = f"{node.name}, {'reads' if kind == RECEIVE else 'writes'} that answer {errno.errorcode[error]}"
    with node.session() as session, node.session() as other:
        for one in (session, other):
            one.ask("echo", 0)
        devices.forget()
        devices.fail_calls(kind, error, 1, EACH, node.child.file_of(session.socket.getsockname()[1]))
        first = session.request("echo", "first")
        wait_until(lambda: devices.rules.failed > 0, ANSWERS, f"{what}: a call that passes nothing")
        is_served(node, [other])
        # A read that was interrupted is made again at once: so it takes the processor that it is given.
        if (kind, error) != (RECEIVE, errno.EINTR):
            part, _ = measured(node, devices, 1)
            holds(part < MOST_OF_A_SECOND, f"{what}: {part:.2f} of a processor is taken")
        holds(session.is_quiet(0.1), f"{what}: an answer came")
        devices.fail_none()
        # A call that passes nothing has the node wait until the system tells that something passes.
        second = session.request("echo", "second")
        equal([session.reply(number) for number in (first, second)], [["first"], ["second"]], f"{what}: the answers once they pass")


def each_that_passes_nothing(node, devices):
    for kind in (RECEIVE, SEND):
        for error in SOCKET_PASSING:
            one_that_passes_nothing(node, devices, kind, error)


@check(300)
def a_session_of_a_source_that_passes_nothing(lab):
    """A session of a source whose reads or writes pass nothing for good stops nobody else, takes no processor but to read again where it is
    interrupted, and is answered once they pass."""
    devices = Memory(lab)
    each_that_passes_nothing(lab.source(environment=devices.environment), devices)


@check(300)
def a_session_of_a_relay_that_passes_nothing(lab):
    """A session of a relay whose reads or writes pass nothing for good stops nobody else, takes no processor but to read again where it is
    interrupted, and is answered once they pass."""
    devices = Memory(lab)
    each_that_passes_nothing(lab.relay([lab.source()], environment=devices.environment).with_source(), devices)


@check(300)
def an_upstream_that_passes_nothing(lab):
    """A relay whose reads from its source, or writes to it, pass nothing for good serves its readers, and is answered by its source once they pass."""
    devices = Memory(lab)
    source = lab.source()
    relay = lab.relay([source], environment=devices.environment).with_source()
    with relay.session() as session:
        session.ask("echo", 0)
        for kind in (RECEIVE, SEND):
            for error in SOCKET_PASSING:
                what = f"{'reads' if kind == RECEIVE else 'writes'} that answer {errno.errorcode[error]}"
                devices.forget()
                devices.fail_calls(kind, error, 1, EACH, relay.child.file_of(source.port))
                first = session.request("transact", "net", insert(name=what))
                with relay.session() as other:
                    wait_until(lambda: devices.rules.failed > 0, ANSWERS, f"{what}: a call that passes nothing")
                    is_served(relay, [other])
                devices.fail_none()
                with relay.session() as other:
                    equal(other.transact("net", {"op": "abort"})[0]["error"], "aborted", f"{what}: the source's answer once they pass")
                equal(session.reply(first)[0]["uuid"][0], "uuid", f"{what}: the answer to what was asked before")


def one_that_times_out(node, devices):
    """A session whose connection the system gives up, since its client answers no more, ends: its lock is given to the next."""
    with node.session() as gone, begun(node) as following:
        if not gone.ask("lock", "l")["locked"]:
            equal(gone.notice(), ("locked", ["l"]), f"{node.name}: what the lock's owner is told")
        equal(following.ask("lock", "l"), {"locked": False}, f"{node.name}: a lock that another owns")
        devices.forget()
        devices.fail_calls(RECEIVE, errno.ETIMEDOUT, 1, 1, node.child.file_of(gone.socket.getsockname()[1]))
        gone.close()
        equal(following.notice(), ("locked", ["l"]), f"{node.name}: what the next owner is told")
        equal(devices.rules.failed, 1, f"{node.name}: reads that failed")
        devices.fail_none()


@check(240)
def a_session_that_times_out(lab):
    """A session of a source, or of a relay, whose read tells once that the connection has timed out ends, and its lock is given to the next."""
    devices = Memory(lab)
    one_that_times_out(lab.source(environment=devices.environment), devices)
    one_that_times_out(lab.relay([lab.source()], environment=devices.environment).with_source(), devices)


# Memory of which nothing is given.


# What a client asks in one piece: the node answers some itself, and the source the others. Each comes in its order, and not behind those of the other.
BY_NODE, BY_SOURCE = [1, 3, 5], [2, 4]


def asks(number):
    """An echo, an insert, a select, an insert and an echo, in one piece."""
    inserts = [("transact", "net", insert(name=f"p{number}", tags=tag)) for tag in (1, 2)]
    asked = (("echo", number), inserts[0], ("transact", "net", select([["name", "==", ""]])), inserts[1], ("echo", "end"))
    return b"".join(json.dumps({"id": place, "method": method, "params": params}).encode() for place, (method, *params) in enumerate(asked, 1))


class Waiting:
    """Sessions of a node that is given no memory any more: clients that ask, a monitor, and the owner of a lock and one who waits for it."""

    def __init__(self, node):
        self.node = node
        self.monitor, self.owner, self.next = begun(node), begun(node), begun(node)
        self.monitor.ask("monitor_cond_since", "net", "m", {"Port": [{"columns": ["name"]}]}, ZEROS)
        if not self.owner.ask("lock", "l")["locked"]:
            equal(self.owner.notice(), ("locked", ["l"]), f"{node.name}: what the lock's owner is told")
        equal(self.next.ask("lock", "l"), {"locked": False}, f"{node.name}: a lock that another owns")
        self.clients = [begun(node) for _ in range(CLIENTS)]

    def ask(self):
        for number, client in enumerate(self.clients):
            client.send_bytes(asks(number))
        self.owner.close()

    def are_quiet(self):
        for session in (self.monitor, self.next, *self.clients):
            try:
                holds(session.is_quiet(0.02), f"{self.node.name}: something is said without memory")
            except Closed as closed:
                raise AssertionError(f"{self.node.name}: a session is closed for want of memory") from closed

    def are_answered(self, commits):
        """Each is answered all that it asked, in order, and told of so many commits, each once and in order."""
        left = hear_all(self.clients, lambda client: len(client.replies) == len(BY_NODE + BY_SOURCE), ANSWERS)
        holds(not left, f"{self.node.name}: {len(left)} of {CLIENTS} clients aren't answered all")
        for number, client in enumerate(self.clients):
            order = list(client.replies)
            equal([[place for place in order if place in some] for some in (BY_NODE, BY_SOURCE)], [BY_NODE, BY_SOURCE], f"{self.node.name}: the order of the replies")
            equal([client.reply(place) for place in BY_NODE], [[number], [{"rows": []}], ["end"]], f"{self.node.name}: the node's replies")
            for tag, place in enumerate(BY_SOURCE, 1):
                row = client.transact("net", select([["_uuid", "==", client.reply(place)[0]["uuid"]]], columns=["name", "tags"]))
                equal(row, [{"rows": [{"name": f"p{number}", "tags": tag}]}], f"{self.node.name}: a row that was inserted")
        equal(self.next.notice(), ("locked", ["l"]), f"{self.node.name}: what the next owner of the lock is told")
        told = [self.monitor.notice() for _ in range(commits)]
        equal([params[1] for _, params in told], [nth(FIRST_ID, number) for number in range(1, commits + 1)], f"{self.node.name}: the commits that are told")


def is_let_go_or_answered(session):
    """One who comes while there is no memory is let go, or answered once there is; he isn't left waiting."""
    try:
        equal(session.reply(1), ["late"], "the answer to one who came without memory")
    except Closed:
        pass


def without_memory(node, memory, meanwhile):
    """A node that is given no memory from a moment on, and all of it later."""
    waiting = Waiting(node)
    memory.forget()
    memory.refuse_above(0)
    waiting.ask()
    late = node.session()
    late.send_bytes(json.dumps({"id": 1, "method": "echo", "params": ["late"]}).encode())
    done = meanwhile()
    wait_until(lambda: memory.rules.refused > CLIENTS, ANSWERS, f"{node.name}: memory is refused")
    part, tries = measured(node, memory, 1)
    told = f"{node.name}: {part:.2f} of a processor is taken, and {tries:,.0f} calls a second are refused; {memory.told()}"
    holds(part < MOST_OF_A_SECOND and tries < MOST_TRIES * CLIENTS, told)
    waiting.are_quiet()
    # A call is counted before it is refused, and may be looked at in between.
    wait_until(lambda: memory.rules.refused == memory.rules.calls, ANSWERS, f"{node.name}: each call for memory is refused")
    memory.give_all()
    waiting.are_answered(CLIENTS * len(BY_SOURCE) + done)
    is_let_go_or_answered(late)
    holds(node.child.is_running(), f"the {node.name} has ended")


@check(240)
def a_source_without_memory(lab):
    """A source that is given no memory any more closes none of its sessions, takes no processor, and answers all that was asked, in order, once there
    is memory; a lock whose owner left is given to the next."""
    memory = Memory(lab)
    without_memory(lab.source(environment=memory.environment), memory, lambda: 0)


@check(240)
def a_relay_without_memory(lab):
    """A relay that is given no memory any more closes none of its sessions, keeps its source, takes no processor, and answers all that was asked, in
    order, once there is memory; what its source committed meanwhile is shown."""
    memory = Memory(lab)
    source = lab.source()
    relay = lab.relay([source], environment=memory.environment).with_source()

    def meanwhile():
        with source.session() as writer:
            writer.transact("net", insert(name="meanwhile"))
        return 1

    without_memory(relay, memory, meanwhile)


def from_refusal_on(lab, command, text):
    """A script that is given no memory from one of its calls on, another in each run: it says so with status 3, behind a beginning."""
    memory = Memory(lab)
    ample = lab.run(command, text=text, environment=memory.environment)
    calls = memory.rules.calls
    equal((ample[0], ample[2]), (0, ""), f"{command} with all the memory that it asks for")
    for number in range(1, calls + 1, STEP):
        memory.forget()
        memory.refuse_calls(number, EACH)
        status, out, told = lab.run(command, text=text, environment=memory.environment)
        holds(memory.rules.refused > 0, f"{command}: no call is refused from call {number} of {calls} on")
        is_told = status == 3 and ample[1].startswith(out) and told == "ovs_relay: out of memory\n"
        # Some calls are for what a run does without.
        holds(is_told or (status, out, told) == ample, f"{command} without memory from call {number} of {calls} on: {status}, {out!r}, {told!r}")
    return calls


@check(240)
def scripts_without_memory(lab):
    """`fold` and `world` that are given no memory from a call on say so with status 3, and what they printed is a beginning."""
    links = script(NET, link(2, MODIFY), link(1, INSERT), link(3, {}))
    return [from_refusal_on(lab, "fold", links), from_refusal_on(lab, *TALE)]


# Memory for what is short alone.


def takes_little(node, memory, what):
    part, tries = measured(node, memory, 1)
    holds(part < MOST_OF_A_SECOND and tries < MOST_TRIES, f"{what}: {part:.2f} of a processor is taken, and {tries:,.0f} calls a second are refused; {memory.told()}")


def a_long_message(node, memory, above):
    """A client's message that is too long for a node's memory, while others are served, and with memory again."""
    what = f"{node.name} that is refused calls for more than {above:,} bytes"
    with node.session(WAITS) as session, node.session() as other:
        for one in (session, other):
            one.ask("echo", 0)
        memory.forget()
        memory.refuse_above(above)
        # More than the node reads doesn't go out before it is read.
        sends = threading.Thread(target=lambda: session.request("transact", "net", insert(name="x" * LONG)), daemon=True)
        sends.start()
        wait_until(lambda: memory.rules.refused > 0, ANSWERS, f"{what}: memory is refused")
        takes_little(node, memory, what)
        is_served(node, [other])
        memory.give_all()
        sends.join(WAITS * PATIENCE)
        equal(session.reply(session.number)[0]["uuid"][0], "uuid", f"{what}: the answer once there is memory")


@check(240)
def messages_for_which_there_is_no_memory(lab):
    """A client's message for which a source, or a relay, has no memory stops nobody else, takes no processor, and is answered once there is memory."""
    for is_relay in (False, True):
        memory = Memory(lab)
        source = lab.source(environment=None if is_relay else memory.environment)
        node = lab.relay([source], environment=memory.environment).with_source() if is_relay else source
        for above in SHORT:
            a_long_message(node, memory, above)


@check(240)
def commits_for_which_a_relay_has_no_memory(lab):
    """A commit for which a relay has no memory holds up none of its readers, takes no processor, and is shown once there is memory, with those behind it."""
    for above in SHORT:
        memory, source = Memory(lab), lab.source()
        relay = lab.relay([source], environment=memory.environment).with_source()
        with relay.session() as reader, source.session() as writer:
            reader.ask("echo", 0)
            memory.forget()
            memory.refuse_above(above)
            writer.transact("net", insert(name="x" * LONG))
            writer.transact("net", insert(name="behind"))
            wait_until(lambda: memory.rules.refused > 0, ANSWERS, "memory is refused")
            takes_little(relay, memory, f"a relay that is refused calls for more than {above:,} bytes")
            is_served(relay, [reader])
            equal(reader.transact("net", select(columns=["_version"])), [{"rows": []}], "what a relay shows without memory")
            memory.give_all()
            versions = [["uuid", nth(FIRST_ID, number)] for number in (1, 2)]
            wait_until(lambda: sorted(row["_version"] for row in reader.transact("net", select(columns=["_version"]))[0]["rows"]) == versions, ANSWERS, "the relay shows both commits")
