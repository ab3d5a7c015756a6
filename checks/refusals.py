"""Memory that is refused: what a node says while it is, and what the commands for scripts make of each refusal."""
import json
import os
import time

from client import hear_all
from data import FIRST_ID, NET, insert, select
from harness import check, equal, holds
from memory import Memory
from processes import wait_until
from scripts import INSERT, MODIFY, link, script

LIMIT = 1 << 20
LONG = 100_000
# So many rows of LONG bytes are said within the limit, and so many aren't.
FEW, MANY = 7, 12
TICKS_A_SECOND = os.sysconf("SC_CLK_TCK")
SECONDS = 3
# What a program that is refused memory may take of each second of a processor, and how often a second it may ask again for each session
# that waits. One that asks without a pause takes most of a processor, and asks some thousand times a second.
MOST_OF_A_SECOND = 0.3
MOST_TRIES = 300
WAITING = 3
ANSWERS = 15
REFUSED_AT_ONCE = 3
MOST_CALLS_AT_AN_END = 1_000
BY_NAME = select([["name", "!=", ""]], columns=["name"])


def with_rows(lab, memory, rows, is_relay):
    """A source, or a relay behind one, with so many long rows, which is refused calls for more than the limit from now on."""
    source = lab.source(environment=None if is_relay else memory.environment)
    node = lab.relay([source], environment=memory.environment).with_source() if is_relay else source
    # It stays, so that the node's files can be counted.
    session = node.session()
    for number in range(rows):
        session.transact("net", insert(name=f"{number:04}" + "x" * LONG))
    wait_until(lambda: len(session.transact("net", select(columns=["_uuid"]))[0]["rows"]) == rows, 20, f"the {node.name} shows all rows")
    memory.forget()
    memory.refuse_above(LIMIT)
    return node


def asked(number):
    return json.dumps({"id": number, "method": "transact", "params": ["net", BY_NAME]}).encode()


def rows_of(result):
    return len(result[0]["rows"])


def measured(node, memory, seconds=SECONDS):
    """How much of a processor the node takes, and how many of its calls for memory are refused in a second."""
    ticks, refused, begun = node.child.ticks(), memory.rules.refused, time.monotonic()
    time.sleep(seconds)
    seconds = time.monotonic() - begun
    return (node.child.ticks() - ticks) / TICKS_A_SECOND / seconds, (memory.rules.refused - refused) / seconds


def two_answers(lab, is_relay):
    """Two selects in one piece, each of whose answers alone can be said: both are answered."""
    memory = Memory(lab)
    node = with_rows(lab, memory, FEW, is_relay)
    with node.session() as session:
        equal(rows_of(session.transact("net", BY_NAME)), FEW, f"{node.name}: one select alone")
    with node.session() as session, node.session() as other:
        session.send_bytes(asked(1) + asked(2))
        left = hear_all([session], lambda one: len(one.replies) == 2, ANSWERS)
        equal(other.ask("echo", 1), [1], f"{node.name}: another session")
        if left:
            part, tries = measured(node, memory)
            told = f"{len(session.replies)} of 2 selects are answered; {part:.2f} of a processor is taken, and {tries:,.0f} calls a second are refused"
            raise AssertionError(f"{node.name}: {told}; {memory.told()}")
        equal([rows_of(session.reply(number)) for number in (1, 2)], [FEW, FEW], f"{node.name}: the rows of both answers")


def waiting(node, memory, number):
    """So many sessions that ask for an answer for which there is no memory, each in a slot of a worker."""
    before = node.child.open_files()
    sessions = [node.session() for _ in range(number)]
    for session in sessions:
        session.send_bytes(asked(1))
    wait_until(lambda: node.child.open_files() == before + number and memory.rules.refused >= number, 20, f"{node.name}: memory is refused")
    return sessions


def one_that_is_too_long(lab, is_relay):
    """An answer for which there is no memory costs no processor, and nobody else; with memory again it comes."""
    memory = Memory(lab)
    node = with_rows(lab, memory, MANY, is_relay)
    other = node.session()
    other.ask("echo", 0)
    before = node.child.open_files()
    stays, leaves, _ = waiting(node, memory, WAITING)
    part, tries = measured(node, memory)
    told = f"{node.name}: {part:.2f} of a processor is taken, and {tries:,.0f} calls a second are refused; {memory.told()}"
    holds(part < MOST_OF_A_SECOND and tries < MOST_TRIES * WAITING, told)
    equal(other.transact("net", select([["name", "==", ""]])), [{"rows": []}], f"{node.name}: another session's select")
    holds(stays.is_quiet(0.1), f"{node.name}: an answer came although memory was refused")
    # Who closes may still read, for all that the node knows; so its session may wait for memory, too.
    leaves.close()
    memory.give_all()
    stays.send_bytes(json.dumps({"id": 2, "method": "echo", "params": []}).encode())
    equal(rows_of(stays.reply(1)), MANY, f"{node.name}: the answer once there is memory")
    equal(stays.reply(2), [], f"{node.name}: the echo behind it")
    wait_until(lambda: node.child.open_files() == before + WAITING - 1, 20, f"{node.name}: the session whose client has closed is over")


@check(240)
def a_client_that_breaks_off(lab):
    """A session that waits for memory and whose client has broken off ends once there is memory, at a source and at a relay."""
    for is_relay in (False, True):
        memory = Memory(lab)
        node = with_rows(lab, memory, MANY, is_relay)
        before = node.child.open_files()
        sessions = waiting(node, memory, WAITING)
        for session in sessions:
            session.reset()
        memory.give_all()
        try:
            wait_until(lambda: node.child.open_files() == before, 10, "the sessions that were broken off are over")
        except AssertionError as fault:
            left = node.child.open_files() - before
            raise AssertionError(f"{node.name}: {left} of {WAITING} sessions that were broken off are still there; {memory.told()}") from fault


@check(240)
def answers_with_little_memory(lab):
    """At a source that is refused memory for a second long answer the first is written, and then the second."""
    two_answers(lab, False)


@check(240)
def answers_of_a_relay_with_little_memory(lab):
    """At a relay that is refused memory for a second long answer the first is written, and then the second."""
    two_answers(lab, True)


@check(240)
def an_answer_without_memory(lab):
    """A source that has no memory for an answer takes no processor meanwhile, and answers once there is memory."""
    one_that_is_too_long(lab, False)


@check(240)
def an_answer_of_a_relay_without_memory(lab):
    """A relay that has no memory for an answer takes no processor meanwhile, and answers once there is memory."""
    one_that_is_too_long(lab, True)


def at_its_end(lab, node_of):
    """A node is refused a few calls for memory from where its end begins, later ones in each run, until it makes none that is refused."""
    for first in range(1, MOST_CALLS_AT_AN_END, REFUSED_AT_ONCE):
        memory = Memory(lab)
        node, others = node_of(memory.environment)
        with node.session() as session:
            session.transact("net", insert(name="p"))
            wait_until(lambda: len(session.transact("net", select())[0]["rows"]) == 1, 20, f"the {node.name} shows the row")
            memory.forget()
            memory.refuse_calls(first, first + REFUSED_AT_ONCE - 1)
            for other in others:
                other.stop()
        what = f"the {node.name}'s status and output, where its calls for memory from number {first} on are refused"
        equal(node.end(), (0, f"head {FIRST_ID}\nlinks 1 chain 1 parked 0\n"), what)
        if memory.rules.refused == 0:
            holds(first > 1, f"no call for memory of the {node.name} was refused at its end")
            return
    raise AssertionError(f"after {first} calls the {node.name} still asks for memory: {memory.told()}")


@check(240)
def want_of_memory_at_the_end_of_a_source(lab):
    """Calls for memory that are refused at the end of a source lose no closing line."""

    def source_of(environment):
        return lab.source("--accepts", "1", environment=environment), []

    at_its_end(lab, source_of)


@check(240)
def want_of_memory_at_the_end_of_a_relay(lab):
    """Calls for memory that are refused at the end of a relay lose no closing line."""

    def relay_of(environment):
        source = lab.source()
        return lab.relay([source], "--accepts", "1", "--tries", "1", environment=environment).with_source(), [source]

    at_its_end(lab, relay_of)


def each_refused(lab, *words, text):
    """Each call for memory of a run refused in turn, one in each run: it ends as it does with memory, or says that there was none."""
    memory = Memory(lab)
    ample = lab.run(*words, text=text, environment=memory.environment)
    calls = memory.rules.calls
    equal((ample[0], ample[2]), (0, ""), f"{words} with all the memory that it asks for")
    refused = 0
    for number in range(1, calls + 1):
        memory.forget()
        memory.refuse_calls(number)
        ran = lab.run(*words, text=text, environment=memory.environment)
        equal(memory.rules.refused, 1, f"{words}: how many calls were refused in run {number} of {calls}")
        is_told = ran[0] == 3 and ample[1].startswith(ran[1]) and ran[2] == "ovs_relay: out of memory\n"
        holds(is_told or ran == ample, f"{words} with call {number} of {calls} refused: {ran!r}")
        refused += is_told
    holds(refused > calls // 2, f"{words}: only {refused} of {calls} refusals were told")


@check(240)
def each_call_of_fold(lab):
    """`fold`, each of whose calls for memory is refused in turn, says that memory gave out, and what it printed is a beginning."""
    each_refused(lab, "fold", text=script(NET, link(2, MODIFY), link(1, INSERT), link(3, {})))


@check(240)
def each_call_of_world(lab):
    """`world`, each of whose calls for memory is refused in turn, says that memory gave out, and what it printed is a beginning."""
    commit = ["commit", FIRST_ID, [insert(name="p1", tags=["set", [2, 1]])]]
    each_refused(lab, "world", text=script(NET, 1, commit, ["connect", 1, 0], ["deliver", 1, 10_000], ["read", 1, [select()]]))
