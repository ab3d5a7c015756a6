"""A source that begins a new epoch after so many commits: who is connected is closed then, and comes again."""
import itertools
import time

from client import Closed, Refused, refusal
from data import FIRST_ID, NET, ZEROS, insert, nth, select
from harness import check, equal, holds
from mirror import Mirror, selected
from own_writes import NOWHERE, Count, all_good, inserted, told_rows
from processes import PATIENCE, free_port, wait_until
from upstream import Upstream, known, unknown

EVERY = 3
WRITES = 30
COMES_AGAIN = 20


def start(number):
    """The id where the epoch of this number begins."""
    return f"00000000-0000-0000-0000-{number:012x}"


def row_of(number):
    return f"00000000-0000-4000-8000-{number:012x}"


class Agent:
    """A client that follows the table Port by id, and comes again whenever it is closed."""

    def __init__(self, node):
        self.node, self.mirror, self.head = node, None, ZEROS
        self.closings = 0

    def come(self):
        """Comes, and asks for what comes after what it knows; what it is told of another epoch begins from no rows."""
        session = self.node.session()
        self.mirror = Mirror(session, NET, "Port", "monitor_cond_since", "m", {"columns": ["name", "_version"]}, self.head)
        holds(not self.mirror.found or self.head == self.mirror.head, f"{self.node.name}: found {self.mirror.found} at {self.mirror.head}, asked for {self.head}")

    def follow(self, is_done, seconds):
        """Takes what it is told, over as many connections as it needs, until `is_done(rows)`."""

        def has_all():
            try:
                if self.mirror is None:
                    self.come()
                while not is_done(self.mirror.rows):
                    self.mirror.take(0.2)
                    self.head = self.mirror.head
                return True
            except TimeoutError:
                return False
            except Closed:
                self.closings += 1
                # Who comes again without its rows asks for all of them.
                self.mirror, self.head = None, ZEROS
                return False

        wait_until(has_all, seconds, f"the agent at the {self.node.name} knows all")


class Writer:
    """A client with a monitor that writes rows, each once: where it is closed before the reply it comes again, and looks."""

    def __init__(self, node):
        self.node, self.session, self.rows = node, None, set()
        self.count = Count(node.name)
        self.closings = self.lost = 0

    def come(self):
        """Comes once the node can be asked."""

        def is_there():
            session = self.node.session()
            try:
                session.ask("monitor_cond_since", "net", "m", {"Port": {"columns": ["name"]}}, NOWHERE)
                return session
            except (Closed, OSError):
                return None

        self.session, self.rows = wait_until(is_there, COMES_AGAIN, f"the writer at the {self.node.name} comes again"), set()

    def has(self, name):
        """Whether the row is there, by whichever connection."""

        def found():
            try:
                return [len(self.session.transact("net", select([["name", "==", name]], columns=["name"]))[0]["rows"])]
            except Closed:
                self.closings += 1
                self.come()
                return None

        ((rows,),) = [wait_until(found, COMES_AGAIN, f"a select at the {self.node.name}")]
        holds(rows <= 1, f"{rows} rows are named {name}")
        return rows == 1

    def write(self, name):
        """Writes the row. A reply has to come behind the update; without one, the row is there, or is written again."""
        try:
            row = inserted(self.session.transact("net", insert(name=name)))
            self.rows |= told_rows(self.session)
            self.count.add(row in self.rows, True)
            return True
        except Refused as refused:
            # A relay whose source closes the connection can't tell what became of the transaction.
            equal(refused.args[0]["error"], "source lost", f"why the {self.node.name} refuses")
        except Closed:
            self.closings += 1
            self.come()
        self.lost += 1
        return False


def names_in(rows):
    return {row["name"][0] for row in rows.values()}


def write_one(writer, source, name):
    """Writes a row whose name begins so, and gives its name.

    One whose reply was lost is looked for at the source, where each stands that was committed. Where it isn't there it may still be on its
    way, so that the next one has another name.
    """
    names = (f"{name}.{number}" for number in itertools.count())

    def written():
        one = next(names)
        return one if writer.write(one) or source.has(one) else None

    return wait_until(written, COMES_AGAIN, f"the {writer.node.name} writes {name}")


def write_all(source, writers, agents, rounds):
    """All writers write in turn, and the agents are told all that was written; gives the names of the rows."""
    names = []
    for number in range(rounds):
        for place, writer in enumerate(writers):
            names.append(write_one(writer, source, f"p{place}-{number}"))
        for agent in agents:
            agent.follow(lambda rows: names_in(rows).issuperset(names), COMES_AGAIN)
    return names


def chain_of(lab, every, *words):
    """A source that begins an epoch after so many commits, a relay behind it, and a relay behind that, both with these words."""
    source = lab.source("--trim-every", str(every))
    relay = lab.relay([source], *words).with_source()
    return source, relay, lab.relay([relay], *words, name="second").with_source()


def rows_shown(node):
    with node.session() as session:
        return selected(session, "net", "Port", columns=["name", "tags", "opts", "up", "_version"])


def same_everywhere(nodes, names):
    """Waits until all nodes show the same rows with the same versions, among them those with these names. No two rows have one name."""

    def rows():
        try:
            found = [rows_shown(node) for node in nodes]
        except Closed:
            # The last epoch begins at this node while it is asked.
            return None
        return found[0] if all(one == found[0] for one in found) and names_in(found[0]).issuperset(names) else None

    found = wait_until(rows, COMES_AGAIN, "all nodes show the same rows")
    equal(len(names_in(found)), len(found), "how many names the rows have")
    return found


def all_come_again(lab, every, rounds, *words):
    """Writers and agents at a source and two relays in a row, with an epoch after so many commits: all end equal, and each write is told once."""
    nodes = chain_of(lab, every, *words)
    agents, writers = [Agent(node) for node in nodes], [Writer(node) for node in nodes]
    looks = Writer(nodes[0])
    for one in (*agents, *writers, looks):
        one.come()
    names = write_all(looks, writers, agents, rounds)
    all_good([writer.count for writer in writers])
    found = same_everywhere(nodes, names)
    wanted = {row: {"name": one["name"], "_version": one["_version"]} for row, one in found.items()}
    for agent in agents:
        agent.follow(lambda rows: rows == wanted, COMES_AGAIN)
    for one in (*agents, *writers):
        holds(one.closings > 0, f"a client at the {one.node.name} was never closed")
    return agents, writers


@check(300)
def writers_and_agents(lab):
    """With an epoch after each three commits writers and agents at a source and two relays in a row come again, and all end equal."""
    agents, writers = all_come_again(lab, EVERY, WRITES)
    for agent in agents:
        holds(agent.closings >= WRITES // 2, f"the agent at the {agent.node.name} was closed {agent.closings} times alone")
    for writer in writers:
        holds(writer.count.replies >= WRITES * 2 // 3, f"{writer.count.told()} replies at the {writer.node.name}")


@check(300)
def an_epoch_after_each_commit(lab):
    """With an epoch after each commit who writes one row after another is still answered, behind the update, and comes again each time."""
    _, writers = all_come_again(lab, 1, WRITES)
    for writer in writers:
        holds(writer.count.replies >= WRITES * 2 // 3, f"{writer.count.replies} of {WRITES} writes at the {writer.node.name} were replied to")


def watch(node, method, *since):
    """A session with a monitor of the names, and what it was answered."""
    session = node.session()
    return session, session.ask(method, "net", "m", {"Port": {"columns": ["name"]}}, *since)


@check(240)
def what_a_client_is_told(lab):
    """At a new epoch a client is closed. Who comes again with an older id is told the start and all rows by one commit, in every kind of monitor."""
    source = lab.source("--trim-every", "2")
    relay = lab.relay([source]).with_source()
    for node in (source, relay):
        session, told = watch(node, "monitor_cond_since", ZEROS)
        equal(told, [True, ZEROS, {}], f"{node.name}: the answer to the first monitor")
    writer = Writer(source)
    writer.come()
    for number in (1, 2):
        holds(writer.write(f"p{number}") or writer.has(f"p{number}"), f"row {number} is written")
    renewed = nth(FIRST_ID, 3)
    versions = {"rows": [{"name": f"p{number}", "_version": ["uuid", renewed]} for number in (1, 2)]}
    for node in (source, relay):
        wait_until(lambda node=node: now_shown(node) == [versions], COMES_AGAIN, f"{node.name}: all rows have the id of the commit that renewed them")
        inserts = {"Port": {row_of_name(node, f"p{number}"): {"insert": {"name": f"p{number}"}} for number in (1, 2)}}
        for asked in (nth(FIRST_ID, 1), nth(FIRST_ID, 2), ZEROS):
            session, told = watch(node, "monitor_cond_since", asked)
            equal(told, [False, start(1), {}], f"{node.name}: the answer to {asked}")
            equal(session.notice(), ("update3", ["m", renewed, inserts]), f"{node.name}: what is told then")
        session, told = watch(node, "monitor_cond_since", renewed)
        equal(told, [True, renewed, {}], f"{node.name}: the answer to the commit that renewed the rows")
        session, told = watch(node, "monitor_cond_since", start(1))
        equal(told, [True, start(1), {}], f"{node.name}: the answer to the start")
        equal(session.notice(), ("update3", ["m", renewed, inserts]), f"{node.name}: what is told behind the start")
        _, told = watch(node, "monitor_cond")
        equal(told, {"Port": {row: {"initial": change["insert"]} for row, change in inserts["Port"].items()}}, f"{node.name}: the answer to monitor_cond")


def now_shown(node):
    """The rows that the node shows; nothing where its next epoch begins while it is asked."""
    try:
        with node.session() as session:
            return session.transact("net", select(columns=["name", "_version"]))
    except Closed:
        return None


def row_of_name(node, name):
    with node.session() as session:
        return session.transact("net", select([["name", "==", name]], columns=["_uuid"]))[0]["rows"][0]["_uuid"][1]


def at_rest(source):
    """A session that is open still after a pause: who comes while the last epoch is still to be shown is closed by it."""

    def come():
        session = source.session()
        try:
            session.ask("echo")
            time.sleep(0.1 * PATIENCE)
            session.ask("echo")
            return session
        except (Closed, OSError):
            return None

    return wait_until(come, COMES_AGAIN, "the source can be asked")


def answered(source, name):
    """Whether one transaction, over a connection of its own, is answered."""
    with at_rest(source) as session:
        try:
            session.transact("net", insert(name=name))
            return True
        except Closed:
            return False


@check(240)
def replies_that_are_lost_with_their_sessions(lab):
    """Where transactions at once make one epoch begin on another, those that come one at a time after them are answered."""
    source = lab.source("--trim-every", "1")
    holds(all(answered(source, f"a{number}") for number in range(5)), "a transaction alone isn't answered")
    for attempt in range(3):
        sessions = [at_rest(source) for _ in range(2)]
        for session in sessions:
            session.request("transact", "net", insert(name=f"both{attempt}"))
        for session in sessions:
            holds(session.is_closed(COMES_AGAIN), "a session of an older epoch isn't closed")
        told = [answered(source, f"b{attempt}-{number}") for number in range(10)]
        holds(sum(told) >= 8, f"{sum(told)} of 10 transactions, one at a time, are answered")


@check(240)
def every_session_is_closed(lab):
    """At a new epoch each session that came before is closed, whatever it has asked for, at a source and at a relay."""
    source = lab.source("--trim-every", "1")
    relay = lab.relay([source]).with_source()
    sessions = []
    for node in (source, relay):
        for method, since in (("monitor", ()), ("monitor_cond", ()), ("monitor_cond_since", (ZEROS,))):
            sessions.append((f"{node.name}, {method}", watch(node, method, *since)[0]))
        sessions.append((f"{node.name}, a select", node.session()))
        sessions[-1][1].transact("net", select())
        sessions.append((f"{node.name}, no message", node.session()))
    writer = Writer(source)
    writer.come()
    # A connection that no worker took before the epoch begins is a session of the new one, and nothing tells who sent no message
    # whether one did.
    time.sleep(0.3 * PATIENCE)
    holds(writer.write("p") or writer.has("p"), "the row is written")
    for what, session in sessions:
        holds(session.is_closed(COMES_AGAIN), f"{what}: not closed")


def tells_of(number, connection, commit=None):
    """Tells that a row of this number is there, as the one commit of the epoch of the number."""
    connection.begin(lambda asked: [False, start(number), {}] if number else known(asked) if asked == ZEROS else unknown(asked))
    connection.update3(commit or nth(FIRST_ID, 100 + number), {"Port": {row_of(number): {"insert": {"name": f"p{number}"}}}})


@check(240)
def answers_from_an_epoch_that_is_over(lab):
    """A relay that follows a newer epoch elsewhere still gives the answers of a source that hasn't come so far."""

    def older(connection):
        tells_of(0, connection)
        while True:
            asked = connection.receive()
            connection.reply(asked["id"], [{"uuid": ["uuid", row_of(9)]}])

    def newer(connection):
        tells_of(1, connection)
        connection.wait_closed()

    first, port = lab.keep(Upstream(NET, older)), free_port()
    relay = lab.relay([first, port])
    with relay.session() as session:
        wait_until(lambda: session.transact("net", select(columns=["name"])) == [{"rows": [{"name": "p0"}]}], COMES_AGAIN, "the older epoch's row")
        equal(inserted(session.transact("net", insert(name="p"))), row_of(9), "the answer in the older epoch")
        second = lab.keep(Upstream(NET, newer, port=port))
        holds(session.is_closed(COMES_AGAIN), "the session of the older epoch isn't closed")
    with relay.session() as session:
        equal(session.transact("net", select(columns=["name"])), [{"rows": [{"name": "p1"}]}], "the newer epoch's row")
        for number in range(WRITES):
            equal(inserted(session.transact("net", insert(name="p"))), row_of(9), f"answer {number} in the newer epoch")
    equal(first.faults + second.faults, [], "the stand-ins' faults")


@check(240)
def a_source_without_epochs(lab):
    """Without the option a source has one epoch: nobody is closed."""
    source, relay = lab.tier()
    sessions = [watch(node, "monitor_cond_since", ZEROS)[0] for node in (source, relay)]
    with relay.session() as writer:
        for number in range(EVERY * 4):
            writer.transact("net", insert(name=f"p{number}"))
    for session in sessions:
        ids = [session.notice()[1][1] for _ in range(EVERY * 4)]
        equal(ids, [nth(FIRST_ID, number) for number in range(1, EVERY * 4 + 1)], "the commits' ids")
        holds(not session.is_closed(0.5), "a session is closed")
