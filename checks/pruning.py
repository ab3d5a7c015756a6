"""A relay that drops the links of older epochs: nobody can tell but by its memory, and by what it says at its end."""
import re
import threading

from client import Closed
from data import FIRST_ID, NET, ZEROS, insert, nth, select
from epochs import COMES_AGAIN, EVERY, WRITES, Agent, Writer, all_come_again, names_in, row_of, tells_of, write_one
from harness import END_SECONDS, check, equal, holds
from processes import free_port, wait_until
from upstream import Upstream, known

# With these a relay comes to its end once its source is gone: each epoch takes one of the tries.
ENDS = ("--accepts", "8", "--tries", "16")
# No id that a source of these checks deals.
OTHER = nth(FIRST_ID, 1_000_000)
EPOCH = 500
ROWS = 4
AT_ONCE = 50
WIDTH = 1_000


def counted(told):
    """The head, and how many links there are, on the chain and beside it, as a node tells them at its end."""
    found = re.search(r"^head (\S+)\nlinks (\d+) chain (\d+) parked (\d+)\n$", told)
    holds(found, f"the closing lines: {told!r}")
    return found[1], *(int(number) for number in found.groups()[1:])


def shows(node, names):
    """Waits until the node shows rows with these names; where it closes the connection it is asked by another."""
    sessions = []

    def shown():
        try:
            if not sessions:
                sessions.append(node.session())
            return sorted(row["name"] for row in sessions[0].transact("net", select(columns=["name"]))[0]["rows"]) == sorted(names)
        except Closed:
            sessions.clear()
            return False

    wait_until(shown, COMES_AGAIN, f"the {node.name} shows {names}")
    sessions[0].close()


@check(240)
def older_epochs_are_dropped(lab):
    """After four epochs a relay with `--prune` holds the links of its chain alone; beside it one without holds those of the epochs before, too."""
    source = lab.source("--trim-every", str(EVERY))
    relays = [lab.relay([source], *ENDS), lab.relay([source], *ENDS, "--prune", name="pruning relay")]
    writer, agents, names = Writer(source), [Agent(relay) for relay in relays], []
    writer.come()
    for number in range(EVERY * 4 + 1):
        names.append(write_one(writer, writer, f"p{number}"))
        for agent in agents:
            agent.follow(lambda rows: names_in(rows).issuperset(names), COMES_AGAIN)
    source.stop()
    for agent in agents:
        agent.mirror.session.close()
    (status, keeping), (pruning_status, pruning) = [relay.end() for relay in relays]
    _, links, chain, parked = counted(keeping)
    equal((status, links), (0, chain + parked), "the status and the links of the relay that keeps all")
    holds(parked > EVERY + 1, f"links of several older epochs are held: {keeping!r}")
    _, links, chain, parked = counted(pruning)
    equal((pruning_status, links, parked), (0, chain, 0), "the status and the links of the relay that drops them, and those beside its chain")
    holds(chain > 0, f"the links of the chain: {pruning!r}")


def ended_by_another_first(lab, relay, above):
    """What a relay with `--end-on-refusal` says at its end: in the place of the node above it stands one that tells another first link of its epoch."""
    with relay.session() as session:
        _, begin, _ = session.ask("monitor_cond_since", "net", "m", {"Port": {"columns": ["name"]}}, ZEROS)
    above.stop()

    def contradicts(connection):
        connection.begin(lambda _: [False, begin, {}])
        connection.update3(OTHER, {"Port": {row_of(0): {"insert": {"name": "other"}}}})
        connection.wait_closed()

    lab.keep(Upstream(NET, contradicts, port=above.port))
    equal(relay.child.wait(END_SECONDS), 1, f"the status of the {relay.name} that refused a link")
    return counted(relay.child.output())


@check(300)
def nobody_can_tell(lab):
    """Writers and agents at a source and two relays in a row that prune come again after each epoch, and all end equal. Each relay holds its chain alone, and refuses what contradicts it."""
    agents, _ = all_come_again(lab, EVERY, WRITES // 2, "--prune", "--end-on-refusal")
    source, relay, second = [agent.node for agent in agents]
    head, links, chain, parked = counted_end = ended_by_another_first(lab, relay, source)
    holds((links, parked) == (chain, 0) and chain <= EVERY + 1, f"the end of the first relay: {counted_end}")
    equal(ended_by_another_first(lab, second, relay), counted_end, f"the end of the second relay, at {head}")


def told_again(lab, *words):
    """A relay with these words that is told an older epoch, a newer one, another beginning of the older one, and then more of the newer one."""
    go_on = threading.Event()

    def older(connection):
        tells_of(0, connection)
        go_on.wait()

    def older_but_other(connection):
        tells_of(0, connection, OTHER)

    def newer(connection):
        tells_of(1, connection)
        connection.wait_closed()

    def more_of_newer(connection):
        connection.begin(known)
        connection.update3(nth(FIRST_ID, 102), {"Port": {row_of(2): {"insert": {"name": "p2"}}}})
        connection.wait_closed()

    first, port = lab.keep(Upstream(NET, older, older_but_other, more_of_newer)), free_port()
    relay = lab.relay([first, port], "--verbose", *words)
    shows(relay, ["p0"])
    second = lab.keep(Upstream(NET, newer, port=port))
    shows(relay, ["p1"])
    go_on.set()
    # What one upstream tells is taken in order: so the other beginning was taken before this.
    shows(relay, ["p1", "p2"])
    equal(first.asked, [ZEROS, nth(FIRST_ID, 101), nth(FIRST_ID, 101)], "what the first upstream was asked for")
    equal(first.faults + second.faults, [], "the stand-ins' faults")
    return relay


@check(240)
def what_was_dropped_contradicts_nothing(lab):
    """Another first link of an epoch that is over contradicts the one that a relay holds, and nothing where that was dropped."""
    refused = re.compile(r"^ovs_relay: (link .+ refused .+)$", re.M)
    keeping, pruning = [refused.findall(told_again(lab, *words).child.complaints()) for words in ((), ("--prune",))]
    equal(keeping, [f"link {ZEROS} {OTHER} refused fork {ZEROS} {nth(FIRST_ID, 100)}"], "what the relay refused that keeps all")
    equal(pruning, [], "what the relay refused that dropped the older epoch")


class Updates:
    """A client that updates rows one after the other, many requests at once. Where it is closed it comes again; what was lost then isn't counted."""

    def __init__(self, node, rows, width, seconds=20.0):
        self.node, self.rows, self.width, self.seconds = node, rows, width, seconds
        self.session, self.number, self.commits = node.session(seconds), 0, 0
        self.session.transact("net", *(insert(name=f"p{number}") for number in range(rows)))

    def update(self):
        self.number += 1
        text = f"{self.number:0{self.width}}"
        return {"op": "update", "table": "Port", "where": [["name", "==", f"p{self.number % self.rows}"]], "row": {"opts": ["map", [["number", text]]]}}

    def write(self, number):
        """Asks for so many updates at once, and takes their replies."""
        try:
            for asked in [self.session.request("transact", "net", self.update()) for _ in range(number)]:
                equal(self.session.reply(asked), [{"count": 1}], "the reply to an update")
                self.commits += 1
        except Closed:
            self.session.close()
            self.session = self.node.session(self.seconds)


def rows_at(node):
    with node.session() as session:
        return sorted((row["name"], str(row["opts"])) for row in session.transact("net", select(columns=["name", "opts"]))[0]["rows"])


def show_the_same(nodes):
    """Whether all nodes show the same rows now."""
    try:
        first, *others = [rows_at(node) for node in nodes]
        return all(other == first for other in others)
    except Closed:
        return False


@check(300)
def memory_is_given_back(lab):
    """A relay that prunes holds hardly more after eighteen epochs than after three; beside it one that doesn't holds all links."""
    source = lab.source("--trim-every", str(EPOCH))
    relays = [lab.relay([source]).with_source(), lab.relay([source], "--prune", name="pruning relay").with_source()]
    updates, sizes = Updates(source, ROWS, WIDTH), []
    for epochs in (3, 18):
        while updates.commits < EPOCH * epochs:
            updates.write(AT_ONCE)
        wait_until(lambda: show_the_same([source, *relays]), COMES_AGAIN, "the relays show what the source shows")
        sizes.append([relay.child.kilobytes() for relay in relays])
    keeping, pruning = [after - before for before, after in zip(*sizes)]
    holds(pruning * 4 < keeping, f"memory after three and after eighteen epochs, without --prune and with it, in kB: {sizes}")
