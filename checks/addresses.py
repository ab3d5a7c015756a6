"""An upstream that has several addresses, which a relay tries in turn."""
import socket
import threading
import time

from client import Refused
from data import FIRST_ROW, NET, insert, select
from debian import Server, run, tool
from ends import closing, shows
from harness import START_SECONDS, Node, check, equal, holds
from processes import TIMED, free_port, wait_until
from upstream import Upstream
from upstreams import commit_id, sound, tells

# How many commits are made while servers come and go, how many seconds lie between two, and how often a server is stopped.
COMMITS = 60
BETWEEN = 0.05
MEMBERS = 3
STOPS = 2
# So long a relay waits for a connection with an address, and when the next one is surely tried, in seconds.
CONNECTING, GIVEN_UP = 5, 20
# More connections than wait at a port that takes none.
MORE_THAN_QUEUED = 4


def following(lab, *upstreams, more=(), name="relay", schema=NET):
    """A relay of these upstreams, each a list of nodes or ports at which it is tried in turn."""
    port = free_port()
    words = [lab.program, "relay", "--schema", lab.schema(schema), "--listen", f"127.0.0.1:{port}", *more]
    for addresses in upstreams:
        words += ["--upstream", ",".join(f"127.0.0.1:{getattr(one, 'port', one)}" for one in addresses)]
    return Node(lab, words, name, port).serving()


def told_of_upstreams(child):
    """What a node said of its upstreams on standard error so far, line by line, without the times and the causes."""
    lines = [TIMED.sub("", line).split(": ")[0] for line in child.read(1).splitlines()]
    return [line for line in lines if line.startswith("upstream ")]


def transacts(session, operation):
    """What a transaction with this operation is answered, or nothing where the source was lost meanwhile."""
    try:
        return session.transact("net", operation)[0]
    except Refused:
        return None


@check(240)
def addresses_are_tried_in_turn(lab):
    """Where nothing listens at an upstream's first address, a relay follows it at the next, and says so of each."""
    source, dead = lab.source(), free_port()
    relay = following(lab, [dead, source], more=["--verbose"]).with_source()
    with relay.session() as session:
        session.transact("net", insert(name="p"))
        shows(session, "p")
    wanted = [f"upstream 127.0.0.1:{dead} not found", f"upstream 127.0.0.1:{source.port} found"]
    wait_until(lambda: told_of_upstreams(relay.child) == wanted, 15, f"the relay says {wanted}")


class Dead:
    """An address at which connections are neither taken nor refused, as that of a host that is switched off: its queue of them is full."""

    def __init__(self):
        self.port = free_port()
        self.listener = socket.create_server(("127.0.0.1", self.port), backlog=0)
        self.waiting = []
        for _ in range(MORE_THAN_QUEUED):
            self.waiting.append(socket.socket())
            self.waiting[-1].setblocking(False)
            self.waiting[-1].connect_ex(("127.0.0.1", self.port))

    def close(self):
        for one in (self.listener, *self.waiting):
            one.close()


@check(240)
def a_host_that_is_switched_off(lab):
    """An address that doesn't answer is given up after some seconds, and the next one tried; a relay meanwhile answers, and can be ended."""
    dead, source = lab.keep(Dead()), lab.source()
    relay = following(lab, [dead, source], more=["--verbose"])
    with relay.session() as session:
        equal(session.ask("echo", 1), [1], "an echo meanwhile")
        begun = time.monotonic()
        session.transact("net", insert(name="p"), seconds=GIVEN_UP)
        holds(time.monotonic() - begun <= GIVEN_UP, "the next address was tried too late")
        shows(session, "p")
    wanted = [f"upstream 127.0.0.1:{dead.port} not found", f"upstream 127.0.0.1:{source.port} found"]
    wait_until(lambda: told_of_upstreams(relay.child) == wanted, 15, f"the relay says {wanted}")
    alone = following(lab, [dead], more=["--tries", "2", "--accepts", "1"], name="alone")
    begun = time.monotonic()
    equal(alone.end(60)[0], 0, "the status of a relay whose only address is dead")
    holds(time.monotonic() - begun >= CONNECTING, "two tries were given up at once")


@check(240)
def a_schema_is_asked_for_at_each_address(lab):
    """A relay with `--database` learns the schema at the second address of its first upstream."""
    source, port = lab.source(), free_port()
    words = [lab.program, "relay", "--database", "net", "--listen", f"127.0.0.1:{port}", "--upstream", f"127.0.0.1:{free_port()},127.0.0.1:{source.port}"]
    with Node(lab, words, "relay", port).serving().session() as session:
        equal(session.ask("get_schema", "net"), NET, "the relay's schema")
        equal(session.transact("net", insert(name="p")), [{"uuid": ["uuid", FIRST_ROW]}], "the insert's result")


@check(240)
def rounds_and_pauses(lab):
    """Addresses are tried round and round, so often in all as `--tries` says; between two addresses of a round there is no pause, and the pauses between rounds grow."""
    upstreams = [lab.keep(Upstream(NET, lambda connection: None)) for _ in range(3)]
    relay = following(lab, upstreams, more=["--tries", "20", "--accepts", "1"])
    equal(relay.end(30)[1], closing("00000000-0000-0000-0000-000000000000", 0, 0), "the relay's output")
    equal([len(upstream.connections) for upstream in upstreams], [7, 7, 6], "the connections at each address")
    order = sorted((moment, place) for place, upstream in enumerate(upstreams) for moment in upstream.times())
    equal([place for _, place in order], [number % 3 for number in range(20)], "the order of the addresses")
    firsts = [moment for moment, place in order if place == 0]
    rounds = [later - earlier for earlier, later in zip(firsts, firsts[1:])]
    holds(rounds[-1] >= 0.3 and rounds[-1] > 2 * min(rounds), f"the rounds don't come further apart: {rounds!r}")


@check(240)
def the_next_address_takes_over(lab):
    """When a relay's upstream is lost it goes on at the next address, back at the first when that one is lost, and its own readers are told each commit once."""
    source = lab.source()
    first, second = (lab.relay([source], name=name) for name in ("first", "second"))
    last = following(lab, [first, second], name="last").with_source()
    with last.session() as session, last.session() as watcher:
        watcher.ask("monitor_cond_since", "net", "m", {"Port": [{"columns": ["name"]}]}, "00000000-0000-0000-0000-000000000000")
        session.transact("net", insert(name="p0"))
        shows(session, "p0")
        for number, lost in ((1, first), (2, second)):
            lost.stop()
            update = {"op": "update", "table": "Port", "where": [], "row": {"name": f"p{number}"}}
            # What was asked when the upstream was lost is answered so, and is asked again.
            wait_until(lambda update=update: transacts(session, update) == {"count": 1}, 30, "a transaction by the next address")
            shows(session, f"p{number}")
            lab.relay([source], port=lost.port, name="again")
        ids = []
        while not ids or ids[-1] != commit_id(3):
            ids.append(watcher.notice(20)[1][1])
        equal(ids, [commit_id(1), commit_id(2), commit_id(3)], "the commits that the reader was told")
    equal(last.child.complaints(), "", "the last relay's standard error")


@check(240)
def addresses_of_one_history(lab):
    """Two addresses that tell two parts of one history, one after the other, make it whole, and the second is asked for what comes after the first's."""
    parts = [lab.keep(Upstream(NET, tells_and_closes(1, 2))), lab.keep(Upstream(NET, tells(3, 4)))]
    relay = following(lab, parts)
    with relay.session() as session:
        shows(session, "p4")
    equal(parts[1].asked[0], commit_id(2), "the id that the second address is asked for")
    sound(*parts)


def tells_and_closes(first, last):
    script = tells(first, last)

    def closes(connection):
        connection.wait_closed = lambda: time.sleep(1)
        script(connection)

    return closes


def cluster(lab):
    """The members of a cluster, the first of which is its leader at first."""
    rafts = [f"tcp:127.0.0.1:{free_port()}" for _ in range(MEMBERS)]
    files = [lab.path(f"member-{number}.db") for number in range(MEMBERS)]
    run(lab, "ovsdb-tool", "create-cluster", files[0], lab.schema(NET), rafts[0])
    for file, raft in zip(files[1:], rafts[1:]):
        run(lab, "ovsdb-tool", "join-cluster", file, "net", raft, rafts[0])
    members = [Server(lab, file) for file in files]
    for member in members:
        wait_until(lambda member=member: has_joined(member), START_SECONDS, "the member has joined")
    return members


def has_joined(member):
    return "Status: cluster member" in member.tell("cluster/status", "net")


def is_leader(member):
    return "Role: leader" in member.tell("cluster/status", "net")


def writes(lab, relay, made):
    """Inserts rows through a relay, one after another; those that were answered with an id were made."""
    with relay.session(60) as session:
        for number in range(COMMITS):
            if "uuid" in (transacts(session, insert(name=f"p{number}")) or {}):
                made.append(f"p{number}")
            time.sleep(BETWEEN)


@check(300)
def a_cluster_loses_its_leader(lab):
    """A relay of one upstream with a cluster's three addresses: the member that it follows is stopped while commits are made, and then started again and the next one stopped. What was answered is shown, and nothing is refused."""
    tool("ovsdb-tool")
    members = cluster(lab)
    relay = following(lab, members, more=["--end-on-refusal"]).with_source()
    made = []
    writer = threading.Thread(target=writes, args=(lab, relay, made))
    writer.start()
    for number in range(STOPS):
        time.sleep(COMMITS * BETWEEN / 4)
        stopped = members[number]
        stopped.stop()
        time.sleep(COMMITS * BETWEEN / 4)
        members[number] = Server(lab, stopped.database, stopped.port)
    writer.join()
    with relay.session() as session, members[2].session() as other:
        wanted = lambda: sorted(row["name"] for row in other.transact("net", select())[0]["rows"])
        found = lambda: sorted(row["name"] for row in session.transact("net", select())[0]["rows"])
        wait_until(lambda: found() == wanted() and set(made) <= set(found()), 30, "the relay shows what the cluster has")
        # A member that gave a transaction to a leader which was then stopped gives it to the next one, also where it was carried out: of one
        # writer at most one for each stop.
        holds(len(found()) - len(set(found())) <= STOPS, f"rows that are shown twice: {found()!r}")
    holds(len(made) > COMMITS / 3, f"{len(made)} commits were answered")
    equal(relay.child.complaints(), "", "the relay's standard error")
