"""A source and three relays in a chain under writers, watchers, and clients that come, go, stall and send rubbish, with connections between the
nodes that break after any byte, and a relay that is killed and begun anew: in the end all are equal, and who asks rightly was answered in time.

    OVS_SOAK=120 [OVS_SEED=N] python3 checks/run.py soak    # for so many seconds; a failure says of which N its choices came
"""
import multiprocessing
import os
import random
import selectors
import socket
import threading
import time

from client import Closed, Refused, Session
from data import FIRST_ID, NET, ZEROS, insert, nth, select
from harness import Node, check, equal, holds
from mirror import Mirror, selected
from processes import PATIENCE, free_port, wait_until

SECONDS = int(os.environ.get("OVS_SOAK", "8"))
SEED = int(os.environ.get("OVS_SEED", str(random.randrange(1 << 32))))
RELAYS = 3
WRITERS = 4
CROWDS, IN_A_CROWD = 4, 50
# A connection between nodes breaks after a number of bytes up to this.
MOST_PASSED = 60_000
KEPT_ROWS = 20
ANSWERED_WITHIN = 1.0
# What a node may take beside this many bytes for each link.
OF_A_LINK, OF_THE_REST = 6_000, 100_000_000
EVERYTHING = {"columns": ["name", "tags", "opts", "up"]}


class Cutting(threading.Thread):
    """Passes connections on to a node, and breaks each after a random number of bytes, of both directions, while it doesn't spare them."""

    def __init__(self, port, seed):
        super().__init__(daemon=True)
        self.to, self.random = port, random.Random(seed)
        self.listening = socket.create_server(("127.0.0.1", 0))
        self.port = self.listening.getsockname()[1]
        self.is_sparing, self.is_over = True, False
        self.cuts = 0
        self.start()

    def run(self):
        while not self.is_over:
            try:
                inner, _ = self.listening.accept()
            except OSError:
                continue
            try:
                outer = socket.create_connection(("127.0.0.1", self.to))
            except OSError:
                inner.close()
                continue
            threading.Thread(target=self.passes, args=(inner, outer), daemon=True).start()

    def passes(self, inner, outer):
        left = self.random.randrange(1, MOST_PASSED)
        with inner, outer, selectors.DefaultSelector() as selector:
            selector.register(inner, selectors.EVENT_READ, outer)
            selector.register(outer, selectors.EVENT_READ, inner)
            while not self.is_over:
                for key, _ in selector.select(0.2):
                    try:
                        piece = key.fileobj.recv(65_536)
                        is_cut = not self.is_sparing and len(piece) >= left
                        key.data.sendall(piece[:left] if is_cut else piece)
                    except OSError:
                        return
                    if is_cut:
                        self.cuts += 1
                    if is_cut or not piece:
                        return
                    if not self.is_sparing:
                        left -= len(piece)

    def close(self):
        self.is_over = True
        self.listening.close()


def rubbish(chance):
    """Bytes that begin like messages, and aren't."""
    texts = (b'{"id":1,"method":"transact","params":["net",{"op":"select"', b"{" * 200, b'{"id":1}', b"\0" * 64, b'{"a":"\xff"}', b"x", b'{"id":1,"result":null,"error":null}')
    return chance.choice(texts)


def misbehave(chance, session):
    """What one client does in its life."""
    what = chance.randrange(7)
    if what == 0:
        session.send_bytes(rubbish(chance))
    elif what == 1:
        for _ in range(200):
            session.request("transact", "net", select())
        time.sleep(chance.random())
    elif what == 2:
        session.ask("monitor_cond", "net", "m", {"Port": EVERYTHING})
        time.sleep(chance.random())
    elif what == 3:
        session.ask(chance.choice(("lock", "steal")), f"l{chance.randrange(5)}")
        time.sleep(chance.random() / 4)
    elif what == 4:
        session.send_bytes(b'{"id":1,"method":"echo","params":["' + b"a" * chance.randrange(1 << 20))
    elif what == 5:
        session.request("transact", "net", insert(name="rude", tags=["set", list(range(50))]), {"op": "abort"})
    if chance.randrange(2):
        session.reset()


def crowd(ports, seed, begin):
    """Clients that come and go, so many at a time, from the beginning on."""
    sessions, chance = [], random.Random(seed)
    begin.wait()
    until = time.monotonic() + SECONDS

    def one(seed_of_one):
        own = random.Random(seed_of_one)
        while time.monotonic() < until:
            try:
                with Session(own.choice(ports), 5.0) as session:
                    misbehave(own, session)
            except (OSError, Closed, Refused, TimeoutError):
                pass
            time.sleep(own.random() / 10)

    for _ in range(IN_A_CROWD):
        sessions.append(threading.Thread(target=one, args=(chance.random(),), daemon=True))
        sessions[-1].start()
    for thread in sessions:
        thread.join(max(0.0, until + 10 - time.monotonic()))


class Writer(threading.Thread):
    """Inserts a row and deletes an older one, again and again. What it asked when its relay lost the source may have been done or not."""

    def __init__(self, node, number):
        super().__init__(daemon=True)
        self.node, self.number, self.is_over, self.done, self.lost, self.fault = node, number, False, 0, 0, None
        self.start()

    def run(self):
        try:
            with self.node.session(60 * PATIENCE) as session:
                while not self.is_over:
                    self.write(session)
        except Exception as fault:  # pylint: disable=broad-except
            self.fault = fault

    def write(self, session):
        name = f"w{self.number}-{self.done}"
        old = {"op": "delete", "table": "Port", "where": [["name", "==", f"w{self.number}-{self.done - KEPT_ROWS}"]]}
        self.done += 1
        try:
            equal(len(session.transact("net", insert(name=name, opts=["map", [["k", name]]]), old)), 2, "the results of a write")
        except Refused as refused:
            if refused.args[0] != {"error": "source lost"}:
                raise
            self.lost += 1


class Watcher(threading.Thread):
    """Keeps a copy by a monitor from the first commit on."""

    def __init__(self, node):
        super().__init__(daemon=True)
        self.node, self.is_over, self.fault = node, False, None
        self.session = node.session(60 * PATIENCE)
        self.mirror = Mirror(self.session, NET, "Port", "monitor_cond_since", "m", EVERYTHING, ZEROS)
        self.start()

    def run(self):
        try:
            while not self.is_over:
                try:
                    self.mirror.take(0.2 / PATIENCE)
                except TimeoutError:
                    pass
        except Exception as fault:  # pylint: disable=broad-except
            self.fault = fault


class Polite(threading.Thread):
    """Asks a node a little now and then, and keeps how long the longest answer took."""

    def __init__(self, node):
        super().__init__(daemon=True)
        self.node, self.is_over, self.longest, self.asked, self.fault = node, False, 0.0, 0, None
        self.start()

    def run(self):
        try:
            with self.node.session(60 * PATIENCE) as session:
                while not self.is_over:
                    begun = time.monotonic()
                    session.transact("net", select([["name", "==", "none"]]))
                    self.longest = max(self.longest, time.monotonic() - begun)
                    self.asked += 1
                    time.sleep(0.05)
        except Exception as fault:  # pylint: disable=broad-except
            self.fault = fault


def relay_at(lab, port, upstream):
    return Node(lab, lab.relay_words(port, [upstream], "--end-on-refusal"), "relay", port).serving()


def shown(node):
    with node.session(30) as session:
        return selected(session, "net", "Port")


def end(threads):
    for thread in threads:
        thread.is_over = True
    for thread in threads:
        thread.join(90 * PATIENCE)
        if thread.fault is not None:
            raise AssertionError(f"{type(thread).__name__} at the {thread.node.name}: {type(thread.fault).__name__}: {thread.fault}") from thread.fault


def soaked(lab):
    chance, forked = random.Random(SEED), multiprocessing.get_context("fork")
    ports, begin = [free_port() for _ in range(1 + RELAYS)], forked.Event()
    # They are made before there is a connection, of which they would keep a part.
    crowds = [forked.Process(target=crowd, args=(ports, chance.random(), begin), daemon=True) for _ in range(CROWDS)]
    for one in crowds:
        one.start()
    nodes, cutting = [lab.source(port=ports[0])], []
    for port in ports[1:]:
        cutting.append(lab.keep(Cutting(nodes[-1].port, chance.random())))
        nodes.append(relay_at(lab, port, cutting[-1].port).with_source())
    # The second relay is killed on the way, so that nobody stays at it.
    staying = [node for number, node in enumerate(nodes) if number != 2]
    before = {node.port: node.child.kilobytes() for node in staying}
    polite = [Polite(node) for node in staying]
    watchers = [Watcher(node) for node in staying]
    writers = [Writer(staying[number % 2 * (len(staying) - 1)], number) for number in range(WRITERS)]
    for one in cutting:
        one.is_sparing = False
    until = time.monotonic() + SECONDS
    begin.set()
    time.sleep(SECONDS / 3)
    nodes[2].stop()
    time.sleep(SECONDS / 6)
    nodes[2] = relay_at(lab, nodes[2].port, cutting[1].port)
    time.sleep(max(0.0, until - time.monotonic()))
    for one in crowds:
        one.join(30)
        if one.is_alive():
            one.kill()
    for one in cutting:
        one.is_sparing = True
    end(writers + polite)
    return nodes, staying, watchers, polite, writers, cutting, before


def equal_in_the_end(nodes, staying, watchers):
    """All nodes show the source's rows, and each watcher that stayed was told each commit once, in order."""
    rows = shown(nodes[0])
    for node in nodes[1:]:
        wait_until(lambda node=node: shown(node) == rows, 60, f"the {node.name} at {node.port} shows what the source does")
    versions = [row["_version"][0][1] for row in rows.values()]
    last = max(versions)
    for watcher in watchers:
        wait_until(lambda watcher=watcher: watcher.mirror.head >= last or watcher.fault, 60, f"a watcher at the {watcher.node.name} is told of the last commit")
    end(watchers)
    for node, watcher in zip(staying, watchers):
        commits = watcher.mirror.commits
        equal(commits, [nth(FIRST_ID, number) for number in range(1, len(commits) + 1)], f"the commits that a watcher at the {node.name} was told of")
        plain = {row: {column: value for column, value in columns.items() if column in EVERYTHING["columns"]} for row, columns in rows.items()}
        equal(watcher.mirror.rows, plain, f"the copy of a watcher at the {node.name}")
    return len(watchers[0].mirror.commits)


@check(300 + 2 * SECONDS)
def a_chain_under_all_at_once(lab):
    """A source and three relays under writers, watchers and two hundred rude clients, with broken connections: equal in the end, and polite
    clients were answered in time."""
    try:
        nodes, staying, watchers, polite, writers, cutting, before = soaked(lab)
        commits = equal_in_the_end(nodes, staying, watchers)
        for node in nodes:
            holds(node.child.is_running(), f"the {node.name} has ended: {node.child.told()}")
        for one in polite:
            holds(one.longest <= ANSWERED_WITHIN * PATIENCE, f"a polite client at the {one.node.name} waited {one.longest:.2f} s for one of {one.asked} answers")
        for node in staying:
            grown = (node.child.kilobytes() - before[node.port]) * 1024
            holds(grown <= commits * OF_A_LINK + OF_THE_REST, f"the {node.name} has grown by {grown:,} bytes for {commits} commits")
        holds(commits > 100 and sum(one.cuts for one in cutting) > 3, f"too little happened: {commits} commits, {[one.cuts for one in cutting]} cuts")
        return commits, [one.cuts for one in cutting], [one.lost for one in writers], [round(one.longest, 3) for one in polite]
    except AssertionError as fault:
        raise AssertionError(f"with OVS_SEED={SEED}: {fault}") from fault
