#!/usr/bin/env python3
"""Runs a relay of ours beside Debian's ovsdb-server in its relay mode, and prints what each costs, and the ratio.

    python3 bench/serving.py [--program PATH] [--seconds N] [--rounds N] [--rows N ..] [--commits N]
                            [--only WORD ..]

Both follow one clustered ovsdb-server, on loopback, and both are loaded by bench/load.c, which gcc builds. Each measurement is made of one
and then of the other, in turn, as many rounds as asked for; printed are the medians of both and of the ratios, ours to Debian's, with the
least and the greatest ratio. First the ceiling of the load itself is told: requests a second against a server that answers with a reply
from a can. WORDs pick measurements: asks, writes, updates, copies, idle.
"""
import argparse
import json
import os
import statistics
import subprocess
import sys
import tempfile

HERE = os.path.dirname(os.path.abspath(__file__))
sys.path.insert(0, os.path.join(HERE, "..", "checks"))
# pylint: disable=wrong-import-position
from client import Session, hear_all
from debian import Server, clustered
from harness import Lab, Skip
from processes import free_port, wait_until
from run import PROGRAM, raise_limits

SESSIONS = (1, 8, 64)
MONITORS = (1, 8, 100, 500)  # sessions, each with one monitor
IDLE = 1_000
BATCH = 1_000
PATIENCE = 120
TEXT = {"type": "string"}
NUMBER = {"type": "integer"}
SET = {"type": {"key": "integer", "min": 0, "max": "unlimited"}}
MAP = {"type": {"key": "string", "value": "string", "min": 0, "max": "unlimited"}}
TABLE = {"columns": {"name": TEXT, "number": NUMBER, "tags": SET, "opts": MAP}}
SCHEMA = {"name": "bench", "version": "1.0.0", "tables": {name: TABLE for name in ("Small", "Port", "Large", "Counter")}}


def row(number):
    return {"name": f"port-{number:06}", "number": number, "tags": ["set", [number, 100_000 + number]], "opts": ["map", [["owner", f"agent-{number % 97:02}"]]]}


def compact(value):
    return json.dumps(value, separators=(",", ":"))


def request(method, *params):
    return compact({"id": 1, "method": method, "params": ["bench", *params]})


def processor_seconds(process):
    """The processor time of all threads of a process."""
    folder = f"/proc/{process}/task"
    spent = 0
    for task in os.listdir(folder):
        with open(f"{folder}/{task}/schedstat", encoding="ascii") as told:
            spent += int(told.read().split()[0])
    return spent / 1e9


class Load:
    """The load generator, built anew."""

    def __init__(self, folder):
        self.folder = folder
        self.program = os.path.join(folder, "load")
        subprocess.run(["gcc", "-O2", "-Wall", "-Wextra", "-o", self.program, os.path.join(HERE, "load.c")], check=True)

    def file(self, name, text):
        path = os.path.join(self.folder, name)
        with open(path, "w", encoding="utf-8") as file:
            file.write(text)
        return path

    def run(self, what, port, *words):
        """What the generator tells, by name."""
        ran = subprocess.run([self.program, what, str(port), *map(str, words)], stdout=subprocess.PIPE, timeout=10 * PATIENCE, check=True)
        told = ran.stdout.decode().split()
        return dict(zip(told[::2], map(float, told[1::2])))

    def ceiling(self, text, size, sessions, seconds):
        """Requests a second against a server that has nothing to do but to send so many bytes."""
        asked, port = self.file("asked", text), free_port()
        reply = self.file("reply", compact({"id": 1, "result": ["x" * (size - 40)], "error": None}))
        with subprocess.Popen([self.program, "can", str(port), asked, reply], stdin=subprocess.PIPE) as can:
            wait_until(lambda: is_there(port), 10, "the canned server listens")
            told = self.run("ask", port, sessions, seconds, asked)
            can.stdin.close()
        return told["replies"] / told["seconds"]


def is_there(port):
    try:
        Session(port).close()
    except OSError:
        return False
    return True


class Pair:
    """A clustered server, and a relay of ours and one of Debian's behind it."""

    def __init__(self, lab, load, options):
        self.load, self.options = load, options
        self.server = clustered(lab, SCHEMA)
        self.ours = lab.relay([self.server], schema=SCHEMA)
        self.theirs = Server(lab, f"relay:bench:tcp:{self.server.address}")
        self.relays = (self.ours, self.theirs)
        for node in self.relays:
            wait_until(lambda node=node: count(node, "Port") == 0, 30, "the relay serves")

    def fill(self, table, rows):
        """Adds rows until the table has so many, and waits until both relays have them."""
        with Session(self.server.port, PATIENCE) as writer:
            for first in range(count(self.server, table), rows, BATCH):
                inserts = [{"op": "insert", "table": table, "row": row(number)} for number in range(first, min(rows, first + BATCH))]
                writer.transact("bench", *inserts)
        for node in self.relays:
            wait_until(lambda node=node: count(node, table) == rows, PATIENCE, f"{node.name} has {rows} rows")

    def rounds(self, measure):
        """What `measure(node)` gives of each relay, in turn: pairs of ours and Debian's."""
        found = []
        for number in range(self.options.rounds):
            order = self.relays if number % 2 == 0 else self.relays[::-1]
            taken = {node: measure(node) for node in order}
            found.append((taken[self.ours], taken[self.theirs]))
        return found


def count(node, table):
    """How many rows a node has; None where it has no database yet."""
    try:
        with Session(node.port, PATIENCE) as session:
            return len(session.transact("bench", {"op": "select", "table": table, "where": [], "columns": ["_uuid"]})[0]["rows"])
    except Exception:  # pylint: disable=broad-except
        return None


def heading(what):
    print(f"\n{what}\n{'':44}{'ours':>12}{'Debian':>12}{'ratio':>9}{'from':>9}{'to':>9}", flush=True)


def show(name, pairs, scale=1.0):
    """A line for what was measured: medians, and the ratio of ours to Debian's."""
    ours, theirs = (statistics.median(one) * scale for one in zip(*pairs))
    ratios = sorted(one / other for one, other in pairs if other)
    middle = statistics.median(ratios) if ratios else float("nan")
    ends = (ratios[0], ratios[-1]) if ratios else (middle, middle)
    print(f"{name:44}{ours:12,.1f}{theirs:12,.1f}{middle:9.2f}{ends[0]:9.2f}{ends[1]:9.2f}", flush=True)


def asked(pair, sessions, path):
    """A measurement: requests a second, and microseconds of the relay's processor a request."""

    def measure(node):
        before = processor_seconds(node.child.served_by)
        told = pair.load.run("ask", node.port, sessions, pair.options.seconds, path)
        return told["replies"] / told["seconds"], (processor_seconds(node.child.served_by) - before) / max(1, told["replies"]), told["bytes"]

    return pair.rounds(measure)


def show_asked(name, found):
    show(name, [(ours[0], theirs[0]) for ours, theirs in found])
    show("  us of its processor a request", [(ours[1], theirs[1]) for ours, theirs in found], 1e6)


def asks(pair):
    with pair.ours.session() as session:
        identity = session.transact("bench", {"op": "select", "table": "Port", "where": [["name", "==", row(500)["name"]]]})[0]["rows"][0]["_uuid"]
    columns = ["name", "number", "tags"]
    operations = {
        "select by _uuid": {"op": "select", "table": "Port", "where": [["_uuid", "==", identity]], "columns": columns},
        "scan of 1,000 rows": {"op": "select", "table": "Port", "where": [["name", "==", row(500)["name"]]], "columns": columns},
        "all of 100 rows": {"op": "select", "table": "Small", "where": [], "columns": columns},
        "all of 1,000 rows": {"op": "select", "table": "Port", "where": [], "columns": columns},
    }
    heading("Requests a second (more is better)")
    sizes = {}
    for name, operation in operations.items():
        text = request("transact", operation)
        path = pair.load.file("ask", text)
        for sessions in SESSIONS:
            found = asked(pair, sessions, path)
            sizes[name] = text, int(found[0][0][2])
            show_asked(f"{name}, {sessions} sessions", found)
    print("\nThe load's own ceiling, against a reply from a can: requests a second")
    for name, (text, size) in sizes.items():
        told = ", ".join(f"{pair.load.ceiling(text, size, sessions, 1):,.0f} with {sessions} sessions" for sessions in SESSIONS)
        print(f"{name}, {size:,} bytes: {told}", flush=True)


def counter_requests(load):
    """A request that changes the one row of a table, and one that monitors it."""
    write = {"op": "mutate", "table": "Counter", "where": [], "mutations": [["number", "+=", 1]]}
    watch = {"Counter": {"columns": ["name", "number"]}}
    return load.file("write", request("transact", write)), load.file("watch", request("monitor_cond", "m", watch))


def counting(pair):
    """The requests, where the table has its row."""
    pair.fill("Counter", 1)
    return counter_requests(pair.load)


def writes(pair):
    write, _ = counting(pair)
    heading("Commits a second through the relay (more is better)")
    for sessions in SESSIONS:
        show_asked(f"{sessions} writers", asked(pair, sessions, write))


def updates(pair):
    write, watch = counting(pair)
    commits = pair.options.commits
    heading(f"Up to {commits:,} commits, one after another, each told to all monitors (less is better)")
    for monitors in MONITORS:

        def measure(node, monitors=monitors):
            before = processor_seconds(node.child.served_by)
            told = pair.load.run("late", node.port, monitors, watch, commits, write, 30)
            spent = processor_seconds(node.child.served_by) - before
            return spent / (told["commits"] * monitors), told["median"], told["late"]

        found = pair.rounds(measure)
        for place, name in enumerate(("us of its processor a notification", "us to the last one, median", "us to the last one, 99 of 100")):
            show(f"{monitors} monitors, {name}", [(ours[place], theirs[place]) for ours, theirs in found], 1e6)


def copies(pair):
    heading("The first copy of a table by a monitor, and memory (less is better)")
    path = pair.load.file("copy", request("monitor_cond", "m", {"Large": {"columns": ["name", "number", "tags", "opts"]}}))
    for rows in pair.options.rows:
        pair.fill("Large", rows)
        found = pair.rounds(lambda node: pair.load.run("copy", node.port, path)["seconds"])
        show(f"{rows:,} rows, ms", found, 1e3)
        show(f"{rows:,} rows, megabytes in memory", [tuple(node.child.kilobytes() for node in pair.relays)], 1 / 1_024)


def watching(node, number, text):
    """So many sessions whose request was answered; probes meanwhile are answered, too."""
    sessions = [Session(node.port, PATIENCE) for _ in range(number)]
    for session in sessions:
        session.send_bytes(text)
    if hear_all(sessions, lambda session: 1 in session.replies, PATIENCE):
        raise AssertionError(f"{node.name} didn't answer all of {number} sessions")
    return sessions


def idle(pair):
    heading(f"{IDLE:,} idle sessions, each with a monitor of one row (less is better)")
    _, watch = counting(pair)
    with open(watch, encoding="utf-8") as file:
        text = file.read().encode()
    grown, spent = [], []
    for node in pair.relays:
        before = node.child.kilobytes()
        sessions = [session for _ in range(IDLE // 100) for session in watching(node, 100, text)]
        grown.append(node.child.kilobytes() - before)
        ticks = processor_seconds(node.child.served_by)
        sessions[0].is_quiet(4)
        spent.append(processor_seconds(node.child.served_by) - ticks)
        for session in sessions:
            session.close()
    show("kilobytes a session", [tuple(grown)], 1 / IDLE)
    show("ms of its processor in 4 seconds", [tuple(spent)], 1e3)


MEASUREMENTS = {"asks": asks, "writes": writes, "updates": updates, "copies": copies, "idle": idle}


def main():
    parser = argparse.ArgumentParser(description=__doc__, formatter_class=argparse.RawDescriptionHelpFormatter)
    parser.add_argument("--program", default=os.environ.get("OVS_RELAY", PROGRAM))
    parser.add_argument("--seconds", type=float, default=2)
    parser.add_argument("--rounds", type=int, default=3)
    parser.add_argument("--rows", type=int, nargs="+", default=[10_000, 90_000])
    parser.add_argument("--commits", type=int, default=1_000)
    parser.add_argument("--only", nargs="+", choices=MEASUREMENTS, default=list(MEASUREMENTS))
    options = parser.parse_args()
    raise_limits()
    try:
        with tempfile.TemporaryDirectory() as folder, Lab(os.path.abspath(options.program)) as lab:
            pair = Pair(lab, Load(folder), options)
            pair.fill("Small", 100)
            pair.fill("Port", 1_000)
            for word in options.only:
                MEASUREMENTS[word](pair)
    except Skip as skip:
        sys.exit(f"not measured: {skip}")
    return 0


if __name__ == "__main__":
    sys.exit(main())
