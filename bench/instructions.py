#!/usr/bin/env python3
"""Counts the instructions that a relay carries out for a request, a commit, a notification and a first copy, by valgrind.

    python3 bench/instructions.py PROGRAM [PROGRAM] [--source] [--only WORD ..] [--rounds N]

A count of instructions is nearly the same however busy the machine is, so that two programs can be compared where seconds can't; it is of
the program and its libraries alone, without the kernel's. Each measurement runs a source, as it is, and a relay behind it by callgrind, or
with --source a source by callgrind, which does something a few times, and then more often: the difference of the two counts, by how much
more often, is what one time costs. Of as many rounds as asked for the median counts. Printed are thousands of instructions, and with two
programs the ratio of the second to the first. It needs valgrind.
"""
import argparse
import os
import re
import signal
import statistics
import sys
import tempfile

from serving import SCHEMA, row

# pylint: disable=wrong-import-order
from client import hear_all
from harness import Lab, Node
from processes import free_port, wait_until
from run import raise_limits

PATIENCE = 600
ROWS = {"Small": 100, "Port": 1_000, "Counter": 1}
COLUMNS = ["name", "number", "tags"]
WRITE = {"op": "mutate", "table": "Counter", "where": [], "mutations": [["number", "+=", 1]]}
TOTAL = re.compile(r"^(?:summary|totals): (\d+)", re.MULTILINE)


def fill(source):
    """Inserts the rows at a source."""
    with source.session(PATIENCE) as writer:
        for table, rows in ROWS.items():
            writer.transact("bench", *({"op": "insert", "table": table, "row": row(number)} for number in range(rows)))


class Counting:
    """A node with rows whose instructions are counted: a relay behind a source, or a source."""

    def __init__(self, lab, program, is_source):
        lab.program = program
        self.lab, self.source = lab, None if is_source else lab.source(schema=SCHEMA)
        port, self.counts = free_port(), lab.path(f"counts-{len(lab.children)}")
        words = lab.source_words(port, schema=SCHEMA) if is_source else lab.relay_words(port, [self.source.port], schema=SCHEMA)
        if self.source:
            fill(self.source)
        by = ["valgrind", "--tool=callgrind", "--trace-children=yes", f"--callgrind-out-file={self.counts}.%p"]
        self.node = Node(lab, by + words, "counted", port)
        self.node.child.wait_to_serve(port, PATIENCE)
        if is_source:
            fill(self.node)
        wait_until(lambda: self.rows("Port") == ROWS["Port"], PATIENCE, "the node has the rows")

    def session(self):
        return self.node.session(PATIENCE)

    def rows(self, table):
        with self.session() as session:
            answer = session.ask("transact", "bench", {"op": "select", "table": table, "where": [], "columns": ["number"]})
            return len(answer[0].get("rows", ()))

    def end(self):
        """Ends all, and gives how many instructions the node has carried out."""
        os.kill(self.node.child.served_by, signal.SIGTERM)
        self.node.child.process.wait(PATIENCE)
        if self.source:
            self.source.stop()
        found = [name for name in os.listdir(self.lab.folder) if name.startswith(os.path.basename(self.counts) + ".")]
        total = 0
        for name in found:
            with open(self.lab.path(name), encoding="utf-8", errors="replace") as file:
                total += max(map(int, TOTAL.findall(file.read())), default=0)
        return total


def asking(operation):
    """Asks the same again and again, in one session."""

    def do(counting, times):
        with counting.session() as session:
            for _ in range(times):
                session.transact("bench", operation)

    return do


def writing(writers):
    """Commits, by so many sessions that each have one request on its way."""

    def do(counting, times):
        sessions = [counting.session() for _ in range(writers)]
        for _ in range(times // writers):
            asked = [(session, session.request("transact", "bench", WRITE)) for session in sessions]
            for session, number in asked:
                session.reply(number, PATIENCE)
        for session in sessions:
            session.close()

    return do


def telling(monitors):
    """Commits, each told to so many sessions with the same monitor before the next."""

    def do(counting, times):
        watchers = [counting.session() for _ in range(monitors)]
        for session in watchers:
            session.ask("monitor_cond", "bench", "m", {"Counter": {"columns": ["name", "number"]}})
        with counting.session() as writer:
            for told in range(1, times + 1):
                writer.transact("bench", WRITE)
                hear_all(watchers, lambda one, told=told: len(one.notices) >= told, PATIENCE)
        for session in watchers:
            session.close()

    return do


def copying(counting, times):
    """The first copy of a table, each by a session of its own."""
    for _ in range(times):
        with counting.session() as session:
            session.ask("monitor_cond", "bench", "m", {"Port": {"columns": ["name", "number", "tags", "opts"]}})


def select(table, where):
    return {"op": "select", "table": table, "where": where, "columns": COLUMNS}


# What is done, and how often more in the second run.
MEASUREMENTS = {
    "scan": ("scan of 1,000 rows", asking(select("Port", [["name", "==", row(500)["name"]]])), 200),
    "small": ("all of 100 rows", asking(select("Small", [])), 200),
    "large": ("all of 1,000 rows", asking(select("Port", [])), 40),
    "one": ("a select of a table of one row", asking(select("Counter", [])), 1_000),
    "commit": ("a commit, 1 writer", writing(1), 400),
    "commits": ("a commit, 8 writers", writing(8), 800),
    "told": ("a commit told to 1 monitor", telling(1), 200),
    "many": ("a commit told to 32 monitors", telling(32), 100),
    "copy": ("a first copy of 1,000 rows", copying, 20),
}


def measured(program, word, is_source):
    """Instructions for one time of what is measured."""
    _, do, times = MEASUREMENTS[word]
    few, totals = max(8, times // 10), []
    for more in (few, few + times):
        with Lab(program) as lab:
            counting = Counting(lab, program, is_source)
            do(counting, more)
            totals.append(counting.end())
    return (totals[1] - totals[0]) / times


def main():
    parser = argparse.ArgumentParser(description=__doc__, formatter_class=argparse.RawDescriptionHelpFormatter)
    parser.add_argument("programs", nargs="+")
    parser.add_argument("--source", action="store_true")
    parser.add_argument("--rounds", type=int, default=1)
    parser.add_argument("--only", nargs="+", choices=MEASUREMENTS, default=list(MEASUREMENTS))
    options = parser.parse_args()
    raise_limits()
    print(f"{'thousands of instructions':36}" + "".join(f"{os.path.basename(one):>16}" for one in options.programs) + f"{'ratio':>9}")
    for word in options.only:
        found = [statistics.median(measured(os.path.abspath(one), word, options.source) for _ in range(options.rounds)) for one in options.programs]
        print(f"{MEASUREMENTS[word][0]:36}" + "".join(f"{one / 1e3:16,.1f}" for one in found) + f"{found[-1] / found[0]:9.3f}", flush=True)
    return 0


if __name__ == "__main__":
    sys.exit(main())
