#!/usr/bin/env python3
"""A tier at work: a source, a relay behind it, and a relay behind that one, on free ports of this machine.

    python3 bench/tier.py [--program PATH]

Commits rows through the last relay, watches them arrive at each node, cuts the middle relay off, and shows that the last one goes on from
the source. What each node answers and tells is printed as it comes. It ends by itself within a minute or two. The program is PATH, or the
one that `rt run` or `rt ci` proved and built; where there is none it is compiled by `rt try`, which proves nothing, and takes as long as it
takes.
"""
import argparse
import json
import os
import shutil
import sys
import tempfile
import time

HERE = os.path.dirname(os.path.abspath(__file__))
sys.path.insert(0, os.path.join(HERE, "..", "checks"))
# pylint: disable=wrong-import-position
from client import Session
from data import FIRST_ID, FIRST_ROW, NET, ZEROS, insert, select
from processes import Child, free_port, wait_until

CRATE = os.path.join(HERE, "..", "crates", "ovs_relay")
PROGRAM = os.path.join(CRATE, "out", "ovs_relay")
START_SECONDS = 60
TRY_SECONDS = 120
ARRIVES = 20
SCHEMA = "net.schema"


def say(text):
    print(text, flush=True)


def compact(value):
    return json.dumps(value, separators=(",", ":"))


class Tier:
    """The processes of a tier, in a folder of their own."""

    def __init__(self, program):
        self.program = program
        self.folder = tempfile.mkdtemp(prefix="ovs_server.")
        self.schema = os.path.join(self.folder, SCHEMA)
        self.children = []
        with open(self.schema, "w", encoding="utf-8") as file:
            file.write(json.dumps(NET) + "\n")

    def __enter__(self):
        return self

    def __exit__(self, *_):
        for child in self.children:
            child.stop()
        shutil.rmtree(self.folder)

    def words(self, words):
        """The command line that runs the program on these words."""
        if self.program is not None:
            return [self.program, *words]
        return ["rt", "try", "--seconds", str(TRY_SECONDS), "--data", f"{SCHEMA}={self.schema}", "--", *words]

    def start(self, name, command, *more):
        node = Node(name, free_port(), self.program is None)
        schema = SCHEMA if self.program is None else self.schema
        words = self.words([command, "--schema", schema, "--listen", node.address, *more])
        node.child = Child(words, self.folder if self.program else CRATE, name.replace(" ", "-"), self.folder)
        self.children.append(node.child)
        return node


class Node:
    """A node, and a client that watches the table Port there."""

    def __init__(self, name, port, is_compiled):
        self.name, self.port, self.address, self.is_compiled = name, port, f"127.0.0.1:{port}", is_compiled
        self.child = self.watcher = None

    def wait_to_serve(self):
        """Waits until it listens. What is compiled first is waited for as long as it runs, and that is said each minute."""
        begun = time.monotonic()
        while True:
            try:
                self.child.wait_to_serve(self.port, START_SECONDS)
                return
            except AssertionError:
                if not (self.is_compiled and self.child.is_running()):
                    raise
                say(f"  {self.name} doesn't listen yet after {time.monotonic() - begun:.0f} seconds: its program is being compiled")

    def watch(self):
        self.wait_to_serve()
        self.watcher = Session(self.port, ARRIVES)
        self.watcher.ask("monitor_cond_since", "net", "watch", {"Port": {"columns": ["name", "tags"]}}, ZEROS)

    def told(self):
        """What the monitor is told next."""
        method, (_, commit, updates) = self.watcher.notice()
        return f"{method} of commit {commit}: {compact(updates['Port'])}"

    def transact(self, *operations):
        with Session(self.port, ARRIVES) as client:
            return client.transact("net", *operations)

    def shows(self):
        """The rows that a select shows."""
        return self.transact(select(columns=["name", "tags"]))[0]["rows"]


def listed(names):
    return " and ".join([", ".join(names[:-1])] * (len(names) > 1) + names[-1:])


def commit(node, watched, *operations):
    """Sends operations to a node, and prints its answer and what each node that is watched tells, which has to be the same."""
    say(f"A client sends {node.name}: {compact(list(operations))}")
    say(f"  it is answered {compact(node.transact(*operations))}")
    told = {one.name: one.told() for one in watched}
    for text in sorted(set(told.values())):
        say(f"  {listed([name for name in told if told[name] == text])} told {text}")
    if len(set(told.values())) != 1:
        raise AssertionError("the nodes told different things of one commit")


def agree(nodes):
    """Waits until the nodes show the same rows, and prints these."""
    wait_until(lambda: len({compact(node.shows()) for node in nodes}) == 1, ARRIVES, "the nodes show the same rows")
    say(f"A select shows the same at {listed([node.name for node in nodes])}: {compact(nodes[0].shows())}")


def story(tier):
    source = tier.start("the source", "source", "--first-id", FIRST_ID, "--first-row", FIRST_ROW)
    middle = tier.start("the middle relay", "relay", "--upstream", source.address)
    last = tier.start("the last relay", "relay", "--upstream", middle.address, "--upstream", source.address)
    nodes = [source, middle, last]
    for node in nodes:
        node.watch()
    say(f"The source listens at {source.address}. The middle relay, at {middle.address}, follows it.")
    say(f"The last relay, at {last.address}, follows the middle relay, which carries up what it is asked, and the source.")
    say("A client watches the table Port at each of them.\n")
    commit(last, nodes, insert(name="p1"))
    commit(last, nodes, insert(name="p2", tags=["set", [1, 2]]))
    commit(last, nodes, {"op": "mutate", "table": "Port", "where": [["name", "==", "p2"]], "mutations": [["tags", "insert", 3]]})
    agree(nodes)
    middle.child.stop()
    say("\nThe middle relay is cut off: its process is killed.")
    say(f"The last relay still answers a select: {compact(last.shows())}")
    commit(source, [source, last], insert(name="p3"))
    commit(source, [source, last], {"op": "delete", "table": "Port", "where": [["name", "==", "p1"]]})
    agree([source, last])
    say("So the last relay goes on from the source: no commit is missing, and none came twice.")


def main():
    parser = argparse.ArgumentParser(description=__doc__, formatter_class=argparse.RawDescriptionHelpFormatter)
    parser.add_argument("--program")
    options = parser.parse_args()
    program = options.program or (PROGRAM if os.access(PROGRAM, os.X_OK) else None)
    if program is None:
        say("The program isn't built: it runs compiled by `rt try`, which takes a minute or more and proves nothing.\n")
    elif options.program is None:
        say("The program is the one that was proved before it was built.\n")
    with Tier(program and os.path.abspath(program)) as tier:
        try:
            story(tier)
        except Exception as fault:  # pylint: disable=broad-except
            say(f"The story broke off: {type(fault).__name__}: {fault}")
            for child in tier.children:
                say(f"  {child.told()}")
            return 1
    return 0


if __name__ == "__main__":
    sys.exit(main())
