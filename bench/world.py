#!/usr/bin/env python3
"""Times the command `world` beside a plain Python model of the same worlds.

    python3 bench/world.py [--program PATH] [--commits N ..] [--piece BYTES]

Each world has a source and nine relays. Relay 1 follows the source, and relay N the relay N / 2, so that a commit comes to the
last of them through three others. The source makes N commits on a table with all four kinds of column: one in three inserts a
row, one in twelve deletes one, and the others update or mutate one. After each hundred of them come deliveries, whole or in
pieces of so many bytes, from session to session until all is told. At the end each node reads all of its rows. The model is
bench/plain_world.py. What the program and the model print has to be equal. Then both run as processes of their own, and what
is printed of them is what bench/fold.py prints.
"""
import argparse
import json
import os
import random
import subprocess
import sys
import tempfile

from fold import PROGRAM, SCHEMA, heading, measured, print_ratios, uuid
from plain_world import World

MODEL = [sys.executable, os.path.join(os.path.dirname(os.path.abspath(__file__)), "plain_world.py")]
RELAYS = 9
BATCH = 100
WHOLE = 1_000_000_000


class Story:
    """The lines of a script, and the world that they lead to."""

    def __init__(self):
        self.world = World(SCHEMA, RELAYS)
        self.lines = [json.dumps(SCHEMA), str(RELAYS)]

    def happen(self, *event):
        """What the world answers to an event."""
        line = json.dumps(event)
        self.lines.append(line)
        return self.world.event(line)

    def is_told(self):
        source, *relays = self.world.nodes
        return all(relay.head == source.head for relay in relays)

    def deliver_all(self, piece):
        while not self.is_told():
            for session in range(1, RELAYS + 1):
                self.happen("deliver", session, piece)


def operation(chance, rows, number):
    """What commit `number` does to these rows."""
    if len(rows) < 2 or number % 3 == 0:
        row = {"name": f"p{number}", "tags": ["set", [1, 2, 10 + number]], "opts": ["map", [["x", "1"]]], "up": True}
        return {"op": "insert", "table": "Port", "row": row}
    place = chance.randrange(len(rows))
    alter = {"table": "Port", "where": [["_uuid", "==", ["uuid", rows[place]]]]}
    if number % 12 == 1:
        rows.pop(place)
        return {"op": "delete", **alter}
    if number % 2:
        return {"op": "update", **alter, "row": {"name": f"q{number}", "up": ["set", []]}}
    opts = ["map", [["x", str(number)], [f"k{number % 7}", "v"]]]
    return {"op": "mutate", **alter, "mutations": [["tags", "delete", 2], ["tags", "insert", 10 + number], ["opts", "insert", opts]]}


def script(commits, piece):
    chance, story, rows = random.Random(7), Story(), []
    for relay in range(1, RELAYS + 1):
        story.happen("connect", relay, relay // 2)
    for number in range(1, commits + 1):
        results = story.happen("commit", uuid(0xAAAAAAAA, number), [operation(chance, rows, number)])
        rows += [result["uuid"][1] for result in json.loads(results) if "uuid" in result]
        if number % BATCH == 0 or number == commits:
            story.deliver_all(piece)
    for node in range(RELAYS + 1):
        story.happen("read", node, [{"op": "select", "table": "Port", "where": []}])
    return "\n".join(story.lines) + "\n"


def output(command, path):
    with open(path, "rb") as source:
        return subprocess.run(command, stdin=source, stdout=subprocess.PIPE, check=True).stdout


def compare(label, program, text):
    """Runs the program and the model on a script, and prints a line."""
    with tempfile.NamedTemporaryFile("w", suffix=".script") as file:
        file.write(text)
        file.flush()
        if output(program, file.name) != output(MODEL, file.name):
            sys.exit(f"{label}: the program and the model print different things")
        print_ratios(label, measured(program, file.name), measured(MODEL, file.name))


def main():
    parser = argparse.ArgumentParser(description=__doc__, formatter_class=argparse.RawDescriptionHelpFormatter)
    parser.add_argument("--program", default=PROGRAM)
    parser.add_argument("--commits", type=int, nargs="+", default=[500, 2_000])
    parser.add_argument("--piece", type=int, default=100)
    options = parser.parse_args()
    heading("commits", "model")
    for commits in options.commits:
        for how, piece in (("whole", WHOLE), (f"by {options.piece:,} bytes", options.piece)):
            compare(f"{commits:,} {how}", [options.program, "world"], script(commits, piece))
    return 0


if __name__ == "__main__":
    sys.exit(main())
