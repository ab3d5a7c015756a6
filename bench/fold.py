#!/usr/bin/env python3
"""Times the command `fold` beside a plain Python loop on the same scripts.

    python3 bench/fold.py [--program PATH] [--links N ..]

Each script has a schema with all four kinds of column (a string, a set of integers, a map of strings, an
optional boolean) and N links: one in three inserts a row, the others modify one. The loop parses the same
lines with `json.loads` and applies them to a dict, with no check of its input. Both run as processes of
their own, three times each; the least time counts. Printed are processor seconds, the peak of memory in MiB
of one run more, and the ratios of the program to the loop.
"""
import argparse
import json
import os
import random
import subprocess
import sys
import tempfile
import time

from timing import processor_seconds

ROOT = os.path.join(os.path.dirname(os.path.abspath(__file__)), "..")
ZERO = "00000000-0000-0000-0000-000000000000"
SCHEMA = {
    "name": "net",
    "version": "1.0.0",
    "tables": {
        "Port": {
            "columns": {
                "name": {"type": "string"},
                "tags": {"type": {"key": "integer", "min": 0, "max": "unlimited"}},
                "opts": {"type": {"key": "string", "value": "string", "min": 0, "max": "unlimited"}},
                "up": {"type": {"key": "boolean", "min": 0}},
            }
        }
    },
}


def uuid(kind, number):
    return f"{kind:08x}-0000-4000-8000-{number:012x}"


def script(links):
    chance = random.Random(7)
    lines, rows, prev = [json.dumps(SCHEMA)], [], ZERO
    for number in range(1, links + 1):
        if not rows or number % 3 == 0:
            row = uuid(0x11111111, number)
            rows.append(row)
            update = {"insert": {"name": f"p{number}", "tags": ["set", [1, 2, 10 + number]], "opts": ["map", [["x", "1"]]], "up": True}}
        else:
            row = chance.choice(rows)
            update = {"modify": {"name": f"q{number}", "tags": ["set", [2, 10 + number]], "opts": ["map", [["x", str(number)], [f"k{number % 7}", "v"]]]}}
        this = uuid(0xAAAAAAAA, number)
        lines.append(json.dumps([prev, this, {"Port": {row: update}}]))
        prev = this
    return "\n".join(lines) + "\n"


def elements(datum):
    return set(datum[1]) if isinstance(datum, list) else {datum}


def modified(row, update):
    new = dict(row)
    for column, value in update.items():
        if column == "tags":
            new[column] = row.get(column, set()) ^ elements(value)
        elif column == "opts":
            pairs = dict(row.get(column, {}))
            for key, item in value[1]:
                if pairs.get(key) == item:
                    del pairs[key]
                else:
                    pairs[key] = item
            new[column] = pairs
        else:
            new[column] = value
    return new


def apply_changes(database, this, changes):
    for table, rows in changes.items():
        for row, update in rows.items():
            place = (table, row)
            if "insert" in update:
                made = dict(update["insert"])
                made["tags"] = elements(made["tags"])
                made["opts"] = dict(made["opts"][1])
                database[place] = made
            elif "modify" in update:
                database[place] = modified(database[place], update["modify"])
            else:
                del database[place]
                continue
            database[place]["_version"] = this


def links_of(path):
    with open(path, encoding="utf-8") as file:
        json.loads(file.readline())
        for line in file:
            yield json.loads(line)


def plain_loop(path):
    database = {}
    for _prev, this, changes in links_of(path):
        apply_changes(database, this, changes)
    print(len(database))


def started(command, source):
    return subprocess.Popen(command, stdin=source, stdout=subprocess.DEVNULL)


def checked(command, process):
    if process.wait() != 0:
        sys.exit(f"{command}: status {process.returncode}")


def least_seconds(command, path):
    """The processor seconds of the shortest of three runs."""
    seconds = []
    for _ in range(3):
        with open(path, "rb") as source:
            begun = processor_seconds()
            checked(command, started(command, source))
            seconds.append(processor_seconds() - begun)
    return min(seconds)


def high_water(number):
    """The most memory that a process has had so far in KiB, or 0 where it has ended."""
    try:
        with open(f"/proc/{number}/status", encoding="ascii") as status:
            return next((int(line.split()[1]) for line in status if line.startswith("VmHWM:")), 0)
    except FileNotFoundError:
        return 0


def peak_memory(command, path):
    """The peak of memory in MiB, looked at each millisecond of a run of its own.

    What the kernel tells of an ended child counts the memory that this process had when it started it.
    """
    peak = 0
    with open(path, "rb") as source:
        process = started(command, source)
        while process.poll() is None:
            peak = max(peak, high_water(process.pid))
            time.sleep(0.001)
    checked(command, process)
    return peak / 1024


def measured(command, path):
    return least_seconds(command, path), peak_memory(command, path)


def heading(what="links", other="loop"):
    print(f"{what:24}{'program s':>12}{'MiB':>8}{other + ' s':>10}{'MiB':>8}{'time':>8}{'memory':>8}")


def print_ratios(label, ours, theirs):
    """Prints what was measured of the program and of what it is held against."""
    (spent, peak), (their_spent, their_peak) = ours, theirs
    print(f"{label:24}{spent:12.3f}{peak:8.1f}{their_spent:10.3f}{their_peak:8.1f}{spent / their_spent:8.2f}{peak / their_peak:8.2f}", flush=True)


def compare(label, program, text, loop):
    """Runs the program and a loop on a script, prints a line, and gives the seconds of the program. A loop is a Python file with its first argument."""
    with tempfile.NamedTemporaryFile("w", suffix=".script") as file:
        file.write(text)
        file.flush()
        ours = measured([program, "fold"], file.name)
        theirs = measured([sys.executable, *loop, file.name], os.devnull)
    print_ratios(label, ours, theirs)
    return ours[0]


PROGRAM = os.path.join(ROOT, "crates/ovs_relay/out/ovs_relay")
PLAIN_LOOP = [os.path.abspath(__file__), "--plain-loop"]


def main():
    if len(sys.argv) == 3 and sys.argv[1] == "--plain-loop":
        return plain_loop(sys.argv[2])
    parser = argparse.ArgumentParser()
    parser.add_argument("--program", default=PROGRAM)
    parser.add_argument("--links", type=int, nargs="+", default=[1000, 4000])
    options = parser.parse_args()
    heading()
    for links in options.links:
        compare(f"{links:,}", options.program, script(links), PLAIN_LOOP)
    return 0


if __name__ == "__main__":
    sys.exit(main())
