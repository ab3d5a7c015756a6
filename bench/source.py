#!/usr/bin/env python3
"""Times transactions of a source whose table has 100 and 10,000 rows.

    python3 bench/source.py [--program PATH] [--times N]

The program's command `world` runs a source with a relay that follows nobody. The first commit fills the table, and those that are timed
come after it. Each is carried out once in one run and N times in another; the difference of the two, divided by how often more it was
carried out, is what one costs. Of five runs the shortest counts. Printed are processor microseconds for each, and the ratio of the large
table to the small one:

    insert of a row       beside a delete of the row inserted before, so that the table keeps its size; a link is made
    update of a row       where ["_uuid","==",ID]; a link is made
    select of a row       the same condition, and no change
"""
import argparse
import json
import subprocess

from fold import PROGRAM
from timing import processor_seconds

SCHEMA = {"name": "net", "version": "1.0.0", "tables": {"Port": {"columns": {"name": {"type": "string"}, "up": {"type": {"key": "boolean", "min": 0}}}}}}
SIZES = (100, 10_000)
RUNS = 5


def row(number):
    """The id that the source gives to the row with this number, counted from 0."""
    return f"00000000-0000-0000-0000-{number + 1:012x}"


def insert(number):
    return {"op": "insert", "table": "Port", "row": {"name": f"p{number}"}}


def by_id(number):
    return [["_uuid", "==", ["uuid", row(number)]]]


def commit(number, operations):
    return ["commit", f"aaaaaaaa-aaaa-4aaa-8aaa-{number:012x}", operations]


def insert_one(rows, number):
    return commit(number, [insert(number), {"op": "delete", "table": "Port", "where": by_id(rows + number - 2)}])


def update_one(rows, number):
    return commit(number, [{"op": "update", "table": "Port", "where": by_id(number % rows), "row": {"name": f"q{number}"}}])


def select_one(rows, number):
    return ["read", 0, [{"op": "select", "table": "Port", "where": by_id(number % rows), "columns": ["name"]}]]


def seconds(program, events):
    """The processor seconds of one run: of some runs the shortest counts."""
    text = "\n".join(json.dumps(line) for line in [SCHEMA, 1, *events]) + "\n"
    best = None
    for _ in range(RUNS):
        begun = processor_seconds()
        subprocess.run([program, "world"], input=text.encode(), stdout=subprocess.DEVNULL, check=True)
        spent = processor_seconds() - begun
        best = spent if best is None else min(best, spent)
    return best


def each(program, event, rows, times):
    """The processor seconds of one event."""
    filled = commit(0, [insert(number) for number in range(rows)])
    timed = [event(rows, number) for number in range(1, 2 + times)]
    return (seconds(program, [filled, *timed]) - seconds(program, [filled, timed[0]])) / times


def main():
    parser = argparse.ArgumentParser(description=__doc__, formatter_class=argparse.RawDescriptionHelpFormatter)
    parser.add_argument("--program", default=PROGRAM)
    parser.add_argument("--times", type=int, default=2_000)
    given = parser.parse_args()
    few, many = SIZES
    print(f"{'':20}{few:>8,} rows{many:>8,} rows{'ratio':>10}")
    for name, event in [("insert of a row", insert_one), ("update of a row", update_one), ("select of a row", select_one)]:
        small, large = (each(given.program, event, rows, given.times) for rows in SIZES)
        print(f"{name:20}{small * 1e6:11.1f}us{large * 1e6:11.1f}us{large / small:10.2f}", flush=True)


main()
