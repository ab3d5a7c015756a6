#!/usr/bin/env python3
"""Times the command `fold` on links in whatever order, beside a plain Python loop on the same scripts.

    python3 bench/links.py [--program PATH] [--links N ..] [--empty N]

The scripts are those of bench/fold.py, with the links in order, in reverse and shuffled. In order the loop is that
of bench/fold.py, which applies each change as it comes; else it puts the links into a dict by the id before them, and
then walks the chain. A last script has links in order whose changes are empty. Printed is what bench/fold.py prints,
and for each order how much longer 100,000 links take than 10,000.
"""
import argparse
import json
import os
import random
import sys

from fold import PLAIN_LOOP, PROGRAM, SCHEMA, ZERO, apply_changes, compare, heading, links_of, script, uuid

CHAIN_LOOP = [os.path.abspath(__file__), "--chain-loop"]


def in_order(lines):
    return lines


def in_reverse(lines):
    return lines[::-1]


def shuffled(lines):
    lines = list(lines)
    random.Random(11).shuffle(lines)
    return lines


ORDERS = {"in order": (in_order, PLAIN_LOOP), "in reverse": (in_reverse, CHAIN_LOOP), "shuffled": (shuffled, CHAIN_LOOP)}


def chain_loop(path):
    following = {prev: (this, changes) for prev, this, changes in links_of(path)}
    database, head = {}, ZERO
    while head in following:
        head, changes = following[head]
        apply_changes(database, head, changes)
    print(len(database))


def empty_script(links):
    ids = [ZERO, *(uuid(0xAAAAAAAA, number) for number in range(1, links + 1))]
    return "\n".join([json.dumps(SCHEMA), *(json.dumps([prev, this, {}]) for prev, this in zip(ids, ids[1:]))]) + "\n"


def main():
    if len(sys.argv) == 3 and sys.argv[1] == "--chain-loop":
        return chain_loop(sys.argv[2])
    parser = argparse.ArgumentParser(description=__doc__, formatter_class=argparse.RawDescriptionHelpFormatter)
    parser.add_argument("--program", default=PROGRAM)
    parser.add_argument("--links", type=int, nargs="+", default=[1000, 10_000, 20_000, 100_000])
    parser.add_argument("--empty", type=int, default=1_000_000)
    options = parser.parse_args()
    heading()
    spent = {}
    for links in options.links:
        schema, *lines = script(links).splitlines()
        for name, (order, loop) in ORDERS.items():
            text = "\n".join([schema, *order(lines)]) + "\n"
            spent[name, links] = compare(f"{links:,} {name}", options.program, text, loop)
    compare(f"{options.empty:,} empty", options.program, empty_script(options.empty), PLAIN_LOOP)
    for name in ORDERS:
        if (name, 10_000) in spent and (name, 100_000) in spent:
            print(f"100,000 {name}: {spent[name, 100_000] / spent[name, 10_000]:.1f} times 10,000")
    return 0


if __name__ == "__main__":
    sys.exit(main())
