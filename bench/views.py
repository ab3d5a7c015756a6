#!/usr/bin/env python3
"""Times what a node publishes while views read it all the time.

    python3 bench/views.py [--program PATH] [--steps N] [--views N ..] [--runs N]

One end sends N links, each a step of one row; the folder's thread takes, folds and publishes each, and every view but the end's own
asks for the head again and again, and gives its processor up between two questions. Printed are, for each number of views that read, the
processor time
of the folder's thread a step, without what making the links costs, as a ratio to a store alone that takes and folds the same
links and to one view; and how often a second each view was answered. The folder's thread is the first of the program's, whose
time the kernel tells while it runs. Of the runs the one with the least processor time counts, and all are printed.
"""
import argparse
import json
import os
import subprocess
import sys
import time

from fold import SCHEMA

PROGRAM = os.path.join(os.path.dirname(os.path.abspath(__file__)), "..", "crates", "ovs_node_cases", "out", "ovs_node_cases")
READ_EVERY = 0.002


def run(program, line):
    """The processor seconds of the first thread, the seconds that passed, and what was answered."""
    begun = time.monotonic()
    child = subprocess.Popen([program], stdin=subprocess.PIPE, stdout=subprocess.PIPE)
    child.stdin.write("\n".join([json.dumps(["use", SCHEMA]), json.dumps(line)]).encode() + b"\n")
    child.stdin.close()
    spent = 0
    while child.poll() is None:
        try:
            with open(f"/proc/{child.pid}/task/{child.pid}/schedstat") as told:
                spent = max(spent, int(told.read().split()[0]))
        except (OSError, IndexError):
            pass
        time.sleep(READ_EVERY)
    passed = time.monotonic() - begun
    answer = child.stdout.read().decode().split("but: ")[1].split("\n")[0]
    return spent / 1e9, passed, answer


def best(program, line, runs):
    found = [run(program, line) for _ in range(runs)]
    told = ", ".join(f"{spent:.2f} of {passed:.2f}" for spent, passed, _ in found)
    print(f"  {json.dumps(line)}: processor seconds of the seconds that passed: {told}")
    return min(found)


def main():
    parser = argparse.ArgumentParser(description=__doc__, formatter_class=argparse.RawDescriptionHelpFormatter)
    parser.add_argument("--program", default=PROGRAM)
    parser.add_argument("--steps", type=int, default=100_000)
    parser.add_argument("--views", type=int, nargs="+", default=[1, 4, 11])
    parser.add_argument("--runs", type=int, default=3)
    options = parser.parse_args()
    making, made_in, _ = best(options.program, ["make", options.steps], options.runs)
    storing, _, _ = best(options.program, ["store", options.steps], options.runs)
    alone = None
    rows = []
    for views in options.views:
        spent, passed, answer = best(options.program, ["publish", views + 1, options.steps], options.runs)
        answers = int(answer.split(" answers ")[1])
        step = spent - making
        alone = alone or step
        rows.append((views, step / options.steps * 1e6, step / (storing - making), step / alone, answers / (passed - made_in) / views))
    print(f"{'views':>6}{'us a step':>12}{'to the store':>14}{'to one view':>13}{'answers a second a view':>26}")
    for views, step, to_store, to_one, answers in rows:
        print(f"{views:6}{step:12.2f}{to_store:14.2f}{to_one:13.2f}{answers:26,.0f}")
    return 0


if __name__ == "__main__":
    sys.exit(main())
