#!/usr/bin/env python3
"""Has a source tell each of many sessions with the same monitor of each commit, over sockets, and prints what a notification costs.

    python3 bench/fan.py [--program PATH] [--rounds N] [--commits N] [--sessions N ..]

The load is bench/load.c, which gcc builds: one more session commits, and again once all have heard. Printed are medians of as many rounds as
asked for: microseconds of the source's processor a notification and a commit, and the microseconds from a commit's request to the last
notification of it, the median of all commits and 99 of 100.
"""
import argparse
import os
import statistics
import sys
import tempfile

from serving import PATIENCE, PROGRAM, SCHEMA, Lab, Load, Session, counter_requests, processor_seconds, raise_limits, row


def measured(load, source, sessions, commits):
    """Of one measurement: processor seconds a commit, and seconds to the last notification, the median and 99 of 100."""
    write, watch = counter_requests(load)
    before = processor_seconds(source.child.served_by)
    told = load.run("late", source.port, sessions, watch, commits, write, PATIENCE)
    spent = processor_seconds(source.child.served_by) - before
    return spent / told["commits"], told["median"], told["late"]


def main():
    parser = argparse.ArgumentParser(description=__doc__, formatter_class=argparse.RawDescriptionHelpFormatter)
    parser.add_argument("--program", default=os.environ.get("OVS_RELAY", PROGRAM))
    parser.add_argument("--rounds", type=int, default=3)
    parser.add_argument("--commits", type=int, default=1_000)
    parser.add_argument("--sessions", type=int, nargs="+", default=[1, 8, 100, 1_000])
    options = parser.parse_args()
    raise_limits()
    with tempfile.TemporaryDirectory() as folder, Lab(os.path.abspath(options.program)) as lab:
        load, source = Load(folder), lab.source(schema=SCHEMA)
        with Session(source.port, PATIENCE) as writer:
            writer.transact("bench", {"op": "insert", "table": "Counter", "row": row(0)})
        print(f"{'sessions':>10}{'us a notification':>20}{'us a commit':>14}{'us to the last':>17}{'99 of 100':>12}")
        for sessions in options.sessions:
            rounds = [measured(load, source, sessions, options.commits) for _ in range(options.rounds)]
            commit, middle, late = (statistics.median(one) * 1e6 for one in zip(*rounds))
            print(f"{sessions:10,}{commit / sessions:20.1f}{commit:14.1f}{middle:17.1f}{late:12.1f}", flush=True)
    return 0


if __name__ == "__main__":
    sys.exit(main())
