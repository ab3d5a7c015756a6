#!/usr/bin/env python3
"""What a relay holds whose source begins epoch after epoch, with and without `--prune`, and what many links of one epoch take.

    python3 bench/pruning.py [--program PATH] [--seconds N] [--trim-every N] [--rows N]
    python3 bench/pruning.py [--program PATH] --links N [--upstreams N]

A source begins a new epoch after so many commits, and two relays follow it, one of them with `--prune`. For so many seconds a client updates
one of a few rows after the other at the source, many requests at once. Printed is how many of the commits were answered, and the resident
memory of each node in megabytes: at first, when the first epoch is nearly over, at the end, and at most. With `--links` there is one epoch,
with so many links, and one relay, without `--prune`, which is told all of them by the source over so many connections.
"""
import argparse
import os
import sys
import time

HERE = os.path.dirname(os.path.abspath(__file__))
sys.path.insert(0, os.path.join(HERE, "..", "checks"))
# pylint: disable=wrong-import-position
from harness import Lab
from processes import wait_until
from pruning import Updates, show_the_same
from run import PROGRAM, raise_limits

AT_ONCE = 64
PATIENCE = 600
# As many digits as the number of an update has at least.
WIDTH = 8


def of_status(node, name):
    """A figure of the kernel's on a node, in megabytes."""
    with open(f"/proc/{node.child.served_by}/status", encoding="ascii", errors="replace") as status:
        return next(int(line.split()[1]) for line in status if line.startswith(name)) / 1_024


def settled(nodes):
    """Waits until all show the same, and gives the memory of each."""
    wait_until(lambda: show_the_same(nodes), PATIENCE, "the relays show what the source shows")
    return [of_status(node, "VmRSS") for node in nodes]


def with_epochs(lab, options):
    """Commits for so many seconds. The first epoch is measured when its last commits are in."""
    source = lab.source("--trim-every", str(options.trim_every))
    nodes = [source, lab.relay([source]).with_source(), lab.relay([source], "--prune", name="relay --prune").with_source()]
    updates, begun = Updates(source, options.rows, WIDTH, PATIENCE), time.monotonic()
    sizes = [settled(nodes)]
    while updates.commits < options.trim_every - 2 * AT_ONCE:
        updates.write(AT_ONCE)
    sizes.append(settled(nodes))
    while time.monotonic() - begun < options.seconds:
        updates.write(AT_ONCE)
    sizes.append(settled(nodes))
    return nodes, updates.commits, sizes


def with_links(lab, options):
    """Commits until there are so many links, of which the first has inserted the rows."""
    source = lab.source()
    nodes = [source, lab.relay([source] * options.upstreams).with_source()]
    updates = Updates(source, options.rows, WIDTH, PATIENCE)
    sizes = [settled(nodes)]
    while updates.commits < options.links - 1:
        updates.write(min(AT_ONCE, options.links - 1 - updates.commits))
    sizes.append(settled(nodes))
    return nodes, updates.commits, sizes


def main():
    parser = argparse.ArgumentParser(description=__doc__, formatter_class=argparse.RawDescriptionHelpFormatter)
    parser.add_argument("--program", default=os.environ.get("OVS_RELAY", PROGRAM))
    parser.add_argument("--seconds", type=float, default=60)
    parser.add_argument("--trim-every", type=int, default=1_000)
    parser.add_argument("--rows", type=int, default=10)
    parser.add_argument("--links", type=int)
    parser.add_argument("--upstreams", type=int, default=1)
    options = parser.parse_args()
    raise_limits()
    begun = time.monotonic()
    with Lab(os.path.abspath(options.program)) as lab:
        nodes, commits, sizes = (with_links if options.links else with_epochs)(lab, options)
        print(f"{commits:,} commits in {time.monotonic() - begun:.0f} s; MB")
        for place, node in enumerate(nodes):
            print(f"{node.name:16}" + "".join(f"{size[place]:10.1f}" for size in sizes) + f"   at most {of_status(node, 'VmHWM'):.1f}")


if __name__ == "__main__":
    main()
