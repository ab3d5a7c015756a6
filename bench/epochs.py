#!/usr/bin/env python3
"""What a new epoch costs a node: all its sessions are closed at once, come again, and are told all rows.

    python3 bench/epochs.py [--program PATH] [--sessions N] [--rows N ..] [--rounds N]

A source has so many rows, and a relay follows it. So many sessions at the one, and then at the other, each with a monitor by id of the
column `name`, know all rows when a commit makes an epoch due. Each is closed, connects again at once, and asks for what comes after the id
that it knows. Printed are the seconds from the commit's request until the last session was told all, the processor seconds that the node
took until then, and its memory: before, at most in between, and after. Of several rounds each is printed.
"""
import argparse
import json
import os
import selectors
import socket
import sys
import time

HERE = os.path.dirname(os.path.abspath(__file__))
sys.path.insert(0, os.path.join(HERE, "..", "checks"))
# pylint: disable=wrong-import-position
from client import Session
from data import FIRST_ID, insert, nth, select
from harness import Lab
from processes import wait_until
from run import PROGRAM, raise_limits
from serving import processor_seconds

BATCH = 1_000
PATIENCE = 900
QUIET = 1.0
PIECE = 1 << 18


def of_status(process, name):
    """A figure of the kernel's on a process, in megabytes."""
    with open(f"/proc/{process}/status", encoding="ascii", errors="replace") as status:
        return next(int(line.split()[1]) for line in status if line.startswith(name)) / 1_024


def forget_peak(process):
    with open(f"/proc/{process}/clear_refs", "w", encoding="ascii") as told:
        told.write("5")


class Agent:
    """A connection that asks for what comes after an id, and counts the bytes that it is told."""

    def __init__(self, crowd):
        self.crowd, self.socket = crowd, None
        self.told, self.last, self.is_again = 0, 0.0, False

    def come(self):
        self.socket = socket.create_connection(("127.0.0.1", self.crowd.port), PATIENCE)
        text = json.dumps({"id": 1, "method": "monitor_cond_since", "params": ["net", "m", {"Port": {"columns": ["name"]}}, self.crowd.known]})
        self.socket.sendall(text.encode())
        self.socket.setblocking(False)
        self.crowd.selector.register(self.socket, selectors.EVENT_READ, self)
        self.told = 0

    def read(self):
        """Reads once. Where the connection is closed it comes again."""
        try:
            piece = self.socket.recv(PIECE)
        except BlockingIOError:
            return
        except ConnectionResetError:
            piece = b""
        self.told += len(piece)
        self.last = time.monotonic()
        if not piece:
            self.leave()
            self.come()
            self.is_again = True

    def leave(self):
        self.crowd.selector.unregister(self.socket)
        self.socket.close()


class Crowd:
    """Many agents at one node."""

    def __init__(self, node, number, known):
        self.port, self.known = node.port, known
        self.selector = selectors.DefaultSelector()
        self.agents = [Agent(self) for _ in range(number)]
        for agent in self.agents:
            agent.come()
        self.read_until(lambda: all(agent.told for agent in self.agents))

    def read_until(self, is_done):
        until = time.monotonic() + PATIENCE
        while not is_done():
            if time.monotonic() > until:
                raise AssertionError("not all sessions were told all in time")
            for key, _ in self.selector.select(0.2):
                key.data.read()

    def have_all(self, least):
        """Whether all came again and were told the same, of at least so many bytes, and nothing has come for a while."""
        first = self.agents[0].told
        if first < least or not all(agent.is_again and agent.told == first for agent in self.agents):
            return False
        return time.monotonic() - max(agent.last for agent in self.agents) > QUIET

    def leave(self):
        for agent in self.agents:
            agent.leave()
        self.selector.close()


def fill(writer, rows):
    for first in range(0, rows, BATCH):
        writer.transact("net", *(insert(name=f"port-{number:06}") for number in range(first, min(rows, first + BATCH))), seconds=PATIENCE)


def measure(lab, options, rows, which):
    """One round: a source and a relay with so many rows, the sessions at one of them, and a commit that makes an epoch due."""
    commits = -(-rows // BATCH)
    source = lab.source("--trim-every", str(commits + 1))
    relay = lab.relay([source]).with_source()
    node = (source, relay)[which]
    with source.session(PATIENCE) as writer:
        fill(writer, rows)
        known = nth(FIRST_ID, commits)
        versions = [{"rows": [{"_version": ["uuid", known]}]}]
        last = select([["name", "==", f"port-{rows - 1:06}"]], columns=["_version"])
        with Session(node.port, PATIENCE) as reader:
            wait_until(lambda: reader.transact("net", last) == versions, PATIENCE, "the node has all rows")
        crowd = Crowd(node, options.sessions, known)
        process = node.child.served_by
        before = of_status(process, "VmRSS")
        forget_peak(process)
        spent, begun = processor_seconds(process), time.monotonic()
        writer.request("transact", "net", insert(name="one more"))
        crowd.read_until(lambda: crowd.have_all(rows * 40))
        taken = max(agent.last for agent in crowd.agents) - begun
        figures = (taken, processor_seconds(process) - spent, before, of_status(process, "VmHWM"), of_status(process, "VmRSS"), crowd.agents[0].told / 1e6)
        crowd.leave()
    return figures


def main():
    parser = argparse.ArgumentParser(description=__doc__, formatter_class=argparse.RawDescriptionHelpFormatter)
    parser.add_argument("--program", default=os.environ.get("OVS_RELAY", PROGRAM))
    parser.add_argument("--sessions", type=int, default=1_000)
    parser.add_argument("--rows", type=int, nargs="+", default=[10, 10_000])
    parser.add_argument("--rounds", type=int, default=1)
    options = parser.parse_args()
    raise_limits()
    print(f"{options.sessions:,} sessions{'':10}{'seconds':>10}{'processor':>10}{'MB before':>10}{'at most':>10}{'after':>10}{'MB told each':>14}")
    for rows in options.rows:
        for which, name in enumerate(("source", "relay")):
            for _ in range(options.rounds):
                with Lab(os.path.abspath(options.program)) as lab:
                    figures = measure(lab, options, rows, which)
                print(f"{name}, {rows:,} rows".ljust(24) + "".join(f"{figure:10.2f}" for figure in figures[:2]) + "".join(f"{figure:10.1f}" for figure in figures[2:5])
                      + f"{figures[5]:14.3f}", flush=True)


if __name__ == "__main__":
    main()
