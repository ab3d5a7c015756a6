#!/usr/bin/env python3
"""What the whole copy of a large database costs a relay: ours, and ovsdb-server in its relay mode.

    python3 bench/copies.py [--program PATH] [--mebibytes N ..] [--most-bytes N]

A clustered ovsdb-server is filled until its copy, in one message, is so long. Then each relay is begun in its turn. Printed is the length of the
copy, how long after its start the relay shows all rows, how many seconds of a processor it took until then, and its resident memory in
megabytes: the most that it ever was, and then; and both for each byte of the copy.
"""
import argparse
import json
import os
import socket
import sys
import time

HERE = os.path.dirname(os.path.abspath(__file__))
sys.path.insert(0, os.path.join(HERE, "..", "checks"))
# pylint: disable=wrong-import-position
from client import Closed, Refused, Session
from data import NET, ZEROS, insert, select
from debian import Server, clustered
from harness import Lab
from processes import wait_until
from run import PROGRAM, raise_limits

PATIENCE = 900
MIB = 1 << 20
# So many rows are inserted at once.
ROWS = 2_000
# So long nothing comes behind a message.
QUIET = 3
TICKS = os.sysconf("SC_CLK_TCK")
# Between one look at a node and the next.
PAUSE = 0.5


def name_of(number):
    return f"port-{number:08}"


def row(number):
    """A row that takes some 400 bytes in a copy, as those of OVN's southbound database do on average."""
    opts = [[f"option-{each}", f"{number:08}-{'x' * 32}"] for each in range(5)]
    return insert(name=name_of(number), tags=["set", [number, number + 1]], opts=["map", opts])


def copy_length(port):
    """How many bytes the message has in which a server tells all rows: what comes until nothing more does."""
    with socket.create_connection(("127.0.0.1", port), timeout=PATIENCE) as connected:
        asked = {"id": 1, "method": "monitor_cond_since", "params": ["net", "m", {"Port": {}}, ZEROS]}
        connected.sendall(json.dumps(asked).encode())
        length = len(connected.recv(1))
        connected.settimeout(QUIET)
        try:
            while True:
                length += len(connected.recv(1 << 20))
        except TimeoutError:
            return length


def fill(server, length):
    """Inserts rows until the copy is so long; gives how many there are."""
    count = each = 0
    with Session(server.port, PATIENCE) as session:
        while count == 0 or count * each < length:
            more = ROWS if count == 0 else min(ROWS, int((length - count * each) / each) + 1)
            session.transact("net", *(row(number) for number in range(count, count + more)))
            count += more
            each = each or copy_length(server.port) / count
    return count


def has_all(node, count):
    """Whether a node shows the last of so many rows, which came with the others; not while it says that it can't, or closes the session."""
    try:
        with Session(node.port, PATIENCE) as session:
            return bool(session.transact("net", select([["name", "==", name_of(count - 1)]], columns=["_uuid"]))[0]["rows"])
    except (Closed, OSError, Refused):
        return False
    finally:
        time.sleep(PAUSE)


def measure(begin, name, count, length):
    begun = time.monotonic()
    node = begin()
    wait_until(lambda: has_all(node, count), PATIENCE, f"{node.name} shows {count} rows")
    took = time.monotonic() - begun
    spent = node.child.ticks() / TICKS
    memory = [node.child.kilobytes(which) * 1_024 for which in ("VmHWM", "VmRSS")]
    most, now = (f"{held / 1e6:5.0f} MB ({held / length:4.1f})" for held in memory)
    print(f"  {name:24}{took:8.1f} s, {spent:6.1f} of a processor, most {most}, then {now}", flush=True)
    node.stop()


def main():
    parser = argparse.ArgumentParser(description=__doc__, formatter_class=argparse.RawDescriptionHelpFormatter)
    parser.add_argument("--program", default=PROGRAM)
    parser.add_argument("--mebibytes", type=int, nargs="+", default=[4, 18, 100])
    parser.add_argument("--most-bytes", type=int, default=268_435_456)
    options = parser.parse_args()
    raise_limits()
    for size in options.mebibytes:
        with Lab(os.path.abspath(options.program)) as lab:
            server = clustered(lab, NET)
            count = fill(server, size * MIB)
            length = copy_length(server.port)
            print(f"a copy of {length:,} bytes, {count:,} rows; the server has {server.child.kilobytes() / 1_024:,.0f} MiB", flush=True)
            measure(lambda: lab.relay([server], "--most-bytes", str(options.most_bytes)), "ovs_relay relay", count, length)
            measure(lambda: Server(lab, f"relay:net:tcp:127.0.0.1:{server.port}"), "ovsdb-server relay:net:..", count, length)


if __name__ == "__main__":
    main()
