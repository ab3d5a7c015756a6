#!/usr/bin/env python3
"""Times a request with 1, 8, 64 and 1,000 sessions of one worker, which one thread serves over memory.

    python3 bench/worker.py [--program PATH] [--requests N]

The program is the table of nodes. All sessions together ask the same number of requests, of which each is answered by a node that holds
one row. What the same line takes where it has no session, which is to read it, is taken off. Of three runs the shortest counts. Printed
are processor microseconds a request, with what it takes to make the request and to compare the reply, and the ratio to one session; and
beside them what a plain loop takes that parses the same requests with `json.loads` and writes their replies with `json.dumps`.
"""
import json
import os
import time

from timing import arguments, seconds, uuid

PROGRAM = os.path.join(os.path.dirname(os.path.abspath(__file__)), "..", "crates", "ovs_node_cases", "out", "ovs_node_cases")
SCHEMA = {"name": "net", "version": "1.0.0", "tables": {"Port": {"columns": {"name": {"type": "string"}}}}}
CHANGE = {"Port": {uuid(1): {"insert": {"name": "p1"}}}}
SELECT = ["transact", ["net", {"op": "select", "table": "Port", "where": [], "columns": ["name"]}], [{"rows": [{"name": "p1"}]}]]
ECHO = ["echo", ["session #"], ["session #"]]
SESSIONS = (1, 8, 64, 1000)
PIECE = 4096


def line(sessions, request, count):
    return ["worker", CHANGE, sessions, PIECE, [request] * count]


def each(program, sessions, request, total):
    """The processor seconds of one request."""
    count = total // sessions
    spent = seconds(program, SCHEMA, line(sessions, request, count)) - seconds(program, SCHEMA, line(0, request, count))
    return spent / (count * sessions)


def plain(request, total):
    """The processor seconds of one request in a plain loop."""
    method, params, result = request
    texts = [json.dumps({"id": number, "method": method, "params": params}) for number in range(total)]
    begun = time.process_time()
    for text in texts:
        json.dumps({"error": None, "id": json.loads(text)["id"], "result": result})
    return (time.process_time() - begun) / total


def main():
    parser = arguments(__doc__)
    parser.set_defaults(program=PROGRAM)
    parser.add_argument("--requests", type=int, default=64_000)
    given = parser.parse_args()
    for name, request in (("echo", ECHO), ("select", SELECT)):
        one = None
        for sessions in SESSIONS:
            took = each(given.program, sessions, request, given.requests)
            one = one or took
            print(f"{name:8}{sessions:>6,} sessions{took * 1e6:10.1f}us{took / one:8.2f}", flush=True)
        took = plain(request, given.requests)
        print(f"{name:8}{'plain loop':>15}{took * 1e6:10.1f}us{took / one:8.2f}", flush=True)


if __name__ == "__main__":
    main()
