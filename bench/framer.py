#!/usr/bin/env python3
"""Times how one long message is framed, however its bytes are cut.

    python3 bench/framer.py [--program PATH] [--bytes N ..] [--piece BYTES ..]

A source inserts one row with a name of N bytes, and a relay gets the message that tells it, whole and in pieces of so many bytes.
Each delivery is a line of the script, so that those in short pieces have more to read and to print: what this costs is told by as
many deliveries of 0 bytes, and taken off. Printed are the processor seconds of what is left, which is to write the message, to frame
it, to read it and to fold it; what that is for each byte; and the ratios of this to the same message whole, and to the shortest
message cut the same way. Where framing is linear however a stream is cut, no ratio grows with the length.
"""
import argparse
import json
import subprocess
import sys
import tempfile

from fold import PROGRAM, SCHEMA, least_seconds, uuid

WHOLE = 1_000_000_000
# what a message has besides the name, at most
AROUND = 1_000
# the longest name that a message within the limit of 16,777,216 bytes may have
LONGEST = 16_777_216 - AROUND


def script(size, piece, count):
    """The source commits a row with a name of `size` bytes, which comes to the relay in `count` deliveries of `piece` bytes."""
    row = {"name": "x" * size}
    lines = [SCHEMA, 1, ["connect", 1, 0]]
    # the schema, and the answer to what the relay then asks
    lines += 2 * [["deliver", 1, WHOLE]]
    lines.append(["commit", uuid(0xAAAAAAAA, 1), [{"op": "insert", "table": "Port", "row": row}]])
    lines += count * [["deliver", 1, piece]]
    return "\n".join(json.dumps(line) for line in lines) + "\n"


def seconds(program, text, links):
    """The processor seconds of a script, at whose end the relay holds so many links."""
    with tempfile.NamedTemporaryFile("w", suffix=".script") as file:
        file.write(text)
        file.flush()
        with open(file.name, "rb") as source:
            printed = subprocess.run([program, "world"], stdin=source, stdout=subprocess.PIPE, check=True).stdout
        last = printed.decode().splitlines()[-1].split()
        if last[:2] != ["node", "1"] or last[5] != str(links):
            sys.exit(f"the relay holds other links: {' '.join(last)}")
        return least_seconds([program, "world"], file.name)


def delivery(program, size, piece):
    """What the delivery takes, without the lines that ask for it."""
    count = -(-(size + AROUND) // piece)
    return seconds(program, script(size, piece, count), 1) - seconds(program, script(size, 0, count), 0)


def main():
    parser = argparse.ArgumentParser(description=__doc__, formatter_class=argparse.RawDescriptionHelpFormatter)
    parser.add_argument("--program", default=PROGRAM)
    parser.add_argument("--bytes", type=int, nargs="+", default=[LONGEST // 16, LONGEST // 4, LONGEST])
    parser.add_argument("--piece", type=int, nargs="+", default=[4_096, 64])
    options = parser.parse_args()
    print(f"{'bytes':>12}{'pieces of':>12}{'seconds':>10}{'ns a byte':>12}{'to whole':>10}{'to shortest':>13}")
    shortest = {}
    for size in options.bytes:
        for piece in [WHOLE, *options.piece]:
            spent = delivery(options.program, size, piece)
            each = spent / size
            if piece == WHOLE:
                whole = each
            cut = "whole" if piece == WHOLE else f"{piece:,}"
            growth = each / shortest.setdefault(piece, each)
            print(f"{size:12,}{cut:>12}{spent:10.3f}{each * 1e9:12.1f}{each / whole:10.2f}{growth:13.2f}", flush=True)
    return 0


if __name__ == "__main__":
    sys.exit(main())
