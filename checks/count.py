#!/usr/bin/env python3
"""Adds the counts of several runs: python3 checks/count.py STATUS FILE [STATUS FILE ..].

Each FILE has what a run printed, and its count in the last line that begins 'N passed, M failed'. A run that ended with another status
than 0 and told no failure, or told no count, counts as one failure. Prints the sum in the same form, and ends with status 1 where
something failed.
"""
import re
import sys

COUNT = re.compile(r"^(\d+) passed, (\d+) failed(?:, (\d+) skipped)?", re.MULTILINE)


def counted(status, path):
    """What a run passed, failed and skipped."""
    with open(path, encoding="utf-8", errors="replace") as told:
        counts = COUNT.findall(told.read())
    if not counts:
        return 0, 1, 0
    passed, failed, skipped = (int(count or 0) for count in counts[-1])
    return passed, failed or int(status != "0"), skipped


def main():
    runs = [counted(*run) for run in zip(sys.argv[1::2], sys.argv[2::2])]
    passed, failed, skipped = (sum(counts) for counts in zip(*runs))
    print(f"{passed} passed, {failed} failed" + (f", {skipped} skipped" if skipped else ""))
    return 1 if failed else 0


if __name__ == "__main__":
    sys.exit(main())
