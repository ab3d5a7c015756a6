"""What a question to the table of cases costs, without what comes before it."""
import argparse
import json
import os
import resource
import subprocess

PROGRAM = os.path.join(os.path.dirname(os.path.abspath(__file__)), "..", "crates", "ovs_cases", "out", "ovs_cases")


def uuid(number):
    return f"11111111-0000-4000-8000-{number:012x}"


def arguments(description):
    parser = argparse.ArgumentParser(description=description, formatter_class=argparse.RawDescriptionHelpFormatter)
    parser.add_argument("--program", default=PROGRAM)
    return parser


def processor_seconds():
    used = resource.getrusage(resource.RUSAGE_CHILDREN)
    return used.ru_utime + used.ru_stime


def seconds(program, schema, line):
    """The processor seconds of one run: of three runs the shortest counts."""
    text = "\n".join([json.dumps(["use", schema]), json.dumps(line)]) + "\n"
    best = None
    for _ in range(3):
        begun = processor_seconds()
        subprocess.run([program], input=text.encode(), stdout=subprocess.DEVNULL, check=True)
        spent = processor_seconds() - begun
        best = spent if best is None else min(best, spent)
    return best


def each(program, schema, line, rows, times):
    """The processor seconds of one question: `line` gives the case for a number of rows in which it is asked so many times."""
    more = seconds(program, schema, line(rows, 1 + times))
    return (more - seconds(program, schema, line(rows, 1))) / times


def compare(program, schema, sizes, questions, what="rows"):
    """Prints what each question costs at the two sizes, and the ratio. A question has a name, its line, and how often it is asked at each size."""
    small_rows, large_rows = sizes
    print(f"{'':24}{small_rows:>8,} {what}{large_rows:>8,} {what}{'ratio':>10}")
    for name, line, few, many in questions:
        small = each(program, schema, line, small_rows, few)
        large = each(program, schema, line, large_rows, many)
        print(f"{name:24}{small * 1e6:11.1f}us{large * 1e6:11.1f}us{large / small:10.2f}")
