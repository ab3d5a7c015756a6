"""The table of cases of `ovs_cases`, each of whose calls for memory is refused in turn: a case is answered as ever, or says that memory ran out."""
import os
import re
import subprocess

from harness import Skip, check, equal, holds
from hostile import STEP
from memory import Memory
from processes import PATIENCE

CRATE = os.path.join(os.path.dirname(os.path.abspath(__file__)), "..", "crates", "ovs_cases")
CASES = os.path.join(CRATE, "out", "ovs_cases")
# Cases in which a call that memory was refused to is made again; and others.
AGAIN = ("store", "database", "transact", "reader", "source", "upstream", "relay desk", "locks", "frames")
OTHERS = ("datum", "difference", "schema", "change", "told", "difference of databases", "monitor", "initial", "updates", "message", "desk", "forwards", "authorities")
# What a case says where memory ran out: within the call that it asks for, where that is made ready, or where the answer is told.
RAN_OUT = re.compile(r"no[ -]memory|no such case|out of memory|OutOfMemory")
# Of the calls of all cases of a word about so many are refused, where not all are; and all, where a word has no more than so many.
REFUSED_AGAIN, REFUSED = 1_000, 300
ALL_AGAIN = 3_500
# A longer line, or one that repeats a text so often, is none that is run again and again.
LONGEST, REPEATS = 4_000, re.compile(r",\s*\d{4,}\]")
SECONDS = 60
LIMIT = 2_400 if STEP == 1 else 600


def cases_of(words):
    """The lines of the table with these words, each with the line before it that sets the schema."""
    used, found = "", {word: [] for word in words}
    with open(os.path.join(CRATE, "stdin"), encoding="utf-8") as table:
        for line in table:
            used = line if line.startswith('["use",') else used
            word = line.split('"')[1] if line.startswith('["') else None
            if word in found and len(line) < LONGEST and not REPEATS.search(line):
                found[word].append(used + line)
    return found


class Table:
    """The program that runs the table, whose calls for memory are governed."""

    def __init__(self, lab):
        self.program = os.environ.get("OVS_CASES", CASES)
        if not os.access(self.program, os.X_OK):
            raise Skip(f"there is no program {os.path.relpath(self.program)}")
        self.memory, self.folder = Memory(lab), lab.folder

    def answers(self, text):
        """What comes of these lines: None where all are answered as the table says, else what they are answered, or how the program ended."""
        ran = subprocess.run([self.program], input=text.encode(), stdout=subprocess.PIPE, stderr=subprocess.PIPE, cwd=self.folder, timeout=SECONDS * PATIENCE, env=self.memory.environment, check=False)
        out = ran.stdout.decode(errors="replace").splitlines()
        if ran.returncode != 0:
            return [ran.stderr.decode(errors="replace").strip()]
        return [line[len("  but: ") :] for line in out if line.startswith("  but: ")] or None

    def calls(self, text):
        """How many calls for memory these lines have."""
        self.memory.give_all()
        self.memory.forget()
        equal(self.answers(text), None, f"with memory: {text}")
        return self.memory.rules.calls

    def is_made_good(self, text, number):
        """Whether these lines are answered as ever although this call is refused; else they have to say that memory ran out."""
        self.memory.forget()
        self.memory.refuse_calls(number)
        found = self.answers(text)
        holds(found is None or RAN_OUT.search(found[0]), f"call {number} refused: {found}, of {text}")
        return found is None


def each_of(lab, words, some, most):
    """The cases of these words, of whose calls each is refused where a word has at most so many, or else one of so many that about `some` are: how many
    calls they have, how many were refused, and how many of those were made good."""
    table, told = Table(lab), {}
    for word, lines in cases_of(words).items():
        all_calls = [(text, number) for text in lines for number in range(1, table.calls(text) + 1)]
        refused = all_calls[:: 1 if STEP == 1 or len(all_calls) <= most else len(all_calls) // some + 1]
        told[word] = (len(all_calls), len(refused), sum(table.is_made_good(*one) for one in refused))
        holds(refused, f"the table has no case of {word}")
    return told


@check(LIMIT)
def calls_that_are_made_again(lab):
    """Stores, databases, selects, readers' sessions, sources, upstreams, relays' desks, locks and framers: a call that memory is refused to changes
    nothing, and made again it is answered as ever. A session, of readers and upstreams, and a relay's desk want no memory for what takes none."""
    told = each_of(lab, AGAIN, REFUSED_AGAIN, ALL_AGAIN)
    for word, (_, refused, good) in told.items():
        holds(good > 0, f"{word}: of {refused} calls that were refused none was made good")
    return told


@check(LIMIT)
def calls_that_say_that_memory_ran_out(lab):
    """The other crates below the threads: a case any of whose calls for memory is refused is answered as ever, or says that memory ran out."""
    return each_of(lab, OTHERS, REFUSED, REFUSED)
