"""How many reads and writes a script takes, and what it doesn't wait for: each read asks for 65,536 bytes, answers wait until so many are there, and who
is over ends at once."""
import contextlib
import errno
import json
import os

from commands import relay_words, source_words
from data import FIRST_ID, NET, ZEROS
from harness import Node, START_SECONDS, check, equal, holds
from memory import ALL as EACH
from memory import READ, WRITE, Memory
from processes import free_port
from scripts import link, script

LIMIT = 10 * START_SECONDS
# What a read asks for, and what waits at least before it is written amid a run.
PIECE = 65_536
INPUT, OUTPUT = 0, 1
MOST_CALLS = 1_000_000
LINES = 50_000


def most_reads(size):
    """One for each whole piece of so many bytes, one for the rest, and one that tells the end."""
    return size // PIECE + 2


def most_writes(size):
    """One for each whole piece of so many bytes, and one for the rest."""
    return size // PIECE + 1


class Counting:
    """Runs of the program over files, which pass all that they are asked for, and the calls that each takes."""

    def __init__(self, lab):
        self.lab, self.devices = lab, Memory(lab)

    def run(self, *words, text=b"", kinds, file=EACH, error=0, first=EACH):
        """What a run gives, and how many calls of these kinds it makes; where `first` is given the call of this number fails so, or passes one byte."""
        self.devices.forget()
        self.devices.fail_calls(kinds, error, first, file=file)
        with open(self.lab.path("input", text), "rb") as stdin, open(self.lab.path("output"), "wb") as out:
            status, _, told = self.lab.run(*words, stdin=stdin, out=out, environment=self.devices.environment)
        with open(self.lab.path("output"), encoding="utf-8") as out:
            return (status, out.read(), told), self.devices.rules.passed

    def takes_least(self, *words, text, wanted):
        """A run ends so, and takes no more calls than it has to, not even where one passes a single byte, or is interrupted."""
        for kinds, file, does, most in ((READ, INPUT, "reads", most_reads(len(text))), (WRITE, OUTPUT, "writes", most_writes(len(wanted[1])))):
            for error, first, more in ((0, EACH, 0), (0, 1, 1), (0, 2, 1), (errno.EINTR, 1, 1)):
                ran, calls = self.run(*words, text=text, kinds=kinds, file=file, error=error, first=first)
                what = f"{words[0]} of {len(text):,} bytes, one of whose {does} is disturbed" if more else f"{words[0]} of {len(text):,} bytes"
                holds(ran == wanted, f"{what}: status {ran[0]}, {len(ran[1]):,} and not {len(wanted[1]):,} bytes, {ran[2]!r}")
                # Text isn't kept for long: so there aren't many fewer calls either.
                holds(most // 2 <= calls <= most + more, f"{what}: {calls:,} {does}, and not {most + more:,} at most")


def links(number):
    """A script of one link over and over, and what `fold` says of it."""
    lines = "1 took\n" + "".join(f"{place} held\n" for place in range(2, number + 1))
    return script(NET) + script(link(1, {})) * number, (0, f'{lines}head {FIRST_ID}\nlinks 1 chain 1 parked 0\n{{"Port":{{}}}}\n', "")


@check(LIMIT)
def calls_of_fold(lab):
    """`fold` of many lines takes a read for each 65,536 bytes of its input, one that tells the end, and a write for each 65,536 bytes of its output."""
    text, wanted = links(LINES)
    Counting(lab).takes_least("fold", text=text, wanted=wanted)


@check(LIMIT)
def calls_of_world(lab):
    """`world` of many events takes a read for each 65,536 bytes of its input, one that tells the end, and a write for each 65,536 bytes of its output."""
    lines = "".join(f"{place} ok\n" for place in range(1, LINES + 1)) + "".join(f"node {node} head {ZEROS} links 0 chain 0\n" for node in (0, 1))
    Counting(lab).takes_least("world", text=script(NET, 1) + script(["restart", 1]) * LINES, wanted=(0, lines, ""))


@check(LIMIT)
def calls_of_two_texts(lab):
    """`fold` of two texts takes of each a read for each 65,536 bytes, and one that tells the end."""
    text, (status, told, _) = links(LINES)
    merged = script(link(1, {})) * LINES
    path = lab.path("more.links", merged)
    (*ran, complaint), reads = Counting(lab).run("fold", "--merge", path, text=text, kinds=READ)
    before, ending = told[: told.index("head")], told[told.index("head") :]
    more = "".join("m" + line for line in before.splitlines(True))
    holds(ran == [status, before + more + "merge ok\n" + ending] and complaint == "", f"fold of two texts: {ran[0]}, {ran[1][-400:]!r}, {complaint!r}")
    most = most_reads(len(text)) + most_reads(len(merged))
    holds(most // 2 <= reads <= most, f"fold of two texts of {len(text):,} and {len(merged):,} bytes: {reads:,} reads, and not {most:,} at most")


@check(LIMIT)
def calls_of_a_schema_file(lab):
    """A source takes of its schema's file a read for each 65,536 bytes, and one write for the line that refuses it."""
    text = b"[" + b" " * (64 * PIECE) + b"]"
    words = source_words(lab, schema=lab.path("long.schema", text))
    for kinds, most in ((READ, most_reads(len(text))), (WRITE, 1)):
        ran, calls = Counting(lab).run(*words, kinds=kinds)
        equal(ran, (1, "schema refused bad-shape\n", ""), "a source with a long schema that is none")
        holds(most // 2 < calls <= most, f"a source with a schema of {len(text):,} bytes: {calls:,} reads or writes, and not {most:,} at most")


@check(LIMIT)
def more_lines_than_calls(lab):
    """`fold` of more lines than a run may make calls answers each, with status 0."""
    text, wanted = links(MOST_CALLS + 1)
    ran, calls = Counting(lab).run("fold", text=text, kinds=READ | WRITE)
    holds(ran == wanted, f"fold of {MOST_CALLS + 1:,} lines: status {ran[0]}, {len(ran[1]):,} and not {len(wanted[1]):,} bytes, {ran[2]!r}")
    most = most_reads(len(text)) + most_writes(len(wanted[1]))
    holds(calls <= most, f"fold of {MOST_CALLS + 1:,} lines: {calls:,} calls, and not {most:,} at most")


# What isn't waited for.


@contextlib.contextmanager
def staying_open(text):
    """A pipe that has this text, and stays open: who reads on waits."""
    reads, writes = os.pipe()
    try:
        os.write(writes, text)
        yield reads
    finally:
        os.close(reads)
        os.close(writes)


@contextlib.contextmanager
def named_and_open(lab, text):
    """The path of a named pipe that has this text, and stays open."""
    lab.names += 1
    path = os.path.join(lab.folder, f"pipe-{lab.names}")
    os.mkfifo(path)
    # Open for both, so that nobody has to wait for the other end.
    file = os.open(path, os.O_RDWR)
    try:
        os.write(file, text)
        yield path
    finally:
        os.close(file)


REFUSED = (("bad-json", b"\n"), ("bad-shape", b"{}\n"), ("bad-id", json.dumps(NET).replace('"net"', '"a-b"').encode() + b"\n"))


@check(LIMIT)
def a_refused_schema_is_told_at_once(lab):
    """`fold` and `world` whose schema is refused say so and end while their input stays open, and so does `world` where its relays are refused."""
    for word, line in REFUSED:
        for command in ("fold", "world"):
            with staying_open(line) as stdin:
                equal(lab.run(command, stdin=stdin), (1, f"schema refused {word}\n", ""), f"{command} whose input stays open behind {line!r}")
    with staying_open(script(NET, 10)) as stdin:
        equal(lab.run("world", stdin=stdin), (1, "relays refused\n", ""), "world of ten relays, whose input stays open")


@check(LIMIT)
def a_schema_file_that_stays_open(lab):
    """A source and a relay hear one line of their schema's file: where it is refused they end, and else they serve, while that file stays open."""
    for word, line in REFUSED:
        for words_of in (source_words, relay_words):
            with named_and_open(lab, line) as path:
                words = words_of(lab, schema=path)
                equal(lab.run(*words), (1, f"schema refused {word}\n", ""), f"{words[0]} whose schema's file stays open behind {line!r}")
    for words_of in (source_words, relay_words):
        port = free_port()
        with named_and_open(lab, script(NET)) as path:
            words = words_of(lab, listen=f"127.0.0.1:{port}", schema=path)
            with Node(lab, [lab.program, *words], words[0], port).serving().session() as session:
                equal(session.ask("list_dbs"), ["net"], f"a {words[0]} whose schema's file stays open")
