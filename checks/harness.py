"""What a check is, and what it has at hand: nodes on free ports, sessions, commands that end."""
import json
import os
import shutil
import subprocess
import tempfile

from client import Session
from data import FIRST_ID, FIRST_ROW, NET
from processes import PATIENCE, Child, free_port

# How many workers serve readers in a node: `--accepts N` is N for each of them.
WORKERS = 8
# A program that is compiled when it starts takes a minute.
START_SECONDS = 90
END_SECONDS = 15

CHECKS = {}


class Skip(Exception):
    """A check can't be run here."""


def check(limit=60):
    """Makes a function a check of its name, which has so many seconds."""

    def enter(function):
        name = f"{function.__module__}.{function.__name__}"
        CHECKS[name] = (function, int(limit * PATIENCE))
        return function

    return enter


def equal(found, wanted, what):
    if found != wanted:
        raise AssertionError(f"{what}: {found!r}, and not {wanted!r}")


def holds(is_so, what):
    if not is_so:
        raise AssertionError(what)


class Node:
    """A process that serves at a port."""

    def __init__(self, lab, words, name, port, environment=None, errors=None):
        self.lab, self.name, self.port = lab, name, port
        self.address = f"127.0.0.1:{port}"
        self.child = lab.start(words, name, environment, errors)

    def serving(self):
        self.child.wait_to_serve(self.port, START_SECONDS)
        return self

    def session(self, seconds=20.0, buffer=None):
        return self.lab.keep(Session(self.port, seconds, buffer))

    def with_source(self):
        """Waits until what only the source can answer is answered."""
        with Session(self.port) as session:
            database = session.ask("list_dbs")[0]
            equal(session.transact(database, {"op": "abort"})[0]["error"], "aborted", "the answer of the source")
        return self

    def stop(self):
        self.child.stop()

    def end(self, seconds=30):
        """Opens and closes connections until the process has accepted all that it accepts and ends; gives status and output."""
        for _ in range(int(seconds * PATIENCE / 0.02)):
            try:
                self.session().close()
            except OSError:
                pass
            try:
                self.child.process.wait(0.02)
                break
            except subprocess.TimeoutExpired:
                pass
        return self.child.wait(1), self.child.output()


class Lab:
    """All that one check starts, so that it can be ended."""

    def __init__(self, program):
        self.program = program
        self.folder = tempfile.mkdtemp(prefix="ovs_checks.")
        self.children, self.kept, self.names = [], [], 0

    def __enter__(self):
        return self

    def __exit__(self, *_):
        for child in self.children:
            child.stop()
        for one in self.kept:
            one.close()
        shutil.rmtree(self.folder, ignore_errors=True)

    def keep(self, one):
        self.kept.append(one)
        return one

    def path(self, name, text=None):
        """A path in the check's folder, where a file with this text is put if one is given."""
        path = os.path.join(self.folder, name)
        if text is not None:
            with open(path, "wb") as file:
                file.write(text if isinstance(text, bytes) else text.encode())
        return path

    def schema(self, schema=NET):
        """The path of a file with this schema on its one line."""
        self.names += 1
        return self.path(f"{schema['name']}-{self.names}.schema", json.dumps(schema) + "\n")

    def start(self, words, name, environment=None, errors=None):
        self.names += 1
        child = Child(words, self.folder, f"{name}-{self.names}", environment=environment, errors=errors)
        self.children.append(child)
        return child

    def run(self, *words, text=b"", stdin=None, seconds=START_SECONDS, out=None, environment=None):
        """Runs the program to its end, over a pipe with this text or over a file: the status, standard output and standard error."""
        streams = {"stdout": out or subprocess.PIPE, "stderr": subprocess.PIPE, **({"input": text} if stdin is None else {"stdin": stdin})}
        ran = subprocess.run([self.program, *words], cwd=self.folder, timeout=seconds * PATIENCE, check=False, env=environment, **streams)
        return ran.returncode, (ran.stdout or b"").decode(errors="replace"), ran.stderr.decode(errors="replace")

    def source_words(self, port, *more, schema=NET):
        words = [self.program, "source", "--schema", self.schema(schema), "--listen", f"127.0.0.1:{port}"]
        return words + ["--first-id", FIRST_ID, "--first-row", FIRST_ROW, *more]

    def relay_words(self, port, upstreams, *more, schema=NET):
        words = [self.program, "relay", "--schema", self.schema(schema), "--listen", f"127.0.0.1:{port}"]
        for upstream in upstreams:
            words += ["--upstream", f"127.0.0.1:{upstream}"]
        return words + list(more)

    def source(self, *more, port=None, schema=NET, environment=None, errors=None):
        port = port or free_port()
        return Node(self, self.source_words(port, *more, schema=schema), "source", port, environment, errors).serving()

    def relay(self, upstreams, *more, port=None, schema=NET, name="relay", environment=None):
        port = port or free_port()
        ports = [getattr(upstream, "port", upstream) for upstream in upstreams]
        return Node(self, self.relay_words(port, ports, *more, schema=schema), name, port, environment).serving()

    def tier(self, *more):
        """A source, and a relay behind it that has found it."""
        source = self.source()
        return source, self.relay([source], *more).with_source()
