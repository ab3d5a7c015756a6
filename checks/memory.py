"""Memory and threads that are refused, and devices that fail: what a check preloads into a program (refusing.c), and governs while it runs."""
import ctypes
import mmap
import os
import shutil
import subprocess

from harness import Skip

HERE = os.path.dirname(os.path.abspath(__file__))
ALL = 2**64 - 1
# The kinds of reads and writes.
READ, WRITE, RECEIVE, SEND = 1, 2, 4, 8


class Rules(ctypes.Structure):
    """The control file, as `struct rules` of refusing.c has it."""

    _memory = ("first", "last", "most", "calls", "refused", "largest", "mallocs", "callocs", "reallocs", "aligned")
    _devices = ("kinds", "failing_first", "failing_last", "error", "file", "passed", "failed")
    _threads = ("thread_first", "thread_last", "threads")
    _fields_ = [(name, ctypes.c_uint64) for name in _memory + _devices + _threads]


class Memory:
    """What one program is given of the memory that it asks for. All of it, until something is refused.

    `rules.calls` and the like count from the program's start, or from the last `forget`.
    """

    def __init__(self, lab):
        lab.names += 1
        path = lab.path(f"rules-{lab.names}", bytes(ctypes.sizeof(Rules)))
        with open(path, "r+b") as file:
            self.rules = Rules.from_buffer(mmap.mmap(file.fileno(), 0))
        self.give_all()
        # Nothing else may stand between the program and its allocator.
        self.environment = {**os.environ, "LD_PRELOAD": built(lab), "OVS_REFUSALS": path}
        if lab.run("--version", environment=self.environment)[0] != 0 or self.rules.calls == 0:
            raise Skip("the program's calls for memory can't be seen: it has an allocator of its own")
        self.forget()

    def give_all(self):
        self.rules.first, self.rules.last, self.rules.most = ALL, 0, ALL

    def refuse_above(self, size):
        """Refuses each call for more bytes than this."""
        self.rules.most = size

    def refuse_calls(self, first, last=None):
        """Refuses the call of this number, or those from this one to the last, counted from 1."""
        self.rules.first, self.rules.last = first, first if last is None else last

    def fail_calls(self, kinds, error, first, last=None, file=ALL):
        """Has the read or write of this number among those of these kinds, of one file handle or of all, fail so, or those from this one to the
        last; with 0 it passes one byte alone."""
        self.rules.failing_first, self.rules.failing_last, self.rules.error = first, first if last is None else last, error
        self.rules.file, self.rules.kinds = file, kinds

    def fail_none(self):
        self.rules.kinds = 0

    def refuse_threads(self, first, last=None):
        """Refuses to begin the thread of this number, or those from this one to the last, counted from 1 over the program's life."""
        self.rules.thread_first, self.rules.thread_last = first, first if last is None else last

    def forget(self):
        """Counts from here on: the next call is the first."""
        for name in ("calls", "refused", "largest", "mallocs", "callocs", "reallocs", "aligned", "passed", "failed", "threads"):
            setattr(self.rules, name, 0)

    def told(self):
        return f"{self.rules.refused:,} of {self.rules.calls:,} calls for memory were refused, the largest was for {self.rules.largest:,} bytes"


def built(lab):
    """The path of the library that is preloaded."""
    path = os.path.join(lab.folder, "refusing.so")
    if not os.path.exists(path):
        compiler = shutil.which("gcc") or shutil.which("cc")
        if compiler is None:
            raise Skip("there is no C compiler")
        # What a compiler knows of malloc and calloc would have it make calls of the one out of the other.
        words = [compiler, "-O2", "-Wall", "-Wextra", "-Werror", "-fno-builtin", "-fPIC", "-shared", "-o", path, os.path.join(HERE, "refusing.c")]
        subprocess.run(words, check=True)
    return path
