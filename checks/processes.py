"""Processes that a check starts, ports, and what the kernel tells of a process."""
import os
import re
import random
import resource
import signal
import socket
import subprocess
import time

PORTS = range(15_000, 32_000)
GIVEN = set()
TICK = 0.02
# How many times longer than usual to wait, for programs or machines that are slow.
PATIENCE = float(os.environ.get("OVS_PATIENCE", "1"))
LISTENS = "0A"


def _is_first_to_have(port):
    """Whether this port was given to nobody else: not in this process, nor, where run.py has named a folder for it, in another of its checks."""
    if port in GIVEN:
        return False
    GIVEN.add(port)
    folder = os.environ.get("OVS_PORTS")
    try:
        if folder:
            os.close(os.open(os.path.join(folder, f"port-{port}"), os.O_CREAT | os.O_EXCL))
    except FileExistsError:
        return False
    return True


def free_port():
    """A port below those that the kernel gives to clients, at which nothing listens, and which is given once."""
    for _ in range(1_000):
        port = random.choice(PORTS)
        with socket.socket() as probe:
            try:
                probe.bind(("127.0.0.1", port))
            except OSError:
                continue
            if _is_first_to_have(port):
                return port
    raise AssertionError("no port is free")


def listener(port):
    """The inode of the socket that listens at a port of 127.0.0.1, or of all addresses; None where there is none."""
    wanted = {f"0100007F:{port:04X}", f"00000000:{port:04X}"}
    with open("/proc/net/tcp", encoding="ascii") as table:
        for line in table:
            words = line.split()
            if words[1] in wanted and words[3] == LISTENS:
                return words[9]
    return None


def wait_until(is_so, seconds, what):
    """Waits until `is_so()` gives something, and gives that."""
    until = time.monotonic() + seconds * PATIENCE
    while True:
        found = is_so()
        if found:
            return found
        if time.monotonic() > until:
            raise AssertionError(f"not within {seconds * PATIENCE:g} seconds: {what}")
        time.sleep(TICK)


def _children(process):
    try:
        tasks = os.listdir(f"/proc/{process}/task")
    except OSError:
        return []
    found = []
    for task in tasks:
        try:
            with open(f"/proc/{process}/task/{task}/children", encoding="ascii") as told:
                found += [int(word) for word in told.read().split()]
        except OSError:
            pass
    return found


def family(process):
    """A process and all that descend from it."""
    found, left = [], [process]
    while left:
        one = left.pop()
        found.append(one)
        left += _children(one)
    return found


def _holds(process, inode):
    folder = f"/proc/{process}/fd"
    try:
        return any(os.readlink(os.path.join(folder, name)) == f"socket:[{inode}]" for name in os.listdir(folder))
    except OSError:
        return False


# How a line begins that a node says while it runs.
TIMED = re.compile(r"^(ovs_relay: )(\d{4}-\d\d-\d\dT\d\d:\d\d:\d\d\.\d{3}Z) ", re.M)


class Child:
    """A process that runs in one folder, with its output in files of another, or of the same; or with its standard error in a pipe."""

    def __init__(self, words, folder, name, output_folder=None, environment=None, errors=None):
        self.name = name
        self.paths = [os.path.join(output_folder or folder, f"{name}.{stream}") for stream in ("out", "err")]
        with open(self.paths[0], "wb") as out, open(self.paths[1], "wb") as err:
            self.process = subprocess.Popen(words, stdin=subprocess.DEVNULL, stdout=out, stderr=errors or err, cwd=folder, env=environment)
        self.served_by = None
        self.is_stopped = False

    def read(self, stream):
        with open(self.paths[stream], "rb") as file:
            return file.read().decode(errors="replace")

    def output(self):
        return self.read(0)

    def complaints(self):
        """What it said on standard error so far, where a line that a node says while it runs stands without its time."""
        return TIMED.sub(r"\1", self.read(1))

    def told(self):
        return f"{self.name}: status {self.process.poll()}, output {self.output()[-400:]!r}, standard error {self.complaints()[-400:]!r}"

    def is_running(self):
        return self.process.poll() is None

    def wait_to_serve(self, port, seconds):
        """Waits until the process, or one that it started, listens at the port."""

        def serving():
            if not self.is_running():
                raise AssertionError(f"ended before it served: {self.told()}")
            inode = listener(port)
            return inode and next((one for one in family(self.process.pid) if _holds(one, inode)), None)

        self.served_by = wait_until(serving, seconds, f"{self.name} listens at port {port}")

    def wait(self, seconds):
        """The exit status."""
        try:
            return self.process.wait(seconds * PATIENCE)
        except subprocess.TimeoutExpired as fault:
            raise AssertionError(f"still running after {seconds} seconds: {self.told()}") from fault

    def stop(self):
        """Kills the process and all that descend from it."""
        self.is_stopped = self.is_running()
        for process in reversed(family(self.process.pid)):
            try:
                os.kill(process, signal.SIGKILL)
            except ProcessLookupError:
                pass
        self.process.wait()

    def ticks(self):
        """The processor time of the serving process so far, in the kernel's ticks."""
        with open(f"/proc/{self.served_by}/stat", encoding="ascii", errors="replace") as stat:
            words = stat.read().rpartition(")")[2].split()
        return int(words[11]) + int(words[12])

    def kilobytes(self, which="VmRSS"):
        """The memory of the serving process that is resident, or with "VmHWM" the most that ever was."""
        with open(f"/proc/{self.served_by}/status", encoding="ascii", errors="replace") as status:
            return next(int(line.split()[1]) for line in status if line.startswith(which))

    def file_of(self, port):
        """The serving process's file handle of its connection with this port of 127.0.0.1."""
        with open("/proc/net/tcp", encoding="ascii") as table:
            inodes = {f"socket:[{words[9]}]" for words in map(str.split, table) if words[2] == f"0100007F:{port:04X}"}
        folder = f"/proc/{self.served_by}/fd"
        return next(int(name) for name in os.listdir(folder) if os.readlink(os.path.join(folder, name)) in inodes)

    def limit_files(self, most):
        resource.prlimit(self.served_by, resource.RLIMIT_NOFILE, (most, most))

    def open_files(self):
        return len(os.listdir(f"/proc/{self.served_by}/fd"))
