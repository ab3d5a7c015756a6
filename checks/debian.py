"""Debian's programs for OVSDB: servers that are clustered, and tools that end or that watch."""
import json
import os
import shutil
import subprocess

from harness import START_SECONDS, Node, Skip
from processes import free_port, wait_until

PATH = os.pathsep.join([os.environ.get("PATH", ""), "/usr/sbin", "/usr/bin", "/sbin", "/bin"])
SCHEMAS = ("/usr/share/openvswitch", "/usr/share/ovn")
TOOL_SECONDS = 20


def tool(name):
    """The path of a program, without which a check is skipped."""
    found = shutil.which(name, path=PATH)
    if found is None:
        raise Skip(f"{name} isn't installed")
    return found


def schema_file(name):
    """One of the schemas that Debian's packages bring."""
    for folder in SCHEMAS:
        path = os.path.join(folder, f"{name}.ovsschema")
        if os.path.exists(path):
            with open(path, encoding="utf-8") as file:
                return json.load(file)
    raise Skip(f"{name}.ovsschema isn't installed")


def environment(lab):
    """Keeps Debian's programs within the check's folder."""
    places = {name: lab.folder for name in ("OVS_RUNDIR", "OVS_LOGDIR", "OVS_DBDIR", "OVN_RUNDIR", "OVN_LOGDIR", "OVN_DBDIR")}
    return {**os.environ, **places, "PATH": PATH}


def run(lab, *words, seconds=TOOL_SECONDS):
    """Runs a tool to its end, which has to be a good one, and gives its output."""
    ran = subprocess.run(
        [tool(words[0]), *words[1:]], stdout=subprocess.PIPE, stderr=subprocess.PIPE, env=environment(lab), cwd=lab.folder, timeout=seconds, check=False
    )
    told = ran.stdout.decode(errors="replace")
    if ran.returncode != 0:
        raise AssertionError(f"{words!r}: status {ran.returncode}, {told[-300:]!r}, {ran.stderr.decode(errors='replace')[-300:]!r}")
    return told


def watch(lab, *words):
    """Starts a tool that runs until it is ended."""
    return lab.start([tool(words[0]), *words[1:]], words[0], environment(lab))


def wait_for(child, text, seconds=TOOL_SECONDS):
    """Waits until a tool has printed this text."""
    wait_until(lambda: text in child.output(), seconds, f"{text!r} in the output of {child.name}")


class Server(Node):
    """An ovsdb-server with one database: a file, or whatever it names as a relay."""

    def __init__(self, lab, database, port=None):
        self.database = database
        port = port or free_port()
        control = lab.path(f"control-{port}")
        words = [tool("ovsdb-server"), f"--remote=ptcp:{port}:127.0.0.1", f"--unixctl={control}", "--no-chdir", "-vconsole:warn", database]
        super().__init__(lab, words, "ovsdb-server", port, environment(lab))
        self.control = control
        self.child.wait_to_serve(port, START_SECONDS)

    def tell(self, *words):
        """Runs a command of ovs-appctl."""
        return run(self.lab, "ovs-appctl", "-t", self.control, *words)


def clustered(lab, schema):
    """A server of a cluster of one, whose ids hold."""
    path = lab.path(f"{schema['name']}-{free_port()}.db")
    run(lab, "ovsdb-tool", "create-cluster", path, lab.schema(schema), f"tcp:127.0.0.1:{free_port()}")
    return Server(lab, path)


def alone(lab, schema):
    """A server that is in no cluster."""
    path = lab.path(f"{schema['name']}-{free_port()}.db")
    run(lab, "ovsdb-tool", "create", path, lab.schema(schema))
    return Server(lab, path)
