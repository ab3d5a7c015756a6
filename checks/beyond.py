"""What `reach.py` runs in a network of its own: nodes at addresses beyond loopback, and their clients.

    unshare --net python3 checks/beyond.py PROGRAM OUTSIDE STORY

OUTSIDE is the network namespace that it is not to be in, as /proc/self/ns/net names it. The status is 0 where all was as it has to be.
"""
import os
import re
import sys

from client import Session
from commands import fails
from data import FIRST_ID, FIRST_ROW, insert
from debian import run
from ends import shows
from harness import START_SECONDS, Lab, equal, holds
from processes import free_port, wait_until
from reach import is_shut

HOST = "10.77.0.1"
WARNING = re.compile(r"ovs_relay: listening at (\S+) without TLS or access control: whoever reaches it may write\n")


def source_words(lab, listen):
    return ["source", "--schema", lab.schema(), "--listen", listen, "--first-id", FIRST_ID, "--first-row", FIRST_ROW, "--beyond-loopback"]


def relay_words(listen, upstream, *origin):
    return ["relay", *origin, "--listen", listen, "--upstream", upstream, "--beyond-loopback"]


def begun(lab, words):
    return lab.start([lab.program, *words], words[0])


def address_of(child):
    """Where a node says that it listens, which is all that it says."""

    def said():
        holds(child.is_running(), f"ended before it listened: {child.told()}")
        return child.read(1).endswith("\n")

    wait_until(said, START_SECONDS, f"{child.name} says where it listens")
    found = WARNING.fullmatch(child.read(1))
    holds(found, f"what the {child.name} says: {child.read(1)!r}")
    return found[1]


def tier(lab):
    """A source at the host's address, and a relay at all addresses of the host."""
    port, other = free_port(), free_port()
    source = begun(lab, source_words(lab, f"{HOST}:{port}"))
    equal(address_of(source), f"{HOST}:{port}", "where the source listens")
    relay = begun(lab, relay_words(f"0.0.0.0:{other}", f"{HOST}:{port}", "--schema", lab.schema()))
    equal(address_of(relay), f"0.0.0.0:{other}", "where the relay listens")
    holds(is_shut(port), "the source listens at 127.0.0.1, too")
    with Session(other, host=HOST) as writer, Session(other) as reader, Session(port, host=HOST) as near:
        equal(writer.transact("net", insert(name="p")), [{"uuid": ["uuid", FIRST_ROW]}], "the insert's result")
        for session in (near, writer, reader):
            shows(session, "p")
    for child in (source, relay):
        holds(WARNING.fullmatch(child.read(1)), f"what the {child.name} says in all: {child.read(1)!r}")


def version_six(lab):
    """A source and a relay at all addresses of version six."""
    port, other = free_port(), free_port()
    source = begun(lab, source_words(lab, f"[::]:{port}"))
    equal(address_of(source), f"[::]:{port}", "where the source listens")
    relay = begun(lab, relay_words(f"[::]:{other}", f"[::1]:{port}", "--database", "net"))
    equal(address_of(relay), f"[::]:{other}", "where the relay listens")
    with Session(other, host="::1") as writer, Session(port, host="::1") as near:
        equal(writer.transact("net", insert(name="p")), [{"uuid": ["uuid", FIRST_ROW]}], "the insert's result")
        for session in (near, writer):
            shows(session, "p")


def chosen_port(lab):
    """A source and a relay at ports that the system chose."""
    source = address_of(begun(lab, source_words(lab, f"{HOST}:0")))
    relay = address_of(begun(lab, relay_words("0.0.0.0:0", source, "--database", "net")))
    for address, host in ((source, HOST), (relay, "0.0.0.0")):
        found, _, port = address.rpartition(":")
        equal(found, host, "the address that is said")
        with Session(int(port), host=HOST) as session:
            equal(session.ask("list_dbs"), ["net"], f"list_dbs at {address}")


def another_host(lab):
    """Nodes that are to listen at an address that isn't the host's."""
    address, port = f"10.78.0.9:{free_port()}", free_port()
    fails(lab, source_words(lab, address), 3, address)
    fails(lab, relay_words(address, f"{HOST}:{port}", "--schema", lab.schema()), 3, address)


STORIES = {story.__name__: story for story in (tier, version_six, chosen_port, another_host)}


def main():
    program, outside, story = sys.argv[1:]
    holds(os.readlink("/proc/self/ns/net") != outside, "this isn't a network of its own")
    with Lab(program) as lab:
        run(lab, "ip", "link", "set", "lo", "up")
        run(lab, "ip", "address", "add", f"{HOST}/24", "dev", "lo")
        STORIES[story](lab)


if __name__ == "__main__":
    main()
