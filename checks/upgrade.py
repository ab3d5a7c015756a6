"""Relays before a clustered ovsdb-server whose schema is converted, as by an upgrade of OVN, while an agent writes through them."""
import threading
import time

from client import Closed, Refused
from data import NET, insert, select
from debian import clustered, run, tool
from harness import START_SECONDS, Node, check, equal, holds
from processes import TICK, free_port, wait_until

PORT = NET["tables"]["Port"]
# The same database with one column more.
LATER = {**NET, "version": "1.1.0", "tables": {**NET["tables"], "Port": {**PORT, "columns": {**PORT["columns"], "speed": {"type": "integer"}}}}}
# How many rows the agent has written before the schema is converted, and how many it writes behind that.
ROWS = 20


class Service:
    """A relay with `--database` and `--end-on-refusal` that is begun anew when it has ended, as systemd does it."""

    def __init__(self, lab, upstream, name):
        self.lab, self.name, self.port = lab, name, free_port()
        self.words = [lab.program, "relay", "--database", "net", "--listen", f"127.0.0.1:{self.port}", "--upstream", upstream, "--end-on-refusal"]
        self.nodes, self.is_over = [], False
        self.begin()
        self.thread = threading.Thread(target=self._watch, daemon=True)
        self.thread.start()

    def begin(self):
        self.nodes.append(Node(self.lab, self.words, f"{self.name}-{len(self.nodes)}", self.port))

    def _watch(self):
        while not self.is_over:
            if not self.nodes[-1].child.is_running():
                self.begin()
            time.sleep(TICK)

    def serving(self):
        wait_until(lambda: self.nodes[-1].serving(), START_SECONDS, f"{self.name} serves")
        return self

    def session(self):
        return self.nodes[-1].session()

    def ended(self):
        """The exit statuses of those that have ended, in their order."""
        return [node.child.process.returncode for node in self.nodes if not node.child.is_running()]


class Agent(threading.Thread):
    """Inserts one row after another through a relay, and connects anew where that is lost."""

    def __init__(self, relay):
        super().__init__(daemon=True)
        self.relay, self.made, self.is_over = relay, [], False
        self.start()

    def run(self):
        number = 0
        while not self.is_over:
            try:
                with self.relay.session() as session:
                    while not self.is_over:
                        number += 1
                        if "uuid" in session.transact("net", insert(name=f"p{number}"))[0]:
                            self.made.append(f"p{number}")
                        time.sleep(TICK)
            except (Closed, Refused, OSError):
                time.sleep(TICK)

    def has_made(self, rows):
        wait_until(lambda: len(self.made) >= rows, 60, f"the agent has written {rows} rows")


def schema_at(node):
    with node.session() as session:
        return session.ask("get_schema", "net")


def has_schema(node, schema):
    try:
        return schema_at(node)["version"] == schema["version"]
    except (Closed, Refused, OSError):
        return False


@check(300)
def a_schema_is_converted(lab):
    """Behind a clustered server whose schema is converted two relays in a chain end with status 1, and begun anew have the new schema and each row that an agent wrote meanwhile."""
    tool("ovsdb-client")
    server = clustered(lab, NET)
    first = Service(lab, f"127.0.0.1:{server.port}", "first").serving()
    last = Service(lab, f"127.0.0.1:{first.port}", "last").serving()
    agent = Agent(last)
    agent.has_made(ROWS)
    run(lab, "ovsdb-client", "convert", f"tcp:127.0.0.1:{server.port}", lab.schema(LATER))
    for relay in (first, last):
        wait_until(lambda relay=relay: has_schema(relay, LATER), 60, f"{relay.name} has the new schema")
    agent.has_made(len(agent.made) + ROWS)
    agent.is_over = True
    agent.join()
    # The new column takes a value, and is shown.
    with last.session() as session:
        wait_until(lambda: session.transact("net", insert(name="new", speed=9))[0].get("uuid"), 30, "a row with the new column")
    for node in (server, first, last):
        with node.session() as session:
            rows = lambda session=session: session.transact("net", select(columns=["name", "speed"]))[0]["rows"]
            wait_until(lambda: {"name": "new", "speed": 9} in rows(), 30, f"{node.name} shows the new row")
            shown = [row["name"] for row in rows()]
            holds(set(agent.made) <= set(shown), f"{node.name} lacks {sorted(set(agent.made) - set(shown))}")
            equal(len(shown), len(set(shown)), f"{node.name}: rows that are shown twice")
    for relay in (first, last):
        relay.is_over = True
        relay.thread.join()
        equal(relay.ended(), [1], f"the statuses of {relay.name}")
