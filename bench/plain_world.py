#!/usr/bin/env python3
"""A plain Python model of the command `world`, which bench/world.py times beside the program.

    python3 bench/plain_world.py < SCRIPT

It reads a script of docs/WORLD.md and prints what the program prints, with dicts, lists and sets. What goes down from node to
node passes as bytes: a message is written by `json.dumps`, and read by `json.loads` once as many bytes have come as it has,
which the model knows. What a relay asks goes up as a call. Checked are the numbers of nodes and sessions, the ids of commits
and the limits of messages alone, not the schema, nor the form of events and operations. Operations are insert, update, mutate
(with insert and delete), delete and select, each without conditions or with one that names a row; atoms are integers,
booleans and texts.
"""
import json
import re
import sys
from collections import deque

ZERO = "00000000-0000-0000-0000-000000000000"
START = "00000000-0000-0000-"
MOST_BYTES = 16_777_216
MOST_LEVELS = 100
TOKENS = re.compile(rb'"(?:[^"\\]|\\.)*"|[][{}]')
DEFAULTS = {"integer": 0, "boolean": False, "string": ""}


class Refused(Exception):
    """Why an event is refused, in a word."""


def text_of(value):
    return json.dumps(value, ensure_ascii=False, separators=(",", ":"), sort_keys=True)


# ---- data: a set of atoms, or a dict of a map's pairs


def datum_of(value):
    if not isinstance(value, list):
        return {value}
    word, items = value
    return dict(items) if word == "map" else set(items)


def written(datum):
    if isinstance(datum, dict):
        return ["map", [[key, datum[key]] for key in sorted(datum)]]
    return next(iter(datum)) if len(datum) == 1 else ["set", sorted(datum)]


class Column:
    def __init__(self, kind):
        kind = kind if isinstance(kind, dict) else {"key": kind}
        self.single = kind.get("max", 1) == 1
        if "value" in kind:
            self.default = {}
        else:
            self.default = {DEFAULTS[kind["key"]]} if kind.get("min", 1) else set()

    def difference(self, old, new):
        if self.single:
            return new
        if isinstance(old, set):
            return old ^ new
        return {key: new.get(key, old.get(key)) for key in old.keys() | new.keys() if old.get(key) != new.get(key)}

    def changed(self, old, difference):
        """What differs from a datum so."""
        if self.single:
            return difference
        if isinstance(old, set):
            return old ^ difference
        return {key: value for key, value in {**old, **difference}.items() if difference.get(key) != old.get(key)}


def inserted(old, value):
    return {**value, **old} if isinstance(old, dict) else old | value


def deleted(old, value):
    if isinstance(old, set):
        return old - value
    gone = value.items() if isinstance(value, dict) else {(key, old.get(key)) for key in value}
    return {key: item for key, item in old.items() if (key, item) not in gone}


MUTATORS = {"insert": inserted, "delete": deleted}


# ---- nodes


class Node:
    """The links of a node by the ids before them, the chain of those that follow one another, and the rows after them."""

    def __init__(self, tables):
        self.tables = tables
        self.following = {}
        self.chain = []
        self.places = {ZERO: 0}
        self.head = ZERO
        self.rows = {table: {} for table in tables}

    def fold(self, this, updates):
        self.chain.append((this, updates))
        self.places[this] = len(self.chain)
        self.head = this

    def take(self, prev, this, updates):
        """Whether the link was new."""
        if prev in self.following:
            return False
        self.following[prev] = (this, updates)
        while self.head in self.following:
            this, updates = self.following[self.head]
            self.apply(this, updates)
            self.fold(this, updates)
        return True

    def apply(self, this, updates):
        for table, rows in updates.items():
            columns = self.tables[table]
            for row, update in rows.items():
                if "delete" in update:
                    del self.rows[table][row]
                    continue
                if "insert" in update:
                    data = {name: column.default for name, column in columns.items()}
                    data.update((name, datum_of(value)) for name, value in update["insert"].items())
                else:
                    data = dict(self.rows[table][row])
                    data.update((name, columns[name].changed(data[name], datum_of(value))) for name, value in update["modify"].items())
                data["_version"] = this
                self.rows[table][row] = data

    def matching(self, operation):
        """The ids of the rows of which the conditions of an operation hold."""
        rows = self.rows[operation["table"]]
        wanted = {condition[2][1] for condition in operation["where"]}
        return sorted(rows.keys() & wanted if wanted else rows)

    def selected(self, operation):
        rows, names = self.rows[operation["table"]], operation.get("columns")
        return {"rows": [shown(row, rows[row], names) for row in self.matching(operation)]}


def shown(row, data, names):
    whole = {"_uuid": ["uuid", row], "_version": ["uuid", data["_version"]]}
    whole.update((name, written(datum)) for name, datum in data.items() if name != "_version")
    return whole if names is None else {name: whole[name] for name in names}


class Source(Node):
    """A node that makes its links itself."""

    def __init__(self, tables):
        super().__init__(tables)
        self.fresh = 0

    def commit(self, this, operations):
        this = this.lower()
        if this.startswith(START) or this in self.places:
            raise Refused("id-taken")
        before = {}
        results = [getattr(self, operation["op"])(this, before, operation) for operation in operations]
        updates = {}
        for (table, row), old in before.items():
            update = self.update_of(table, old, self.rows[table].get(row))
            if update:
                updates.setdefault(table, {})[row] = update
            elif old:
                self.rows[table][row] = old
        if updates:
            self.following[self.head] = (this, updates)
            self.fold(this, updates)
        return results

    def put(self, this, before, table, row, data):
        """Puts a row in its place, or takes it away; what stood there before the commit is kept."""
        old = self.rows[table].pop(row, None)
        before.setdefault((table, row), old)
        if data is not None:
            self.rows[table][row] = {**data, "_version": this}

    def update_of(self, table, old, new):
        columns = self.tables[table]
        if new is None:
            return old and {"delete": None}
        if old is None:
            return {"insert": {name: written(new[name]) for name, column in columns.items() if new[name] != column.default}}
        edits = {name: written(column.difference(old[name], new[name])) for name, column in columns.items() if new[name] != old[name]}
        return edits and {"modify": edits}

    def insert(self, this, before, operation):
        self.fresh += 1
        table, row = operation["table"], f"{START}0000-{self.fresh:012x}"
        data = {name: column.default for name, column in self.tables[table].items()}
        data.update((name, datum_of(value)) for name, value in operation["row"].items())
        self.put(this, before, table, row, data)
        return {"uuid": ["uuid", row]}

    def altered(self, this, before, operation, altering):
        rows, matching = self.rows[operation["table"]], self.matching(operation)
        for row in matching:
            self.put(this, before, operation["table"], row, altering(rows[row]))
        return {"count": len(matching)}

    def update(self, this, before, operation):
        row = {name: datum_of(value) for name, value in operation["row"].items()}
        return self.altered(this, before, operation, lambda data: {**data, **row})

    def mutate(self, this, before, operation):
        def mutated(data):
            data = dict(data)
            for name, mutator, value in operation["mutations"]:
                data[name] = MUTATORS[mutator](data[name], datum_of(value))
            return data

        return self.altered(this, before, operation, mutated)

    def delete(self, this, before, operation):
        return self.altered(this, before, operation, lambda data: None)

    def select(self, _this, _before, operation):
        return self.selected(operation)


# ---- what passes between them


def fault_in(text):
    """Which byte of a message, counted from 1, makes it larger than the limits; `None` where it is within them."""
    faults = [MOST_BYTES + 1] if len(text) > MOST_BYTES else []
    if text.count(b"{") + text.count(b"[") > MOST_LEVELS:
        levels = 0
        for token in TOKENS.finditer(text):
            levels += token[0] in b"{["
            levels -= token[0] in b"}]"
            if levels > MOST_LEVELS:
                faults.append(token.end())
                break
    return min(faults, default=None)


class Session:
    """A relay and the node that it follows: the bytes in flight, those that have come but make no whole message yet, and how long the messages are."""

    def __init__(self, relay, upstream, asked, schema):
        self.relay, self.upstream, self.asked = relay, upstream, asked
        self.flight, self.come, self.ends = bytearray(), bytearray(), deque()
        self.told = None
        self.at = None
        self.send({"error": None, "id": "schema", "result": schema})

    def send(self, message):
        text = text_of(message).encode()
        fault = fault_in(text)
        self.ends.append((fault or len(text), fault is not None))
        self.flight += text

    def pump(self):
        if self.told is not None and not self.flight:
            for this, updates in self.upstream.chain[self.told:]:
                self.send({"id": None, "method": "update3", "params": ["relay", this, updates]})
            self.told = len(self.upstream.chain)

    def feed(self, count):
        piece = self.flight[:count]
        del self.flight[:count]
        self.come += piece
        return len(piece)

    def whole(self):
        """The messages that are whole, up to one above the limits."""
        while self.ends and len(self.come) >= self.ends[0][0]:
            end, is_large = self.ends.popleft()
            if is_large:
                raise Refused("too-large")
            message = json.loads(self.come[:end])
            del self.come[:end]
            yield message

    def hear(self, message):
        """Whether the link that a message makes was new, or `None` where it makes none."""
        if message.get("id") == "schema":
            self.told = self.upstream.places.get(self.asked, 0)
            known = self.asked in self.upstream.places
            self.send({"error": None, "id": "monitor", "result": [known, self.asked if known else ZERO, {}]})
        elif message.get("id") == "monitor":
            self.at = message["result"][1]
        else:
            _monitor, this, updates = message["params"]
            prev, self.at = self.at, this
            return self.relay.take(prev, this, updates)
        return None


class World:
    def __init__(self, schema, relays):
        self.schema = schema
        self.tables = {
            table: {name: Column(column["type"]) for name, column in held["columns"].items()} for table, held in schema["tables"].items()
        }
        self.nodes = [Source(self.tables), *(Node(self.tables) for _ in range(relays))]
        self.sessions = []

    def node(self, number, least=0):
        if not least <= number < len(self.nodes):
            raise Refused("no-such-node")
        return self.nodes[number]

    def two(self, relay, other):
        if relay == other:
            raise Refused("no-such-node")
        return self.node(relay, 1), self.node(other)

    def session(self, number):
        if not 0 < number <= len(self.sessions) or not self.sessions[number - 1]:
            raise Refused("no-session")
        return self.sessions[number - 1]

    def commit(self, this, operations):
        return text_of(self.nodes[0].commit(this, operations))

    def connect(self, relay, upstream):
        relay, upstream = self.two(relay, upstream)
        self.sessions.append(Session(relay, upstream, relay.head, self.schema))
        return f"session {len(self.sessions)}"

    def deliver(self, number, count):
        session, took, held = self.session(number), 0, 0
        try:
            while count:
                session.pump()
                if not session.flight:
                    break
                count -= session.feed(count)
                for message in session.whole():
                    new = session.hear(message)
                    took += new is True
                    held += new is False
        except Refused:
            self.cut(number)
            raise
        return f"took {took} held {held}"

    def cut(self, number):
        self.session(number)
        self.sessions[number - 1] = None
        return "ok"

    def restart(self, relay):
        old = self.node(relay, 1)
        self.sessions = [session if session and old not in (session.relay, session.upstream) else None for session in self.sessions]
        self.nodes[relay] = Node(self.tables)
        return "ok"

    def merge(self, into, other):
        into, other = self.two(into, other)
        for prev, (this, updates) in other.following.items():
            into.take(prev, this, updates)
        return "ok"

    def read(self, node, operations):
        node = self.node(node)
        if any(operation["op"] != "select" for operation in operations):
            raise Refused("not-read-only")
        return text_of([node.selected(operation) for operation in operations])

    def event(self, line):
        name, *parts = json.loads(line)
        return getattr(self, name)(*parts)


def main():
    world, status = World(json.loads(sys.stdin.readline()), int(sys.stdin.readline())), 0
    for number, line in enumerate(sys.stdin, 1):
        try:
            print(number, world.event(line))
        except Refused as word:
            print(number, "refused", word)
            status = 1
    for number, node in enumerate(world.nodes):
        print(f"node {number} head {node.head} links {len(node.following)} chain {len(node.chain)}")
    return status


if __name__ == "__main__":
    sys.exit(main())
