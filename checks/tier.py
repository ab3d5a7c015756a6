"""A source and relays behind it: rows that go up and come down, sessions that are cut, and the story that the README begins with."""
import json
import os
import subprocess
import sys

from client import refusal
from data import FIRST_ID, FIRST_ROW, NET, insert, nth, select
from harness import START_SECONDS, check, equal, holds
from processes import wait_until

STORY = os.path.join(os.path.dirname(os.path.abspath(__file__)), "..", "bench", "tier.py")
ARRIVES = 10


def shows(session, where, rows, what, seconds=ARRIVES):
    """Waits until a select of name and version shows these rows."""
    operation = select(where, columns=["name", "_version"])
    wait_until(lambda: session.transact("net", operation) == [{"rows": rows}], seconds, what)


def named(name, commit):
    return {"name": name, "_version": ["uuid", nth(FIRST_ID, commit)]}


@check(240)
def a_row_through_a_relay(lab):
    """An insert that a relay is sent is answered with the source's row id, and the relay shows the row with the commit's id."""
    _, relay = lab.tier()
    with relay.session() as session:
        equal(session.transact("net", insert(name="p1")), [{"uuid": ["uuid", FIRST_ROW]}], "the insert's result")
        shows(session, [["_uuid", "==", ["uuid", FIRST_ROW]]], [named("p1", 1)], "the relay shows the row")
        equal(session.transact("net", insert(name="p2")), [{"uuid": ["uuid", nth(FIRST_ROW, 2)]}], "the second insert's result")
        shows(session, [["name", "==", "p2"]], [named("p2", 2)], "the relay shows the second row")


@check(240)
def methods_of_a_relay(lab):
    """What a relay answers by itself: `list_dbs`, `get_schema`, `echo`, reads; and refusals by their words."""
    _, relay = lab.tier()
    with relay.session() as session:
        equal(session.ask("list_dbs"), ["net"], "list_dbs")
        equal(session.ask("get_schema", "net"), NET, "get_schema")
        equal(session.ask("echo", 1, [None], {"a": "é"}), [1, [None], {"a": "é"}], "echo")
        equal(session.ask("set_db_change_aware", True), {}, "set_db_change_aware")
        equal(session.transact("net", select(), {"op": "comment", "comment": "c"}), [{"rows": []}, {}], "a read")
        equal(session.transact("net", {**select(), "table": "Bridge"}, select()), [{"error": "unknown table"}, None], "a read of no table")
        wanted = [
            (("convert", "net"), "unknown method"),
            (("get_schema", "ten"), "unknown database"),
            (("transact", "ten", insert()), "unknown database"),
            (("get_schema",), "bad params"),
            (("monitor", "net", 1, {"Bridge": {}}), "unknown table"),
            (("monitor", "net", 1, {"Port": {"columns": ["speed"]}}), "unknown column"),
            (("monitor_cond", "net", 1, {"Port": {"where": [["name", "==", 1]]}}), "bad condition"),
            (("monitor_cancel", 1), "unknown monitor"),
            (("monitor_cond_since", "net", 1, {}, "x"), "bad params"),
        ]
        for (method, *params), text in wanted:
            equal(refusal(session, method, *params), text, f"{method} {params!r}")


@check(240)
def operations_that_fail(lab):
    """What the source refuses of a transaction comes back through the relay, and nothing is committed."""
    _, relay = lab.tier()
    with relay.session() as session:
        equal(session.transact("net", insert(speed=1)), [{"error": "unknown column"}], "an unknown column")
        equal(session.transact("net", insert(name=1)), [{"error": "bad value"}], "a bad value")
        equal(session.transact("net", insert(name="p"), {"op": "abort"}, select()), [{"uuid": ["uuid", nth(FIRST_ROW, 3)]}, {"error": "aborted"}, None], "abort")
        equal(session.transact("net", {"op": "wait"}), [{"error": "not supported"}], "wait")
        equal(session.transact("net", insert(name="p"))[0]["uuid"][0], "uuid", "an insert")
        shows(session, [], [named("p", 1)], "only the last one is committed")


@check(240)
def relays_in_a_row(lab):
    """A row that is sent to the last of three relays in a row shows on each of them and on the source."""
    source = lab.source()
    nodes = [source]
    for _ in range(3):
        nodes.append(lab.relay([nodes[-1]]))
    with nodes[-1].session() as last:
        equal(last.transact("net", insert(name="p")), [{"uuid": ["uuid", FIRST_ROW]}], "the insert's result")
        for place, node in enumerate(nodes):
            with node.session() as session:
                shows(session, [], [named("p", 1)], f"node {place} shows the row")


@check(240)
def a_session_cut_in_mid_message(lab):
    """Sessions that end, or break, in the middle of a message leave the others as they are, at the relay and at the source."""
    source, relay = lab.tier()
    for node in (source, relay):
        with node.session() as other:
            other.ask("monitor_cond", "net", "m", {"Port": {}})
            text = json.dumps({"id": 1, "method": "transact", "params": ["net", insert(name="cut")]}).encode()
            for cut in range(1, len(text), 7):
                session = node.session()
                session.send_bytes(text[:cut])
                session.reset() if cut % 2 else session.close()
            other.transact("net", insert(name="whole"))
            method, params = other.notice()
            equal((method, [row["insert"]["name"] for row in params[1]["Port"].values()]), ("update2", ["whole"]), f"what is told at the {node.name}")
    with source.session() as session:
        shows(session, [], [named("whole", 1), named("whole", 2)], "nothing that was cut is committed")


@check(240)
def ids_are_dealt_once(lab):
    """Commits through two relays at once each have an id of their own, in one order that both relays tell alike."""
    source = lab.source()
    relays = [lab.relay([source]), lab.relay([source], name="other")]
    monitors = []
    for relay in relays:
        session = relay.session()
        session.ask("monitor_cond_since", "net", "m", {"Port": {"columns": ["name"]}}, nth(FIRST_ID, 9_000))
        monitors.append(session)
    writers = [relay.session() for relay in relays]
    numbers = [[writer.request("transact", "net", insert(name=f"{place}-{number}")) for number in range(50)] for place, writer in enumerate(writers)]
    rows = [writer.reply(number)[0]["uuid"][1] for writer, asked in zip(writers, numbers) for number in asked]
    equal(len(set(rows)), 100, "different row ids")
    told = [[session.notice() for _ in range(100)] for session in monitors]
    equal(told[0], told[1], "what the two relays tell")
    equal([params[1] for _, params in told[0]], [nth(FIRST_ID, number) for number in range(1, 101)], "the commits' ids")


@check(2 * START_SECONDS + 120)
def the_story(lab):
    """The story that the README begins with ends by itself with status 0, and tells that the last relay goes on from the source."""
    ran = subprocess.run([sys.executable, STORY, "--program", lab.program], stdout=subprocess.PIPE, stderr=subprocess.STDOUT, timeout=240, check=False)
    told = ran.stdout.decode(errors="replace")
    holds(ran.returncode == 0, f"status {ran.returncode}: {told[-600:]}")
    holds("goes on from the source" in told, told[-600:])
