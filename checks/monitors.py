"""Monitors of every kind: what they are told makes what a select shows."""
import random

from data import FIRST_ID, NET, ZEROS, insert, nth
from harness import check, equal, holds
from mirror import NOTATIONS, Mirror, selected

COMMITS = 300
LAST = "the last one"
REQUESTS = (
    {},
    {"columns": ["name", "tags"]},
    {"columns": ["opts", "up", "name", "_version"]},
    {"where": [["tags", "includes", 3]]},
    {"columns": ["name", "opts"], "where": [["up", "==", True], ["name", "==", LAST]]},
)


def operation(chance, number, rows):
    """What commit `number` does to the rows: one in three inserts a row, and the others update, mutate or delete one."""
    if len(rows) < 3 or number % 3 == 0:
        row = {"name": f"p{number}", "tags": ["set", [100 + number, number % 5]], "opts": ["map", [["a", str(number)]]], "up": bool(number % 2)}
        return insert(**row)
    place = {"table": "Port", "where": [["_uuid", "==", ["uuid", chance.choice(rows)]]]}
    kind = chance.randrange(5)
    if kind == 0:
        rows.remove(place["where"][0][2][1])
        return {"op": "delete", **place}
    if kind == 1:
        return {"op": "update", **place, "row": {"name": f"q{number}", "up": ["set", []], "tags": 3}}
    if kind == 2:
        return {"op": "update", **place, "row": {"opts": ["map", [["a", "x"], ["b", str(number)]]], "up": True}}
    if kind == 3:
        return {"op": "mutate", **place, "mutations": [["tags", "insert", ["set", [3, 100 + number]]], ["opts", "insert", ["map", [["c", "y"]]]]]}
    return {"op": "mutate", **place, "mutations": [["tags", "delete", 3], ["opts", "delete", ["set", ["a", "c"]]]]}


def all_commits():
    """Commits of all kinds, one after another, each as a function of the session that makes it; every monitor is told of the last."""
    chance, rows = random.Random(5), []

    def commit(session, number):
        result = session.transact("net", operation(chance, number, rows))[0]
        holds("error" not in result, f"commit {number}: {result!r}")
        if "uuid" in result:
            rows.append(result["uuid"][1])

    for number in range(1, COMMITS):
        yield lambda session, number=number: commit(session, number)
    yield lambda session: session.transact("net", insert(name=LAST, tags=["set", [3]], up=True))


def is_told(mirror):
    return any(row["name"] == (LAST,) for row in mirror.rows.values())


def monitors_of_all_kinds(session, request):
    """A monitor of each kind, by its name. The oldest kind has no filter."""
    mirrors = {}
    for method in NOTATIONS:
        asked = {key: value for key, value in request.items() if method != "monitor" or key != "where"}
        name = [method, request]
        since = ZEROS if method == "monitor_cond_since" else None
        mirrors[repr(name)] = Mirror(session, NET, "Port", method, name, asked, since), asked.get("where")
    return mirrors


def follow_all(session, mirrors):
    """Gives each notification to its mirror until each was told of the last commit."""
    while not all(is_told(mirror) for mirror, _ in mirrors.values()):
        method, params = session.notice(30)
        mirror, _ = mirrors[repr(params[0])]
        equal(method, NOTATIONS[mirror.method], "the notification's method")
        if method == "update3":
            mirror.commits.append(params[1])
        mirror.update(params[-1])


def compare(mirror, reader, where):
    """A mirror has what selects of the same columns show; any part of a "where" suffices, so each is a select of its own."""
    wanted = {}
    for part in ([[one] for one in where] if where else [[]]):
        wanted.update(selected(reader, "net", "Port", part, mirror.shown))
    equal(mirror.rows, wanted, f"{mirror.method} of {mirror.shown!r} where {where!r}")


@check(300)
def mirrors_of_every_kind(lab):
    """Eight clients of a relay, each with monitors of all three kinds, some begun midway, have in the end what a select shows."""
    _, relay = lab.tier()
    writer, reader = relay.session(), relay.session()
    clients = [relay.session() for _ in range(8)]
    followed = [(client, monitors_of_all_kinds(client, REQUESTS[place % len(REQUESTS)])) for place, client in enumerate(clients[:5])]
    for number, commit in enumerate(all_commits()):
        commit(writer)
        if number == COMMITS // 2:
            followed += [(client, monitors_of_all_kinds(client, REQUESTS[place])) for place, client in enumerate(clients[5:])]
    for client, mirrors in followed:
        follow_all(client, mirrors)
        for mirror, where in mirrors.values():
            compare(mirror, reader, where)


@check(300)
def monitors_of_one_session(lab):
    """A session with fifteen monitors is told each commit in order, each monitor its own, and those of ids every id."""
    _, relay = lab.tier()
    session, writer, reader = (relay.session() for _ in range(3))
    mirrors = {}
    for request in REQUESTS:
        mirrors.update(monitors_of_all_kinds(session, request))
    for commit in all_commits():
        commit(writer)
    follow_all(session, mirrors)
    for mirror, where in mirrors.values():
        compare(mirror, reader, where)
        if mirror.method == "monitor_cond_since":
            equal(mirror.commits, [nth(FIRST_ID, number) for number in range(1, len(mirror.commits) + 1)], "the ids that a monitor is told")


@check(240)
def going_on_from_an_id(lab):
    """`monitor_cond_since` from a known id tells what comes after it alone, and from an unknown one everything, commit by commit."""
    for node in lab.tier():
        with node.session() as writer, node.session() as reader:
            before = len(selected(reader, "net", "Port"))
            for number in range(5):
                writer.transact("net", insert(name=f"{node.name}{number}"))
            ids = [nth(FIRST_ID, number) for number in range(1, before + 6)]
            while len(selected(reader, "net", "Port")) < before + 5:
                pass
            for since, found, told in ((ids[before], True, ids[before + 1:]), (ZEROS, True, ids), (nth(FIRST_ID, 777), False, ids), (ids[-1], True, [])):
                with node.session() as session:
                    mirror = Mirror(session, NET, "Port", "monitor_cond_since", "m", {}, since)
                    equal((mirror.found, mirror.head), (found, since if found else ZEROS), f"{node.name}: the answer at {since}")
                    for _ in told:
                        mirror.take(10)
                    equal(mirror.commits, told, f"{node.name}: what is told after {since}")
                    holds(session.is_quiet(0.2), f"{node.name}: more is told after {since}")


@check(240)
def cancelling(lab):
    """A cancelled monitor is told nothing more, and its id can be used again; other monitors of the session go on."""
    _, relay = lab.tier()
    session, writer = relay.session(), relay.session()
    session.ask("monitor", "net", "a", {"Port": {"columns": ["name"]}})
    session.ask("monitor_cond", "net", "b", {"Port": {"columns": ["name"]}})
    writer.transact("net", insert(name="p"))
    equal({session.notice()[0], session.notice()[0]}, {"update", "update2"}, "what both monitors are told")
    equal(session.ask("monitor_cancel", "a"), {}, "the reply to monitor_cancel")
    writer.transact("net", insert(name="q"))
    equal(session.notice()[0], "update2", "what is told of the next commit")
    holds(session.is_quiet(0.3), "the cancelled monitor is told more")
    equal(len(session.ask("monitor", "net", "a", {"Port": {"columns": ["name"]}})["Port"]), 2, "the rows that a new monitor begins with")
