"""What a relay makes of an upstream's answers, lawful and not."""
from data import FIRST_ID, NET, ZEROS, select
from ends import shows
from harness import check, equal, holds
from processes import wait_until
from upstream import Upstream, known, unknown
from upstreams import ROW, change, commit_id, sound, tell, tells


@check(240)
def answers_with_rows(lab):
    """An answer with rows is one link: from nothing where the id wasn't known, and else from the id that was asked for."""

    def copies(connection):
        connection.begin(lambda asked: [False, commit_id(4), {"Port": {ROW: {"initial": {"name": "p4"}}}}])

    def goes_on(connection):
        connection.begin(lambda asked: [True, commit_id(6), change(6)])
        tell(connection, [7])

    upstream = lab.keep(Upstream(NET, copies, goes_on, tells(8, 8)))
    relay = lab.relay([upstream])
    with relay.session() as session:
        shows(session, "p8")
        answer = session.ask("monitor_cond_since", "net", "m", {"Port": {"columns": ["name"]}}, ZEROS)
        equal(answer, [True, ZEROS, {}], "the relay's own answer")
        told = [session.notice()[1][1] for _ in range(4)]
    equal(told, [commit_id(number) for number in (4, 6, 7, 8)], "the links that the relay tells")
    equal(upstream.asked, [ZEROS, commit_id(4), commit_id(7)], "the ids that were asked for")
    sound(upstream)


@check(240)
def an_upstream_that_asks(lab):
    """A relay answers an upstream's echo, refuses what else it is asked, and ignores notifications that it doesn't know."""
    heard = []

    def asks(connection):
        connection.begin(unknown)
        connection.send({"id": "probe", "method": "echo", "params": [1, {}]})
        heard.append(connection.receive())
        connection.send({"id": 5, "method": "list_dbs", "params": []})
        heard.append(connection.receive())
        connection.send({"id": None, "method": "news", "params": [1]})
        tell(connection, [1])
        connection.wait_closed()

    upstream = lab.keep(Upstream(NET, asks))
    relay = lab.relay([upstream])
    with relay.session() as session:
        shows(session, "p1")
    equal((heard[0]["id"], heard[0]["result"], heard[0]["error"]), ("probe", [1, {}], None), "the answer to the echo")
    holds(heard[1]["id"] == 5 and heard[1]["error"] is not None, f"the answer to a request: {heard[1]!r}")
    sound(upstream)


def after(*messages):
    """The script of an upstream that sends these messages behind its answer."""

    def script(connection):
        connection.begin(unknown)
        for message in messages:
            connection.send_bytes(message) if isinstance(message, bytes) else connection.send(message)
        connection.wait_closed()

    return script


def answering(answer):
    """The script of an upstream that answers the monitor so, and then tells a commit."""

    def script(connection):
        connection.begin(lambda asked: answer)
        tell(connection, [1])
        connection.wait_closed()

    return script


def update3(*params):
    return {"id": None, "method": "update3", "params": list(params)}


START_ID = "00000000-0000-0000-0000-000000000009"
# What an upstream may not say, each as a script.
ODD_ONES = {
    "an answer that is no list": answering({}),
    "an answer from another place": answering([False, ZEROS, {"Port": {}}]),
    "an answer of no id": answering([True, "x", {}]),
    "a start id in an answer": answering([True, START_ID, {}]),
    "a start id": after(update3("relay", START_ID, change(1))),
    "another monitor": after(update3("other", commit_id(1), change(1))),
    "a table that isn't there": after(update3("relay", commit_id(1), {"Bridge": {ROW: {"insert": {}}}})),
    "a value of another kind": after(update3("relay", commit_id(1), {"Port": {ROW: {"insert": {"name": 5}}}})),
    "update2": after({"id": None, "method": "update2", "params": ["relay", change(1)]}),
    "a reply that nobody awaits": after({"id": "what", "result": {}, "error": None}),
    "no JSON": after(b'{"id":1,]'),
    "a word": after(b"hello"),
    "too deep a message": after(b'{"id":' + b"[" * 100 + b"]" * 100 + b"}"),
}


@check(280)
def upstreams_that_say_what_they_may_not(lab):
    """Whatever else an upstream says ends that session and makes no link; the relay connects anew and goes on."""
    upstream = lab.keep(Upstream(NET, *ODD_ONES.values(), tells(1, 1)))
    relay = lab.relay([upstream], "--end-on-refusal")
    names = [*ODD_ONES, "a good one"]

    def all_tried():
        return len(upstream.asked) == len(names)

    try:
        wait_until(all_tried, 120, "the relay leaves each odd upstream")
    except AssertionError as fault:
        raise AssertionError(f"the relay stays with an upstream after {names[len(upstream.asked) - 1]!r}") from fault
    equal(upstream.asked, [ZEROS] * len(names), "the ids that were asked for")
    with relay.session() as session:
        shows(session, "p1")
        equal(session.transact("net", select(columns=["_version"]))[0]["rows"][0]["_version"], ["uuid", FIRST_ID], "the row's version")
    sound(upstream)


@check(240)
def an_error_instead_of_an_answer(lab):
    """An error to the schema or to the monitor ends the session, and the relay connects anew."""

    def refuses_schema(connection):
        message = connection.receive()
        connection.send({"id": message["id"], "result": None, "error": "unknown database"})
        connection.wait_closed()

    def refuses_monitor(connection):
        message = connection.receive()
        connection.reply(message["id"], NET)
        message = connection.receive()
        connection.send({"id": message["id"], "result": None, "error": {"error": "unknown method"}})
        connection.wait_closed()

    upstream = lab.keep(Upstream(NET, refuses_schema, refuses_monitor, tells(1, 1)))
    relay = lab.relay([upstream])
    with relay.session() as session:
        shows(session, "p1")
    sound(upstream)


@check(240)
def a_long_history(lab):
    """A relay follows an upstream that tells ten thousand commits at once, and is asked for the whole of it in turn."""
    commits = 10_000

    def tells_many(connection):
        connection.begin(known)
        tell(connection, range(1, commits + 1))
        connection.wait_closed()

    upstream = lab.keep(Upstream(NET, tells_many))
    relay = lab.relay([upstream])
    behind = lab.relay([relay], name="behind")
    with behind.session() as session:
        shows(session, f"p{commits}", 60)
    with relay.session() as session:
        session.ask("monitor_cond_since", "net", "m", {"Port": {"columns": ["name"]}}, ZEROS)
        told = [session.notice()[1][1] for _ in range(commits)]
        holds(told == [commit_id(number) for number in range(1, commits + 1)], "the commits don't come in order")
    sound(upstream)
