"""A whole copy of a database in one message above 16 MiB: a relay takes it where `--most-bytes` says so, and else tells that it is too long. Agents keep
their limit at either."""
import json
import time

from data import FIRST_ROW, NET, ZEROS, nth, select
from harness import check, equal, holds
from processes import wait_until
from upstream import Upstream
from upstreams import OTHER_ID, commit_id, sound
from wire import CLOSES, LONGEST, SLOW

MIB = 1 << 20
COPY = 18 * MIB
ALLOWED = 33_554_432
# The name of a row of the copy has so many bytes.
NAME = 1_000
# Room for the id of a request.
ID_ROOM = 64
# Beside the database a relay has at most so many bytes resident for each of a copy while it is read.
MOST_TIMES = 12


def row_of(number, length):
    return f'"{nth(FIRST_ROW, number)}":{{"initial":{{"name":"{number:0{length}}"}}}}'


def copy_of(length, commit=commit_id(1)):
    """The reply with a whole copy of so many bytes, to the request whose id is put in the place of the spaces; and how many rows it has."""
    head, tail = f'{{"id":{" " * ID_ROOM},"error":null,"result":[false,"{commit}",{{"Port":{{', "}}]}"
    each = len(row_of(1, NAME)) + 1
    left = length - len(head) - len(tail)
    rows = [row_of(number, NAME) for number in range(1, left // each)]
    rows.append(row_of(len(rows) + 1, NAME + 1 + left % each))
    return head + ",".join(rows) + tail, len(rows)


class Copying:
    """An upstream that gives a copy of this length to whoever asks, and a commit behind it."""

    def __init__(self, length):
        self.length = length
        self.text, self.rows = copy_of(length)

    def gives(self, connection):
        """Answers what a relay asks first; its monitor by the copy. Then it waits until the relay closes the connection."""
        message = connection.receive()
        equal(message["method"], "get_schema", "what a relay asks first")
        connection.reply(message["id"], NET)
        message = connection.receive()
        equal(message["method"], "monitor_cond_since", "what a relay asks then")
        connection.name, connection.asked = message["params"][1], message["params"][3]
        connection.upstream.asked.append(connection.asked)
        text = self.text.replace(" " * ID_ROOM, json.dumps(message["id"]).rjust(ID_ROOM), 1)
        equal(len(text), self.length, "the length of the copy")
        connection.send_bytes(text.encode())
        connection.update3(OTHER_ID, {"Port": {nth(FIRST_ROW, self.rows + 1): {"insert": {"name": "behind"}}}})
        connection.wait_closed()


def count(session):
    return len(session.transact("net", select(columns=["_uuid"]))[0]["rows"])


def shown(session, rows):
    """Waits until a node shows so many rows, of which it shows none, or all but that of the commit behind the copy, before; gives how long that took."""
    begun = time.monotonic()

    def all_shown():
        found = count(session)
        holds(found in (0, rows - 1, rows), f"{found} rows of {rows} are shown")
        return found == rows

    wait_until(all_shown, 240, f"the relay shows {rows} rows")
    return time.monotonic() - begun


@check(600)
def a_copy_of_18_mebibytes(lab):
    """A copy of 18 MiB is followed with `--most-bytes`, whole and with the commit behind it; an agent's message above 16 MiB still ends its session."""
    copying = Copying(COPY)
    upstream = lab.keep(Upstream(NET, copying.gives))
    relay = lab.relay([upstream], "--most-bytes", str(ALLOWED))
    with relay.session(240) as session:
        took = shown(session, copying.rows + 1)
        rows = session.transact("net", select([["name", "==", "behind"]], columns=["name"]))[0]["rows"]
        equal(rows, [{"name": "behind"}], "the row of the commit behind the copy")
        with relay.session(SLOW) as long:
            long.send_bytes(b'{"id":1,"method":"echo","params":["' + b"x" * LONGEST + b'"]}')
            holds(long.is_closed(CLOSES), "an agent's message above 16 MiB leaves its session open")
        equal(count(session), copying.rows + 1, "the rows then")
    equal(upstream.asked, [ZEROS], "the ids that were asked for")
    equal(relay.child.complaints(), "", "the relay's standard error")
    sound(upstream)
    most, now = relay.child.kilobytes("VmHWM"), relay.child.kilobytes("VmRSS")
    beside = (most - now) * 1_024 / COPY
    holds(beside <= MOST_TIMES, f"{beside:.1f} bytes beside the database for each of the copy")
    return round(took, 2), most, now


@check(300)
def a_copy_above_the_limit(lab):
    """A copy of 18 MiB is too long without `--most-bytes`, and so is one of a byte more than it says: the relay tells the limit that stands, shows no
    row, and asks again."""
    told = []
    for length, most, words in ((COPY, LONGEST, ()), (COPY, COPY - 1, ("--most-bytes", str(COPY - 1)))):
        copying = Copying(length)
        upstream = lab.keep(Upstream(NET, copying.gives))
        relay = lab.relay([upstream], *words)
        with relay.session(60) as session:
            wait_until(lambda: len(upstream.asked) >= 3, 60, "the relay asks a third time")
            equal(count(session), 0, "the rows of a relay that takes no copy")
        line = f"ovs_relay: upstream 127.0.0.1:{upstream.port} sent a message above {most} bytes\n"
        equal(relay.child.complaints(), line, "what the relay tells")
        equal(set(upstream.asked), {ZEROS}, "the ids that were asked for")
        told.append(len(upstream.asked))
        relay.stop()
    return told


@check(300)
def a_copy_at_the_limit(lab):
    """A copy of as many bytes as `--most-bytes` says is taken."""
    copying = Copying(COPY)
    upstream = lab.keep(Upstream(NET, copying.gives))
    relay = lab.relay([upstream], "--most-bytes", str(COPY))
    with relay.session(240) as session:
        took = shown(session, copying.rows + 1)
    equal(relay.child.complaints(), "", "the relay's standard error")
    return round(took, 2)


@check(600)
def relays_in_a_chain(lab):
    """The copy that a relay gives to the one behind it is as long as its own: both need the option. Without it the second shows nothing."""
    copying = Copying(COPY)
    upstream = lab.keep(Upstream(NET, copying.gives))
    first = lab.relay([upstream], "--most-bytes", str(ALLOWED), name="first")
    with first.session(240) as session:
        shown(session, copying.rows + 1)
    second = lab.relay([first], "--most-bytes", str(ALLOWED), name="second")
    third = lab.relay([first], name="third")
    with second.session(240) as session, third.session(240) as other:
        shown(session, copying.rows + 1)
        wait_until(lambda: third.child.complaints(), 60, "the relay without the option tells that the copy is too long")
        equal(count(other), 0, "the rows of the relay without the option")
    equal(third.child.complaints(), f"ovs_relay: upstream {first.address} sent a message above {LONGEST} bytes\n", "what it tells")
