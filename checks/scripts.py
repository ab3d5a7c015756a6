"""The commands `fold` and `world`: what they print, and how they end."""
import json
import os

from commands import is_one_line
from data import FIRST_ID, NET, ZEROS, nth
from harness import START_SECONDS, check, equal, holds

LIMIT = 10 * START_SECONDS
BENCH = os.path.join(os.path.dirname(os.path.abspath(__file__)), "..", "bench")
ROW = "11111111-1111-4111-8111-111111111111"
INSERT = {"Port": {ROW: {"insert": {"name": "p1"}}}}
MODIFY = {"Port": {ROW: {"modify": {"tags": ["set", [2, 1]]}}}}


def script(*lines):
    return "".join(json.dumps(line) + "\n" for line in lines).encode()


def link(number, change):
    """The link of the commit with this number."""
    return [ZEROS if number == 1 else nth(FIRST_ID, number - 1), nth(FIRST_ID, number), change]


def database(version, tags):
    row = {"_version": ["uuid", version], "name": "p1", "opts": ["map", []], "tags": tags, "up": ["set", []]}
    return json.dumps({"Port": {ROW: row}}, separators=(",", ":"))


@check(LIMIT)
def fold_prints_the_database(lab):
    """Links in any order and twice: what became of each, the head, the counts and the database, with status 0."""
    told = lab.run("fold", text=script(NET, link(2, MODIFY), link(1, INSERT), link(2, MODIFY)))
    head = nth(FIRST_ID, 2)
    lines = ["1 took", "2 took", "3 held", f"head {head}", "links 2 chain 2 parked 0", database(head, ["set", [1, 2]])]
    equal(told, (0, "\n".join(lines) + "\n", ""), "fold")
    equal(lab.run("fold", text=script(NET)), (0, f'head {ZEROS}\nlinks 0 chain 0 parked 0\n{{"Port":{{}}}}\n', ""), "fold of no link")


@check(LIMIT)
def fold_refuses_links(lab):
    """A refused link is told by its word with status 1, and so is a chain that is stuck."""
    lines = [
        ("bad-json", b'{"'),
        ("bad-shape", script({})),
        ("bad-id", script(["x", FIRST_ID, {}])),
        ("no-table", script(link(1, {"Bridge": {}}))),
        ("no-column", script(link(1, {"Port": {ROW: {"insert": {"speed": 1}}}}))),
        ("wrong-kind", script(link(1, {"Port": {ROW: {"insert": {"name": 1}}}}))),
        (f"fork {ZEROS} {FIRST_ID}", script([ZEROS, nth(FIRST_ID, 7), INSERT])),
    ]
    text = script(NET, link(1, INSERT)) + b"".join(line.rstrip(b"\n") + b"\n" for _, line in lines)
    words = ["1 took"] + [f"{number} refused {word}" for number, (word, _) in enumerate(lines, 2)]
    ending = [f"head {FIRST_ID}", "links 1 chain 1 parked 0", database(FIRST_ID, ["set", []])]
    equal(lab.run("fold", text=text), (1, "\n".join(words + ending) + "\n", ""), "fold of links that are refused")
    told = lab.run("fold", text=script(NET, link(1, MODIFY)))
    equal(told, (1, f'1 took\nstuck {FIRST_ID}\nhead {ZEROS}\nlinks 1 chain 0 parked 1\n{{"Port":{{}}}}\n', ""), "fold of a link that doesn't fit")


@check(LIMIT)
def fold_merges_a_file(lab):
    """`--merge FILE`: its links are told with an m, then the merge, with status 0, or 1 where it is refused."""
    head = nth(FIRST_ID, 2)
    path = lab.path("more.links", script(link(2, MODIFY)))
    lines = ["1 took", "m1 took", "merge ok", f"head {head}", "links 2 chain 2 parked 0", database(head, ["set", [1, 2]])]
    equal(lab.run("fold", "--merge", path, text=script(NET, link(1, INSERT))), (0, "\n".join(lines) + "\n", ""), "fold of two texts")
    path = lab.path("fork.links", script([ZEROS, head, INSERT]))
    status, out, err = lab.run("fold", "--merge", path, text=script(NET, link(1, INSERT)))
    holds(status == 1 and f"merge refused fork {ZEROS} {FIRST_ID}\n" in out and err == "", f"fold of two texts that contradict: {status}, {out!r}, {err!r}")


@check(LIMIT)
def world_tells_a_story(lab):
    """The stored story of a relay that goes on from another node, word for word, and refusals with status 1."""
    with open(os.path.join(BENCH, "reconnection.txt"), "rb") as story, open(os.path.join(BENCH, "reconnection.told.txt"), encoding="utf-8") as told:
        equal(lab.run("world", text=story.read()), (0, told.read(), ""), "world")
    node = f"node {{}} head {ZEROS} links 0 chain 0\n"
    equal(lab.run("world", text=script(NET, 1, ["deliver", 1, 10])), (1, "1 refused no-session\n" + node.format(0) + node.format(1), ""), "world, refused")
    equal(lab.run("world", text=script(NET, 10)), (1, "relays refused\n", ""), "world of ten relays")


@check(LIMIT)
def devices_that_fail(lab):
    """Status 3 and one line where the input can't be read or the output can't be written."""
    for command in ("fold", "world"):
        with open("/dev/full", "wb") as full:
            status, _, err = lab.run(command, text=script(NET, 1), out=full)
        holds(status == 3 and is_one_line(err), f"{command} over a full device: {status}, {err!r}")
    folder = lab.path("folder")
    os.mkdir(folder)
    told = lab.run("fold", "--merge", folder, text=script(NET))
    holds(told[0] == 3 and is_one_line(told[2]) and folder in told[2], f"fold --merge of a folder: {told!r}")
