"""The command line: help, version, faults of its words, files, schemas and ports, in the order in which they are found."""
import json
import os
import re
import shutil
import socket
import subprocess

from data import FIRST_ID, FIRST_ROW, NET
from harness import START_SECONDS, Skip, check, equal, holds
from processes import free_port

LIMIT = 10 * START_SECONDS
COMMANDS = ("fold", "world", "source", "relay")
LONGEST = 16_777_216
# The status where a file can't be opened.
UNOPENED = {"fold": 2, "source": 2, "relay": 2}


def is_one_line(text):
    return text.startswith("ovs_relay: ") and text.endswith("\n") and text.count("\n") == 1 and len(text) > len("ovs_relay: \n")


def fails(lab, words, status, *named):
    """Runs the program on words that it ends at: with this status, one line on standard error that names all that is given, and no output."""
    told = lab.run(*words)
    holds(told[0] == status and told[1] == "" and is_one_line(told[2]), f"{words!r}: {told!r}, and not status {status} and one line on standard error")
    for word in named:
        holds(word.lower() in told[2].lower(), f"{words!r}: {told[2]!r} doesn't name {word!r}")


def source_words(lab, listen=None, schema=None, first_id=FIRST_ID, first_row=FIRST_ROW):
    listen = f"127.0.0.1:{free_port()}" if listen is None else listen
    return ["source", "--schema", schema or lab.schema(), "--listen", listen, "--first-id", first_id, "--first-row", first_row]


def relay_words(lab, *upstreams, listen=None, schema=None):
    words = ["relay", "--schema", schema or lab.schema(), "--listen", listen or f"127.0.0.1:{free_port()}"]
    for upstream in upstreams or (f"127.0.0.1:{free_port()}",):
        words += ["--upstream", upstream]
    return words


@check(LIMIT)
def help_and_version(lab):
    """Help of the program and of each command, and its version, on standard output with status 0."""
    for words in (["--help"], *([command, "--help"] for command in COMMANDS)):
        status, out, err = lab.run(*words)
        holds(status == 0 and err == "" and "Usage: ovs_relay" in out, f"{words!r}: {status}, {out!r}, {err!r}")
    _, whole, _ = lab.run("--help")
    for command in COMMANDS:
        holds(command in whole, f"the help doesn't name the command {command}")
    for command, options in (("source", ("--first-id", "--first-row", "--accepts", "--verbose")), ("relay", ("--upstream", "--tries", "--end-on-refusal", "--prune"))):
        _, out, _ = lab.run(command, "--help")
        for option in ("--schema", "--listen", *options):
            holds(option in out, f"the help of {command} doesn't name {option}")
    for command, bounds in (("source", 1), ("relay", 2)):
        _, out, _ = lab.run(command, "--help")
        equal(out.count("any number where this isn't given"), bounds, f"the bounds that {command} doesn't have of itself")
    for words in (["--version"], *([command, "--version"] for command in COMMANDS)):
        status, out, err = lab.run(*words)
        holds(status == 0 and err == "" and out.startswith("ovs_relay") and out.count("\n") == 1, f"{words!r}: {status}, {out!r}, {err!r}")


@check(LIMIT)
def the_version_names_the_logic(lab):
    """The version of the program and of each command names the logic that it is proved in, as `rt version` does."""
    rt = shutil.which("rt")
    if rt is None:
        raise Skip("rt isn't there")
    logic = re.search(r"logic \w+", subprocess.run([rt, "version"], stdout=subprocess.PIPE, check=True).stdout.decode()).group()
    for words in (["--version"], *([command, "--version"] for command in COMMANDS)):
        _, out, _ = lab.run(*words)
        holds(re.fullmatch(rf"\S+ \d+\.\d+\.\d+ \(rattle {re.escape(logic)}\)\n", out), f"{words!r}: {out!r} doesn't name the {logic}")


@check(LIMIT)
def words_that_ask_for_nothing(lab):
    """Status 2 and one line for words that are no command: none, unknown ones, too many, a missing value, one given twice."""
    schema = lab.schema()
    address = f"127.0.0.1:{free_port()}"
    for words in ([], ["unfold"], ["fold", "x"], ["world", "x"], ["fold", "--merge"], ["fold", "--merge", "a", "--merge", "b"], ["source"], ["relay"]):
        fails(lab, words, 2)
    whole = source_words(lab)
    for option in range(1, len(whole), 2):
        fails(lab, whole[:option] + whole[option + 2:], 2)
    for option in range(1, len(relay_words(lab)), 2):
        fails(lab, relay_words(lab)[:option] + relay_words(lab)[option + 2:], 2)
    fails(lab, [*whole, "--schema", schema], 2)
    fails(lab, [*whole, "--upstream", address], 2)
    fails(lab, [*whole, "--tries", "1"], 2)
    fails(lab, [*whole, "--end-on-refusal"], 2)
    fails(lab, [*relay_words(lab), "--first-id", FIRST_ID], 2)
    fails(lab, relay_words(lab, *[address] * 5), 2)


@check(LIMIT)
def words_that_are_no_utf8(lab):
    """Status 2 and one line where a word of the command line is no UTF-8."""
    for words in ([b"fold\xff"], [b"fold", b"--merge", b"\xff"], [b"source", b"--schema", b"\xc3("]):
        told = lab.run(*words)
        holds(told[0] == 2 and told[1] == "" and is_one_line(told[2]) and "utf-8" in told[2].lower(), f"{words!r}: {told!r}")


@check(LIMIT)
def addresses_ids_and_numbers(lab):
    """Status 2 and one line for an address that is none of loopback, an id that is none, and a number out of its range."""
    port = free_port()
    for address in ("", "127.0.0.1", f"{port}", f":{port}", f"127.0.0.1:{port}x", "127.0.0.1:", "127.0.0.1:65536", f"10.0.0.1:{port}", f"localhost.:{port}x"):
        fails(lab, source_words(lab, listen=address), 2)
        fails(lab, relay_words(lab, address), 2)
    for name in ("", "aaaaaaaa-aaaa-4aaa-8aaa-aaaaaaaaaaa", FIRST_ID.replace("-", ""), FIRST_ID.replace("a", "g", 1)):
        fails(lab, source_words(lab, first_id=name), 2)
        fails(lab, source_words(lab, first_row=name), 2)
    for number in ("", "0", "1000001", "-1", "1.0", "x", "18446744073709551617"):
        fails(lab, [*source_words(lab), "--accepts", number], 2)
        fails(lab, [*relay_words(lab), "--tries", number], 2)


@check(LIMIT)
def its_own_upstream(lab):
    """Status 2 and one line that names the address where a relay is to follow itself, however the address is spelled."""
    port = free_port()
    for listen, upstream in ((f"127.0.0.1:{port}", f"127.0.0.1:{port}"), (f"[::1]:{port}", f"[0:0:0:0:0:0:0:1]:{port}")):
        for upstreams in ([upstream], [f"127.0.0.2:{port}", upstream]):
            fails(lab, relay_words(lab, *upstreams, listen=listen), 2, listen, "own address")


@check(LIMIT)
def files_that_cannot_be_read(lab):
    """One line that names the file for a merged file, and with the cause for a schema file that isn't there or is a folder."""
    missing, folder = lab.path("missing"), lab.path("folder")
    os.mkdir(folder)
    fails(lab, ["fold", "--merge", missing], UNOPENED["fold"], missing)
    for words in (source_words(lab, schema=missing), relay_words(lab, schema=missing)):
        fails(lab, words, UNOPENED[words[0]], missing, "no such file")
    for words in (source_words(lab, schema=folder), relay_words(lab, schema=folder)):
        fails(lab, words, 3, folder, "directory")


@check(LIMIT)
def schemas_that_are_refused(lab):
    """`schema refused WORD` on standard output with status 1, for `fold`, `world`, `source` and `relay` alike."""
    net = json.dumps(NET)
    texts = {
        "bad-json": ["", "\n", '{"name":"net"', net + "x", net[:-1]],
        "bad-shape": ["[]", '{"name":"net","version":"1"}', net.replace('"1.0.0"', "1")],
        "bad-id": [net.replace('"Port"', '"_Port"'), net.replace('"net"', '"a-b"')],
        "real": [net.replace('"string"', '"real"', 1)],
        "bad-bounds": [net.replace('"min": 0', '"min": 2', 1), net.replace('"unlimited"', "0", 1)],
        "too-long": ["x" * (LONGEST + 1)],
    }
    for word, spelled in texts.items():
        for text in spelled:
            path = lab.path("refused.schema", text)
            wanted = (1, f"schema refused {word}\n", "")
            for words in (source_words(lab, schema=path), relay_words(lab, schema=path)):
                equal(lab.run(*words), wanted, f"{words[0]} with the schema {text[:60]!r}")
            for command in ("fold", "world"):
                equal(lab.run(command, text=text.encode()), wanted, f"{command} with the schema {text[:60]!r}")


@check(LIMIT)
def a_schema_of_many_lines(lab):
    """Only the first line of a schema file is the schema: one that is spread over lines is refused."""
    path = lab.path("many.schema", json.dumps(NET, indent=1))
    equal(lab.run(*source_words(lab, schema=path)), (1, "schema refused bad-json\n", ""), "source with a schema of many lines")


@check(LIMIT)
def a_port_in_use(lab):
    """Status 3 and one line that names the address and the cause where something listens at the port."""
    port = free_port()
    with socket.socket() as other:
        other.bind(("127.0.0.1", port))
        other.listen()
        address = f"127.0.0.1:{port}"
        fails(lab, source_words(lab, listen=address), 3, address, "in use")
        fails(lab, relay_words(lab, listen=address), 3, address, "in use")


@check(LIMIT)
def faults_in_their_order(lab):
    """Of several faults the words come first, then files, the schema, and the port."""
    port = free_port()
    missing, refused = lab.path("missing"), lab.path("refused.schema", "{}\n")
    with socket.socket() as other:
        other.bind(("127.0.0.1", port))
        other.listen()
        address = f"127.0.0.1:{port}"
        fails(lab, source_words(lab, listen=address, schema=missing, first_id="x"), 2)
        fails(lab, source_words(lab, listen=address, schema=missing), UNOPENED["source"], missing)
        equal(lab.run(*source_words(lab, listen=address, schema=refused)), (1, "schema refused bad-shape\n", ""), "a refused schema and a port in use")
        fails(lab, [*relay_words(lab, listen=address, schema=missing), "--tries", "0"], 2)
        fails(lab, relay_words(lab, listen=address, schema=missing), UNOPENED["relay"], missing)
