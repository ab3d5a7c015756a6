"""The repository's own pages."""
import os
import re
import subprocess
import sys

from harness import check, equal, holds

TOP = os.path.join(os.path.dirname(os.path.abspath(__file__)), "..")
# A link, in its place or by a name that stands for it; and a name in brackets that a table's cell has.
LINK = re.compile(r"\]\(([^)#\s]+)(?:#[^)]*)?\)|^\[[^\]\s]+\]: *([^#\s]+)", re.MULTILINE)
SECTION, HEADING = re.compile(r"\]\(([^)#\s:]*)#([^)\s]+)\)"), re.compile(r"^#+ (.*)$", re.MULTILINE)
NAMED, NAME = re.compile(r"^\[([^\]\s]+)\]: ", re.MULTILINE), re.compile(r"\[(ovs_\w+)\](?![(:])")

# A file of the map, and the functions that are listed right behind it.
NAMES_OF_FILE = re.compile(r"`(ovs_\w+)/(\w[\w/]*\.rt)`((?:,? `[A-Za-z_:]+`)*)")


def text_of(page):
    with open(page, encoding="utf-8") as file:
        return file.read()


def sections_of(text):
    """What links call the sections of a page."""
    return {re.sub(r"[^\w\- ]", "", heading.strip().lower()).replace(" ", "-") for heading in HEADING.findall(text)}


def pages_below(folder):
    """All pages, but those in what was built or is the version control's."""
    found = []
    for at, folders, names in os.walk(folder):
        folders[:] = [name for name in folders if name not in ("out", ".git")]
        found += [os.path.join(at, name) for name in names if name.endswith(".md")]
    return found


@check(60)
def the_map_has_the_graph(_lab):
    """docs/ARCHITECTURE.md has the graph that crates.txt gives, and a line for each crate."""
    ran = subprocess.run([sys.executable, os.path.join(TOP, "dev"), "graph", "--check"], capture_output=True, text=True, check=False)
    equal((ran.returncode, ran.stderr), (0, ""), f"dev graph --check; {ran.stdout!r}")


@check(60)
def the_map_names_what_is_there(_lab):
    """Each file that docs/ARCHITECTURE.md names by its crate is there, and has the functions that are listed behind it."""
    found = NAMES_OF_FILE.findall(" ".join(text_of(os.path.join(TOP, "docs", "ARCHITECTURE.md")).split()))
    holds(len(found) > 100, f"the map names {len(found)} files")
    for crate, file, names in found:
        paths = [os.path.join(TOP, "crates", crate, folder, file) for folder in ("src", ".")]
        path = next((path for path in paths if os.path.exists(path)), None)
        holds(path, f"there is no file {crate}/{file}")
        for name in re.findall(r"`(?:\w+::)?(\w+)`", names):
            holds(re.search(rf"\bfn {name}\b", text_of(path)), f"{crate}/{file} has no function {name}")


def words_of_crates():
    """All words of the crates' code and definitions, and the names of their files."""
    found = set()
    for at, folders, names in os.walk(os.path.join(TOP, "crates")):
        folders[:] = [name for name in folders if name not in ("out", "proofs", "must-fail")]
        for name in names:
            if name.endswith((".rt", ".antt")):
                found.add(name.rpartition(".")[0])
                found.update(re.findall(r"\w+", text_of(os.path.join(at, name))))
    return found


@check(60)
def definitions_are_there(_lab):
    """Each name that docs/DEFINITIONS.md and docs/PROVED.md have of the code, as one with a capital or of several words is, stands in a crate."""
    found = words_of_crates().union(os.listdir(os.path.join(TOP, "crates")))
    for page in ("DEFINITIONS.md", "PROVED.md"):
        text = text_of(os.path.join(TOP, "docs", page))
        names = {name for quoted in re.findall(r"`([^`\n]+)`", text) for name in re.findall(r"\b(?:[A-Z][a-z]+\w*|[a-z]+_\w+)\b", quoted)}
        holds(len(names) > 100, f"{page} has {len(names)} names")
        equal(sorted(names - found), [], f"{page}: names that no crate has")


@check(60)
def links_lead_somewhere(_lab):
    """Each link of a page to another file of the repository leads to one, and each crate's name in brackets is such a link."""
    pages = pages_below(TOP)
    holds(len(pages) > 40, f"there are {len(pages)} pages")
    for page in pages:
        text = text_of(page)
        for target in ("".join(found) for found in LINK.findall(text)):
            if not target.startswith(("http:", "https:", "mailto:")):
                holds(os.path.exists(os.path.join(os.path.dirname(page), target)), f"{os.path.relpath(page, TOP)} leads to {target}")
        nowhere = set(NAME.findall(text)).difference(NAMED.findall(text))
        equal(sorted(nowhere), [], f"{os.path.relpath(page, TOP)}: names in brackets that lead nowhere")


@check(60)
def sections_are_there(_lab):
    """Each link of a page to a section leads to one."""
    for page in pages_below(TOP):
        for target, section in SECTION.findall(text_of(page)):
            other = os.path.join(os.path.dirname(page), target) if target else page
            holds(section in sections_of(text_of(other)), f"{os.path.relpath(page, TOP)} leads to {target}#{section}")
