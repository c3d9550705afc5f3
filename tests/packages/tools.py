"""The tools that are installed, run from where they stand: they print what those of this tree do."""
import os
import re
import shutil

from tests.harness import EXAMPLES, TOP, read
from tests.packages.installed import TOOLS
from tests.packages.said import ended, left_out

BUNDLE = "draining_node_fails.bundle"
HOMES = "stripe,code,fragment,node,slot\n" + "".join(f"7,narrow,{f},{f},\n" for f in range(9)) + "7,narrow,9,0,\n"
# What each tool is asked, over the tables of a store, and the file that it writes beside what it prints.
ASKED = {
    "balance": (["--dry", "--within", "1", "nodes.csv", "stripes.csv", "leases.csv"], None),
    "picture": (["nodes.csv", "stripes.csv", "leases.csv"], None),
    "takeover": (["empty.csv", "homes.csv", "report.csv"], "report.csv"),
}


def write_tables(folder, program):
    """The tables of a store that the program prints; the nodes and the homes of one that is to be taken over."""
    os.makedirs(folder, exist_ok=True)
    bundle = read(f"{EXAMPLES}/{BUNDLE}").decode()
    given = {"nodes": ("nodes", bundle), "stripes": ("stripes", bundle), "leases": ("leases", bundle),
             "empty": ("nodes", bundle.partition("%%\n")[0])}
    for name, (table, store) in given.items():
        with open(f"{folder}/{name}.csv", "w", encoding="utf-8") as text:
            text.write(ended(program, "show", table, input=store).stdout)
    with open(f"{folder}/homes.csv", "w", encoding="utf-8") as text:
        text.write(HOMES)


def printed(tool, path, folder):
    """The status of a tool, what it prints and what it writes."""
    words, written = ASKED[tool]
    ran = ended(path, *words, cwd=folder)
    return ran.returncode, ran.stdout, ran.stderr, written and read(f"{folder}/{written}").decode()


def check_alike(count, name, found, tool, folder):
    """An installed tool does what that of the tree does, under its own name."""
    status, said, told, written = printed(tool, f"{TOP}/tools/{tool}", folder)
    wanted = status, said, told.replace(f"tools/{tool}:", f"lrcman-{tool}:"), written
    count.check(f"{name}: {found}, and not {wanted}", found == wanted and status == 0 and said)


def shown(file):
    """A manual page as a reader sees it, with one space between words, and what man warns of."""
    ran = ended("man", "--warnings", "--no-hyphenation", "-E", "UTF-8", "-l", "-Tascii", file)
    return " ".join(re.sub(r".\x08", "", ran.stdout).split()), ran.stderr


def test_manual(count, prefix, tool):
    """The page has each line of the tool's description and each option, and neither names a path of the tree."""
    if not shutil.which("man") or not shutil.which("groff"):
        return left_out(f"the page of lrcman-{tool}", "there is no man, or no groff")
    text, warned = shown(f"{prefix}/share/man/man1/lrcman-{tool}.1")
    count.check(f"the page of lrcman-{tool}: {warned}", not warned)
    ran = ended(f"{prefix}/bin/lrcman-{tool}", "--help", env={**os.environ, "COLUMNS": "1000"})
    if not count.check(f"lrcman-{tool} --help: {ran.stderr}", ran.returncode == 0):
        return None
    usage, sentence, rest = ran.stdout.split("\n\n", 2)
    description, _, arguments = rest.partition("\n\npositional arguments:\n")
    lines = [*description.splitlines(), *arguments.partition("\noptions:\n")[2].splitlines()]
    wanted = {" ".join(line.removeprefix("- ").split()) for line in lines}
    wanted |= {" ".join(usage.removeprefix("usage: ").split()), f"lrcman-{tool} - {sentence[0].lower()}{sentence[1:-1]}"}
    lacking = sorted(it for it in wanted if it not in text)
    count.check(f"the page of lrcman-{tool} lacks {lacking}", len(wanted) > 12 and not lacking)
    return count.check(f"lrcman-{tool} names a path of the tree", "tools/" not in text + ran.stdout)


def test(count, room, prefix, program):
    """Each tool from another folder, over tables of the program; a bad table is refused under the tool's name."""
    folder = f"{room}/tables"
    write_tables(folder, program)
    for tool in TOOLS:
        path = f"{prefix}/bin/lrcman-{tool}"
        check_alike(count, f"lrcman-{tool}", printed(tool, path, folder), tool, folder)
        refused = ended(path, "homes.csv", *["homes.csv"] * (2 if tool == "takeover" else 1), cwd=folder)
        is_told = refused.returncode == 2 and not refused.stdout and refused.stderr.startswith(f"lrcman-{tool}: ")
        count.check(f"lrcman-{tool} over another table: {refused.stderr}", is_told)
        test_manual(count, prefix, tool)
    left = {*os.listdir(f"{prefix}/share/lrcman")} - {*TOOLS, "books.py", "tables.py"}
    count.check(f"what runs leave there: {left}", not left)
