"""Compares CONTRIBUTING.md with the repository.

Usage: tests/parts/lists             compares
       tests/parts/lists --write     writes the table of parts into the page

- Its table of parts is what `./run-tests --list --markdown` prints.
- Each file and folder that "Where to put it" names is there.
- The lists for a command and a refusal name, by file or by folder, each file in which an old command and an old refusal stand.
  What a list need not name is written below with the reason.
The last line is 'N passed, M failed'."""
import os
import re
import sys
from collections import namedtuple

from tests import harness
from tests.harness import TOP
from tests.parts import parts

PAGE = f"{TOP}/CONTRIBUTING.md"
FIRST, LAST = "<!-- written by tests/parts/lists --write -->", "<!-- -->"

# An old example: the words of it, and the files that name it and that a list need not name.
Old = namedtuple("Old", "words apart")
# What no list has to name, and why.
NOWHERE = {
    "crates/*/proofs/**": "rt check finds them",
    "crates/*/more-edits/**": "tests/proofs/edits --check finds them",
    "examples/**.bundle": "an example names what it is about", "examples/**.out": "it is the output of one",
    "service/internal/survey/recorded/states/**": "recorded states have any number",
    "docs/OPERATING.md": "it tells what operators do", "docs/DECISIONS.md": "it tells why",
    "tests/parts/**": "the old examples stand here", "CONTRIBUTING.md": "it is the page",
}
OLD = {
    "A command": Old(r"(?i)undrain", NOWHERE | {
        "tests/program/replay.py": "a scenario", "tests/program/balance.py": "a scenario",
        "tools/balance": "it plans with what it needs",
        "tests/library/bytes.py": "a scenario", "service/internal/httpapi/recipes_test.go": "a scenario",
        "examples/cluster/**": "a store makes the commands that it needs", "docs/CODING.md": "it shows what such a store does",
        "docs/SERVICE.md": "it tells of such a store"}),
    "A refusal": Old(r"[Tt]arget.?[Oo]ffline|TARGET_OFFLINE|\b115\b", NOWHERE | {"tests/proofs/growth.py": "a scenario"}),
}


def page():
    return harness.read(PAGE).decode()


def table_of(text):
    """What stands before its table, the lines of this, and what stands after it."""
    before, _, rest = text.partition(f"{FIRST}\n")
    table, _, after = rest.partition(f"{LAST}\n")
    return before, table, after


def right_table():
    return "".join(f"{line}\n" for line in parts.markdown())


def write():
    before, _, after = table_of(page())
    with open(PAGE, "w", encoding="utf-8") as file:
        file.write(f"{before}{FIRST}\n{right_table()}{LAST}\n{after}")


def lists():
    """The lists of the page by their names: what is put somewhere, and where."""
    text = page().partition("\n## Where to put it\n")[2].partition("\n## ")[0]
    return {name: words for name, words in re.findall(r"^- \*\*(.+?)\.\*\* (.*?)(?=^- |^$|\Z)", text, re.MULTILINE | re.DOTALL)}


def is_path(word):
    return re.fullmatch(r"[\w./-]+", word) and ("/" in word or re.search(r"\w\.(antt|go|h|json|md|py|rt|rs|1|c|cpp|yml)$", word))


def place_of(word, folder):
    """The file or folder that a word names: below a folder, or else below one above it; or none."""
    bases = [folder]
    while bases[-1]:
        bases.append(os.path.dirname(bases[-1]))
    return next((it for base in [*bases, "crates"] if os.path.exists(f"{TOP}/{(it := os.path.join(base, word))}")), None)


def places(words):
    """The files and folders that a list names, and what it names that is not there. A name goes on from the one before it."""
    found, lacking, folder = [], [], ""
    for word in words.split("`")[1::2]:
        if "/" not in word and os.path.isdir(f"{TOP}/crates/{word}"):
            folder = f"crates/{word}"
        elif is_path(word):
            place = place_of(word, folder)
            (found if place else lacking).append(place or word)
            if place:
                folder = place if os.path.isdir(f"{TOP}/{place}") else os.path.dirname(place)
    return found, lacking


def is_below(path, found):
    return any(path == it or path.startswith(it + "/") for it in found)


def naming(pattern):
    """The files of the repository that name something."""
    named = re.compile(pattern.encode())
    return [path for path in parts.files() if named.search(harness.read(f"{TOP}/{path}"))]


def test_lists(count):
    for name, words in lists().items():
        found, lacking = places(words)
        count.check(f"CONTRIBUTING.md, {name}: there is no {', '.join(lacking)}", not lacking)
        count.check(f"CONTRIBUTING.md, {name}: no file is named", found)
    for name, old in OLD.items():
        found, _ = places(lists().get(name, ""))
        files = naming(old.words)
        count.check(f"no file has {old.words}", files)
        is_apart = parts.is_like(*old.apart)
        for path in files:
            is_listed = is_below(path, found)
            count.check(f"CONTRIBUTING.md, {name}: the list lacks {path}, which has {old.words}", is_listed or is_apart(path))
        for pattern in old.apart.keys() - NOWHERE.keys():
            is_used = any(map(parts.is_like(pattern), files))
            count.check(f"tests/parts/lists: {pattern} need not be apart for {name}", is_used)


def main(words):
    if words == ["--write"]:
        write()
    elif words:
        print(__doc__)
        return 2
    count = harness.Count()
    is_right = table_of(page())[1] == right_table()
    count.check("CONTRIBUTING.md has another table than ./run-tests --list --markdown: tests/parts/lists --write", is_right)
    test_lists(count)
    return count.report()


if __name__ == "__main__":
    sys.exit(main(sys.argv[1:]))
