"""The parts of the tests: their table, parts.toml, and which of them a change asks for.

A file asks for the parts that look at it. A crate whose src/ changed reaches each crate above it, by crates.txt: it asks for the
parts over the program if lrcman is among these, over the library if lrc_embed is, and for the tests of crates among these."""
import ast
import difflib
import functools
import os
import re
import tomllib
from collections import namedtuple
from dataclasses import dataclass

from tests.proofs import clauses
from tests.proofs.clauses import TOP, text_of

TABLE = f"{TOP}/tests/parts/parts.toml"
RUNS = re.compile(r'__file__\)\), "(\.\./tests/[\w/]+)"\)')  # in a command that runs another one
# What stands for a built file in a command, and the crate that it is built of.
BUILT = {"PROGRAM": "lrcman", "PROVED": "lrcman", "PROBES": "probes", "LIBRARY": "lrc_embed"}


# The table.


@dataclass(frozen=True)
class Part:
    """A row of the table, whose head tells what each field is."""

    name: str
    asks: str
    looks: tuple
    run: str = ""
    quick: str = ""
    needs: str = ""
    minutes: float | None = None
    always: bool = False
    beside: bool = False

    @property
    def words(self):
        """The words of its command, that of a whole run if it has one."""
        return (self.run or self.quick).split()

    def crates(self):
        """The crates of which the files are built that its command takes."""
        return {BUILT[word] for word in self.words if word in BUILT}


@functools.cache
def table():
    with open(TABLE, "rb") as file:
        return tomllib.load(file)


@functools.cache
def parts():
    """The parts by their names, in their order."""
    return {row["name"]: Part(**{**row, "looks": tuple(row["looks"])}) for row in table()["part"]}


def nearest(name):
    """The name of a part that is most like a word."""
    found = difflib.get_close_matches(os.path.basename(name), parts(), 1, 0)
    return found[0] if found else next(iter(parts()))


def over(part):
    """What a part runs over, as the page says it."""
    named = {"lrcman": "program", "probes": "probes", "lrc_embed": "library"}
    return ", ".join(word for crate, word in named.items() if crate in part.crates())


def why_apart(path):
    """Why no part looks at a file, if the table says so."""
    return next((why for pattern, why in table()["apart"].items() if is_like(pattern)(path)), None)


def minutes(part):
    return "" if part.minutes is None else f"{part.minutes:g}"


def markdown():
    """The lines of the table for a page."""
    rows = [(f"`{it.name}`", it.asks, over(it), it.needs, minutes(it)) for it in parts().values()]
    return ["| Part | It asks | Over | It needs | Minutes |", "|---|---|---|---|--:|", *(f"| {' | '.join(row)} |" for row in rows)]


def listed():
    """The lines of the table for a terminal."""
    for it in parts().values():
        yield f"{it.name:9}{it.asks.replace('`', '')}"
        about = [f"{minutes(it)} minutes" if minutes(it) else "", f"needs {it.needs}" if it.needs else "", " ".join(it.words)]
        yield " " * 9 + "; ".join(filter(None, about))


# The files of the repository.


@functools.cache
def files():
    """The path of each file below the top. What is built, in folders out/, does not count."""
    found = []
    for at, folders, names in os.walk(TOP):
        folders[:] = sorted(it for it in folders if it not in (".git", "out", "__pycache__"))
        found += [f"{at}/{name}"[len(TOP) + 1 :] for name in sorted(names) if not name.endswith(".swp") and name != ".git"]
    return found


@functools.cache
def is_like(*patterns):
    """Tells whether a path is of one of the patterns of the table."""
    words = (re.split(r"(\*\*|\*)", pattern) for pattern in patterns)
    return re.compile("|".join("".join({"**": ".*", "*": "[^/]*"}.get(it, re.escape(it)) for it in some) for some in words)).fullmatch


@functools.cache
def imports(path):
    """The modules of the repository that a module names itself."""
    found = set()
    for node in ast.walk(ast.parse(text_of(f"{TOP}/{path}"))):
        if isinstance(node, ast.Import):
            found.update(it.name for it in node.names)
        elif isinstance(node, ast.ImportFrom):
            found.update([node.module, *(f"{node.module}.{it.name}" for it in node.names)])
    paths = (f"{it.replace('.', '/')}.py" for it in found)
    return [it for it in paths if os.path.isfile(f"{TOP}/{it}")]


@functools.cache
def followed(path):
    """A command or module, and the modules that it imports, and so on. A command stands beside its module, or runs another one."""
    found, left = set(), [path]
    while left:
        it = left.pop()
        if it not in found:
            found.add(it)
            left += [f"{it}.py"] if os.path.isfile(f"{TOP}/{it}.py") else imports(it) if it.endswith(".py") else run_by(it)
    return found


def run_by(path):
    """The command that a command of a few lines runs."""
    found = RUNS.search(text_of(f"{TOP}/{path}")) if os.path.isfile(f"{TOP}/{path}") else None
    return [os.path.normpath(os.path.join(os.path.dirname(path), found[1]))] if found else []


@functools.cache
def scripts_of(part):
    """The scripts that a part runs, and the modules that they import."""
    return {part.words[0]}.union(*map(followed, [part.words[0], *(it for it in part.looks if "*" not in it)]))


def looks_at(part, path):
    """Whether a part looks at a file, also at one that is no longer there."""
    return path in scripts_of(part) or is_like(*part.looks)(path) is not None


# Crates.


def crate_of(path):
    """The crate of a file that compilers read, or None."""
    found = re.match(r"crates/(\w+)/src/", path)
    return found[1] if found and found[1] in clauses.crates() else None


@functools.cache
def below(crate):
    """The crates that a crate stands on."""
    return {*clauses.crates()[crate]}.union(*map(below, clauses.crates()[crate]))


def in_order():
    """All crates, each after those that it stands on."""
    return sorted(clauses.crates(), key=lambda it: (len(below(it)), it))


def above(names):
    """Crates and all that stand on them, lowest first."""
    return [it for it in in_order() if it in names or not names.isdisjoint(below(it))]


@functools.cache
def has_tests(crate):
    return any("#[test]" in text_of(path) for path in clauses.files_below(f"{TOP}/crates/{crate}/src", ".rt"))


# The choice.


# The part, its command, and why it runs.
Chosen = namedtuple("Chosen", "part command why")
# What runs; the parts that would run over what is proved; the changed crates, lowest first; and files that no part looks at.
Choice = namedtuple("Choice", "now later crates unseen")


def shortened(paths):
    return ", ".join(paths[:2]) + (f" and {len(paths) - 2} more" if len(paths) > 2 else "")


def choose(paths):
    """Which parts to run, unproved, for files that have changed, and which wait for a proof."""
    compiled = {crate_of(path) for path in paths} - {None}
    reached = above(compiled)
    tested = [it for it in reached if has_tests(it)]
    now, later = [], []
    for part in parts().values():
        by_file = [path for path in paths if looks_at(part, path)]
        by_crate = part.crates().intersection(reached) or "TESTS" in part.words and tested
        if part.name == "proofs":
            later += [part] if by_file else []
        elif by_file:
            now.append(Chosen(part, " ".join(it for it in part.words if it != "TESTS"), shortened(by_file)))
        elif part.always:
            now.append(Chosen(part, part.run or part.quick, "each change"))
        elif by_crate and part.quick:
            why = f"{shortened(sorted(compiled))}, below {shortened(sorted(by_crate))}"
            now.append(Chosen(part, part.quick.replace("TESTS", " ".join(tested)), why))
        if by_crate and not by_file and part.quick != part.run and part.run:
            later.append(part)
    proved = {path.split("/")[1] for path in paths if path.startswith("crates/") and looks_at(parts()["proofs"], path)}
    unseen = [path for path in paths if os.path.isfile(f"{TOP}/{path}") and not any(looks_at(part, path) for part in parts().values())]
    return Choice(now, later, [it for it in in_order() if it in proved], unseen)
