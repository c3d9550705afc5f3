"""Counts what should not grow, and fails where a figure is above its ceiling in tests/figures/ceilings.

Usage: tests/figures/house                             counts, a second or two, and compares; tells too where a figure fell below
       tests/figures/house --write [--raise NAME ..]   writes lower figures into the table, and higher ones of these names alone:
                                                       the commit says why they rise
       tests/figures/house --list                      prints the names and the pairs of places
       tests/figures/house --self-test                 counts in small texts alone, of which the figures are known

A line of the table has a name, its figure and what it counts. The last line is 'N passed, M failed'. Each figure is counted in
a small text too, so that one that counts nothing is seen. Nothing in a folder out/ counts. How it counts:

names       a name that the specs of two modules define; `believed`: in two modules of what tools/believe prints
pairs       two places with the same six lines or more, in sources, specs and proofs of crates: without comments, imports, and
            lines of no letter or digit; spaces count once. A longer run is one pair; three places are three pairs
statuses    each number that a clause of lrc_embed compares with its result
functions   from the line of their name to their last, clauses and comments in them too: of more than 40 lines"""
import ast
import collections
import concurrent.futures
import functools
import multiprocessing
import os
import re
import sys

from tests import harness
from tests.figures import minutes
from tests.harness import TOP
from tests.proofs import clauses

TABLE = f"{harness.TESTS}/figures/ceilings"
ROOTS = ("crates", "docs", "service", "examples", "tests", "tools", "bench")
PAGES = ("README.md", "CONTRIBUTING.md")
RUN, COLUMNS, LINES = 6, 120, 40
ANTT_COMMENT, RATTLE_COMMENT = re.compile(r"--(?<!\S--).*"), re.compile(r"//.*")
IMPORT, COUNTS = re.compile(r"\s*(?:pub |ghost )*use "), re.compile(r"\w")
CLAUSE = re.compile(r"\b(?:ensures|requires)\b[^{;]*\{")
RESULT = re.compile(r"\bresult(?:\.\w+)* *[≡≢=≠<≤] *\d+\b|\b\d+ *[<≤] *result\b")
RATTLE = re.compile(r'( *)(?:pub(?:\([^)]*\))? |const |unsafe |ghost |extern "C" )*fn \w')


# The text.


@functools.cache
def tree():
    """The text of each file that counts, by its path below the top."""
    found = {name: clauses.text_of(f"{TOP}/{name}") for name in PAGES}
    for root in ROOTS:
        for at, folders, names in os.walk(f"{TOP}/{root}"):
            folders[:] = sorted(it for it in folders if it not in ("out", "__pycache__") and it[0] != ".")
            for path in (f"{at}/{name}" for name in sorted(names)):
                if kind_of(path):
                    found[os.path.relpath(path, TOP)] = clauses.text_of(path)
    return found


def kind_of(path):
    """The ending of a file whose text counts, or None; a script of Python needs none."""
    ending = os.path.splitext(path)[1]
    if ending in (".rt", ".antt", ".edit", ".h", ".go", ".py", ".md"):
        return ending
    if ending or not os.access(path, os.X_OK):
        return None
    with open(path, "rb") as file:
        return ".py" if re.match(rb"#!.*python", file.readline()) else None


def those(files, pattern):
    """The files whose whole path is of the pattern."""
    return {path: text for path, text in files.items() if re.fullmatch(pattern, path)}


def without_comments(path, text):
    return (ANTT_COMMENT if path.endswith(".antt") else RATTLE_COMMENT).sub("", text)


# Figures: of each a count over the text of files by their paths.


def names_in_two(found):
    """The names that two modules or more define, of triples of crate, module and name."""
    return sorted(name for name, count in collections.Counter(name for _, _, name in set(found)).items() if count > 1)


def definitions(files):
    for path, text in those(files, r"crates/\w+/specs/(?!Lib\.)\w+\.antt").items():
        _, crate, _, module = path.split("/")
        yield from ((crate, module[:-5], it[1]) for it in map(clauses.DEFINES.match, text.splitlines()) if it)


@functools.cache
def believed():
    """What has to be believed, as tools/believe knows it."""
    return harness.loaded(f"{TOP}/tools/believe.py").believed()


def names(files):
    return len(names_in_two(definitions(files)))


def names_believed(files):
    if files is not tree():
        return names(files)
    if not set() < believed() <= set(definitions(files)):
        raise ValueError("tools/believe prints nothing, or what no module of specs defines")
    return len(names_in_two(believed()))


def lines_that_count(path, text):
    """The lines of a source by which places are compared: the number of each, and its words."""
    lines, is_import = [], False
    for number, line in enumerate(without_comments(path, text).splitlines(), 1):
        is_import = is_import or bool(IMPORT.match(line))
        if not is_import and COUNTS.search(line):
            lines.append((number, " ".join(line.split())))
        if is_import and (path.endswith(".antt") or ";" in line):
            is_import = False
    return lines


def places(files):
    """The pairs of places with the same lines: path and line of each, and how many lines they share."""
    whole = {path: lines_that_count(path, text) for path, text in those(files, r"crates/.*\.(rt|antt)").items()}
    seen = collections.defaultdict(list)
    for path, lines in whole.items():
        words = [it for _, it in lines]
        for at in range(len(words) - RUN + 1):
            seen[tuple(words[at : at + RUN])].append((path, at))
    same = {(one, other) for found in seen.values() for n, one in enumerate(found) for other in found[n + 1 :]
            if one[0] != other[0] or other[1] - one[1] >= RUN}
    for one, other in same:
        if ((one[0], one[1] - 1), (other[0], other[1] - 1)) not in same:
            more = 1
            while ((one[0], one[1] + more), (other[0], other[1] + more)) in same:
                more += 1
            yield (one[0], whole[one[0]][one[1]][0]), (other[0], whole[other[0]][other[1]][0]), RUN + more - 1


def pairs(files):
    return sum(1 for _ in places(files))


def long_lines(pattern, files):
    return sum(len(line) > COLUMNS for text in those(files, pattern).values() for line in text.splitlines())


def clauses_of(text):
    """What stands between the brackets of each clause."""
    for head in CLAUSE.finditer(text):
        at, depth = head.end(), 1
        while at < len(text) and depth:
            depth += (text[at] == "{") - (text[at] == "}")
            at += 1
        yield text[head.end() : at]


def statuses(files):
    sources = those(files, r"crates/lrc_embed/src/.*\.rt")
    return sum(len(RESULT.findall(it)) for path, text in sources.items() for it in clauses_of(without_comments(path, text)))


def words(pattern, files):
    return sum(len(text.split()) for text in those(files, pattern).values())


def of_rattle(text):
    """How many lines each function of Rattle has."""
    lines = text.splitlines()
    for at, line in enumerate(lines):
        if head := RATTLE.match(line):
            yield last_of_rattle(lines, at, head[1]) - at + 1


def last_of_rattle(lines, at, indent):
    """The last line of a function: that of its closing bracket, or of a `;` where it has no body."""
    is_open = False
    for n in range(at, len(lines)):
        line = lines[n]
        is_inner = line.startswith(indent + " ")
        if not is_inner and line[len(indent) :].startswith("}" if is_open else "{}"):
            return n
        if not is_open and (line.endswith(";") or not is_inner and line.endswith("}")):
            return n
        is_open = is_open or not is_inner and line.endswith("{")
    return len(lines) - 1


def of_go(text):
    """How many lines each function of Go has, as gofmt lays it out."""
    began = None
    for n, line in enumerate(text.splitlines()):
        if line.startswith("func "):
            began = n
        if began is not None and line.endswith("}") and (line[0] == "}" or n == began):
            yield n - began + 1
            began = None


def of_python(text):
    """How many lines each function of Python has, decorators left out."""
    inner = [ast.parse(text)]
    while inner:
        it = inner.pop()
        if isinstance(it, (ast.FunctionDef, ast.AsyncFunctionDef)):
            yield it.end_lineno - it.lineno + 1
        inner += [one for part in ("body", "orelse", "finalbody", "handlers", "cases") for one in getattr(it, part, [])]


def long_functions(pattern, lengths, files):
    return sum(length > LINES for text in those(files, pattern).values() for length in lengths(text))


def python(files):
    """Sources of Python, with an ending or without."""
    below = those(files, r"(tests|tools|bench|examples|service)/.*")
    return {path: text for path, text in below.items() if path.endswith(".py") or "." not in os.path.basename(path)}


Figure = collections.namedtuple("Figure", "words count")
FIGURES = {
    "names": Figure("names that two or more modules of specs define", names),
    "names-believed": Figure("those of them that two or more modules define of what must be believed", names_believed),
    "pairs": Figure("pairs of places in crates that share six or more lines", pairs),
    "long-src": Figure("lines of over 120 columns in src of crates", functools.partial(long_lines, r"crates/\w+/src/.*\.rt")),
    "long-specs": Figure("lines of over 120 columns in specs of crates",
                         functools.partial(long_lines, r"crates/\w+/specs/.*\.antt")),
    "statuses": Figure("bare numbers of statuses in clauses of lrc_embed", statuses),
    "words": Figure("words of README.md, CONTRIBUTING.md and docs",
                    functools.partial(words, r"README\.md|CONTRIBUTING\.md|docs/[^/]*\.md")),
    "words-README": Figure("words of README.md", functools.partial(words, r"README\.md")),
    "words-CONTRIBUTING": Figure("words of CONTRIBUTING.md", functools.partial(words, r"CONTRIBUTING\.md")),
    "words-docs": Figure("words of the pages of docs", functools.partial(words, r"docs/[^/]*\.md")),
    "functions-rattle": Figure("functions of over 40 lines in src of crates",
                               functools.partial(long_functions, r"crates/\w+/src/.*\.rt", of_rattle)),
    "functions-go": Figure("functions of over 40 lines in service and examples",
                           functools.partial(long_functions, r"(service|examples)/.*\.go", of_go)),
    "functions-python": Figure("functions of over 40 lines in tests, tools, bench, examples and service",
                               lambda files: long_functions(".*", of_python, python(files))),
}


# Small texts, of which the figures are known.


def bodies(head, line, end, counts):
    """Functions with bodies of as many lines."""
    return "".join(head + line * count + end for count in counts)


RUN_OF_NINE = "".join(f"    let x{n} = {n};\n" for n in range(9))
LONG = "x" * 121 + "\n" + "≡" * 120 + "\n"
TWICE = {f"crates/a/specs/{it}.antt": "-- one\nabbrev pub one : ℕ\none = 1\n\ndata Two : Type 0 where\n" for it in "AB"}
FOUR_PAGES = {"README.md": "one two\nthree", "CONTRIBUTING.md": "four  - five", "docs/A.md": "six", "docs/B.md": "seven",
              "tests/A.md": "no"}
RATTLE_HEAD = "impl A {\n    pub fn a(&self)\n        ensures { x }\n    {\n"
RATTLE_BODIES = bodies(RATTLE_HEAD, "        x;\n", "    }\n}\n\nfn b() {}\n\nfn c();\n\n", (36, 37))
PYTHON_BODIES = bodies("def a():\n", "    x\n", "\n\n", (39, 40))
CLAUSES = """fn a() -> u32
    ensures x { (result ≡ 3) ⊎ (result ≢ 1) }
    requires { y ≡ 4 }
{
    result ≡ 5 // ensures { result ≡ 6 }
}
"""
# Small texts for each figure, and how much it counts in them.
SMALL = {
    "names": (TWICE | {"crates/a/specs/C.antt": "three : ℕ\nthree = 3\n"}, 2),
    "names-believed": (TWICE, 2),
    "pairs": ({"crates/a/src/a.rt": f"fn a() {{\n{RUN_OF_NINE}}}\n", "crates/b/src/b.rt": f"fn b() {{\n// c\n{RUN_OF_NINE}\n}}\n",
               "crates/b/src/c.rt": RUN_OF_NINE.partition("    let x5")[0]}, 1),
    "long-src": ({"crates/a/src/a.rt": LONG, "crates/a/specs/A.antt": LONG}, 1),
    "long-specs": ({"crates/a/specs/A.antt": LONG + LONG, "crates/a/proofs/A.antt": LONG}, 2),
    "statuses": ({"crates/lrc_embed/src/a.rt": CLAUSES, "crates/b/src/b.rt": CLAUSES}, 2),
    "words": (FOUR_PAGES, 8),
    "words-README": (FOUR_PAGES, 3),
    "words-CONTRIBUTING": (FOUR_PAGES, 3),
    "words-docs": (FOUR_PAGES, 2),
    "functions-rattle": ({"crates/a/src/a.rt": RATTLE_BODIES}, 1),
    "functions-go": ({"service/a.go": bodies("func a() {\n", "\tx()\n", "}\n\nfunc b() {}\n\n", (38, 39))}, 1),
    "functions-python": ({"tests/a": PYTHON_BODIES, "tools/a.py": PYTHON_BODIES, "crates/a.py": PYTHON_BODIES}, 2),
}


def self_test(count):
    for name, figure in FIGURES.items():
        files, right = SMALL.get(name, ({}, None))
        found = figure.count(files)
        count.check(f"{name} counts {found} in a small text, and not {right}", found == right)
    minutes.self_test(count)


def count_of(name):
    return FIGURES[name].count(tree())


def counted():
    """All figures of the repository by their names, counted side by side."""
    tree()
    with concurrent.futures.ProcessPoolExecutor(mp_context=multiprocessing.get_context("fork")) as pool:
        return dict(zip(FIGURES, pool.map(count_of, FIGURES)))


# The table.


def ceilings():
    """The figures of the table by their names."""
    if not os.path.exists(TABLE):
        return {}
    rows = [line.split(maxsplit=2) for line in clauses.text_of(TABLE).splitlines() if line.strip() and line[0] != "#"]
    return {row[0]: int(row[1]) for row in rows}


def write(found, raised):
    """Writes lower figures, and those that may rise; returns the names of others that rose."""
    table, kept, higher = ceilings(), {}, []
    for name, figure in found.items():
        is_lower = name in table and figure <= table[name]
        if not is_lower and name not in raised:
            higher.append(name)
        kept[name] = figure if is_lower or name in raised else table.get(name)
    with open(TABLE, "w", encoding="utf-8") as file:
        file.write("# What should not grow: tests/figures/house says how it counts, and writes this table.\n")
        file.writelines(f"{name:20} {figure:6}  {FIGURES[name].words}\n" for name, figure in kept.items() if figure is not None)
    return higher


def compare(count, found):
    """Holds what was counted to the table."""
    table = ceilings()
    for name in sorted(table.keys() - FIGURES.keys()):
        count.check(f"tests/figures/ceilings has a row {name}, which nothing counts", False)
    for name, figure in found.items():
        ceiling = table.get(name, -1)
        where = f"above {table[name]} in tests/figures/ceilings" if name in table else "and no row in tests/figures/ceilings"
        count.check(f"{name}: {figure}, {where}: {FIGURES[name].words}. Lower it; or, if what it buys is worth it, "
                    f"tests/figures/house --write --raise {name}, and say in the commit what that is", figure <= ceiling)
        if figure < ceiling:
            print(f"fell: {name}: {figure}, below {ceiling}: write it with tests/figures/house --write")


def main(given):
    count = harness.Count()
    match given:
        case ["--self-test"]:
            self_test(count)
        case []:
            self_test(count)
            compare(count, counted())
        case ["--write", *rest] if rest[::2] == ["--raise"] * (len(rest) // 2) and all(it in FIGURES for it in rest[1::2]):
            self_test(count)
            if not count.failed:
                higher = write(counted(), rest[1::2])
                for name in FIGURES:
                    count.check(f"{name} rose, and stays in the table as it was: --raise {name} writes it", name not in higher)
        case ["--list"]:
            print("names:", *names_in_two(definitions(tree())))
            print("names-believed:", *names_in_two(believed()))
            for one, other, lines in sorted(places(tree()), key=lambda it: (-it[2], *it[:2])):
                print(f"{lines} lines: {one[0]}:{one[1]} {other[0]}:{other[1]}")
            return 0
        case _:
            print(__doc__)
            return 2
    return count.report()


if __name__ == "__main__":
    sys.exit(main(sys.argv[1:]))
