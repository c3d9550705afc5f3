"""What README.md and docs/PROMISES.md take from the sources: numbers and lists that are written between two marks, and names."""
import os
import re
import textwrap
from collections import namedtuple

from tests.proofs import clauses
from tests.proofs.clauses import TOP

PROMISES = "docs/PROMISES.md"
BEGIN, END = "<!-- {}: tools/believe --write -->\n", "<!-- -->\n"
# Programs, and what tests need: most of their functions have no `ensures`, and PROMISES has no row for them.
APART = {"lrcman", "probes", "lrc_samples"}
OF_BODIES = re.compile(r"\bbod(?:y|ies) of ((?:(?:, | and )?`[\w:]+`)+)")

# How many definitions the public calls of `Book` reach; how many more the laws of the sentence do, and the laws on bytes beyond
# both; and how many of the first two are of lrc_rules.
Counts = namedtuple("Counts", "book laws rules bytes")
Function = namedtuple("Function", "crate name is_clear statements")  # whether it has an `ensures`; of how many statements it is


def page(path):
    return clauses.text_of(f"{TOP}/{path}")


def part(text, first, last):
    """What stands between two texts, or nothing."""
    return text.partition(first)[2].partition(last)[0]


def is_apart(crate):
    return crate in APART or crate.endswith("_tests")


def functions(crate):
    """The functions of a crate that implement no trait: such a one has the clauses of the trait."""
    for path in clauses.files_below(f"{TOP}/crates/{crate}/src", ".rt"):
        for name, head, inside in clauses.functions(clauses.tokens_of(path)):
            yield Function(crate, name, "ensures" in head, statements(inside))


def statements(inside):
    """How many statements a body has, those within others left out."""
    count = sum(1 for head, _ in clauses.items(inside) if head)
    return count + (inside[-1:] not in ([], [";"], ["}"]))


# What stands between the marks.


def paragraph(text):
    return "\n".join(textwrap.wrap(text, 120, break_on_hyphens=False, break_long_words=False)) + "\n"


def listed(words):
    """Words as a text lists them."""
    return " and ".join(filter(None, [", ".join(words[:-1]), words[-1]]))


def bodies():
    """The functions of lrc_sessions on whose bodies a claim rests, as PROMISES names them: of each the type and the name."""
    names, around = [], ""
    for of in OF_BODIES.findall(part(page(PROMISES), "## What rests on bodies\n", "\n## ")):
        for word in of.split("`")[1::2]:
            around = word.rpartition("::")[0] or around
            names.append(f"{around}::{word.rpartition('::')[2]}")
    return list(dict.fromkeys(names))


def definitions_of_promises(counts):
    return paragraph(
        f"For a book with one caller the sentence rests on {counts.book} definitions, which the clauses of the public calls of "
        f"`Book` reach, and on {counts.laws} more, which the laws of `lrc_rules` in the table below reach.")


def definitions_of_readme(counts):
    named = bodies()
    found = [it.statements for it in functions("lrc_sessions") if it.name in named]
    return paragraph(
        f"For a book with one caller the sentence rests on {counts.book + counts.laws} definitions, {counts.rules} of them in "
        f"`crates/lrc_rules/specs`; what is said of bytes rests on {counts.bytes} more. For sessions a part rests on the bodies of "
        f"{listed([f'`{it}`' for it in named])}, of at most {max(found, default=0)} statements, and on a private type.")


def without_ensures(_):
    lines = []
    for crate in clauses.crates():
        names = dict.fromkeys(f"`{it.name}`" for it in functions(crate) if not it.is_clear)
        if names and not is_apart(crate):
            lines.append(f"- `{crate}`: {', '.join(names)}\n")
    return "".join(lines)


# What is written, by the page and the word in its first mark.
BLOCKS = {
    (PROMISES, "definitions"): definitions_of_promises,
    ("README.md", "definitions"): definitions_of_readme,
    (PROMISES, "functions"): without_ensures,
}


def write(counts):
    for (path, name), made in BLOCKS.items():
        before, mark, rest = page(path).partition(BEGIN.format(name))
        if mark:
            with open(f"{TOP}/{path}", "w", encoding="utf-8") as file:
                file.write(f"{before}{mark}{made(counts)}{END}{rest.partition(END)[2]}")


# What is held.


def is_written(path, name, text):
    """Whether the page has this text between these marks, once."""
    return page(path).count(BEGIN.format(name)) == 1 and part(page(path), BEGIN.format(name), END) == text


def rows(text, head):
    """The cells of the table that begins with a line."""
    lines = part(text, f"{head}\n", "\n\n").splitlines()[1:]
    return [[cell.strip() for cell in line.strip("|").split(" | ")] for line in lines]


def quoted(text):
    return text.split("`")[1::2]


def wrong_rows():
    """What is wrong with the crates of which PROMISES says what each promises."""
    found = [crate for row in rows(page(PROMISES), "| Crate | Main clauses |") for crate in quoted(row[0])]
    needed = [it for it in clauses.crates() if it == "lrcman" or not is_apart(it)]
    for crate in sorted({*found, *needed}):
        if found.count(crate) != needed.count(crate):
            yield f"{PROMISES} has {found.count(crate)} rows for {crate} under 'Main clauses', and not {needed.count(crate)}"


def wrong_names():
    """The functions and laws that PROMISES names, and that no crate has."""
    names = {it.name for crate in clauses.crates() for it in functions(crate)}
    text = page(PROMISES)
    named = {it for it in quoted(text) if re.fullmatch(r"[A-Z]\w*::[a-z]\w*", it)}
    laws = {it for row in rows(text, "| Topic | Laws |") for it in quoted(row[-1])} - clauses.crates().keys()
    for name in sorted({*named, *laws, *bodies()} - names):
        yield f"{PROMISES} names {name}, which no crate has"


def wrong(counts):
    """What the pages have otherwise than the sources."""
    for (path, name), made in BLOCKS.items():
        if not is_written(path, name, made(counts)):
            yield f"{path} has other {name} than the sources: tools/believe --write"
    if not bodies():
        yield f"{PROMISES} names no body on which a claim rests"
    yield from wrong_rows()
    yield from wrong_names()
