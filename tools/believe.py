"""Prints what has to be believed of the stripe manager: each definition that the claimed calls reach, by crate and file.

Usage: tools/believe               the definitions, and how many they are
       tools/believe --files       the files alone, a line for each crate: those to be believed, those that only public clauses
                                   of other calls reach, or none, and those that are marked as internal
       tools/believe --unreached   the definitions that no public clause reaches, and that are not marked as internal
       tools/believe --check       tells of each public clause that uses a definition marked as internal, of each definition
                                   that none uses and that is not marked, and of what --pages prints; its last line is
                                   'N passed, M failed'
       tools/believe --pages       what README.md and docs/PROMISES.md have otherwise than the sources: numbers of definitions,
                                   functions without clauses, rows for crates, names of functions and laws
       tools/believe --write       writes what stands between marks in these pages

A definition is internal if the first line of its file says so, or if the comment above it begins with `(internal)`.

The claimed calls are those of docs/PROMISES.md: the public ones of `Book`, of lrc_sessions, of lrc_forecast and of lrc_embed, seven of
lrc_tool, and the laws that the page names. What their clauses name is looked up by the imports of the file, and so is what these
definitions name in turn. Of the model of a type only its record is followed: a caller knows no more of it than the clauses say."""
import functools
import os
import re
import sys
from collections import namedtuple

from tests import harness
from tests.proofs import clauses
from tests.proofs.clauses import TOP
from tools import claims

INTERNAL = "-- Internal: no public clause reaches these definitions."
IMPORT = re.compile(r"\buse\s+Rattle\.(\w+)\.specs\.([A-Z]\w*)(?:\.\{([^}]*)\}|\s+as\s+(\w+))")
# A word, with what stands behind its dot; not one that stands behind a dot itself, such as a field.
WORD = re.compile(r"(?<![\w.'-])([A-Za-z_][\w'-]*)(?:\.([A-Za-z_][\w'-]*))?")
WHOLE = {"lrc_sessions", "lrc_forecast", "lrc_embed"}  # the crates of which each public call is claimed
CALLS = {("lrc_tool", name) for name in ("run", "check", "go_on", "ask", "recover", "recipe", "matrix")}
# What docs/PROMISES.md names beside clauses: what a private type and its body owe, and what a session has seen.
BESIDES = {("lrc_sessions", "Locked", "IsLocked"), ("lrc_sessions", "Locked", "AreMadeBy"), ("lrc_board", "Lines", "written")}

Module = namedtuple("Module", "definitions internal")  # what each definition names directly; which of them are internal
Clause = namedtuple("Clause", "crate item name is_law reached")  # what a public item of a crate names directly


@functools.cache
def modules():
    """The modules of definitions, by crate and name."""
    found = {}
    for crate in clauses.crates():
        for path in clauses.files_below(f"{TOP}/crates/{crate}/specs", ".antt"):
            name = os.path.basename(path)[:-5]
            if name != "Lib":
                definitions = dict(clauses.definitions_in(path))
                found[crate, name] = Module(definitions, internal_in(clauses.text_of(path), definitions))
    return found


def internal_in(text, definitions):
    """Which definitions of a file are marked as internal: all by its first line, or each by the comment above it."""
    if text.startswith(INTERNAL):
        return set(definitions)
    marked, comment = set(), ""
    for line in text.splitlines():
        defined = clauses.DEFINES.match(line)
        if defined and comment.startswith("-- (internal)"):
            marked.add(defined[1])
        comment = (comment or line) if line.startswith("--") else ""
    return marked


@functools.cache
def imports(text):
    """What the imports of a text bring in: the definition of each name, and the module of each other name."""
    names, others = {}, {}
    for crate, module, listed, other in IMPORT.findall(text):
        if other:
            others[other] = crate, module
        names.update({name.strip(): (crate, module, name.strip()) for name in listed.split(",")})
    return names, others


def named_in(text, around, own=None):
    """The definitions that a text names, by the imports of the text around it, or of its own module."""
    names, others = imports(around)
    for word, part in WORD.findall(text):
        module = own if own in modules() and word in modules()[own].definitions else None
        found = (*module, word) if module else (*others[word], part) if word in others else names.get(word)
        if found and found[2] in modules().get(found[:2], Module({}, set())).definitions:
            yield found


@functools.cache
def named_by(crate, module, name):
    around = clauses.text_of(f"{TOP}/crates/{crate}/specs/{module}.antt")
    return set(named_in(modules()[crate, module].definitions[name], around, (crate, module))) - {(crate, module, name)}


def reached_from(found):
    """The definitions, and all that they name in turn."""
    reached, new = set(), set(found)
    while new:
        reached |= new
        new = {it for one in new for it in named_by(*one)} - reached
    return reached


def clauses_in(crate, path):
    """The public items of a source that have clauses, or tell what the value of a type is."""
    around = clauses.text_of(path)
    # (the mark of an array's length ends no item)
    lines = re.sub(r"(\[[^][;]*);(?=[^][;]*\])", r"\1,", around)
    tokens = [it for it in clauses.TOKEN.findall(lines) if clauses.is_kept(it)]
    for item, text in clauses.public_items(clauses.without_attributes(tokens)):
        at = re.search(r"\b(requires|ensures|ghost Value)\b", text)
        function = re.search(r"\bfn (\w+)", text)
        if at:
            # (a field stands right behind its dot, and the body of a λ does not)
            says = re.sub(r" ?\. ?", ".", re.sub(r"λ[^.]*\.", " ", text[at.start():]))
            yield Clause(crate, item, function[1] if function else "Value", "/src/laws" in path, set(named_in(says, around)))


@functools.cache
def public_clauses():
    paths = [(crate, path) for crate in clauses.crates() for path in clauses.files_below(f"{TOP}/crates/{crate}/src", ".rt")]
    return [clause for crate, path in paths for clause in clauses_in(crate, path)]


def is_named(law, page):
    """Whether the page names a law, in full or by its end behind two dots."""
    return re.search(rf"`{law}`", page) or any(law.endswith(end) for end in re.findall(r"`\.\.(_\w+)`", page))


def claimed():
    """The clauses of what docs/PROMISES.md claims."""
    page = clauses.text_of(f"{TOP}/docs/PROMISES.md")
    for it in public_clauses():
        is_call = it.crate in WHOLE or (it.crate, it.name) in CALLS or is_of_book(it)
        if is_named(it.name, page) if it.is_law else is_call:
            yield it


def reached_by(found):
    """The definitions that clauses reach."""
    return reached_from(it for clause in found for it in clause.reached)


def believed():
    return reached_by(claimed()) | reached_from(BESIDES)


def is_of_book(clause):
    return (clause.crate, clause.item) == ("lrc_book", "Book")


def counts():
    """How many definitions the sentence of docs/PROMISES.md rests on, and what is said of bytes."""
    sentence = claims.part(clauses.text_of(f"{TOP}/docs/PROMISES.md"), "## The sentence\n", "\n\n<a id=")
    laws = [it for it in claimed() if it.is_law]
    book = reached_by(filter(is_of_book, claimed()))
    more = reached_by(it for it in laws if it.crate == "lrc_rules" and is_named(it.name, sentence)) - book
    of_bytes = reached_by(it for it in laws if it.crate == "lrc_durability") - book - more
    return claims.Counts(len(book), len(more), sum(crate == "lrc_rules" for crate, _, _ in book | more), len(of_bytes))


def by_file(found):
    """The definitions by crate and file, in the order of crates.txt and of the files."""
    for (crate, module), of_module in modules().items():
        if names := [name for name in of_module.definitions if (crate, module, name) in found]:
            yield crate, module, names


def print_all(found):
    for crate, module, names in by_file(found):
        print(f"{crate}/specs/{module}.antt ({len(names)}): {' '.join(names)}")
    print(f"{len(found)} definitions in {len(list(by_file(found)))} files of {len({crate for crate, _, _ in found})} crates")


def print_files():
    """For each crate with definitions: the files that are reached, the others, and the internal ones."""
    reached = {file[:2] for file in believed()}
    for crate in clauses.crates():
        files = [(module, is_internal(of_module)) for (of, module), of_module in modules().items() if of == crate]
        kinds = {"believed": [it for it, _ in files if (crate, it) in reached],
                 "other": [it for it, is_internal in files if (crate, it) not in reached and not is_internal],
                 "internal": [it for it, is_internal in files if is_internal]}
        if files:
            print("|".join([crate, *(", ".join(sorted(kind)) for kind in kinds.values())]))


def is_internal(of_module):
    """Whether all definitions of a module are internal."""
    return of_module.internal == set(of_module.definitions)


def unreached():
    """The definitions that no public clause reaches, and that are not marked as internal."""
    reached = reached_by(public_clauses()) | reached_from(BESIDES)
    return {(*file, name) for file, of_file in modules().items() for name in of_file.definitions.keys() - of_file.internal
            if (*file, name) not in reached}


def check():
    """No public clause uses a definition that is marked as internal, and each that none uses is marked."""
    count = harness.Count()
    for it in (it for it in public_clauses() if it.name != "Value"):
        internal = sorted(one for one in reached_from(it.reached) if one[2] in modules()[one[:2]].internal)
        named = ", ".join(f"{crate}/specs/{module}.antt {name}" for crate, module, name in internal)
        count.check(f"{it.crate} {it.item} {it.name} uses what is internal: {named}", not internal)
    for crate, module, name in sorted(unreached()):
        count.check(f"{crate}/specs/{module}.antt {name}: no public clause reaches it, and it is not marked as internal", False)
    wrong = list(claims.wrong(counts()))
    count.add(len(claims.BLOCKS) + 1, wrong, len(wrong))
    return count.report()


def main(words):
    match words:
        case []:
            print_all(believed())
            print(f"{len(reached_by(filter(is_of_book, claimed())))} of them are reached by the calls of `Book`")
        case ["--files"]:
            print_files()
        case ["--unreached"]:
            print_all(unreached())
        case ["--check"]:
            return check()
        case ["--pages"]:
            for line in claims.wrong(counts()):
                print(f"wrong: {line}")
        case ["--write"]:
            claims.write(counts())
        case _:
            print(__doc__)
            return 2
    return 0


if __name__ == "__main__":
    sys.exit(main(sys.argv[1:]))
