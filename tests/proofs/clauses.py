"""What callers of a crate can read of it, as text: the clauses of its public functions, its public types, its definitions.

A sum over these tells tests/proofs/edits whether a statement has changed since wrong bodies were tried. So bodies, private
functions, comments, imports, attributes and layout are left out."""
import functools
import hashlib
import os
import re
from typing import NamedTuple

from tests.harness import TOP

TOKEN = re.compile(r"""//[^\n]*|b?"(?:\\.|[^"\\])*"|b?'(?:\\[^']+|[^'\\])'|[A-Za-z_]\w*|\d\w*|\s+|.""", re.S)
CLAUSE = re.compile(r"\b(?:ensures|requires)(?: \w+)?\Z|\bghost \w+ [:=]\Z")
WORD = re.compile(r"[A-Za-z_][\w'-]*")
IMPORT = re.compile(r"^[ \t]*(?:pub )?(?:ghost )?use (\w[^;{}\n]*)(\{[^}]*\})?", re.MULTILINE)
NAMED = re.compile(r"([A-Za-z_][\w'-]*)(?: as ([\w'-]+))?")
OF_FIELDS = re.compile(r" ghost (?:invariant|view) ")
DEFINES = re.compile(r"(?:(?:abbrev|unfoldable|opaque|pub|data|record) )+(?!mod |use )([^\s:(){},]+)")


def files_below(folder, ending):
    for at, folders, names in os.walk(folder):
        folders.sort()
        yield from (f"{at}/{name}" for name in sorted(names) if name.endswith(ending))


def text_of(path):
    with open(path, encoding="utf-8") as file:
        return file.read()


@functools.cache
def crates():
    """The crates of the repository, each with those of its libraries that are the repository's too."""
    lines = [line.split("#")[0] for line in text_of(f"{TOP}/crates.txt").splitlines()]
    pairs = [line.partition(":")[::2] for line in lines if ":" in line]
    named = {head.split()[0]: libraries.split() for head, libraries in pairs}
    return {name: [it for it in libraries if it in named] for name, libraries in named.items()}


@functools.cache
def crates_below(name):
    found = []
    for library in crates()[name]:
        found += [it for it in (*crates_below(library), library) if it not in found]
    return tuple(found)


# Sources.


def is_kept(token):
    return not (token.isspace() or token.startswith("//"))


def closing(tokens, at):
    """The place behind the bracket that closes the one at a place."""
    depth = 0
    while at < len(tokens):
        depth += (tokens[at] in "([{") - (tokens[at] in ")]}")
        at += 1
        if not depth:
            return at
    return at


def without_attributes(tokens):
    kept, at = [], 0
    while at < len(tokens):
        if tokens[at] == "#" and tokens[at + 1 : at + 2] in (["["], ["!"]):
            at = closing(tokens, at + 1 + (tokens[at + 1] == "!"))
        else:
            kept.append(tokens[at])
            at += 1
    return kept


def public_fields(tokens):
    """The fields of a struct that its callers see."""
    fields, field, depth = [], [], 0
    for token in [*tokens, ","]:
        if token == "," and not depth:
            if "ghost" in field or field[:1] == ["pub"] and field[1:2] != ["("]:
                fields.append(" ".join(field))
            field = []
        else:
            depth += (token in "([{<") - (token in ")]}>")
            field.append(token)
    return " , ".join(fields)


def behind_generics(words):
    """The place of the type in the head of an impl."""
    at, depth = 1, 0
    while at < len(words) - 1 and (depth or words[at] == "<"):
        depth += (words[at] == "<") - (words[at] == ">")
        at += 1
    return at


def items(tokens):
    """The items of a source: of each its head with the clauses, and what stands in the brackets of its body."""
    head, depth, at = [], 0, 0
    while at < len(tokens):
        token = tokens[at]
        at += 1
        depth += (token in "([") - (token in ")]")
        # (in brackets a `;` is that of an array, and a `{` that of a value)
        if depth or token not in "{;":
            head.append(token)
            continue
        after = at if token == ";" else closing(tokens, at - 1)
        inside, at = tokens[at : after - 1] if token == "{" else [], after
        if token == "{" and (CLAUSE.search(" ".join(head)) or "use" in head[:3]):
            head += ["{", *inside, "}"]
        else:
            yield head, inside
            head = []


def without_marks(head):
    return [it for it in head if it not in ("pub", "const", "unsafe", "extern") and it[:1] != '"']


def is_function(words):
    return "fn" in words and words[0] not in ("impl", "trait")


def function_name(words):
    return words[words.index("fn") + 1]


def subject(words):
    """The type of an impl, and whether it is of a trait."""
    of_trait = "for" in words
    return words[words.index("for") + 1] if of_trait else words[behind_generics(words)], of_trait


def public_items(tokens, around="", is_open=False):
    """The public items of a source: of each the name by which definitions may know it, and its text without a body."""
    for head, inside in items(tokens):
        text, words = " ".join(head), without_marks(head)
        is_public = is_open or head[:1] == ["pub"] and head[1:2] != ["("]
        kind = words[0] if words else ""
        name = words[1] if len(words) > 1 else ""
        if is_function(words):
            if is_public:
                yield around or function_name(words), f"{around} {text}"
        elif kind == "impl":
            yield from public_items(inside, *subject(words))
        elif kind == "trait":
            yield name, text
            yield from public_items(inside, name, True)
        elif kind == "mod" and inside:
            yield from public_items(inside, around, is_open)
        elif kind == "use" or words[:2] == ["ghost", "use"]:
            pass
        elif kind == "ghost":
            yield around, f"{around} {text}"
        elif kind in ("struct", "enum", "type") and is_public:
            fields = public_fields(inside) if kind == "struct" else " ".join(inside)
            yield name, f"{text} {fields}"
        elif is_public and kind not in ("mod", "macro_rules"):
            yield name or kind, text


def functions(tokens, around=""):
    """The functions of a source that implement no trait: of each the name, with that of its type, its head, and its body."""
    for head, inside in items(tokens):
        words = without_marks(head)
        kind = words[0] if words else ""
        if is_function(words):
            yield f"{around}::{function_name(words)}".removeprefix("::"), head, inside
        elif kind in ("trait", "mod"):
            yield from functions(inside, words[1] if kind == "trait" else around)
        elif kind == "impl":
            name, of_trait = subject(words)
            yield from () if of_trait else functions(inside, name)


def tokens_of(path):
    """The tokens of a source that count, without comments and attributes."""
    return without_attributes([it for it in TOKEN.findall(text_of(path)) if is_kept(it)])


class Item(NamedTuple):
    """A public item or a definition: its name, its text, and the file in which it stands."""

    name: str
    text: str
    path: str


@functools.cache
def sources(crate):
    """The public items of a crate's sources."""
    found = []
    for path in files_below(f"{TOP}/crates/{crate}/src", ".rt"):
        found += [Item(*it, path) for it in public_items(tokens_of(path))]
    return found


def definitions_in(path):
    """The definitions of a file: of each the name and the text, without comments."""
    lines = [re.sub(r"(^|\s)--.*", "", line).rstrip() for line in text_of(path).splitlines()]
    block = []
    for line in [*(it for it in lines if it), "use end"]:
        if DEFINES.match(line) or line.startswith(("use ", "pub use ", "pub mod ", "mod ")):
            if block:
                yield DEFINES.match(block[0])[1], "\n".join(block)
            block = []
        if block or DEFINES.match(line):
            block.append(line)


@functools.cache
def definitions(crate, is_whole=True):
    """The definitions of a crate's specs: all, or without those of files marked as internal, which no public clause reaches."""
    paths = files_below(f"{TOP}/crates/{crate}/specs", ".antt")
    return [Item(*it, path) for path in paths if is_whole or not text_of(path).startswith("-- Internal") for it in definitions_in(path)]


# Sums.


def sum_of(texts):
    return hashlib.sha256("\n".join(texts).encode()).hexdigest()[:16]


def statements(crate):
    """What the clauses and the definitions of a crate say."""
    return [f"{it.name} = {it.text}" for it in [*sources(crate), *definitions(crate)]]


@functools.cache
def known_of(crate):
    """The definitions and types of a crate that others can name, by their names."""
    known = {}
    for it in [*sources(crate), *definitions(crate, is_whole=False)]:
        # (what a type keeps of its private fields, and how its model is made of them, is a body to the crates above)
        if " fn " not in it.text[: it.text.find("(")] and not OF_FIELDS.search(it.text):
            known.setdefault(it.name, []).append(it)
    return known


@functools.cache
def imports_of(path):
    """What a word may stand for by the imports of a file: names, each with its crate."""
    found = {}
    for head, names in IMPORT.findall(text_of(path)):
        crate, *words = WORD.findall(head.removeprefix("Rattle."))
        if crate not in crates():
            continue
        whole, listed = {(crate, it) for it in words}, NAMED.findall(names)
        for name, other in listed:
            # (a variant is a part of its type)
            found.setdefault(other or name, set()).update({(crate, name)}, whole if "TheVariants" in words else ())
        for word in () if listed else words:
            # (a module, or a type with its variants, by any word of its path or by another name)
            found.setdefault(word, set()).update(whole)
    return found


def named_in(item, crate):
    """The definitions and types that an item of a crate names, each with its crate: its own crate's, and those that its file imports."""
    imported = imports_of(item.path)
    for word in WORD.findall(item.text):
        yield from ((crate, it) for it in known_of(crate).get(word, []))
        for library, name in imported.get(word, ()):
            # (what a library passes on may be of any below it)
            owners = [library] if name in known_of(library) else crates_below(library)
            yield from ((owner, it) for owner in owners for it in known_of(owner).get(name, []))


def named_below(crate):
    """The definitions and types of the crates below that the statements name, and those that these name in turn."""
    found, new = set(), [(crate, it) for it in [*sources(crate), *definitions(crate)]]
    while new:
        owner, item = new.pop()
        fresh = set(named_in(item, owner)) - found
        found |= fresh
        new += fresh
    return sorted(f"{owner} {it.name} = {it.text}" for owner, it in found if owner != crate)


def sums(crate):
    """Sums of what a crate says, of what it names below it, of its sources and of its proofs."""
    parts = {part: f"{TOP}/crates/{crate}/{part}" for part in ("src", "proofs")}
    whole = {part: sum_of(text_of(path) for path in files_below(folder, "")) for part, folder in parts.items()}
    return {"statements": sum_of(statements(crate)), "below": sum_of(named_below(crate)), "sources": whole["src"], "proofs": whole["proofs"]}
