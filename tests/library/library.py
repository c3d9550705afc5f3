"""Commands for a book of the library, and what it reports, as the texts of the model in tests/model/rules.py."""
import os
from collections import namedtuple

from tests.harness import CC, EXAMPLES, loaded

lrc_embed = loaded(f"{EXAMPLES}/embed/lrc_embed.py")
# The fields that follow each word, after docs/RULES.md; a node follows the others.
FIELDS = {
    "place": ["stripe"], "place6": ["stripe"], "drop": ["stripe"], "lease": ["stripe", "fragment"], "next": [],
    "done": ["stripe", "fragment", "epoch"], "abandon": ["stripe", "fragment", "epoch"], "revoke": ["stripe", "fragment"],
    "upgrade": ["domain"], "upgraded": ["domain"], "tick": [],
}

# A library of another version, which has nothing else: the shared library, its folder, and the words by which a program that is
# linked with the library itself calls the other version.
Other = namedtuple("Other", ["shared", "folder", "links"])


def command_of(line):
    """The command of a line."""
    word, *numbers = line.split(" ")
    kind = lrc_embed.CommandKind["REPORT" if word == "done" else word.upper()]
    return lrc_embed.Command(kind, **dict(zip(FIELDS.get(word, ["node"]), map(int, numbers), strict=True)))


def of_version(count, room, version):
    """Makes a library of another version."""
    folder = os.path.join(room, f"of-version-{version}")
    os.makedirs(folder, exist_ok=True)
    own, wrapped = "uint32_t lrc_embed_version(void)", "uint32_t __wrap_lrc_embed_version(void)"
    for name, call in (("shared", own), ("wrapped", wrapped)):
        with open(f"{folder}/{name}.c", "w", encoding="utf-8") as file:
            file.write(f"#include <stdint.h>\n{call};\n{call} {{ return {version}; }}\n")
    shared = f"{folder}/liblrc_embed.so.{lrc_embed.VERSION}"  # (as the program finds it)
    count.run("another library", CC, "-shared", "-fPIC", "-o", shared, f"{folder}/shared.c")
    count.run("another version", CC, "-fPIC", "-c", "-o", f"{folder}/wrapped.o", f"{folder}/wrapped.c")
    return Other(shared, folder, ["-Wl,--wrap=lrc_embed_version", f"{folder}/wrapped.o"])


# How many seats a reply has, and how many sources a repair; and the least and the greatest detail of each refusal that has one.
SEATS = {lrc_embed.ReplyKind.PLACED: 16, lrc_embed.ReplyKind.PLACED6: 10}
SOURCES = {lrc_embed.Repair.LOCAL: 6, lrc_embed.Repair.LOCAL3: 3}
DETAILS = {103: (0, 15), 107: (0, 255), 109: (0, 4095), 110: (0, 2**32 - 1), 114: (1, 8), 115: (0, 65535), 117: (0, 2**32 - 1)}


def plan_words(repair, sources):
    """How a fragment is rebuilt, as a reply writes it."""
    repair = lrc_embed.Repair(repair)
    return [repair.name.lower().rstrip("3"), *sources[:SOURCES.get(repair, 0)]]


def text_of(reply):
    """What `lrcman run` prints of a reply, by its fields."""
    kind, lease = lrc_embed.ReplyKind(reply.kind), reply.lease
    words = [kind.name.lower().rstrip("6")]  # (the number of seats shows the code)
    if kind in SEATS:
        words += reply.seats[:SEATS[kind]]
    elif kind is kind.GRANTED:
        words += [lease.stripe, lease.fragment, lease.target, "epoch", lease.epoch, *plan_words(reply.repair, reply.sources)]
    elif kind is kind.REFUSED:
        words += [reply.refusal, *([reply.detail] if reply.refusal in DETAILS else [])]
    elif kind is kind.TICKED:
        words += [reply.clock, reply.ended]
    return " ".join(map(str, words))


def code_word(code):
    """The name of a code that a book reports."""
    return lrc_embed.Code(code.value).name.lower()


def level_words(level):
    """A level and its margin as the risk table writes them; a stripe that is Whole is None."""
    kind = lrc_embed.LevelKind(level.kind)
    if kind is kind.WHOLE:
        return None
    return ("risk", str(level.margin)) if kind is kind.AT_RISK else (kind.name.lower(), "-")


def risk_rows(book):
    for row in book.risk():
        yield f"{row.stripe},{','.join(level_words(row.level))},{book.missing(row.stripe).value:04x}"


def load_rows(book, nodes):
    for number, node in nodes.items():
        mode = book.mode(number)
        online = "yes" if mode.is_online else "no"
        yield f"{number},{lrc_embed.ModeKind(mode.mode).name.lower()},{online},{book.load(number).value},{node.slots}"
