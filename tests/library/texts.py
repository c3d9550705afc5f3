"""The texts of the library: lines of commands, read and written, words for numbers, texts of replies, and tables of a book beside
the model.

What a line has to be is written here once more, after docs/RULES.md and docs/FORMATS.md. Tables are those of
tests/model/shown.py."""
import ctypes
import random
import re

from tests import harness
from tests.library import library, walked
from tests.library.library import lrc_embed
from tests.model import shown

Cause, Kind = lrc_embed.LineCause, lrc_embed.CommandKind
BOUNDS = {"stripe": 4096, "fragment": 16, "epoch": 2**32, "node": 65536, "domain": 256}
WORDS = [*library.FIELDS, "fail", "down", "up", "drain", "undrain", "retire", "join"]
# What a drawn line is changed by.
PIECES = [b" ", b"  ", b"\n", b"\r", b"\t", b"#", b"0", b"00", b"-1", b"+1", b"9", b"16", b"256", b"4096", b"65536", b"4294967296",
          b"x", b"\x00", b"place", b"place6", b"next", b"tick", b"99999999999999999999999", b"#" * 1100]


def fields_of(word):
    return library.FIELDS.get(word, ["node"])


def cause_of(line):
    """Why a line is bad: the first cause; None where it is not."""
    if len(line) > 1024:
        return Cause.TOO_LONG
    if not line or line.startswith(b"#"):
        return None
    word, *numbers = line.split(b" ")
    if word not in [it.encode() for it in WORDS]:
        return Cause.UNKNOWN_WORD
    fields = fields_of(word.decode())
    if len(numbers) != len(fields):
        return Cause.WORD_COUNT
    for number, field in zip(numbers, fields):
        if not re.fullmatch(rb"0|[1-9][0-9]*", number):
            return Cause.NOT_A_NUMBER
        if int(number) >= BOUNDS[field]:
            return Cause.OUT_OF_RANGE
    return None


def drawn_line(row):
    """The line of a command, with numbers at their bounds or below."""
    word = row.choice(WORDS)
    numbers = [row.choice([0, 1, 9, 10, BOUNDS[it] - 1, row.randrange(BOUNDS[it])]) for it in fields_of(word)]
    return " ".join([word, *map(str, numbers)]).encode()


def changed(row, line):
    """A line with a piece put in, or for a byte of it, or without one."""
    at, piece = row.randrange(len(line) + 1), row.choice(PIECES)
    return row.choice([line[:at] + piece + line[at:], line[:at] + piece + line[at + 1:], line[:at] + line[at + 1:]])


def read(shared, line):
    """What the library reads a line as: the bytes of a command, None or a cause."""
    try:
        command = lrc_embed.read_command(shared, line.decode())
    except lrc_embed.BadLine as bad:
        return bad.cause
    return command and bytes(command)


def test_lines(count, shared, lines=20_000):
    """Lines are read as the commands that they are, and written so; bad ones have their first cause, and each cause comes."""
    row, wrong, met = random.Random(5), [], set()
    for _ in range(lines):
        line = drawn_line(row)
        command = library.command_of(line.decode())
        if read(shared, line) != bytes(command) or lrc_embed.command_line(shared, command).encode() != line:
            wrong.append(f"{line}: {read(shared, line)}")
        for _ in range(row.randrange(3)):
            line = changed(row, line)
        cause = cause_of(line)
        is_none = cause is None and (not line or line.startswith(b"#"))
        right = cause or (None if is_none else bytes(library.command_of(line.decode())))
        if not line.endswith(b"\n") and read(shared, line) != right:
            wrong.append(f"{line}: {read(shared, line)}, and not {right}")
        met.add(cause)
    count.add(2 * lines - len(wrong), wrong)
    count.check(f"texts: causes of drawn lines: {met}", met == {None, *Cause})
    for kind in range(1, 19):
        line = lrc_embed.command_line(shared, lrc_embed.Command(kind))
        word = line.split(" ")[0]
        count.check(f"texts: the word of kind {kind}: {line}", ("REPORT" if word == "done" else word.upper()) == Kind(kind).name)


def test_forms(count, shared):
    """The word of each kind of command, and its numbers in the order of its line; no other kind has any."""
    for kind in range(256):
        word = lrc_embed.words_of(shared, "command_name", kind)
        if not 1 <= kind <= len(Kind):
            count.check(f"texts: the word of kind {kind}: {word}", word is None)
            continue
        count.check(f"texts: the word of kind {kind}: {word}", word in WORDS and library.command_of(
            " ".join([word, *("0" for _ in fields_of(word))])).kind == kind)
        fields = [field.name.lower() for field in lrc_embed.fields_of(shared, kind)]
        count.check(f"texts: the fields of {word}: {fields}", fields == fields_of(word))


def words_by_cause():
    """The words of docs/FORMATS.md for each line of a refusal."""
    text = harness.read(f"{harness.TOP}/docs/FORMATS.md").decode()
    table = text[text.index("## Refusals in words"):].split("\n## ")[0]
    return dict(re.findall(r"^\| `(.+)` \| (.+) \|$", table, re.MULTILINE))


def test_words(count, shared):
    """The words for causes and statuses are those of lrcman, and no other number has any."""
    words = words_by_cause()
    tables = {"line_words": (r"line N cause (\d+)", 0), "cause_words": (r"image N cause (\d+)", 0),
              "nodes_words": (r"topology (\d+)(?: [A-Z])?", 15)}
    for table, (pattern, above) in tables.items():
        right = {int(found[1]) + above: it for line, it in words.items() if (found := re.fullmatch(pattern, line))}
        found = {number: lrc_embed.words_of(shared, table, number) for number in range(256)}
        count.check(f"texts: {table}: {len(right)}", {number: it for number, it in found.items() if it} == right and len(right) > 4)
    for table, enum in (("level_name", lrc_embed.LevelKind), ("mode_name", lrc_embed.ModeKind), ("code_name", lrc_embed.Code),
                        ("repair_name", lrc_embed.Repair)):
        found = {number: lrc_embed.words_of(shared, table, number) for number in range(256)}
        right = {it.value: it.name.lower().removeprefix("at_").rstrip("3") for it in enum}
        count.check(f"texts: {table}: {found}", {number: it for number, it in found.items() if it} == right)


# Replies: of each kind those with all numbers at their least and at their greatest, and the words that docs/FORMATS.md asks for.

REPAIRS = {"local": (1, 6), "global": (2, 0), "move": (3, 0), "local ": (4, 3)}
FILLED = b"\xa5"


def reply_of(kind, **fields):
    reply = lrc_embed.Reply(kind=kind)
    for name, value in fields.items():
        setattr(reply, name, value)
    return reply


def granted(repair, stripe, fragment, holder, seat, epoch):
    """A grant, and its words; each of its sources is the fragment too."""
    number, sources = REPAIRS[repair]
    lease = lrc_embed.Lease(stripe, fragment, holder, seat, epoch)
    words = ["granted", stripe, fragment, f"{seat.node}:{seat.slot}", "epoch", epoch, repair.strip(), *[fragment] * sources]
    return reply_of(3, lease=lease, repair=number, sources=(ctypes.c_uint8 * 6)(*[fragment] * sources)), words


def replies():
    """Replies with their words, and the bytes of each that its kind uses."""
    of = {name: range(getattr(lrc_embed.Reply, name).offset, getattr(lrc_embed.Reply, name).offset + getattr(lrc_embed.Reply, name).size)
          for name in ("refusal", "repair", "sources", "detail", "clock", "ended", "lease", "seats")}
    for number in (0, 65535):
        for kind, seats in ((1, 16), (9, 10)):
            seat = lrc_embed.Seat(number, number)
            reply = reply_of(kind, seats=(lrc_embed.Seat * 16)(*[seat] * seats))
            yield reply, ["placed", *[f"{number}:{number}"] * seats], of["seats"][:4 * seats]
    for kind, word in ((2, "dropped"), (4, "idle"), (5, "ended"), (6, "changed")):
        yield reply_of(kind), [word], ()
    for repair, (_, sources) in REPAIRS.items():
        used = {of["repair"][0], *of["sources"][:sources], *of["lease"][:12]}  # (the expiry in a reply is 0)
        yield *granted(repair, 0, 0, 1, lrc_embed.Seat(0, 0), 0), used
        yield *granted(repair, 4095, 15, 8, lrc_embed.Seat(65535, 65535), 2**32 - 1), used
    for refusal in range(101, 118):
        yield from ((reply_of(7, refusal=refusal, detail=detail), ["refused", refusal, detail], {*of["refusal"], *of["detail"]})
                    for detail in library.DETAILS.get(refusal, ()))
        if refusal not in library.DETAILS:
            yield reply_of(7, refusal=refusal), ["refused", refusal], of["refusal"]
    for number in (0, 2**32 - 1):
        yield reply_of(8, clock=number, ended=number), ["ticked", number, number], {*of["clock"], *of["ended"]}


def wrong_replies():
    """Replies with one number that is out of its range."""
    yield from (reply_of(kind) for kind in (0, 10, 255))
    yield from (reply_of(7, refusal=refusal) for refusal in (0, 100, 118, 255))
    yield from (reply_of(7, refusal=refusal, detail=detail) for refusal, (least, most) in library.DETAILS.items()
                for detail in (least - 1, most + 1) if 0 <= detail < 2**32)
    # (a detail is not cut down to the bits of its range)
    yield from (reply_of(7, refusal=refusal, detail=detail) for refusal, (least, most) in library.DETAILS.items()
                for detail in (least + 2**8, least + 2**16) if most < detail)
    for lease in ((4096, 15, 8), (4095, 16, 8), (4095, 15, 0), (4095, 15, 9)):
        yield granted("local", *lease, lrc_embed.Seat(0, 0), 1)[0]
    for number, sources in ((0, 0), (5, 0), (1, 6), (4, 3)):
        for at in range(sources or 1):
            reply = granted("move", 1, 1, 1, lrc_embed.Seat(0, 0), 1)[0]
            reply.repair, reply.sources[at] = number, 16 if sources else 0
            yield reply


def written(shared, reply, room, is_null=False):
    """What the library writes of a reply, with so much room: the status, the length, and the bytes of a buffer that has more."""
    text, length = ctypes.create_string_buffer(FILLED * 300, 300), ctypes.c_size_t(99)
    status = shared.lrc_embed_reply_text(ctypes.byref(reply), None if is_null else text, ctypes.c_size_t(room), ctypes.byref(length))
    return status, length.value, text.raw


def is_fault(call):
    try:
        call()
    except lrc_embed.Fault as fault:
        return fault.status == lrc_embed.Status.OUT_OF_RANGE
    return False


def test_replies(count, shared):
    """The text of each reply, with room enough, a byte less and none; and none of what is no reply, of which nothing is written."""
    wrong, good, longest, rejected = [], 0, 0, list(wrong_replies())
    unwritten = FILLED * 300
    for reply, words, used in replies():
        text = " ".join(map(str, words)).encode()
        length = len(text)
        for room, is_null, right in (
                (length, False, (0, length, text + unwritten[length:])), (300, False, (0, length, text + unwritten[length:])),
                (length - 1, False, (7, length, unwritten)), (0, False, (7, length, unwritten)), (0, True, (7, length, unwritten))):
            found = written(shared, reply, room, is_null)
            wrong += [f"{text} with room {room}: {found}"] if found != right else []
        wrong += [f"{text} in the module"] if lrc_embed.reply_text(shared, reply).encode() != text else []
        good, longest = good + 6, max(longest, length)
        for at in {*range(1, ctypes.sizeof(reply))} - {*used}:  # (behind the kind)
            other = lrc_embed.Reply.from_buffer_copy(reply)
            ctypes.memset(ctypes.addressof(other) + at, 1, 1)
            rejected.append(other)
    wrong += [f"{bytes(reply).hex()} is a reply" for reply in rejected if written(shared, reply, 300) != (3, 99, unwritten)]
    wrong += [f"{bytes(reply).hex()} is a reply without room" for reply in rejected if written(shared, reply, 0, True) != (3, 99, unwritten)]
    count.add(good + 2 * len(rejected) - len(wrong), [f"texts: {it}" for it in wrong])
    count.check(f"texts: the longest reply: {longest}; what is none: {len(rejected)}", longest == 198 and len(rejected) > 1_000)
    count.check("texts: the module on what is no reply", is_fault(lambda: lrc_embed.reply_text(shared, lrc_embed.Reply())))


def test(count, shared):
    test_lines(count, shared)
    test_replies(count, shared)
    test_forms(count, shared)
    test_words(count, shared)


# A book beside the model.


def forecast_in_model(store, outage, nodes):
    """The table of a forecast, and whether no stripe is harmed."""
    table, harms = shown.outlook(store, walked.after_outage(store, outage, nodes), nodes)
    return table, not harms


def texts_of(book, store, count, turn):
    """One table of a book and one of a forecast, by turns: as the book writes them, and as the model does."""
    view = lrc_embed.View(1 + turn % len(lrc_embed.View))
    words = view.name.lower().replace("_", " ")
    yield f"the table of {words}", book.show(view), shown.shown(words, store, count)
    outage = walked.drawn_outage(store, turn)
    yield f"the table of {outage}", book.forecast_table(*outage), forecast_in_model(store, *outage)
