"""What the Python module of examples/embed does beside the calls: it refuses numbers that a field would cut down and a library
of another version, closes a book that nothing refers to, replays a log in pieces, from entries and from bytes, also one that
an earlier library saved, walks over entries while the book forgets them, and reports why a book does not begin in an image."""
import ctypes
import gc
import struct
from collections import Counter
from itertools import islice

from tests.harness import nodes_in_order, topology_of
from tests.library.library import command_of, text_of
# (which tests/library/library.py has loaded)
import lrc_embed
from lrc_embed import (RULES_VERSION, VERSION, Book, Cause, Code, Command, CommandKind, Entry, Fault, ModeKind, OtherVersion,
                       NAMES, Outage, Status, View, encode, fields_of, matrix, recipe_of, rules_version, words_of)

TWENTY = topology_of(nodes_in_order(20, 4))
SCRIPT = ("place 1", "place 2", "fail 3", "next", "lease 2 7", "done 1 3 1", "next", "upgrade 0", "upgraded 0")
SIZE = ctypes.sizeof(Entry)
# An entry as each library of this version saves it. Fields that got a name later were reserved before, and 0.
SAVED = struct.Struct("<B3x BBB5xIHH BBB6s3xIII4x HBBHHI4x 32H")
# As the header has them; an index is a size_t.
RANGES = {"session": (1, 8), "kind": (1, 18), "stripe": (0, 4095), "fragment": (0, 15), "node": (0, 65535),
          "domain": (0, 255), "epoch": (0, 4294967295), "index": (0, 18446744073709551615),
          "place": (0, 18446744073709551615), "outage": (1, 2),
          "code": (1, 2), "set of fragments": (0, 65535),
          "number of a word": (0, 255), "view": (1, 10)}


def done_or_fault(call):
    """A call that may also end with a status of its own."""
    try:
        return call()
    except Fault:
        return None


def ways_of(book):
    """Each call that takes a number of this name."""
    command, entry = Command(CommandKind.NEXT), Entry(session=1)

    def made_of(kind, name):
        yield lambda number: Command(kind, **{name: number})
        yield lambda number: setattr(command, name, number)

    return {
        "session": [lambda n: book.call(n, Command(CommandKind.NEXT)), lambda n: Entry(session=n),
                    lambda n: setattr(entry, "session", n), lambda n: book.peek(n, Command(CommandKind.NEXT)),
                    lambda n: book.peek_entry(n, Command(CommandKind.NEXT)),
                    lambda n: book.call_changes(n, Command(CommandKind.NEXT)),
                    lambda n: book.calls([(n, Command(CommandKind.NEXT))])],
        "kind": [Command, lambda n: setattr(command, "kind", n), lambda n: fields_of(book.library, n)],
        "stripe": [*made_of(CommandKind.PLACE, "stripe"), book.homes, book.level, book.missing, book.code,
                   lambda n: book.lease(n, 0), lambda n: book.repair(n, 0), lambda n: book.recipe(n, 0)],
        "fragment": [*made_of(CommandKind.LEASE, "fragment"), lambda n: book.lease(0, n), lambda n: book.repair(0, n),
                     lambda n: book.recipe(0, n), lambda n: done_or_fault(lambda: recipe_of(book.library, Code.NARROW, 0, n))],
        "node": [*made_of(CommandKind.FAIL, "node"), book.load, book.mode, book.is_down,
                 lambda n: done_or_fault(lambda: list(book.homes_on(n))),
                 lambda n: done_or_fault(lambda: book.forecast(Outage.STOP, [n]))],
        "domain": [*made_of(CommandKind.UPGRADE, "domain")],
        "epoch": [*made_of(CommandKind.REPORT, "epoch")],
        "index": [book.entry, book.reply_line],
        "place": [lambda n: done_or_fault(lambda: book.call_at(n, 1, Command(CommandKind.NEXT))),
                  lambda n: list(book.entries(n))],
        "outage": [lambda n: book.forecast(n, [0]), lambda n: book.forecast_table(n, [0])],
        "code": [lambda n: recipe_of(book.library, n, 0, 0), lambda n: matrix(book.library, n),
                 lambda n: done_or_fault(lambda: encode(book.library, n, []))],
        "set of fragments": [lambda n: recipe_of(book.library, Code.WIDE, n, 0)],
        "number of a word": [lambda n, table=table: words_of(book.library, table, n) for table in NAMES],
        "view": [book.show],
    }


def error_of(way, number):
    """The error that a way reports for a number: the text of a ValueError, or None."""
    try:
        way(number)
    except ValueError as error:
        return str(error)
    except TypeError:
        return "no number"
    except AttributeError:
        return "no field"
    return None


def test_numbers(count, library):
    with Book(library, TWENTY) as book:
        for name, ways in ways_of(book).items():
            least, most = RANGES[name]
            for at, way in enumerate(ways):
                for number in (least, most):
                    found = error_of(way, number)
                    count.check(f"the module: {name} {number} ({at}): {found}", found is None)
                for number in (least - 1, most + 1, least + 2**16, least + 2**32, least + 2**64, -2**64):
                    found = error_of(way, number)
                    right = f"{name} {number} is not from {least} to {most}" if not least <= number <= most else None
                    count.check(f"the module: {name} {number} ({at}): {found}", found == right)
                count.check(f"the module: a float as {name} ({at})", error_of(way, 1.0) == "no number")
        for name in ("nodes", "session", "target"):
            found = error_of(lambda number: Command(CommandKind.FAIL, **{name: number}), 3)
            count.check(f"the module: {name} in a command: {found}", found == "no field")
        modes = [book.mode(node).mode for node in range(20)]
        count.check("the module: a number out of its range is nobody's", modes == [ModeKind.ACTIVE] * 20)
        called = [book.entry(index).session for index in range(book.count())]
        count.check(f"the module: the sessions that called: {called}", called == [1, 8] * 3)


def test_forgotten(count, library):
    """A walk over entries is told where the book forgets those that it has not come to. One that begins behind them goes on."""
    up = Command(CommandKind.UP, node=1)  # (refused, and an entry like any other)
    with Book(library, TWENTY) as book:
        for _ in range(100):
            book.call(1, up)
        rows, behind = book.entries(room=64), book.entries(100, room=64)
        read = sum(1 for _ in islice(rows, 64))
        book.forget()
        book.call(2, up)
        found = read, status_of(lambda: next(rows))
        count.check(f"the module: a walk over entries that are forgotten: {found}", found == (64, (Status.FORGOTTEN, None)))
        sessions = [[entry.session for entry in entries] for entries in (behind, book.entries(), book.entries(101))]
        count.check(f"the module: walks over the entries that are left: {sessions}", sessions == [[2], [2], []])


def test_versions(count, library):
    """The module takes no library of another interface, and reports which rules the library has."""
    class Other:
        """A library of the version after this one, which may be called nothing else."""

        @staticmethod
        def lrc_embed_version():
            return VERSION + 1

    try:
        Book(Other, TWENTY)
        found = "a book"
    except OtherVersion as why:
        found = str(why)
    right = f"the library has version {VERSION + 1} of its interface, and this module is for version {VERSION}"
    count.check(f"the module: another library: {found}", found == right)
    count.check("the module: the version of the rules", rules_version(library) == RULES_VERSION)


def opened(library, **how):
    """The handle of a book that is no longer used."""
    return Book(library, TWENTY, **how).handle


def test_dropped(count, library):
    handle = opened(library)
    gc.collect()
    count.check("the module: a book that is no longer used is closed", not handle.is_open)
    with Book(library, TWENTY) as book:
        count.check("the module: a book is open in its `with`", book.handle.is_open)
    count.check("the module: a book is closed after its `with`", not book.handle.is_open)
    book.close()
    peek = lambda: book.peek(1, Command(CommandKind.NEXT))
    for name, call in (("a look", book.count), ("a peek", peek), ("a replay", lambda: book.replay(b""))):
        status = status_of(call)[0]
        count.check(f"the module: {name} at a closed book: {status}", status == Status.IS_CLOSED)
    book = Book(library, TWENTY)
    book.close()
    count.check("the module: `close` closes", not book.handle.is_open)


def status_of(call):
    """The status and the position of a fault."""
    try:
        call()
    except Fault as fault:
        return fault.status, fault.position
    return Status.DONE, None


def log_of(library):
    """The bytes of the entries of a script, as a store saves them."""
    log = []
    with Book(library, TWENTY) as book:
        for session, line in enumerate(SCRIPT[:8], 1):
            peeked, reply = book.peek(session, command_of(line)), book.call(session, command_of(line))
            if bytes(peeked) != bytes(reply):
                return None
            log.append(bytes(book.entry(book.count() - 1)))
            if log[-1] != bytes(Entry(session=session, command=command_of(line), reply=reply)):
                return None
        book.call(1, Command(CommandKind.UPGRADED, domain=0, node=7, stripe=9, fragment=5, epoch=3))
        log.append(bytes(book.entry(book.count() - 1)))
    own = Entry.from_buffer_copy(log[-1])
    return b"".join(log) if bytes(own.command) == bytes(Command(CommandKind.UPGRADED)) else None


def replayed(library, *pieces):
    """The bytes of the entries of a book after the pieces of a log."""
    with Book(library, TWENTY) as book:
        for piece in pieces:
            book.replay(piece)
        return b"".join(bytes(book.entry(index)) for index in range(book.count()))


def test_pieces(count, library):
    log = log_of(library)
    if not count.check("the module: the entry has the command, and 0 in what its kind does not use", log is not None):
        return
    entries = [Entry.from_buffer_copy(log, at) for at in range(0, len(log), SIZE)]
    view = memoryview(log)
    for cut in range(0, len(log) + 1, SIZE):
        pieces = view[:cut], view[cut:]
        count.check(f"the module: a replay of bytes in two pieces, cut at {cut}", replayed(library, *pieces) == log)
    count.check("the module: a replay entry by entry", replayed(library, *([entry] for entry in entries)) == log)
    pieces = bytearray(log[:SIZE]), tuple(entries[1:])
    count.check("the module: a replay of bytes and of entries", replayed(library, *pieces) == log)
    count.check("the module: a replay of an array", replayed(library, (Entry * len(entries))(*entries)) == log)
    for how in (log, entries):
        with Book(library, TWENTY, how) as book:
            count.check("the module: a log that the book is made with", book.count() == len(entries))
    with Book(library, TWENTY, log[:SIZE]) as book:
        count.check("the module: bytes of no whole entry", error_of(book.replay, log[SIZE:-1]) is not None and book.count() == 1)
    entries[5].reply.kind ^= 1
    book = Book(library, TWENTY, log[:2 * SIZE])
    found = status_of(lambda: book.replay(entries[2:]))
    count.check(f"the module: a changed entry in a piece: {found}", found == (Status.DIFFERENT, 3) and not book.handle.is_open)


def saved(session, command, reply, lease=(0,) * 6, seats=()):
    """The bytes of an entry whose seats are slot 0 of these nodes."""
    numbers = [number for node in seats for number in (node, 0)]
    return SAVED.pack(session, *command, *reply, *lease, *numbers, *[0] * (32 - len(numbers)))


def log_before_ticks():
    """`place 1`, `fail 3`, `lease 1 3` and `done 1 3 1`."""
    yield saved(1, (1, 0, 0, 0, 1, 0), (1, 0, 0, b"", 0, 0, 0), seats=(*range(12), 16, 12, 13, 14))
    yield saved(1, (8, 0, 0, 0, 0, 3), (6, 0, 0, b"", 0, 0, 0))
    yield saved(2, (3, 3, 0, 0, 1, 0), (3, 0, 1, bytes([0, 1, 2, 4, 5, 12]), 0, 0, 0), lease=(1, 3, 2, 17, 0, 1))
    yield saved(2, (5, 3, 0, 1, 1, 0), (5, 0, 0, b"", 0, 0, 0))


def log_before_codes():
    """`place 1`, `fail 3`, `lease 1 3`, and three times `tick`."""
    yield from islice(log_before_ticks(), 3)
    for clock, ended in ((1, 0), (2, 0), (3, 1)):
        yield saved(3, (17, 0, 0, 0, 0, 0), (8, 0, 0, b"", 0, clock, ended))


def log_of_codes():
    """`place6 1`, `fail 1`, `lease 1 1`, `lease 1 12` and `done 1 1 1`."""
    yield saved(1, (18, 0, 0, 0, 1, 0), (9, 0, 0, b"", 0, 0, 0), seats=range(10))
    yield saved(1, (8, 0, 0, 0, 0, 1), (6, 0, 0, b"", 0, 0, 0))
    yield saved(2, (3, 1, 0, 0, 1, 0), (3, 0, 4, bytes([0, 2, 6]), 0, 0, 0), lease=(1, 1, 2, 11, 0, 1))
    yield saved(2, (3, 12, 0, 0, 1, 0), (7, 111, 0, b"", 0, 0, 0))
    yield saved(2, (5, 1, 0, 1, 1, 0), (5, 0, 0, b"", 0, 0, 0))


def unseen(library, log):
    """Where one bit of a reply is changed, and the replay does not end at its entry."""
    def ended(at):
        changed = bytearray(log)
        changed[at] ^= 1
        return status_of(lambda: Book(library, TWENTY, changed))

    replies = [at for at in range(len(log)) if at % SIZE >= Entry.reply.offset]
    return [at for at in replies if ended(at) != (Status.DIFFERENT, at // SIZE)]


def test_saved(count, library):
    for log_of, code in ((log_before_ticks, Code.WIDE), (log_before_codes, Code.WIDE), (log_of_codes, Code.NARROW)):
        log, name = list(log_of()), log_of.__name__.replace("_", " ")
        found = status_of(lambda: Book(library, TWENTY, log))
        if count.check(f"the module: a {name}: {found}", found == (Status.DONE, None)):
            count.check(f"the module: the entries of a {name}", replayed(library, log) == b"".join(log))
            with Book(library, TWENTY, log) as book:
                count.check(f"the module: the code of a stripe of a {name}", (book.code(1).value, book.code(2)) == (code, None))
        wrong = unseen(library, b"".join(log))
        count.check(f"the module: a {name} with a change at {wrong}", not wrong)
    with Book(library, TWENTY, list(log_before_ticks())[:3]) as book:
        count.check("the module: a lease of a log before ticks has its end", (book.lease(1, 3).expiry, book.clock()) == (3, 0))


def test_faults(count, library):
    """What a book that can't be opened reports: a status, a position or a line, and a cause where the image is invalid."""
    head, down = "image 1\nbefore 0\nclock 0\n", "node 99 down\n"
    for nodes, image, right in (
        (TWENTY, "", (Status.BAD_LINE, 1, None)),
        (TWENTY, head, (Status.BAD_LINE, 4, None)),
        (TWENTY, f"{head}{down}end\n", (Status.INVALID_IMAGE, 4, Cause.UNKNOWN_NODE)),
        ("", f"{head}{down}end\n", (Status.NO_NODES, 0, None)),
    ):
        try:
            Book(library, nodes, image=image)
            found = None
        except Fault as fault:
            found = fault.status, fault.position, fault.cause
        count.check(f"the module: a book that is not opened: {found}, and not {right}", found == right)


def test_calls(count, library):
    """Calls in a group, of which one can't be made: the entries before it are returned, and why it is not made."""
    commands = [command_of(line) for line in SCRIPT]
    with Book(library, TWENTY) as book:
        entries, status = book.calls([(1 + at % 8, command) for at, command in enumerate(commands)])
        found = b"".join(map(bytes, entries))
        count.check(f"the module: calls in a group: {status}", status == Status.DONE and found == log_of(library))
        unset = Command(CommandKind.TICK)
        ctypes.memset(ctypes.addressof(unset), 0, 1)  # (no command has kind 0)
        entries, status = book.calls([(2, commands[0]), (2, commands[3]), (2, unset), (2, commands[0])])
        made = [text_of(entry.reply) for entry in entries]
        count.check(f"the module: a group that stops: {status}, {made}",
                    status == Status.OUT_OF_RANGE and made == ["refused 102", "idle"] and book.count() == len(SCRIPT) + 2)
        count.check("the module: a group of none", book.calls([]) == ([], Status.DONE))
        book.close()
        count.check("the module: calls of a closed book", status_of(lambda: book.calls([]))[0] == Status.IS_CLOSED)


class Counted:
    """A library whose calls are counted."""

    def __init__(self, library):
        self.library, self.calls = library, Counter()

    def __getattr__(self, name):
        self.calls[name] += 1
        return getattr(self.library, name)


def test_image(count, library):
    """An image is made once, and a second time where it needs more room than is usual; and so is a table."""
    for call, usual, write in (("image", "IMAGE_ROOM", Book.image), ("show", "TABLE_ROOM", lambda book: book.show(View.STRIPES))):
        with Book(library, TWENTY, log_of(library)) as book:
            text = write(book)
        for room, wanted in ((getattr(lrc_embed, usual), 1), (len(text), 1), (len(text) - 1, 2), (1, 2)):
            counted, kept = Counted(library), getattr(lrc_embed, usual)
            setattr(lrc_embed, usual, room)
            with Book(counted, TWENTY, log_of(library)) as book:
                found = write(book)
            setattr(lrc_embed, usual, kept)
            made = counted.calls[f"lrc_embed_{call}"]
            count.check(f"the module: {call} with room for {room} of {len(text)} bytes is made {made} times", found == text and made == wanted)


def test(count, library):
    test_versions(count, library)
    test_image(count, library)
    test_faults(count, library)
    test_forgotten(count, library)
    test_numbers(count, library)
    test_dropped(count, library)
    test_pieces(count, library)
    test_calls(count, library)
    test_saved(count, library)
