"""The book of liblrc_embed.so for Python: the structs and constants of lrc_embed.h, and a class that owns the handle."""
import ctypes
import weakref
from ctypes import c_bool, c_size_t, c_uint8, c_uint16, c_uint32, c_uint64, c_void_p
from enum import IntEnum
from operator import index as whole

VERSION, RULES_VERSION, STRIPES, FRAGMENTS, NARROW_FRAGMENTS, SESSIONS, HISTORY_LIMIT = 8, 1, 4096, 16, 10, 8, 1_000_000
NODES, SLOTS, IMAGE_MOST, FEED_LIMIT = 512, 256, 3855418, 1_048_576
IMAGE_ROOM = 1 << 20  # room for the image of a store of 4,096 stripes, but for a few: to ask how much it needs costs as much as it does
TABLE_ROOM = 1 << 20  # room for the table of as many stripes, for the same reason


class Status(IntEnum):
    DONE, IS_CLOSED, IS_OPEN, OUT_OF_RANGE, UNKNOWN, FULL, OUT_OF_MEMORY, SHORT = range(8)
    DIFFERENT, MOVED, FORGOTTEN, UNDETERMINED, MISCOUNTED, UNEVEN = range(8, 14)
    SYNTAX, NO_NODES, BAD_FIELD, NODE_OUT_OF_RANGE, DOUBLE_NODE, TOO_MANY, BAD_LINE, INVALID_IMAGE = range(16, 24)


class Cause(IntEnum):
    UNKNOWN_DOMAIN, TOO_MANY_ENTRIES, TOO_MANY_TICKS, OUT_OF_ORDER, SAYS_NOTHING, UNKNOWN_NODE = range(1, 7)
    GONE_AND_DOWN, UNKNOWN_FRAGMENT, UNKNOWN_SLOT, NODE_GONE, SEAT_TAKEN, NOT_LAWFUL = range(7, 13)
    TOO_MANY_GRANTS, UNKNOWN_STRIPE, NEVER_GRANTED, WRONG_EXPIRY = range(13, 17)


class LineCause(IntEnum):
    UNKNOWN_WORD, WORD_COUNT, NOT_A_NUMBER, OUT_OF_RANGE, TOO_LONG = range(1, 6)


class CommandKind(IntEnum):
    PLACE, DROP, LEASE, NEXT, REPORT, ABANDON, REVOKE, FAIL = range(1, 9)
    DOWN, UP, DRAIN, UNDRAIN, RETIRE, JOIN, UPGRADE, UPGRADED, TICK, PLACE6 = range(9, 19)


class Field(IntEnum):
    STRIPE, FRAGMENT, EPOCH, NODE, DOMAIN = range(1, 6)


class ReplyKind(IntEnum):
    PLACED, DROPPED, GRANTED, IDLE, ENDED, CHANGED, REFUSED, TICKED, PLACED6 = range(1, 10)


class Repair(IntEnum):
    LOCAL, GLOBAL, MOVE, LOCAL3 = range(1, 5)


class Refusal(IntEnum):
    UNKNOWN_STRIPE, STRIPE_EXISTS, NO_LAWFUL_NODE, UNKNOWN_NODE, WRONG_MODE, UNKNOWN_DOMAIN = range(101, 107)
    UPGRADE_RUNNING, NOT_UPGRADING, WOULD_LOSE, ALREADY_LEASED, NOT_NEEDED, UNRECOVERABLE = range(107, 113)
    STALE, NOT_HOLDER, TARGET_OFFLINE, NO_LEASE, NOT_EMPTY = range(113, 118)


class Code(IntEnum):
    WIDE, NARROW = range(1, 3)


class LevelKind(IntEnum):
    WHOLE, AT_RISK, UNAVAILABLE, LOST = range(1, 5)


class ModeKind(IntEnum):
    ACTIVE, DRAINING, GONE = range(1, 4)


class Outage(IntEnum):
    STOP, LOSE = range(1, 3)


class View(IntEnum):
    STATUS, STRIPES, NODES, LEASES, WORK, FRAGMENTS, DOMAINS_FAULT, DOMAINS_UPGRADE, HEALTH, CAPACITY = range(1, 11)


# The least and the greatest number of each name that is passed.
RANGES = {"session": (1, SESSIONS), "kind": (1, len(CommandKind)), "stripe": (0, STRIPES - 1),
          "fragment": (0, FRAGMENTS - 1), "node": (0, 2**16 - 1), "domain": (0, 2**8 - 1), "epoch": (0, 2**32 - 1),
          "index": (0, 2**64 - 1), "place": (0, 2**64 - 1), "outage": (1, len(Outage)),
          "code": (1, len(Code)), "set of fragments": (0, 2**FRAGMENTS - 1),
          "number of a word": (0, 2**8 - 1), "view": (1, len(View))}


def within(name, number):
    """The number, if it is in its range. ctypes would cut it down to the size of its field without a word, and what is
    left is the number of something else."""
    number, (least, most) = whole(number), RANGES[name]
    if not least <= number <= most:
        raise ValueError(f"{name} {number} is not from {least} to {most}")
    return number


class Checked(ctypes.Structure):
    """A struct whose numbers are in their ranges, those that it is made of and those that are put into it later. It takes
    no name that is none of its fields: what was meant would stay 0, which is a node and a stripe like any other."""

    def __setattr__(self, name, value):
        if not hasattr(type(self), name):
            raise AttributeError(f"{type(self).__name__} has no field {name}")
        super().__setattr__(name, within(name, value) if name in RANGES else value)


class Handle(ctypes.Structure):
    _fields_ = [("is_open", c_bool), ("at", c_void_p)]


class Feed(ctypes.Structure):
    _fields_ = [("is_open", c_bool), ("at", c_void_p)]


class Published(ctypes.Structure):
    _fields_ = [("book", Handle), ("feed", Feed)]


class Viewer(ctypes.Structure):
    _fields_ = [("book", Handle), ("feed", Feed)]


class Command(Checked):
    _fields_ = [("kind", c_uint8), ("fragment", c_uint8), ("domain", c_uint8), ("reserved", c_uint8 * 5),
                ("epoch", c_uint32), ("stripe", c_uint16), ("node", c_uint16)]


class Seat(ctypes.Structure):
    _fields_ = [("node", c_uint16), ("slot", c_uint16)]

    def __str__(self):
        return f"{self.node}:{self.slot}"


class Fragment(ctypes.Structure):
    _fields_ = [("stripe", c_uint16), ("fragment", c_uint8), ("reserved", c_uint8)]


class Lease(ctypes.Structure):
    """A lease. From `Book.lease` it has its expiry, the clock at which it ends; in a reply that is 0."""

    _fields_ = [("stripe", c_uint16), ("fragment", c_uint8), ("holder", c_uint8), ("target", Seat),
                ("epoch", c_uint32), ("expiry", c_uint32)]


class RepairPlan(ctypes.Structure):
    _fields_ = [("repair", c_uint8), ("sources", c_uint8 * 6), ("reserved", c_uint8)]


class Reply(ctypes.Structure):
    _fields_ = [("kind", c_uint8), ("refusal", c_uint8), ("repair", c_uint8), ("sources", c_uint8 * 6),
                ("reserved", c_uint8 * 3), ("detail", c_uint32), ("clock", c_uint32), ("ended", c_uint32),
                ("reserved_number", c_uint32), ("lease", Lease), ("seats", Seat * FRAGMENTS)]


class Entry(Checked):
    _fields_ = [("session", c_uint8), ("reserved", c_uint8 * 3), ("command", Command), ("reply", Reply)]


class Home(ctypes.Structure):
    _fields_ = [("seat", Seat), ("is_there", c_uint8), ("reserved", c_uint8 * 3)]


class Homes(ctypes.Structure):
    _fields_ = [("homes", Home * FRAGMENTS)]


class Level(ctypes.Structure):
    _fields_ = [("kind", c_uint8), ("margin", c_uint8), ("reserved", c_uint8 * 2)]


class Risk(ctypes.Structure):
    _fields_ = [("stripe", c_uint16), ("reserved", c_uint8 * 2), ("level", Level)]


class Mode(ctypes.Structure):
    _fields_ = [("mode", c_uint8), ("is_online", c_uint8), ("reserved", c_uint8 * 2)]


class Stripe(ctypes.Structure):
    _fields_ = [("stripe", c_uint16), ("missing", c_uint16), ("code", c_uint8), ("reserved", c_uint8 * 3),
                ("level", Level)]


class Node(ctypes.Structure):
    _fields_ = [("number", c_uint16), ("slots", c_uint16), ("load", c_uint32), ("fault", c_uint8), ("upgrade", c_uint8),
                ("mode", c_uint8), ("is_online", c_uint8), ("is_down", c_uint8), ("reserved", c_uint8 * 3)]


class Outlook(ctypes.Structure):
    _fields_ = [("stripe", c_uint16), ("missing", c_uint16), ("newly_missing", c_uint16), ("code", c_uint8),
                ("is_harmed", c_uint8), ("leases_ended", c_uint8), ("reserved", c_uint8 * 3), ("before", Level),
                ("after", Level)]


class Recipe(ctypes.Structure):
    """How a fragment is rebuilt: the sum of the stripe's fragments, each times its coefficient."""

    _fields_ = [("code", c_uint8), ("fragment", c_uint8), ("reserved", c_uint8 * 6), ("coefficients", c_uint8 * FRAGMENTS)]

    def sources(self):
        """The coefficients of the fragments that are read, by fragment."""
        return {fragment: coefficient for fragment, coefficient in enumerate(self.coefficients) if coefficient}


class Change(ctypes.Structure):
    """A fragment whose home or lease a call changed: both before it, and after it."""

    _fields_ = [("stripe", c_uint16), ("fragment", c_uint8), ("was_leased", c_uint8), ("is_leased", c_uint8),
                ("reserved", c_uint8 * 3), ("home_before", Home), ("home_after", Home), ("lease_before", Lease), ("lease_after", Lease)]


class Bytes(ctypes.Structure):
    _fields_ = [("at", c_void_p), ("length", c_size_t)]


class Buffer(ctypes.Structure):
    _fields_ = [("at", c_void_p), ("length", c_size_t)]


def behind(_, row):
    """The place after a fragment."""
    return c_uint16(row.stripe), c_uint8(row.fragment + 1)


def text_of(text):
    """A text as C takes it: its bytes and their number."""
    data = text.encode()
    return data, c_size_t(len(data))


class Fault(Exception):
    """A status other than done, the position of the fault in the input, or its line in an image, and why an image is invalid."""

    def __init__(self, name, status, position=None, cause=None):
        super().__init__(f"{name}: {Status(status).name}")
        self.status, self.position = Status(status), position
        self.cause = Cause(cause) if status == Status.INVALID_IMAGE else None


def text_by(write, room=256):
    """The status of a call and the text that it writes. It is given a buffer, its length, and where the length of the text goes."""
    while True:
        text, length = (c_uint8 * room)(), c_size_t()
        status = Status(write(text, c_size_t(room), ctypes.byref(length)))
        if status != Status.SHORT:
            return status, ctypes.string_at(text, length.value).decode() if status == Status.DONE else None
        room = length.value


def text_done(name, write, room=256):
    """The text that a call writes, which has to be done."""
    status, text = text_by(write, room)
    if status != Status.DONE:
        raise Fault(name, status)
    return text


# The words for numbers, and the type of the number of each.
NAMES = {"status_name": c_uint32, "reply_name": c_uint8, "refusal_name": c_uint8, "level_name": c_uint8, "mode_name": c_uint8,
         "code_name": c_uint8, "repair_name": c_uint8, "command_name": c_uint8, "line_words": c_uint32, "cause_words": c_uint32, "nodes_words": c_uint32}


def words_of(library, table, number):
    """The words that one of NAMES has for a number below 256. None if it has none."""
    number = NAMES[table](within("number of a word", number))
    return text_by(lambda *to: getattr(library, f"lrc_embed_{table}")(number, *to))[1]


def fields_of(library, kind):
    """The numbers that commands of a kind have, in the order of their lines."""
    fields, count = (c_uint8 * len(Field))(), c_size_t()
    status = library.lrc_embed_command_fields(c_uint8(within("kind", kind)), fields, c_size_t(len(fields)), ctypes.byref(count))
    if status != Status.DONE:
        raise Fault("command_fields", status)
    return [Field(field) for field in fields[:count.value]]


class BadLine(ValueError):
    """A line that no script may have: its `cause`, and the words for it."""

    def __init__(self, library, cause):
        super().__init__(words_of(library, "line_words", cause))
        self.cause = LineCause(cause)


def read_command(library, line):
    """The command of a line of a script, which may have its end. None if the line is empty or a comment; else a BadLine."""
    text, command, cause = line.removesuffix("\n").encode(), Command(), c_uint32()
    status = library.lrc_embed_read_command(text, c_size_t(len(text)), ctypes.byref(command), ctypes.byref(cause))
    if status == Status.BAD_LINE:
        raise BadLine(library, cause.value)
    return command if status == Status.DONE else None


def command_line(library, command):
    """The line of a command in a script, without its end."""
    return text_done("command_line", lambda *to: library.lrc_embed_command_line(ctypes.byref(command), *to))


def reply_text(library, reply):
    """What `lrcman run` prints of a reply."""
    return text_done("reply_text", lambda *to: library.lrc_embed_reply_text(ctypes.byref(reply), *to))


def recipe_of(library, code, missing, fragment):
    """The recipe of a fragment of a stripe where a set of fragments is missing. None if what is not missing does not determine
    the fragment."""
    recipe = Recipe()
    numbers = c_uint8(within("code", code)), c_uint16(within("set of fragments", missing)), c_uint8(within("fragment", fragment))
    status = library.lrc_embed_recipe_of(*numbers, ctypes.byref(recipe))
    if status not in (Status.DONE, Status.UNDETERMINED):
        raise Fault("recipe_of", status)
    return recipe if status == Status.DONE else None


def matrix(library, code):
    """The generator matrix of a code: the row of each fragment."""
    rows, length = (c_uint8 * (FRAGMENTS * 12))(), c_size_t()
    status = library.lrc_embed_matrix(c_uint8(within("code", code)), rows, c_size_t(len(rows)), ctypes.byref(length))
    if status != Status.DONE:
        raise Fault("matrix", status)
    width = 12 if code == Code.WIDE else 6
    return [bytes(rows[at:at + width]) for at in range(0, length.value, width)]


def buffers_of(kind, buffers):
    """Buffers as C takes them, and what keeps them where they are."""
    kept = [(c_uint8 * len(data)).from_buffer_copy(data) for data in buffers]
    return (kind * len(kept))(*(kind(ctypes.addressof(data), len(data)) for data in kept)), kept


def encode(library, code, data):
    """The four parities of a stripe, of its data fragments in order."""
    read, kept = buffers_of(Bytes, data)
    written, parities = buffers_of(Buffer, [bytes(len(data[0]) if data else 0)] * 4)
    status = library.lrc_embed_encode(c_uint8(within("code", code)), read, c_size_t(len(kept)), written, c_size_t(4))
    if status != Status.DONE:
        raise Fault("encode", status)
    return [bytes(parity) for parity in parities]


def rebuild(library, recipe, fragments):
    """The bytes of the fragment that a recipe rebuilds. `fragments` has the stripe's fragments by number, and None or nothing for
    those that are not read."""
    read, kept = buffers_of(Bytes, [data or b"" for data in fragments])
    length = max((len(fragments[source] or b"") for source in recipe.sources() if source < len(kept)), default=0)
    rebuilt = (c_uint8 * length)()
    status = library.lrc_embed_rebuild(ctypes.byref(recipe), read, c_size_t(len(kept)), rebuilt, c_size_t(length))
    if status != Status.DONE:
        raise Fault("rebuild", status)
    return bytes(rebuilt)


class OtherVersion(RuntimeError):
    """The library is not the one that this module is for."""


def load(path=None):
    """The shared library of a path; without one that of this module's version, as the system's loader finds it by its name."""
    return ctypes.CDLL(path or f"liblrc_embed.so.{VERSION}")


def expect_version(library):
    """The library has to have the interface of this module: with another one, structs and calls may mean something else."""
    found = library.lrc_embed_version()
    if found != VERSION:
        raise OtherVersion(f"the library has version {found} of its interface, and this module is for version {VERSION}")


def rules_version(library):
    """The version of the library's rules, which is kept with each log and each image."""
    return library.lrc_embed_rules_version()


class Book:
    """A book over the nodes of a text, after the calls of a log: a sequence of entries, or their bytes. It begins in the image
    of a text, if there is one, and else empty. One thread at a time may use it. It is closed at the end of a `with`, by
    `close`, or when nothing refers to it any more."""

    def __init__(self, library, nodes, log=(), image=None):
        expect_version(library)
        self.library, self.handle = library, Handle()
        # A closed handle stays closed, so this may come again. At the end of the program its memory goes anyway.
        self.finalizer = weakref.finalize(self, library.lrc_embed_close, ctypes.byref(self.handle))
        self.finalizer.atexit = False
        if image is None:
            self.open(nodes)
        else:
            self.open_image(nodes, image)
        self.replay(log)

    def open(self, nodes):
        detail = c_size_t()
        self.done("open", *text_of(nodes), ctypes.byref(detail), where=detail)

    def open_image(self, nodes, image):
        detail, cause = c_size_t(), c_uint32()
        texts = *text_of(nodes), *text_of(image)
        self.done("open_image", *texts, ctypes.byref(detail), ctypes.byref(cause), where=detail, why=cause)

    def status_of(self, name, *given):
        """Makes a call, and returns its status."""
        return getattr(self.library, f"lrc_embed_{name}")(ctypes.byref(self.handle), *given)

    def done(self, name, *given, where=None, why=None):
        """Makes a call, which has to be done."""
        status = self.status_of(name, *given)
        if status != Status.DONE:
            raise Fault(name, status, None if where is None else where.value, None if why is None else why.value)

    def result_of(self, name, result, *given):
        """Makes a call, and returns the result that it wrote; None if it is unknown."""
        status = self.status_of(name, *given, ctypes.byref(result))
        if status == Status.UNKNOWN:
            return None
        if status != Status.DONE:
            raise Fault(name, status)
        return result

    def replay(self, log):
        """Repeats the calls of saved entries after those that the book has. The log is a sequence of entries, or the bytes of
        whole entries, which is faster. A long log is replayed in pieces. A fault has the position in this piece, and closes
        the book."""
        data = b"".join(log) if isinstance(log, (list, tuple)) else log
        count, rest = divmod(memoryview(data).nbytes, ctypes.sizeof(Entry))
        if rest:
            raise ValueError(f"the log has {rest} bytes after its last whole entry of {ctypes.sizeof(Entry)}")
        position = c_size_t()
        entries = (Entry * count).from_buffer_copy(data)
        self.done("replay", entries, c_size_t(count), ctypes.byref(position), where=position)

    def call(self, session, command):
        return self.result_of("call", Reply(), c_uint8(within("session", session)), ctypes.byref(command))

    def call_entry(self, session, command):
        """Makes a call, and returns its entry."""
        return self.result_of("call_entry", Entry(), c_uint8(within("session", session)), ctypes.byref(command))

    def call_changes(self, session, command, room=FRAGMENTS):
        """Makes a call, and returns its entry and a row for each fragment whose home or lease it changed. `room` is for so many rows
        at first; a call that needs more is not made, and is asked for again with as many."""
        entry, count = Entry(), c_size_t()
        while True:
            rows = (Change * room)()
            status = Status(self.status_of("call_changes", c_uint8(within("session", session)), ctypes.byref(command), ctypes.byref(entry),
                                           rows, c_size_t(room), ctypes.byref(count)))
            if status == Status.DONE:
                return entry, rows[:count.value]
            if status != Status.SHORT:
                raise Fault("call_changes", status)
            room = count.value

    def calls(self, asked):
        """Makes calls, each a pair of session and command, one after the other, and returns their entries, and the status: done,
        or why the first call that could not be made is not. The entries are those of the calls before it, which stay made."""
        entries, made = (Entry * len(asked))(), c_size_t()
        for entry, (session, command) in zip(entries, asked):
            entry.session, entry.command = session, command
        status = Status(self.status_of("calls", entries, c_size_t(len(entries)), ctypes.byref(made)))
        if status == Status.IS_CLOSED:
            raise Fault("calls", status)
        return entries[:made.value], status

    def call_at(self, place, session, command):
        """The same, if the store has made `place` entries so far; else a fault, with the status MOVED."""
        numbers = c_uint64(within("place", place)), c_uint8(within("session", session))
        return self.result_of("call_at", Reply(), *numbers, ctypes.byref(command))

    def peek(self, session, command):
        """The reply that a call would get now. The book stays as it is."""
        return self.result_of("peek", Reply(), c_uint8(within("session", session)), ctypes.byref(command))

    def peek_entry(self, session, command):
        """The entry that a call would add now. The book stays as it is."""
        return self.result_of("peek_entry", Entry(), c_uint8(within("session", session)), ctypes.byref(command))

    def homes(self, stripe):
        return self.result_of("homes", Homes(), c_uint16(within("stripe", stripe)))

    def level(self, stripe):
        return self.result_of("level", Level(), c_uint16(within("stripe", stripe)))

    def missing(self, stripe):
        return self.result_of("missing", c_uint16(), c_uint16(within("stripe", stripe)))

    def code(self, stripe):
        return self.result_of("code", c_uint8(), c_uint16(within("stripe", stripe)))

    def lease(self, stripe, fragment):
        numbers = c_uint16(within("stripe", stripe)), c_uint8(within("fragment", fragment))
        return self.result_of("lease", Lease(), *numbers)

    def repair(self, stripe, fragment):
        """How a fragment that needs a lease is rebuilt; None if it needs none."""
        numbers = c_uint16(within("stripe", stripe)), c_uint8(within("fragment", fragment))
        return self.result_of("repair", RepairPlan(), *numbers)

    def recipe(self, stripe, fragment):
        """How the fragment of a live lease is rebuilt from what is not missing now; None if it has no live lease. If what is not
        missing does not determine it, a fault with the status UNDETERMINED."""
        numbers = c_uint16(within("stripe", stripe)), c_uint8(within("fragment", fragment))
        return self.result_of("recipe", Recipe(), *numbers)

    def load(self, node):
        return self.result_of("load", c_uint32(), c_uint16(within("node", node)))

    def mode(self, node):
        return self.result_of("mode", Mode(), c_uint16(within("node", node)))

    def is_down(self, node):
        return self.result_of("is_down", c_uint8(), c_uint16(within("node", node)))

    def upgrading(self):
        """The upgrade domain that is upgrading; None if none is."""
        return self.result_of("upgrading", c_uint8())

    def risk(self):
        rows, count = (Risk * STRIPES)(), c_size_t()
        self.done("risk", rows, c_size_t(STRIPES), ctypes.byref(count))
        return rows[:count.value]

    def first_risk(self):
        return self.result_of("first_risk", Risk())

    def walk(self, name, row, room, start, after):
        """All rows of a table, a buffer of `room` rows at a time. `after` is the place to go on from after a row."""
        place = start
        while True:
            rows, count = (row * room)(), c_size_t()
            self.done(name, *place, rows, c_size_t(room), ctypes.byref(count))
            yield from rows[:count.value]
            if count.value < room:
                return
            place = after(place, rows[room - 1])

    def stripes(self, room=256):
        """The stripes of the store, in rising order."""
        return self.walk("stripes", Stripe, room, (c_uint16(0),), lambda _, row: (c_uint16(row.stripe + 1),))

    def nodes(self, room=256):
        """The nodes, in the order of the text."""
        return self.walk("nodes", Node, room, (c_size_t(0),), lambda place, _: (c_size_t(place[0].value + room),))

    def leases(self, room=256):
        """The live leases, in rising order of stripe and fragment."""
        return self.walk("leases", Lease, room, (c_uint16(0), c_uint8(0)), behind)

    def homes_on(self, node, room=256):
        """The fragments with a home on a node, in rising order of stripe and fragment."""
        number = c_uint16(within("node", node))
        return self.walk("homes_on", Fragment, room, (number, c_uint16(0), c_uint8(0)),
                         lambda place, row: (place[0], *behind(place, row)))

    def entries(self, place=None, room=256):
        """The entries of the store from a place on, which is the number of those before it; by default all that the book has.
        Where the book forgets them first, a fault with the status FORGOTTEN."""
        first = (c_uint64(self.before() if place is None else within("place", place)),)
        return self.walk("entries", Entry, room, first, lambda place, _: (c_uint64(place[0].value + room),))

    def forecast(self, outage, nodes):
        """The stripes that would not be whole after an outage of these nodes, and whether none is harmed."""
        rows, count, is_safe = (Outlook * STRIPES)(), c_size_t(), c_uint8()
        numbers = (c_uint16 * len(nodes))(*(within("node", node) for node in nodes))
        self.done("forecast", c_uint8(within("outage", outage)), numbers, c_size_t(len(nodes)), rows, c_size_t(STRIPES),
                  ctypes.byref(count), ctypes.byref(is_safe))
        return rows[:count.value], is_safe.value == 1

    def clock(self):
        return self.result_of("clock", c_uint32()).value

    def count(self):
        return self.result_of("count", c_size_t()).value

    def before(self):
        """The number of entries of the store before the history."""
        return self.result_of("before", c_uint64()).value

    def forget(self):
        """Forgets the entries, which the log has. All looks but those at the history return what they returned before."""
        self.done("forget")

    def image(self):
        """The text of the image of the state, in which a book can begin."""
        return self.text("image", room=IMAGE_ROOM)

    def text(self, name, *given, more=(), room=65536):
        """The text that a call writes."""
        return text_done(name, lambda *to: self.status_of(name, *given, *to, *more), room)

    def show(self, view):
        """A table of the book, as `lrcman show` prints it."""
        return self.text("show", c_uint8(within("view", view)), room=TABLE_ROOM)

    def forecast_table(self, outage, nodes):
        """The table of a forecast, as `lrcman may-stop` or `may-lose` prints it, and whether no stripe is harmed."""
        is_safe, numbers = c_uint8(), (c_uint16 * len(nodes))(*(within("node", node) for node in nodes))
        given = c_uint8(within("outage", outage)), numbers, c_size_t(len(nodes))
        return self.text("forecast_table", *given, more=(ctypes.byref(is_safe),)), is_safe.value == 1

    def reply_line(self, index):
        """The line that `lrcman run` prints of the entry at an index; None if there is no such entry."""
        try:
            return self.text("reply_line", c_size_t(within("index", index)), room=256)
        except Fault as fault:
            if fault.status != Status.UNKNOWN:
                raise
            return None

    def entry(self, index):
        return self.result_of("entry", Entry(), c_size_t(within("index", index)))

    def close(self):
        self.finalizer()

    def __enter__(self):
        return self

    def __exit__(self, *_):
        self.close()


class PartOfPair(Book):
    """A book that stands in a pair, with an end of a feed. What is made of it calls the library for the pair too."""

    def __init__(self, library, pair):  # pylint: disable=super-init-not-called
        self.library, self.pair, self.handle = library, pair, pair.book
        self.finalizer = weakref.finalize(self, self.closer(library, pair))
        self.finalizer.atexit = False

    def of_pair(self, name, *given):
        """Makes a call that takes the pair, which has to be done."""
        status = getattr(self.library, f"lrc_embed_{name}")(ctypes.byref(self.pair), *given)
        if status != Status.DONE:
            raise Fault(name, status)


class PublishedBook(PartOfPair):
    """The book of another one, which is closed then, with viewers. One thread at a time may use it."""

    def __init__(self, book):
        pair = Published()
        book.done("publish", ctypes.byref(pair))
        super().__init__(book.library, pair)

    @staticmethod
    def closer(library, pair):
        handle = Handle()

        def close():
            library.lrc_embed_unpublish(ctypes.byref(pair), ctypes.byref(handle))
            library.lrc_embed_close(ctypes.byref(handle))
        return close

    def call(self, session, command):
        """Makes a call. Whoever looks at a viewer after it sees it."""
        reply = Reply()
        self.of_pair("call_published", c_uint8(within("session", session)), ctypes.byref(command), ctypes.byref(reply))
        return reply

    def view(self, nodes):
        """A viewer, over the text of the nodes of the book."""
        pair = Viewer()
        self.of_pair("view", *text_of(nodes), ctypes.byref(pair))
        return ViewerBook(self.library, pair)


class ViewerBook(PartOfPair):
    """A viewer of a published book: a book of its own that follows the other, for looks of any kind. One thread at a time may use
    it, beside the threads of the published book and of other viewers."""

    @staticmethod
    def closer(library, pair):
        return lambda: library.lrc_embed_close_viewer(ctypes.byref(pair))

    def follow(self):
        """Makes the calls of the published book that it has not made yet. Returns the place: how many entries of the store it
        follows from; and whether the book is still published."""
        place, is_published = c_uint64(), c_uint8()
        self.of_pair("follow", ctypes.byref(place), ctypes.byref(is_published))
        return place.value, is_published.value == 1
