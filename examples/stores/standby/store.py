#!/usr/bin/env python3
"""A primary and its standbys over PostgreSQL: the log is a table, and each process has a book of its own.

Usage: store.py begin CONNECTION LIBRARY NODES     makes the tables, for the nodes of a file and the rules of the library
       store.py run CONNECTION LIBRARY [ENTRIES [SECONDS]]    runs a standby, which leads when it can

CONNECTION is as libpq takes it, LIBRARY is liblrc_embed.so. A standby follows the log, and its book compares each reply with
the one that was kept. It leads once the primary's connection has gone, or nothing was seen of the primary for so many seconds
(2), or at the line `lead` of its input; then it prints `lead TERM COUNT`, its term and the number of entries. A primary answers
each line `TOKEN SESSION COMMAND` of its input with `TOKEN NUMBER REPLY`, once the entry is durable, and cuts the log by an
image after each so many entries (100,000). Any process answers `TOKEN look STRIPE` with `TOKEN NUMBER LEVEL MARGIN MISSING`:
what the stripe is after so many entries, which are all that anybody was told of before.

It ends with status 1 and a line on standard error when another process leads, when its connection has gone or is silent, or when
a reply differs. Then nobody knows what became of the last request: send it to the next primary under its token, and it gets the
reply that it got, or is made now."""
import ctypes
import os
import select
import sys
import time
import zlib

sys.dont_write_bytecode = True
HERE = os.path.dirname(os.path.abspath(__file__))
sys.path += [HERE, os.path.join(HERE, os.pardir)]
import pq
from commands import lrc_embed, refusal_of, request_of

LOCKS = 0x6C7263  # the first number of the advisory locks; the second is a term
PIECE = 10_000  # the most records that are replayed at a time
PAUSE = 0.005  # seconds between two looks at the log
ENTRIES, SECONDS = 100_000, 2  # entries from image to image, and how long a primary may be silent
BEATS = 8  # signs of life of a primary in that time

TABLES = (
    "CREATE TABLE lead (nodes text NOT NULL, rules int8 NOT NULL, term int8 NOT NULL)",
    """CREATE TABLE log (
        number int8 PRIMARY KEY,
        term int8 NOT NULL,
        token text NOT NULL UNIQUE,
        entry bytea NOT NULL CHECK (length(entry) = 128),
        checksum int8 NOT NULL
    )""",
    "CREATE TABLE image (number int8 PRIMARY KEY, text text NOT NULL, checksum int8 NOT NULL)",
    # A sign of life waits for no disk, and is lost if the server ends.
    "CREATE UNLOGGED TABLE beat (term int8 PRIMARY KEY, count int8 NOT NULL)",
)

# An image, and the number of the one before. It is one command: a primary that is cut off leaves no half of it, and no lock. One
# that comes late, from an old primary, does no harm: the image is right, and newer ones stay.
CUT = """WITH made AS (INSERT INTO image VALUES ($1, $2, $3) ON CONFLICT DO NOTHING),
    older AS (DELETE FROM image WHERE number < $4)
    DELETE FROM log WHERE number <= $4"""


class Ended(Exception):
    """This process may not go on; the text says why."""


def begin(connection, library, nodes):
    for table in TABLES:
        connection.rows(table)
    connection.rows("INSERT INTO lead VALUES ($1, $2, 0)", nodes, lrc_embed.rules_version(library))


class Replica:
    def __init__(self, connection, library, entries=ENTRIES, seconds=SECONDS):
        self.connection, self.library, self.entries, self.seconds = connection, library, entries, seconds
        (self.nodes, rules), = connection.rows("SELECT nodes, rules FROM lead")
        if why := refusal_of(rules, library):
            raise Ended(why)
        self.book = None
        self.begin(*self.newest_image())
        self.term = None  # the term in which this process leads
        self.seen, self.seen_at, self.beat_at = None, 0, 0

    def newest_image(self):
        """The newest image that is whole, and its number; 0 and None if there is none."""
        for number, text, checksum in self.connection.rows("SELECT number, text, checksum FROM image ORDER BY number DESC"):
            if zlib.crc32(text.encode()) == checksum:
                return number, text
        return 0, None

    def begin(self, number, image):
        """Makes a new book, in an image or in none."""
        if self.book is not None:
            self.book.close()
        self.book, self.last_image = lrc_embed.Book(self.library, self.nodes, image=image), number

    def count(self):
        """The number of entries that the book has."""
        return self.book.before() + self.book.count()

    def last_number(self):
        """The number of the last entry of the log. When it is cut, some entries stay."""
        (number,), = self.connection.rows("SELECT coalesce(max(number), 0) FROM log")
        return number

    def catch_up(self):
        """Replays the entries of the log that the book does not have. The book compares each reply. Where the log was cut before
        this process has seen all of it, the book begins again in the image. A log that ends before the book has lost entries, as
        when PostgreSQL fails over without what it told."""
        if (last := self.last_number()) < self.count():
            raise Ended(f"the log ends at {last}, and the book has {self.count()} entries")
        while records := self.connection.rows(
                "SELECT number, entry, checksum FROM log WHERE number > $1 ORDER BY number LIMIT $2", self.count(), PIECE):
            if records[0][0] > self.count() + 1:
                number, image = self.newest_image()
                if number > self.count():
                    self.begin(number, image)
                    continue
            for expected, (number, entry, checksum) in enumerate(records, self.count() + 1):
                if number != expected or zlib.crc32(entry) != checksum:
                    raise Ended(f"record {expected} is missing or damaged")
            before = self.count()
            try:
                self.book.replay(b"".join(entry for _, entry, _ in records))
            except lrc_embed.Fault as fault:
                raise Ended(f"entry {before + fault.position + 1}: {fault.status.name.lower()}") from None
            self.forget_in_time()

    def forget_in_time(self):
        """Forgets the entries, which the log has, long before the history is full."""
        if self.book.count() >= lrc_embed.HISTORY_LIMIT // 2:
            self.book.forget()

    def is_silent(self):
        """Whether nothing has changed for too long by this process's own clock: neither the term, nor the beats of its primary,
        nor the log. A primary whose network is cut keeps its connection, for all that the server knows."""
        rows = self.connection.rows("SELECT term, (SELECT count FROM beat WHERE beat.term = lead.term) FROM lead")
        now, seen = time.monotonic(), (rows, self.count())
        if seen != self.seen:
            self.seen, self.seen_at = seen, now
        return now - self.seen_at >= self.seconds

    def beat(self):
        """Tells the standbys now and then that this primary is there."""
        if time.monotonic() - self.beat_at < self.seconds / BEATS:
            return
        if not self.connection.rows("INSERT INTO beat SELECT term, 1 FROM lead WHERE term = $1"
                                    " ON CONFLICT (term) DO UPDATE SET count = beat.count + 1 RETURNING count", self.term):
            raise Ended(f"another process leads: term {self.term} is over")
        self.beat_at = time.monotonic()

    def tries_to_lead(self, at_once):
        """Tries to begin a term: `at_once`, or if the connection of the primary has gone, which held the lock of its term.
        From then on no append of an earlier term is taken, so an old primary that still runs does no harm."""
        (seen,), = self.connection.rows("SELECT term FROM lead")
        if not at_once:
            (is_gone,), = self.connection.rows("SELECT pg_try_advisory_lock($1::int4, $2::int4)", LOCKS, seen)
            if not is_gone:
                return False
        # One command, so that nobody sees the term before its lock is held.
        began = self.connection.rows("UPDATE lead SET term = term + 1 WHERE term = $1 AND pg_try_advisory_lock($2::int4,"
                                     " ($1 + 1)::int4) RETURNING term", seen, LOCKS)
        if not at_once:
            self.connection.rows("SELECT pg_advisory_unlock($1::int4, $2::int4)", LOCKS, seen)
        if not began:
            return False
        (self.term,), = began
        self.catch_up()
        self.last_image, _ = self.newest_image()
        return True

    def append(self, number, token, entry):
        """Appends an entry as the one with this number. The row of the term is locked until the commit, so that a new term
        begins before the append, which then finds none, or after it, and then has it."""
        try:
            kept = self.connection.rows(
                "INSERT INTO log SELECT $1, term, $2, $3, $4 FROM lead WHERE term = $5 AND $1 = (SELECT coalesce(max(number), 0)"
                " FROM log) + 1 FOR SHARE RETURNING number", number, token, entry, zlib.crc32(entry), self.term)
        except pq.Error as error:
            raise Ended("the log is another one" if error.state == pq.UNIQUE_VIOLATION else f"{error}") from None
        if not kept:
            (term,), = self.connection.rows("SELECT term FROM lead")
            raise Ended("the log is another one" if term == self.term else f"another process leads: term {self.term} is over")

    def call(self, token, session, command):
        """Makes a call. Returns the number of its entry and its reply, once the entry is durable. The entry is appended
        first, as a peek returns it, so the book is never ahead of the log."""
        if kept := self.connection.rows("SELECT number, entry FROM log WHERE token = $1", token):
            (number, entry), = kept
            return number, lrc_embed.Entry.from_buffer_copy(entry).reply
        entry, number = self.book.peek_entry(session, command), self.count() + 1
        self.append(number, token, bytes(entry))
        self.book.call_at(number - 1, session, command)
        if number >= self.last_image + self.entries:
            self.cut(number)
        self.forget_in_time()
        return number, entry.reply

    def look(self, stripe):
        """The number of entries, and what a stripe is after them: its level and margin, and the set of its missing fragments.
        An entry is told after its commit, and whoever reads the log then finds it. So this is as new as all that was told before;
        that goes for a primary too, which may be an old one."""
        self.catch_up()
        level, missing = self.book.level(stripe), self.book.missing(stripe)
        if level is None:
            return self.count(), "none"
        kind = lrc_embed.LevelKind(level.kind)
        words = f"risk {level.margin}" if kind is kind.AT_RISK else f"{kind.name.lower()} -"
        return self.count(), f"{words} {missing.value:04x}"

    def cut(self, number):
        """Cuts the log by an image after its last entry. The image before is kept, and the log from there."""
        text = self.book.image()
        self.connection.rows(CUT, number, text, zlib.crc32(text.encode()), self.last_image)
        self.last_image = number


def lines_of_input():
    """The lines of standard input as they come; None where there is none for a while, and at its end no more."""
    rest = b""
    while True:
        while b"\n" in rest:
            line, _, rest = rest.partition(b"\n")
            yield line.decode()
        if select.select([sys.stdin], [], [], PAUSE)[0]:
            more = os.read(sys.stdin.fileno(), 65536)
            if not more:
                return
            rest += more
        else:
            yield None


def answer(replica, line):
    """The answer to a request, or to a look."""
    token, _, rest = line.partition(" ")
    if rest.startswith("look "):
        number, text = replica.look(int(rest.removeprefix("look ")))
        return f"{token} {number} {text}"
    if replica.term is None:
        return f"{token} not leading"
    token, session, command = request_of(replica.library, line)
    number, reply = replica.call(token, session, command)
    return f"{token} {number} {lrc_embed.reply_text(replica.library, reply)}"


def run(replica):
    replica.catch_up()
    for line in lines_of_input():
        if replica.term is not None:
            replica.beat()
        else:
            replica.catch_up()
            if replica.tries_to_lead(at_once=replica.is_silent() or line == "lead"):
                print("lead", replica.term, replica.count(), flush=True)
                line = None if line == "lead" else line
        if line is not None:
            try:
                print(answer(replica, line), flush=True)
            except ValueError as why:
                print("not a request:", why, flush=True)


def main(order, words, path, *rest):
    library = ctypes.CDLL(path)
    lrc_embed.expect_version(library)
    if order == "begin":
        with open(rest[0], encoding="utf-8") as file:
            begin(pq.Connection(words), library, file.read())
    else:
        entries, seconds = int(rest[0]) if rest else ENTRIES, float(rest[1]) if rest[1:] else SECONDS
        run(Replica(pq.Connection(words, limit=2 * seconds), library, entries, seconds))


if __name__ == "__main__":
    if (sys.argv[1:2], len(sys.argv)) not in ((["begin"], 5), (["run"], 4), (["run"], 5), (["run"], 6)):
        sys.exit(__doc__)
    try:
        main(*sys.argv[1:])
    except (Ended, lrc_embed.Fault, lrc_embed.OtherVersion, pq.Error) as why:
        sys.exit(f"store: {why}")
