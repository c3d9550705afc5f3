#!/usr/bin/env python3
"""A store over SQLite: each entry is committed before anybody sees its reply.

Usage: store.py DATABASE LIBRARY NODES [ENTRIES], where LIBRARY is liblrc_embed.so and NODES a file with the text of the nodes

It makes the database, or goes on with the one that is there, and prints `ready N` after N entries. Then each line of its
input is a request, `TOKEN SESSION COMMAND`, and gets a line: `TOKEN NUMBER REPLY` once its entry is durable, or
`TOKEN not kept: WHY` if the log failed. `TOKEN generation STRIPE` gets `TOKEN NUMBER`, of the entry that placed the stripe, or
`TOKEN none`. A request that comes again with its token gets the reply that it got, so whoever does not know what became of a
request sends it again. The log is cut by an image after each so many entries (100,000): a token is known for as many entries at
least."""
import ctypes
import os
import sqlite3
import sys
import zlib

sys.dont_write_bytecode = True
sys.path.append(os.path.join(os.path.dirname(os.path.abspath(__file__)), os.pardir))
from commands import lrc_embed, refusal_of, request_of

PIECE = 10_000  # the most records that are replayed at a time
ENTRIES = 100_000  # from image to image

TABLES = """
CREATE TABLE IF NOT EXISTS store (nodes TEXT NOT NULL, rules INTEGER NOT NULL);
CREATE TABLE IF NOT EXISTS log (
    number INTEGER PRIMARY KEY,
    token TEXT NOT NULL UNIQUE,
    entry BLOB NOT NULL CHECK (length(entry) = 128),
    checksum INTEGER NOT NULL
);
CREATE TABLE IF NOT EXISTS stripe (stripe INTEGER PRIMARY KEY, generation INTEGER NOT NULL);
CREATE TABLE IF NOT EXISTS image (number INTEGER PRIMARY KEY, text TEXT NOT NULL, checksum INTEGER NOT NULL);
"""


class Damaged(Exception):
    """The log is not the one that was written."""


class Store:
    def __init__(self, path, library, nodes, entries=ENTRIES):
        self.library, self.nodes, self.entries, self.book = library, nodes, entries, None
        self.database = sqlite3.connect(path, isolation_level=None)
        # One process decides: a second one finds the database locked. FULL waits for the disk at each commit.
        for pragma in ("locking_mode = EXCLUSIVE", "journal_mode = WAL", "synchronous = FULL"):
            self.database.execute(f"PRAGMA {pragma}")
        self.database.executescript(TABLES)
        mine = nodes, lrc_embed.rules_version(library)
        self.database.execute("INSERT INTO store SELECT ?, ? WHERE NOT EXISTS (SELECT * FROM store)", mine)
        (kept, rules), = self.database.execute("SELECT nodes, rules FROM store").fetchall()
        if why := refusal_of(rules, library) or ("the store has other nodes" if kept != nodes else None):
            raise Damaged(why)
        self.begin()

    def newest_image(self):
        """The newest image that is whole, and its number; 0 and None if there is none."""
        for number, text, checksum in self.database.execute("SELECT * FROM image ORDER BY number DESC"):
            if zlib.crc32(text.encode()) == checksum:
                return number, text
        return 0, None

    def begin(self):
        """Makes a new book from the newest image and the log after it alone."""
        if self.book is not None:
            self.book.close()
        self.last_image, image = self.newest_image()
        self.next_image = self.last_image + self.entries
        self.book = lrc_embed.Book(self.library, self.nodes, image=image)
        while records := self.database.execute(
                "SELECT number, entry, checksum FROM log WHERE number > ? ORDER BY number LIMIT ?",
                (self.count(), PIECE)).fetchall():
            for expected, (number, entry, checksum) in enumerate(records, self.count() + 1):
                if number != expected or zlib.crc32(entry) != checksum:
                    raise Damaged(f"record {expected} is missing or damaged")
            self.book.replay(b"".join(entry for _, entry, _ in records))
            self.forget_in_time()

    def count(self):
        """The number of entries of the store."""
        return self.book.before() + self.book.count()

    def forget_in_time(self):
        """Forgets the entries, which the log has, long before the history is full."""
        if self.book.count() >= lrc_embed.HISTORY_LIMIT // 2:
            self.book.forget()

    def call(self, token, session, command):
        """Makes a call. Returns the number of its entry and its reply, once the entry is durable. If the log fails,
        sqlite3.Error: the call has happened if the log has it, and not else."""
        kept = self.database.execute("SELECT number, entry FROM log WHERE token = ?", (token,)).fetchone()
        if kept is not None:
            number, entry = kept
            return number, lrc_embed.Entry.from_buffer_copy(entry).reply
        made = self.book.call_entry(session, command)
        number, reply, entry = self.count(), made.reply, bytes(made)
        try:
            with self.database:
                self.database.execute("BEGIN")
                self.database.execute("INSERT INTO log VALUES (?, ?, ?, ?)", (number, token, entry, zlib.crc32(entry)))
                self.follow(number, command.stripe, reply)
        except sqlite3.Error:
            self.begin()  # the book is ahead of its log
            raise
        if number >= self.next_image:
            self.cut(number)
        self.forget_in_time()
        return number, reply

    def follow(self, number, stripe, reply):
        """Keeps which entry placed each stripe, which is its generation: a stripe that is placed again under its number is another
        one. This stays where the log is cut."""
        if reply.kind in (lrc_embed.ReplyKind.PLACED, lrc_embed.ReplyKind.PLACED6):
            self.database.execute("INSERT INTO stripe VALUES (?, ?)", (stripe, number))
        elif reply.kind == lrc_embed.ReplyKind.DROPPED:
            self.database.execute("DELETE FROM stripe WHERE stripe = ?", (stripe,))

    def generation(self, stripe):
        """The number of the entry that placed a stripe; None if there is no such stripe."""
        row = self.database.execute("SELECT generation FROM stripe WHERE stripe = ?", (stripe,)).fetchone()
        return row and row[0]

    def cut(self, number):
        """Cuts the log by an image after its last entry. The image before is kept, and the log from there. If the disk is full,
        all stays as it is for now."""
        self.next_image, text = number + self.entries, self.book.image()
        try:
            with self.database:
                self.database.execute("BEGIN")
                self.database.execute("INSERT INTO image VALUES (?, ?, ?)", (number, text, zlib.crc32(text.encode())))
                self.database.execute("DELETE FROM image WHERE number < ?", (self.last_image,))
                self.database.execute("DELETE FROM log WHERE number <= ?", (self.last_image,))
            self.last_image = number
        except sqlite3.Error as why:
            print("store: no image:", why, file=sys.stderr)


def main(path, library, nodes, entries=ENTRIES):
    library = ctypes.CDLL(library)
    lrc_embed.expect_version(library)
    with open(nodes, encoding="utf-8") as file:
        store = Store(path, library, file.read(), int(entries))
    print("ready", store.count(), flush=True)
    for line in sys.stdin:
        token, _, rest = line.rstrip("\n").partition(" ")
        try:
            if rest.startswith("generation "):
                print(token, store.generation(int(rest.removeprefix("generation "))) or "none", flush=True)
            else:
                token, session, command = request_of(library, line)
                number, reply = store.call(token, session, command)
                print(token, number, lrc_embed.reply_text(library, reply), flush=True)
        except ValueError as why:
            print("not a request:", why, flush=True)
        except sqlite3.Error as why:
            print(token, "not kept:", why, flush=True)


if __name__ == "__main__":
    if len(sys.argv) not in (4, 5):
        sys.exit(__doc__)
    try:
        main(*sys.argv[1:])
    except (Damaged, lrc_embed.Fault, lrc_embed.OtherVersion, sqlite3.Error) as why:
        sys.exit(f"store: {why}")
