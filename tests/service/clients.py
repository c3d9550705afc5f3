"""Clients of lrcmand: callers who ask again until they are told, lookers, and readers of the books' logs."""
import http.client
import json
import random
import threading
import time
from collections import namedtuple

from tests.service.cluster import Asker

# A call as its client knows it; the times are seconds of one clock.
Told = namedtuple("Told", "client book key session worker command n reply holder begun told")
# A look: `age` is in seconds, or None if it was asked for as of now.
Look = namedtuple("Look", "book n age asked")
Entry = namedtuple("Entry", "session command reply")


class Client(threading.Thread):
    """A thread that goes on until it is told to stop, and keeps why it failed."""

    def __init__(self, group, seed):
        super().__init__(daemon=True)
        self.group, self.random, self.is_over, self.fault = group, random.Random(seed), threading.Event(), None
        self.gives_up = False  # ends at once, and not only when it was told

    def run(self):
        try:
            self.work()
        except Exception as why:  # (the test reports it)
            self.fault = why

    def give_up(self):
        self.gives_up = True
        self.is_over.set()

    def port(self):
        return self.random.choice(self.group.ports())

    @staticmethod
    def now():
        return time.monotonic()


class Caller(Client):
    """A worker: it makes one call after the other, each with a key, and asks any member again until it is told."""

    def __init__(self, group, number, books, pace):
        super().__init__(group, f"caller {number}")
        self.number, self.books, self.pace = number, books, pace
        self.told, self.again, self.asked = [], 0, 0
        self.session, self.worker = number % 8 + 1, f"w{number}" if number % 3 else ""
        self.held = {}  # the leases that this one was granted, by book
        self.mine = None

    def work(self):
        asker = Asker(2, self.group.token)
        self.mine = self.port()
        while not self.is_over.is_set():
            book = self.random.choice(self.books)
            self.call(asker, book, self.command(book))
            time.sleep(self.random.uniform(0, 2 * self.pace))

    def command(self, book):
        held = self.held.setdefault(book, [])
        if held and self.random.random() < 0.5:
            stripe, fragment, epoch = held.pop(self.random.randrange(len(held)))
            return f"{self.random.choice(['done', 'done', 'done', 'abandon'])} {stripe} {fragment} {epoch}"
        stripe, fragment, node = self.random.randrange(40), self.random.randrange(16), self.random.randrange(24)
        words = ["next"] * 6 + [f"place {stripe}"] * 3 + [f"place6 {stripe}"] * 2 + [f"drop {stripe}", "tick"]
        words += [f"lease {stripe} {fragment}", f"revoke {stripe} {fragment}"]
        words += [f"done {stripe} {fragment} {self.random.randrange(1, 4)}"]
        words += [f"{word} {node}" for word in ("fail", "join", "join", "down", "up", "up", "drain", "undrain", "retire")]
        words += [f"{word} {self.random.randrange(10)}" for word in ("upgrade", "upgraded")]
        return self.random.choice(words)

    def since(self, asker):
        """The place in the log from which the next call may stand in it."""
        while not asker.index and not self.gives_up:
            status, told = asker.json(self.port(), "GET", "/status")
            asker.index = told["applied"] if status == 200 else 0
        return asker.index

    def call(self, asker, book, command):
        self.asked += 1
        key, begun = f"{self.number}-{self.asked}", time.monotonic()
        body = {"session": self.session, "command": command, "key": key, "worker": self.worker, "since": self.since(asker)}
        is_unknown = False  # whether a try had no answer that tells how it ended
        while True:  # (also after the end: what was asked has to be told)
            status, told = asker.json(self.mine, "POST", f"/books/{book}/call", body)
            if status == 200:
                break
            if status == 409 and told.get("code") == "key_forgotten" and not is_unknown:
                body["since"] = asker.index  # (nothing was made of any try)
            elif 400 <= status < 500 and status != 429:
                raise RuntimeError(f"{command} in {book}: {told}")
            is_unknown = is_unknown or status in (0, 504)
            self.mine = self.port()
            time.sleep(0.01)
            if self.gives_up:
                return
            if time.monotonic() - begun > 60:
                raise RuntimeError(f"{command} in {book} is not told in a minute")
        self.again += told.get("again", False)
        if told["kind"] == "granted":
            self.held[book].append((told["stripe"], told["fragment"], told["epoch"]))
        answer = told.get("n", 0), told["reply"], told.get("holder", "")
        self.told.append(Told(self.number, book, key, self.session, self.worker, command, *answer, begun, time.monotonic()))


# The looks at a book, by their paths below it.
LOOKS = ["", "/show/leases", "/show/stripes", "/show/nodes", "/show/work", "/show/fragments", "/show/domains-fault", "/show/health",
         "/show/stripes?format=csv", "/image", "/nodes", "/workers", "/peek?command=next", "/may-stop?node=3", "/may-lose?fault=2"]


class Looker(Client):
    """Looks at any member without a pause, by every route, in turn as of now and as old as may be."""

    def __init__(self, group, number, books):
        super().__init__(group, f"looker {number}")
        self.books, self.looks, self.failed = books, [], 0

    def work(self):
        asker, is_now = Asker(8, self.group.token), False
        while not self.is_over.is_set():
            is_now = not is_now
            if not (self.look_at_all(asker, is_now) if self.random.random() < 0.1 else self.look(asker, is_now)):
                self.failed += 1
                time.sleep(0.02)

    def look(self, asker, is_now):
        """A look at one book, whose headers tell how new it is."""
        book, path, asked = self.random.choice(self.books), self.random.choice(LOOKS), time.monotonic()
        now = f"{'&' if '?' in path else '?'}now=1" if is_now else ""
        status, headers, _ = asker.ask(self.port(), "GET", f"/books/{book}{path}{now}")
        if status != 200:
            return False
        self.note(book, int(headers["Lrcmand-Entries"]), int(headers["Lrcmand-Age-Ms"]), is_now, asked)
        return True

    def look_at_all(self, asker, is_now):
        """A look at the list of books."""
        asked = time.monotonic()
        status, told = asker.json(self.port(), "GET", f"/books{'?now=1' if is_now else ''}")
        for row in told.get("books", ()) if status == 200 else ():
            self.note(row["name"], row["n"], told["age_ms"], is_now, asked)
        return status == 200

    def note(self, book, n, age, is_now, asked):
        if is_now or age >= 0:
            self.looks.append(Look(book, n, None if is_now else age / 1000, asked))


class Reader(Client):
    """Reads the log of a book as a stream, from one member after the other, until it has an entry of a number. An entry that all
    members have forgotten, as each began in a snapshot behind it, is None."""

    FORGOTTEN = 30  # so many answers in a row that a place is forgotten: no member has it any more

    def __init__(self, group, book):
        super().__init__(group, f"reader {book}")
        self.book, self.entries, self.until, self.forgotten = book, [], None, 0

    def is_done(self):
        return self.until is not None and len(self.entries) >= self.until

    def work(self):
        while not self.is_done() and not self.is_over.is_set():
            connection = http.client.HTTPConnection("127.0.0.1", self.port(), timeout=1.5)
            try:
                headers = Asker(0, self.group.token).headers
                connection.request("GET", f"/books/{self.book}/log?follow=1&from={len(self.entries)}", headers=headers)
                answer = connection.getresponse()
                if answer.status == 410:
                    self.pass_over(json.loads(answer.read())["before"])
                while answer.status == 200 and not self.is_done() and self.take(answer.readline()):
                    pass
            except (OSError, http.client.HTTPException, ValueError):
                pass  # (a member that was killed, or stopped, or has nothing to tell)
            finally:
                connection.close()
            time.sleep(0.02)

    def pass_over(self, before):
        """A member has forgotten the entries up to a place. Another one may have them."""
        self.forgotten += 1
        if self.forgotten >= self.FORGOTTEN:
            self.entries += [None] * (before - len(self.entries))

    def take(self, line):
        self.forgotten = 0
        told = json.loads(line) if line.strip() else {}
        if "n" in told:
            if told["n"] != len(self.entries) + 1:
                raise RuntimeError(f"entry {told['n']} of {self.book} comes after {len(self.entries)}")
            self.entries.append(Entry(told["session"], told["command"], told["reply"]))
        return line.endswith(b"\n") and "error" not in told
