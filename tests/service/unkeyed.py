"""A caller without keys: each of its calls is made once or not at all, as it was told.

Each command is unlike any other, a report of an epoch that nobody was granted. The rules refuse it, and that is an entry all the
same. So the log of a book says of each command how often it was made."""
from collections import Counter, namedtuple

from tests.service.clients import Client, Told
from tests.service.cluster import Asker

# A call as its client knows it. The status is 0 where there was no answer.
Asked = namedtuple("Asked", "book command status n")
FIRST = 1_000_000  # epochs below are those of other callers


class Unkeyed(Client):
    """Makes one call after the other at any member, and none of them twice."""

    def __init__(self, group, number, books, pace):
        super().__init__(group, f"unkeyed {number}")
        self.number, self.books, self.pace, self.asked, self.told = number, books, pace, [], []

    def work(self):
        asker, port = Asker(12, self.group.token), self.port()
        while not self.is_over.is_set():
            book, epoch = self.random.choice(self.books), FIRST * self.number + len(self.asked)
            command, begun = f"done {self.random.randrange(40)} {self.random.randrange(16)} {epoch}", self.now()
            status, told = asker.json(port, "POST", f"/books/{book}/call", {"session": 8, "command": command})
            self.asked.append(Asked(book, command, status, told.get("n")))
            if status == 200:
                self.told.append(Told(f"unkeyed {self.number}", book, command, 8, "", command, told["n"], told["reply"], "", begun, self.now()))
            else:
                port = self.port()
            self.is_over.wait(self.random.uniform(0, 2 * self.pace))


def is_unkeyed(command):
    words = command.split(" ")
    return words[0] == "done" and int(words[3]) >= FIRST


def unkeyed_faults(logs, asked):
    """What was told 200 stands in its log once; what was told 503 or 429, nowhere; what nobody knows, once at most."""
    made = Counter((book, entry.command) for book, log in logs.items() for entry in log if entry and is_unkeyed(entry.command))
    for it in asked:
        times = made[it.book, it.command]
        if it.status == 200 and times != 1 or it.status in (429, 503) and times != 0 or times > 1:
            yield f"{it.book}: {it.command} without a key was told {it.status}, and was made {times} times"
    strange = set(made) - {(it.book, it.command) for it in asked}
    yield from (f"{book}: {command} was made, and nobody asked for it" for book, command in strange)
