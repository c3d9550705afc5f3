"""Scripts as they are written line by line: the only one of a bundle, with the replies of the rules, or one of several."""
import random

from tests.model.rules import FRAGMENTS
from tests.model.store import Store

UPGRADES = 16  # domains
SESSION = 1  # of every call of a bundle with one script
LAST = FRAGMENTS[-1]
LONGEST = "abandon 4095 15 9999999"  # a line that no other is longer than


class Full(Exception):
    """The script takes no more lines."""


class Lines:
    """The lines of a script so far, and the stripes and nodes that they are about: all, or of several scripts each an equal
    part. The first script alone upgrades domains."""

    def __init__(self, nodes, stripes, most_bytes, first=0, step=1):
        self.own_nodes, self.own_stripes = list(nodes)[first::step], range(first, stripes, step)
        self.own_domains = range(UPGRADES) if first == 0 else range(0)
        self.scripts = step
        self.random = random.Random()
        self.lines = []
        self.filled = None  # the number of lines that fill the store, once they do
        self.bytes_left = most_bytes
        self.lines_left = None  # as many as the bytes allow

    def add(self, line):
        if not self.has_room(line):
            raise Full
        self.bytes_left -= len(line) + 1
        if self.lines_left is not None:
            self.lines_left -= 1
        self.lines.append(line)

    def has_room(self, *lines):
        """Whether the script takes all these lines, or others as long."""
        needed = sum(len(line) + 1 for line in lines)
        return needed <= self.bytes_left and (self.lines_left is None or len(lines) <= self.lines_left)

    def expect_room(self, *lines):
        if not self.has_room(*lines):
            raise Full

    def node(self):
        return self.random.choice(self.own_nodes)

    def stripe(self):
        return self.random.choice(self.own_stripes)


class Part(Lines):
    """One of several scripts. What it is told depends on how they interleave, but most of it not much, since each has stripes and
    nodes of its own."""

    def say(self, line, reply):
        self.add(line)

    def call(self, line):
        self.add(line)


class Script(Lines):
    """The only script of a bundle, with the beginning of the reply to each command, and the store after them."""

    def __init__(self, nodes, stripes, most_bytes):
        super().__init__(nodes, stripes, most_bytes)
        self.nodes, self.store = nodes, Store(nodes)
        self.replies = []

    def say(self, line, reply):
        """Adds a command with the beginning of its reply."""
        self.add(line)
        self.replies.append(reply)

    def call(self, line):
        """Adds a command, and returns its reply."""
        self.add(line)
        self.replies.append(self.store.call(SESSION, line))
        return self.replies[-1]

    def lease_next(self):
        """Asks for the next lease, and returns its stripe, fragment and epoch, or None."""
        words = self.call("next").split(" ")
        if words[0] != "granted":
            return None
        key = int(words[1]), int(words[2])
        return *key, self.store.grants[key]
