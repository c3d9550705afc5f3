"""Races between a book and the bytes on disks: the page of examples/stores/races, drawn histories with workers that are late, and a
replica that is refused memory."""
import ctypes
import os
import random
import re
import shutil
import subprocess
import sys

from tests import harness
from tests.harness import CC
from tests.library.library import command_of, lrc_embed
from tests.stores.store_requests import INCLUDE, STORES, Requests, left_out

FOLDER = f"{STORES}/races"
RACES = f"{FOLDER}/races.py"
NODES = f"{STORES}/nodes.toml"
# Beside the library: so many requests for memory are refused to each second call of a replica, or all to all calls. At the end it
# prints how many calls came back without memory.
REFUSING = """
#include "lrc_embed.h"
#include <stdio.h>
#include <stdlib.h>
static int left, at_most, refused, number;
void *__real_malloc(size_t), *__real_realloc(void *, size_t);
void *__wrap_malloc(size_t size) { return left && left-- ? NULL : __real_malloc(size); }
void *__wrap_realloc(void *old, size_t size) { return left && left-- ? NULL : __real_realloc(old, size); }
uint32_t __real_lrc_embed_call_at(lrc_handle *, uint64_t, uint8_t, const lrc_command *, lrc_reply *);
uint32_t __wrap_lrc_embed_call_at(lrc_handle *handle, uint64_t place, uint8_t session, const lrc_command *command,
                                  lrc_reply *reply) {
    if (!at_most) at_most = atoi(getenv("REFUSED"));
    left = at_most < 0 || number++ % 2 == 0 ? at_most : 0;
    uint32_t status = __real_lrc_embed_call_at(handle, place, session, command, reply);
    left = 0;
    refused += status == LRC_OUT_OF_MEMORY;
    return status;
}
__attribute__((destructor)) static void tell(void) { fprintf(stderr, "%d\\n", refused); }
"""


def test_page(count, library, room):
    """The program prints what its page says, and leaves the bytes that were written, under names that say what they are."""
    folder = f"{room}/races"
    os.mkdir(folder)
    said = count.run("races", sys.executable, RACES, library, NODES, folder) or ""
    page = harness.read(f"{FOLDER}/README.md").decode()
    block = re.search(r"^    \$ mkdir disks .*\n((?:    .*\n)+)", page, re.M)[1]
    count.check("races: the page has what is printed", said == re.sub(r"^    ", "", block, flags=re.M))
    rights = re.findall(r"\b(\d+) fragments of stripe 1 are right", said)
    count.check(f"races: all are right: {rights}", rights == ["16", "16"])
    races, wrong, files = harness.loaded(RACES), [], 0
    texts = {"1.1": "older", "1.7": "newer", "5.9": "half"}
    library = ctypes.CDLL(library)
    for at, _, names in os.walk(folder):
        for name in names:
            stripe, fragment = ".".join(parts(name)[:2]), int(parts(name)[2])
            right = races.fragments_of(library, texts[stripe])[fragment]
            files += 1
            wrong += [f"races: {at}/{name}"] if harness.read(f"{at}/{name}") != right else []
    count.add(files - len(wrong), wrong)
    count.check(f"races: {files} files", files == 16 + 16 + 4 + 1)


def test_embedding(count):
    """The code that docs/EMBEDDING.md shows of the stores is theirs, and its history is that of the page."""
    text, page = (harness.read(file).decode() for file in (f"{harness.TOP}/docs/EMBEDDING.md", f"{FOLDER}/README.md"))
    blocks = re.findall(r"^```(python|c)\n(.*?)^```\n", text, re.M | re.S)
    shown = [code for kind, code in blocks if kind == "python" or code.startswith("static ")]
    sources = [harness.read(f"{STORES}/{name}").decode() for name in ("races/stripes.py", "races/replica.c", "standby/store.py")]
    wrong = [f"races: EMBEDDING: {code}" for code in shown if not any("\n" + code in source for source in sources)]
    count.add(len(shown) - len(wrong), wrong)
    count.check(f"races: EMBEDDING shows {len(shown)} pieces of code", len(shown) == 4)
    _, _, part = text.partition("### Names of bytes\n")
    lines = re.search(r"(?:^    .*\n)+", part, re.M)[0].splitlines()
    entries = [re.sub(r"^ +", "", line) for line in page.splitlines()]
    wrong = [f"races: EMBEDDING: {line}" for line in lines if line.strip() not in entries]
    count.add(len(lines) - len(wrong), wrong)
    count.check("races: EMBEDDING has the entries of the race", len(lines) == 6)


class Memory:
    """Disks in memory, under names that may leave something out."""

    def __init__(self, shorten):
        self.shorten, self.files = shorten, {}

    def write(self, seat, name, data):
        self.files[self.shorten(seat, name)] = data

    def read(self, seat, name):
        return self.files.get(self.shorten(seat, name))

    def delete(self, seat, name):
        self.files.pop(self.shorten(seat, name), None)


def parts(name):
    return name.split(".")


SEEDS = 6  # drawn histories
# Of a seat and a whole name, what the bytes are found by.
WHOLE = lambda seat, name: (seat.node, name)
SHORTENED = {
    "seats": lambda seat, name: (seat.node, seat.slot),
    "no generation": lambda seat, name: (seat.node, *parts(name)[:1], *parts(name)[2:]),
    "no epoch": lambda seat, name: (seat.node, *parts(name)[:3]),
    "no stripe": lambda seat, name: (seat.node, *parts(name)[2:]),
}


class History:
    """A drawn history: stripes come and go under few numbers, nodes fail, and each writer and worker writes at some later time,
    whatever has become of its stripe and lease by then. What has to be where is kept here, by a count of its own."""

    SHARES = {"fail": 15, "drain": 2, "tick": 25, "next": 40, "lease": 2, "report": 15}
    # Of every two histories one has many stripes, and the other many repairs.
    STRIPES = {"place": 15, "drop": 10, "write": 5}, {"place": 3, "drop": 1, "write": 2}

    def __init__(self, races, library, text, seed, shorten):
        self.shares = self.SHARES | self.STRIPES[seed % 2]
        self.store, self.disks, self.draw = races.Store(library, text), Memory(shorten), random.Random(seed)
        self.placed, self.contents, self.late, self.slow = 0, {}, [], []

    def call(self, line, session=1):
        reply = self.store.book.call(session, command_of(line))
        self.store.follow(bytes(self.store.book.entry(self.store.book.count() - 1)))
        return reply

    def seat(self, stripe, fragment):
        return self.store.book.homes(stripe).homes[fragment].seat

    def place(self, stripe):
        """Places a stripe. Its writer is as quick as it may be, or writes at some later time."""
        reply = self.call(f"place {stripe}")
        if reply.kind == lrc_embed.ReplyKind.PLACED:
            self.placed += 1
            self.contents[stripe] = self.placed
            writes = [(lrc_embed.Seat.from_buffer_copy(seat), self.store.stripes.name(stripe, fragment), (self.placed, fragment))
                      for fragment, seat in enumerate(reply.seats)]
            self.slow.append(((stripe, self.store.stripes.generations[stripe]), writes))
            if self.draw.random() < 0.5:
                self.write(-1)

    def write(self, at):
        """A writer writes, and tells so."""
        what, writes = self.slow.pop(at)
        for seat, name, data in writes:
            self.disks.write(seat, name, data)
        self.store.follow(what)

    def grant(self, line):
        reply = self.call(line)
        if reply.kind == lrc_embed.ReplyKind.GRANTED:
            lease = lrc_embed.Lease.from_buffer_copy(reply.lease)
            name = self.store.stripes.name(lease.stripe, lease.fragment, lease.epoch)
            self.late.append((lease, name, (self.contents[lease.stripe], lease.fragment)))

    def report(self):
        """A worker gives its lease back, or writes and reports. If it is late, it sometimes dies before it deletes what it wrote.
        """
        lease, name, data = self.late.pop(self.draw.randrange(len(self.late)))
        if self.draw.random() < 0.1:
            self.call(f"abandon {lease.stripe} {lease.fragment} {lease.epoch}")
            return
        self.disks.write(lease.target, name, data)
        reply = self.call(f"done {lease.stripe} {lease.fragment} {lease.epoch}")
        if reply.refusal == lrc_embed.Refusal.STALE and self.draw.random() < 0.3:
            self.disks.delete(lease.target, name)

    def step(self):
        stripe, node = self.draw.randrange(3), self.draw.randrange(20)
        way, = self.draw.choices(*zip(*self.shares.items()))
        if way == "place":
            self.place(stripe)
        elif way == "write" and self.slow:
            self.write(self.draw.randrange(len(self.slow)))
        elif way == "report" and self.late:
            self.report()
        elif way == "next":
            self.grant("next")
        elif way == "lease":
            self.grant(f"lease {stripe} {self.draw.randrange(16)}")
        elif way == "fail":
            self.call(f"fail {node}")
            self.call(f"join {node}")
        elif way == "drop":
            self.call(f"drop {stripe}")
        elif way == "drain":
            self.call(f"drain {node}")
        elif way == "tick":
            self.call("tick")

    def run(self, steps):
        """Makes so many steps. Returns what is wrong, looked at now and then, until something is."""
        for step in range(steps):
            self.step()
            if step % 25 == 0 and (wrong := self.wrong()):
                return wrong
        return []

    def wrong(self):
        """The fragments at home whose bytes are others, of the stripes that are written."""
        found = []
        for stripe in self.store.stripes.written:
            for fragment in self.store.homes(stripe):
                data = self.disks.read(self.seat(stripe, fragment), self.store.stripes.name(stripe, fragment))
                if data != (self.contents[stripe], fragment):
                    found.append(f"races: fragment {fragment} of stripe {stripe} is {data}, of {self.contents[stripe]}")
        return found


def test_histories(count, library, steps):
    """With whole names each fragment has its bytes at all times, also after restarts, in an image or over the whole log. With less
    in the names some have not, which shows that these histories would tell."""
    races, library, text = harness.loaded(RACES), ctypes.CDLL(library), harness.read(NODES).decode()
    for seed in range(SEEDS):
        history = History(races, library, text, seed, WHOLE)
        wrong = history.run(steps)
        count.add(steps // 25 - len(wrong), wrong)
        compare_restarts(count, races, history)
    print(f"races: {SEEDS} times {steps} steps, {history.store.count()} entries and {history.placed} stripes in the last")
    for kind, shorten in SHORTENED.items():
        histories = (History(races, library, text, seed, shorten) for seed in range(SEEDS))
        count.check(f"races: {kind} would do", any(history.run(steps) for history in histories))


def compare_restarts(count, races, history):
    """A store that begins in an image with its rows, or that follows the whole log, has the same names."""
    store = history.store
    again = store.begin_again()
    replayed = races.Store(store.library, store.nodes, log=store.log)
    for name, other in (("image", again), ("log", replayed)):
        same = other.stripes.rows() == store.stripes.rows() and other.book.image() == store.book.image()
        count.check(f"races: the names after a restart from the {name}", same)
    history.store = again
    for _ in range(300):
        history.step()
    count.add(1, history.wrong())


def test_writers(count, library):
    """A stripe is unwritten until its writer tells so of its generation, and no report of an earlier one counts."""
    races = harness.loaded(RACES)
    store = races.Store(ctypes.CDLL(library), harness.read(NODES).decode())
    expected = []
    for line, told, unwritten in (
            ("place 1", None, [1]), ("place 2", None, [1, 2]), (None, ((1, 1), True), [2]), (None, ((2, 1), False), [2]),
            ("drop 2", None, []), ("place 2", None, [2]), (None, ((2, 2), False), [2]), (None, ((2, 4), True), []),
            ("drop 1", None, []), (None, ((1, 1), False), [])):
        if line:
            store.book.call(1, command_of(line))
            store.follow(bytes(store.book.entry(store.book.count() - 1)))
        else:
            expected.append(store.follow(told[0]) == told[1])
        expected.append(store.stripes.unwritten(store.count()) == unwritten)
    count.check(f"races: writers: {expected}", all(expected))
    store.book.call(1, command_of("place 3"))
    store.follow(bytes(store.book.entry(store.book.count() - 1)))
    last = store.count()
    count.check("races: what was placed later is not listed", [store.stripes.unwritten(at) for at in (last - 1, last)] == [[], [3]])
    again = races.Store(store.library, store.nodes, log=store.log)
    count.check("races: a replay has the reports too", again.stripes.rows() == store.stripes.rows())


def test_replica(count, library, archive, room):
    """A replica has the agreed entries, also where memory is refused to its calls; one that never gets any ends, and so does one
    whose records are not those of its book."""
    if not shutil.which(CC):
        return left_out("races: replica.c", f"no {CC} on this machine")
    requests = Requests(21, 2_000)
    with lrc_embed.Book(ctypes.CDLL(library), harness.read(NODES).decode()) as book:
        for session, line, _ in requests.calls:
            book.call(session, command_of(line))
        entries = list(map(bytes, book.entries()))
    with open(f"{room}/refusing.c", "w", encoding="utf-8") as file:
        file.write(REFUSING)
    files = ["-o", f"{room}/replica", f"{FOLDER}/replica.c", f"{room}/refusing.c", archive]
    wraps = ["-Wl,--wrap=malloc,--wrap=realloc,--wrap=lrc_embed_call_at"]
    strict = ["-Wall", "-Wextra", "-Wpedantic", "-Werror"]
    if count.run("replica.c", CC, "-std=c11", "-O2", *strict, f"-I{INCLUDE}", *files, *wraps) is None:
        return
    placed = lrc_embed.ReplyKind.PLACED, lrc_embed.ReplyKind.PLACED6
    first = next(at for at, entry in enumerate(entries) if lrc_embed.Entry.from_buffer_copy(entry).reply.kind in placed)
    less, changed = entries[:first] + entries[first + 1:], entries.copy()
    changed[700] = changed[700][:20] + b"\x01" + changed[700][21:]
    for name, records, refused, right in (
            ("all", entries, 0, (0, "applied 2000\n", "")), ("refused", entries, 1, (0, "applied 2000\n", "")),
            ("always", entries, -1, (1, "", "out of memory")), ("one less", less, 0, (1, "", "differs")),
            ("changed", changed, 0, (1, "", "entry 701: it differs"))):
        with open(f"{room}/records", "wb") as file:
            file.write(b"".join(records))
        environment = {**os.environ, "REFUSED": str(refused)}
        how = {"capture_output": True, "text": True, "timeout": 60, "env": environment}
        ran = subprocess.run([f"{room}/replica", NODES, f"{room}/records"], **how)
        status, said, errors = right
        is_right = (ran.returncode, ran.stdout) == (status, said) and errors in ran.stderr
        count.check(f"races: replica: {name}: status {ran.returncode}: {ran.stdout}{ran.stderr}", is_right)
        without = int(ran.stderr.split()[-1])
        count.check(f"races: replica: {name}: {without} calls without memory", (without > 0) == (refused != 0))


def test(count, folder, room, is_long):
    library = f"{folder}/liblrc_embed.so"
    test_page(count, library, room)
    test_embedding(count)
    test_histories(count, library, 20_000 if is_long else 1_500)
    test_writers(count, library)
    test_replica(count, library, f"{folder}/liblrc_embed.a", room)
