"""The store over SQLite, killed at drawn points, with a full disk, and with a log that was changed."""
import ctypes
import os
import resource
import shutil
import sqlite3
import sys
from contextlib import closing
from itertools import count as numbers_from

from tests.harness import nodes_of, read
from tests.library.library import lrc_embed
from tests.model import draws
from tests.stores.store_requests import (NODES, STORES, TOPOLOGY, Requests, Running, check_other_version, check_readme,
                                         next_version, pause)

STORE = os.path.join(STORES, "sqlite", "store.py")


class Place:
    """A folder with the database of a store, and the words that run it."""

    def __init__(self, library, room, name, entries=100_000):
        self.folder = os.path.join(room, name)
        os.mkdir(self.folder)
        self.database, nodes = f"{self.folder}/store.sqlite", f"{self.folder}/nodes.toml"
        with open(nodes, "w", encoding="utf-8") as file:
            file.write(TOPOLOGY)
        self.words = [sys.executable, STORE, self.database, library, nodes, str(entries)]

    def run(self, **how):
        return Running(*self.words, **how)

    def log(self):
        return self.execute("SELECT number, token, entry, checksum FROM log ORDER BY number")

    def images(self):
        return self.execute("SELECT number, text, checksum FROM image ORDER BY number")

    def copy(self, name):
        """The same with a copy of its folder."""
        other = Place.__new__(Place)
        other.folder = f"{self.folder}-{name}"
        shutil.copytree(self.folder, other.folder)
        other.database = f"{other.folder}/store.sqlite"
        other.words = [*self.words[:2], other.database, *self.words[3:]]
        return other

    def execute(self, command):
        with closing(sqlite3.connect(self.database, isolation_level=None)) as database:
            return database.execute(command).fetchall()


def test_kills(count, library, place, requests, kills):
    """The store is killed again and again while it makes the requests. Whoever was told nothing asks again. In the end each
    call was made once, and each line that was told is the one of the model."""
    row, told, killed = draws.numbers(3), 0, 0
    for at in numbers_from():
        store = place.run()
        if at % 8 == 7:
            pause(row, 150)  # while it starts, or replays
        else:
            kept = (store.line() or "ready -1").split()
            count.check(f"sqlite: {kept} entries after a kill, and {told} were told", int(kept[1]) - told in (0, 1))
            sent = min(told + 500, len(requests.calls))
            store.send(requests.sent(told, sent))
            lines = store.lines(min(next(row) % 200, sent - told))
            check_told(count, requests, told, lines)
            told += len(lines)
            pause(row, 3)
        lines = store.kill()
        lines = [line for line in lines if not line.startswith("ready")]
        check_told(count, requests, told, lines)
        told, killed = told + len(lines), killed + 1
        if killed >= kills or told >= len(requests.calls):
            break
    store = place.run()
    store.line()
    check_told(count, requests, told, store.answers(requests, told, len(requests.calls)))
    _, status, errors = store.end()
    count.check(f"sqlite: status {status}: {errors}", status == 0)
    requests.check_log(count, "sqlite", ctypes.CDLL(library), place.log(), place.images())
    kept = dict(place.execute("SELECT stripe, generation FROM stripe"))
    count.check("sqlite: the entries that placed the stripes", kept and kept == requests.generations())
    count.check("sqlite: the log is cut", place.images() and len(place.log()) < len(requests.calls) / 4)
    print(f"sqlite: {killed} kills, {len(requests.calls)} calls")


def check_told(count, requests, begin, lines):
    right = requests.told(begin, begin + len(lines))
    wrong = [f"sqlite: told `{line}`, and not `{other}`" for line, other in zip(lines, right) if line != other]
    count.add(len(lines) - len(wrong), wrong)


def test_disk_full(count, library, place, requests):
    """Files may not grow past a size. The store refuses, tells why, and has the same book as before; with more room it makes
    the request that it refused."""
    size = 200_000
    limits = lambda: resource.setrlimit(resource.RLIMIT_FSIZE, (size, resource.RLIM_INFINITY))
    # (without the signal that a file has come to its limit, as on a full disk)
    store = place.run(preexec_fn=limits, restore_signals=False)
    store.line()
    told = refused = 0
    while told < len(requests.calls):
        line = store.ask(requests.sent(told, told + 1)[:-1])
        if line.startswith(f"r{told} not kept: "):
            refused += 1
            if refused % 3 == 0:
                size += 50_000
                resource.prlimit(store.process.pid, resource.RLIMIT_FSIZE, (size, resource.RLIM_INFINITY))
        else:
            check_told(count, requests, told, [line])
            told += 1
    _, status, errors = store.end()
    count.check(f"sqlite: {refused} requests were refused, status {status}: {errors[-200:]}", refused >= 6 and status == 0)
    kept = dict(place.execute("SELECT stripe, generation FROM stripe"))
    count.check("sqlite: the entries that placed the stripes, with a full disk", kept == requests.generations())
    requests.check_log(count, "sqlite with a full disk", ctypes.CDLL(library), place.log(), place.images())
    count.check("sqlite: images were refused while the disk was full", "no image: " in errors and place.images())
    print(f"sqlite: {refused} requests were refused while the disk was full, and {errors.count('no image')} images")


def test_others(count, place):
    """A second process may not run; a request that is none is answered; a log that was changed is not taken."""
    store = place.run()
    store.line()
    for bad in ("x 1 jump 1", "x 9 next", "x 1 place 4096", "x 1 place 1 1", "next"):
        count.check(f"sqlite: `{bad}`", (store.ask(bad) or "").startswith("not a request: "))
    second = place.run().end()
    count.check(f"sqlite: a second process: {second}", second[1] == 1 and "locked" in second[2])
    count.check("sqlite: the first process goes on", store.end()[1] == 0)
    (older, _, _), (newest, _, _) = place.images()
    bad, at = "UPDATE image SET text = text || ' '", newest + 5
    for name, command, why in [
            ("changed", f"UPDATE log SET entry = CAST(x'03' || substr(entry, 2) AS BLOB) WHERE number = {at}", f"record {at}"),
            ("missing", f"DELETE FROM log WHERE number = {at}", f"record {at}"),
            ("renumbered", f"UPDATE log SET number = 0 WHERE number = {newest + 1}", f"record {newest + 1}"),
            ("no image", bad, "record 1"),
            ("other nodes", "UPDATE store SET nodes = nodes || ' '", "other nodes")]:
        other = place.copy(name.replace(" ", "-"))
        other.execute(command)
        _, status, errors = other.run().end()
        count.check(f"sqlite: {name}: status {status}: {errors}", status == 1 and why in errors)


def test_images(count, place):
    """The store begins in the image before where the newest is damaged, and cuts its log from there on."""
    entries = place.log()[-1][0]
    (older, _, _), (newest, _, _) = place.images()
    damaged = place.copy("damaged")
    damaged.execute(f"UPDATE image SET text = text || ' ' WHERE number = {newest}")
    store = damaged.run()
    count.check("sqlite: it begins in the image before", store.line() == f"ready {entries}")
    count.check("sqlite: and goes on", (store.ask("more 1 tick") or "").startswith(f"more {entries + 1} ticked "))
    count.check("sqlite: after the image before", store.end()[1] == 0)
    # It is made anew at once, since it is long ago, and the damaged one goes with the next.
    numbers = [number for number, _, _ in damaged.images()]
    count.check(f"sqlite: images after a damaged one: {numbers}", numbers == [older, newest, entries + 1])
    damaged.words[-1] = "2"
    store = damaged.run()
    count.check("sqlite: it begins in the new image", store.line() == f"ready {entries + 1}")
    told = [store.ask(f"more{at} 1 tick") for at in range(2)]
    count.check(f"sqlite: {told}", store.end()[1] == 0)
    numbers = [number for number, _, _ in damaged.images()]
    count.check(f"sqlite: the damaged image is gone: {numbers}", numbers == [entries + 1, entries + 3])


def test_versions(count, room, place):
    """A library of another interface makes no database, and a log of other rules is not taken: it stays as it is."""
    words, other = list(place.words), next_version(count, room)
    words[2:4] = f"{room}/none.sqlite", other.shared
    check_other_version(count, "sqlite", words)
    count.check("sqlite: another library makes nothing", not os.path.exists(words[2]))
    log, own = place.log(), lrc_embed.RULES_VERSION
    place.execute(f"UPDATE store SET rules = {own + 1}")
    _, status, errors = place.run().end()
    right = f"the log is of version {own + 1} of the rules, and the library of version {own}"
    count.check(f"sqlite: other rules: status {status}: {errors}", status == 1 and right in errors)
    count.check("sqlite: a log of other rules stays as it is", place.log() == log)
    place.execute(f"UPDATE store SET rules = {own}")
    store = place.run()
    count.check("sqlite: the log is taken again", store.line() == f"ready {log[-1][0]}" and store.end()[1] == 0)


def test_readme(count, place):
    """The lines of its README, over the nodes of examples/stores."""
    place.words[4] = f"{STORES}/nodes.toml"
    check_readme(count, "sqlite", place.run())
    count.check("stores: nodes.toml has the nodes of the tests", nodes_of(read(place.words[4])) == NODES)


def test(count, folder, room, is_long):
    library = f"{folder}/liblrc_embed.so"
    place = Place(library, room, "killed", 280)
    test_kills(count, library, place, Requests(5, 20_000 if is_long else 3_000), 400 if is_long else 30)
    test_disk_full(count, library, Place(library, room, "full", 15), Requests(6, 1_000))
    test_others(count, place)
    test_images(count, place)
    test_readme(count, Place(library, room, "readme"))
    test_versions(count, room, place)
