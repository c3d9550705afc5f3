"""A primary and its standbys over PostgreSQL, while primaries are killed, cut off, stopped for a while, and silent."""
import ctypes
import os
import select
import signal
import socket
import sys
import threading
import time
import zlib
from statistics import median

from tests.harness import loaded, read
from tests.library.library import command_of, lrc_embed, text_of
from tests.model import draws, rules
from tests.stores.store_postgres import pq
from tests.stores.store_requests import (NODES, STORES, TOPOLOGY, Requests, Running, check_other_version, check_readme,
                                         next_version, pause)

STORE = os.path.join(STORES, "standby", "store.py")
EPOCH = lrc_embed.Entry.reply.offset + lrc_embed.Reply.lease.offset + lrc_embed.Lease.epoch.offset
WAYS = ("killed", "cut off", "stopped")
CUT = ("SELECT pg_terminate_backend(pid) FROM pg_locks WHERE locktype = 'advisory' AND granted"
       " AND objid::int8 = (SELECT term FROM lead)"
       " AND database = (SELECT oid FROM pg_database WHERE datname = current_database())")


class Cluster:
    """The database of a store, and the replicas that run over it."""

    def __init__(self, count, server, library, room, name):
        self.count, self.library = count, library
        self.words, self.room = server.new_database(name), room
        self.connection = server.connect(name)
        with open(f"{room}/{name}.toml", "w", encoding="utf-8") as file:
            file.write(TOPOLOGY)
        count.run("standby: begin", sys.executable, STORE, "begin", self.words, library, f"{room}/{name}.toml")

    def replica(self, entries=100_000, seconds=60, words=None):
        return Running(sys.executable, STORE, "run", words or self.words, self.library, entries, seconds)

    def log(self):
        return self.connection.rows("SELECT number, token, entry, checksum FROM log ORDER BY number")

    def images(self):
        return self.connection.rows("SELECT number, text, checksum FROM image ORDER BY number")

    def lead(self, replica, term):
        """Waits until a replica leads."""
        line = replica.line() or ""
        self.count.check(f"standby: `{line}` in term {term}", line.startswith(f"lead {term} "))

    def end(self, replica, why):
        """A replica has to end, with this reason."""
        _, status, errors = replica.end()
        self.count.check(f"standby: status {status}: {errors}", status == 1 and why in errors)


def check_told(count, requests, begin, lines):
    right = requests.told(begin, begin + len(lines))
    wrong = [f"standby: told `{line}`, and not `{other}`" for line, other in zip(lines, right) if line != other]
    count.add(len(lines) - len(wrong), wrong)
    return begin + len(lines)


def test_takeovers(count, cluster, requests, takeovers):
    """Primaries go in three ways, each with requests under way, and a standby takes over. Requests that nobody was told of are
    sent again. In the end each call was made once, and each line that was told is the one of the model."""
    row, told, took = draws.numbers(17), 0, {way: [] for way in WAYS}
    entries = 20 + len(requests.calls) // 50
    primary = cluster.replica(entries)
    cluster.lead(primary, 1)
    for at in range(takeovers):
        way, standby = WAYS[at % 3], cluster.replica(entries)
        count.check("standby: a standby takes no request", standby.ask("early 1 next") == "early not leading")
        sent = min(told + 100, len(requests.calls))
        primary.send(requests.sent(told, sent))
        told = check_told(count, requests, told, primary.lines(min(next(row) % 60, sent - told)))
        pause(row, 5)
        begin = time.monotonic()
        if way == "killed":
            told = check_told(count, requests, told, primary.kill())
        elif way == "cut off":
            cluster.connection.rows(CUT)
        else:
            primary.process.send_signal(signal.SIGSTOP)
            standby.send("lead\n")
        cluster.lead(standby, at + 2)
        took[way].append(time.monotonic() - begin)
        if way == "cut off":
            lines, status, errors = primary.end()
            told = check_told(count, requests, told, lines)
            count.check(f"standby: cut off: status {status}: {errors}", status in (0, 1))
        if way == "stopped":
            # What it was told of in its term was told in time; then it is fenced, by the first append after that.
            primary.process.send_signal(signal.SIGCONT)
            primary.send("late 1 next\n")
            lines, status, errors = primary.end()
            told = check_told(count, requests, told, lines)
            count.check(f"standby: stopped: status {status}: {errors}", status == 1 and "another process leads" in errors)
        primary = standby
    check_told(count, requests, told, primary.answers(requests, told, len(requests.calls)))
    _, status, errors = primary.end()
    count.check(f"standby: status {status}: {errors}", status == 0)
    requests.check_log(count, "standby", ctypes.CDLL(cluster.library), cluster.log(), cluster.images())
    count.check("standby: the log is cut", len(cluster.log()) < 3 * entries)
    for way, times in took.items():
        least, middle, most = (1000 * time for time in (min(times), median(times), max(times)))
        print(f"standby: primary {way} {len(times)} times: the next led after {least:.0f} to {most:.0f} ms, median"
              f" {middle:.0f} ms")


def test_refused(count, cluster):
    """A reply that was changed is found by a standby, and so are a damaged record, a gap, and a log that grew otherwise."""
    primary = cluster.replica()
    cluster.lead(primary, 1)
    for at, line in enumerate(("place 1", "place 2", "fail 3", "next", "tick")):
        count.check(f"standby: {line}", (primary.ask(f"t{at} 1 {line}") or "").startswith(f"t{at} {at + 1} "))
    cluster.connection.rows("CREATE TABLE kept AS SELECT * FROM log")
    epoch = f"set_byte(entry, {EPOCH}, 7)"  # of the lease of entry 4
    for change, why in [
            (f"UPDATE log SET entry = {epoch} WHERE number = 4", "record 4 is missing or damaged"),
            ("DELETE FROM log WHERE number = 2", "record 2 is missing or damaged"),
            ("UPDATE log SET entry = $1, checksum = $2 WHERE number = 4", "entry 4: different")]:
        changed = []
        if "$1" in change:
            (entry,), = cluster.connection.rows(f"SELECT {epoch} FROM log WHERE number = 4")
            changed = [entry, zlib.crc32(entry)]
        cluster.connection.rows(change, *changed)
        cluster.end(cluster.replica(), why)
        cluster.connection.rows("DELETE FROM log")
        cluster.connection.rows("INSERT INTO log SELECT * FROM kept")
    cluster.connection.rows("INSERT INTO log SELECT 6, term, 'elsewhere', entry, checksum FROM log WHERE number = 5")
    primary.send("t6 1 tick\n")
    cluster.end(primary, "the log is another one")


def test_versions(count, cluster):
    """A library of another interface neither makes tables nor runs, and a log of other rules is not taken: it stays as it is."""
    primary = cluster.replica()
    cluster.lead(primary, 1)
    told = [primary.ask(f"t{at} 1 {line}") for at, line in enumerate(("place 1", "fail 3", "next"))]
    count.check(f"standby: {told}", None not in told and primary.end()[1] == 0)
    other = next_version(count, cluster.room).shared
    for words in (["begin", cluster.words, other, f"{cluster.room}/versions.toml"], ["run", cluster.words, other]):
        check_other_version(count, f"standby: {words[0]}", [sys.executable, STORE, *words])
    log, own = cluster.log(), lrc_embed.RULES_VERSION
    cluster.connection.rows("UPDATE lead SET rules = $1", own + 1)
    cluster.end(cluster.replica(), f"the log is of version {own + 1} of the rules, and the library of version {own}")
    cluster.connection.rows("UPDATE lead SET rules = $1", own)
    count.check("standby: a log of other rules stays as it is", len(log) == len(told) and cluster.log() == log)
    replica = cluster.replica()
    found = replica.line()
    count.check(f"standby: the log is taken again: {found}", found == f"lead 2 {len(log)}")
    count.check("standby: it ends well", replica.end()[1] == 0)


def test_append_under_way(count, cluster):
    """While an append is not committed yet, no new term begins. Then the next primary has its entry."""
    standby_store = loaded(STORE, "standby_store")  # (it imports pq, which the connection above has loaded)
    primary = standby_store.Replica(standby_store.pq.Connection(cluster.words), ctypes.CDLL(cluster.library))
    count.check("standby: the first term", primary.tries_to_lead(at_once=False) and primary.term == 1)
    primary.connection.rows("BEGIN")
    number, reply = primary.call("under-way", 1, command_of("place 1"))
    standby = cluster.replica()
    standby.send("lead\n")
    is_told, _, _ = select.select([standby.process.stdout], [], [], 1)
    count.check("standby: it does not lead before the commit", not is_told)
    primary.connection.rows("COMMIT")
    count.check("standby: it leads with the entry", standby.line() == f"lead 2 {number}")
    count.check("standby: the request that comes again", standby.ask("under-way 1 place 1") == f"under-way {number} {text_of(reply)}")
    try:
        primary.call("late", 1, command_of("place 2"))
        count.check("standby: the old primary appends", False)
    except standby_store.Ended as why:
        count.check(f"standby: {why}", "another process leads" in str(why))
    primary.connection.close()
    count.check("standby: the new primary ends well", standby.end()[1] == 0)


def look_in_model(model, stripe):
    """What a look tells of a stripe."""
    if stripe not in model.stripes:
        return "none"
    level = model.level(stripe)
    words = f"{level} {model.margin(stripe) if level == 'risk' else '-'}" if level else "whole -"
    return f"{words} {model.missing(stripe):04x}"


def test_looks(count, cluster, requests):
    """A look shows all that was told before, whoever answers: a standby, or a primary that is one no more."""
    standby_store, library, model = loaded(STORE, "standby_store"), ctypes.CDLL(cluster.library), rules.Store(NODES)
    old, primary, standby = (standby_store.Replica(standby_store.pq.Connection(cluster.words), library, 40) for _ in range(3))
    count.check("standby: the old primary led", old.tries_to_lead(at_once=True))
    count.check("standby: the new primary leads", primary.tries_to_lead(at_once=True))
    wrong = []
    for at, (session, line, reply) in enumerate(requests.calls[:300], 1):
        model.call(session, line)
        primary.call(f"r{at}", session, command_of(line))
        if at % 3 == 0:
            for stripe in range(6):
                right = at, look_in_model(model, stripe)
                wrong += [f"standby: {who.look(stripe)} after {line}, and not {right}" for who in (old, primary, standby)
                          if who.look(stripe) != right]
    count.add(1800 - len(wrong), wrong)
    answers = [standby_store.answer(standby, line) for line in ("l look 4095", "r 1 tick")]
    count.check(f"standby: {answers}", answers == ["l 300 none", "r not leading"])
    for line in ("l look", "l look x", "l look 4096", "lead"):
        try:
            count.check(f"standby: `{line}`: {standby_store.answer(primary, line)}", False)
        except ValueError:
            count.passed += 1
    for replica in (old, primary, standby):
        replica.connection.close()


def test_lost(count, cluster):
    """PostgreSQL has lost the last entry: nobody goes on who has it."""
    primary = cluster.replica()
    cluster.lead(primary, 1)
    standby = cluster.replica()
    told = [primary.ask(f"t{at} 1 {line}") for at, line in enumerate(("place 1", "fail 3", "next"))]
    count.check(f"standby: {told}", standby.ask("l look 1") == "l 3 risk 2 0008")
    cluster.connection.rows("DELETE FROM log WHERE number = 3")
    standby.send("l look 1\n")
    cluster.end(standby, "the log ends at 2, and the book has 3 entries")
    primary.send("t3 1 tick\n")
    cluster.end(primary, "the log is another one")
    count.check("standby: nothing was appended", [number for number, *_ in cluster.log()] == [1, 2])
    replica = cluster.replica()
    count.check("standby: who begins now goes on", replica.line() == "lead 2 2" and replica.end()[1] == 0)


class Proxy:
    """A way to the server that can be silent: what is sent there comes nowhere, and nobody is told."""

    def __init__(self, server, room):
        self.flows, self.to = threading.Event(), f"{server.folder}/.s.PGSQL.5432"
        self.flows.set()
        self.listener = socket.socket(socket.AF_UNIX)
        self.listener.bind(f"{room}/.s.PGSQL.1")
        self.listener.listen()
        self.words = server.words.replace(f"host={server.folder}", f"host={room} port=1")
        threading.Thread(target=self.accept, daemon=True).start()

    def accept(self):
        while True:
            near, _ = self.listener.accept()
            far = socket.socket(socket.AF_UNIX)
            far.connect(self.to)
            for ends in ((near, far), (far, near)):
                threading.Thread(target=self.pass_on, args=ends, daemon=True).start()

    def pass_on(self, source, target):
        try:
            while data := source.recv(65536):
                self.flows.wait()
                target.sendall(data)
            target.shutdown(socket.SHUT_WR)
        except OSError:
            pass  # one end is gone


def test_silent(count, cluster, server, room):
    """A primary whose network is silent, or that stands still: a standby leads in the time that its page says, and not while the
    primary is only idle. The old primary ends by itself."""
    proxy, seconds = Proxy(server, room), 2
    database = cluster.words.split("dbname=")[1]
    primary = cluster.replica(seconds=seconds, words=proxy.words.replace("dbname=postgres", f"dbname={database}"))
    cluster.lead(primary, 1)
    standby = cluster.replica(seconds=seconds)
    count.check("standby: a request", (primary.ask("s1 1 place 1") or "").startswith("s1 1 placed "))
    is_told, _, _ = select.select([standby.process.stdout], [], [], 2 * seconds)
    count.check("standby: nobody leads beside an idle primary", not is_told)
    proxy.flows.clear()
    begin = time.monotonic()
    primary.send("s2 1 place 2\n")
    cluster.lead(standby, 2)
    took = [time.monotonic() - begin]
    cluster.end(primary, f"PostgreSQL has not answered for {2.0 * seconds} seconds")
    reply = standby.ask("s2 1 place 2") or ""
    count.check(f"standby: the request that was under way: {reply}", reply.startswith("s2 2 placed "))
    proxy.flows.set()
    third = cluster.replica(seconds=seconds)
    count.check("standby: it follows", third.ask("early 1 next") == "early not leading")
    begin = time.monotonic()
    standby.process.send_signal(signal.SIGSTOP)
    cluster.lead(third, 3)
    took.append(time.monotonic() - begin)
    standby.process.send_signal(signal.SIGCONT)
    is_told, _, _ = select.select([standby.process.stderr], [], [], seconds)
    count.check("standby: the primary that stood still ends without a request", is_told)
    cluster.end(standby, "another process leads: term 2 is over")
    replies = [third.ask(f"{token} 1 place {stripe}") for token, stripe in (("s1", 1), ("s2", 2), ("s3", 3))]
    numbers = [int((reply or "- 0").split()[1]) for reply in replies]
    count.check(f"standby: each request is made once: {replies}", numbers == [1, 2, 3])
    count.check("standby: the third ends well", third.end()[1] == 0)
    count.check(f"standby: the next led after {took} seconds", all(0.5 * seconds <= it <= 2 * seconds for it in took))
    print(f"standby: primary silent: the next led after {took[0]:.1f} and {took[1]:.1f} s, of which {seconds} s are its limit")


def test_images(count, cluster):
    """A standby that lags behind two cuts begins in the image. A damaged image is passed over; a log without its image is not
    taken."""
    primary = cluster.replica(entries=10)
    cluster.lead(primary, 1)
    lagging = cluster.replica()
    count.check("standby: it follows", lagging.ask("early 1 next") == "early not leading")
    lagging.process.send_signal(signal.SIGSTOP)
    for at in range(37):
        primary.ask(f"i{at} 1 {'tick' if at else 'place 1'}")
    images, log = cluster.images(), cluster.log()
    numbers = [number for number, _, _ in images], log[0][0], len(log)
    count.check(f"standby: images and log after 37 entries: {numbers}", numbers == ([20, 30], 21, 17))
    lagging.process.send_signal(signal.SIGCONT)
    primary.kill()
    count.check("standby: it leads after it lagged", lagging.line() == "lead 2 37")
    told = lagging.ask("i37 1 place 1"), lagging.ask("i36 1 tick")
    count.check(f"standby: its book goes on: {told}", told == ("i37 38 refused 102", "i36 37 ticked 36 0"))
    lagging.kill()
    cluster.connection.rows("UPDATE image SET text = text || ' ' WHERE number = 30")
    third = cluster.replica()
    count.check("standby: it begins in the image before", third.line() == "lead 3 38")
    third.kill()
    cluster.connection.rows("UPDATE image SET text = text || ' ' WHERE number = 20")
    cluster.end(cluster.replica(), "record 1 is missing or damaged")
    cluster.connection.rows("UPDATE image SET text = rtrim(text, ' ')")
    cluster.connection.rows("DELETE FROM log WHERE number = 31")
    cluster.end(cluster.replica(), "record 31 is missing or damaged")


def test_commit(count, cluster):
    """A command whose commit fails, after the rows that it returned, is not done: nobody may be told of these."""
    connection, insert = cluster.connection, "INSERT INTO late VALUES (1) RETURNING number"
    connection.rows("CREATE TABLE late (number int8 UNIQUE DEFERRABLE INITIALLY DEFERRED)")
    count.check("standby: a commit", connection.rows(insert) == [(1,)])
    try:
        told = connection.rows(insert)
    except pq().Error as error:
        told = error.state
    count.check(f"standby: a commit that is refused: {told}", told == "23505")
    count.check("standby: what was committed", connection.rows("SELECT number FROM late") == [(1,)])


def test_readme(count, cluster):
    """The lines of its README, over the nodes of examples/stores."""
    cluster.connection.rows("UPDATE lead SET nodes = $1", read(f"{STORES}/nodes.toml").decode())
    check_readme(count, "standby", cluster.replica())


def test(count, folder, room, is_long, server):
    library = f"{folder}/liblrc_embed.so"
    requests = Requests(8, 20_000 if is_long else 1_500)
    test_takeovers(count, Cluster(count, server, library, room, "takeovers"), requests, 150 if is_long else 15)
    test_refused(count, Cluster(count, server, library, room, "refused"))
    test_versions(count, Cluster(count, server, library, room, "versions"))
    test_append_under_way(count, Cluster(count, server, library, room, "under_way"))
    test_looks(count, Cluster(count, server, library, room, "looks"), requests)
    test_lost(count, Cluster(count, server, library, room, "lost"))
    test_commit(count, Cluster(count, server, library, room, "commit"))
    test_readme(count, Cluster(count, server, library, room, "readme"))
    test_images(count, Cluster(count, server, library, room, "images"))
    test_silent(count, Cluster(count, server, library, room, "silent"), server, room)
