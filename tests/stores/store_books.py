"""Many books over one cluster: the replies and the log of each, upgrades that are asked of all and taken back, processes
that are killed, and how many calls a second are told."""
import ctypes
import os
import select
import signal
import time
import zlib
from collections import Counter

from tests import harness
from tests.library.library import lrc_embed
from tests.stores.store_requests import (Running, check_other_version, check_readme, compile_store, left_out, model_of,
                                         next_version)

HEADERS = ("/usr/include/postgresql", "/usr/include")
SLOTS = 10240  # of each node, shared out among the books
MODELLED = 2_500  # the most entries of a book that are compared with the model


def compile_books(count, library, room, name="books", links=()):
    folder = next((folder for folder in HEADERS if os.path.exists(f"{folder}/libpq-fe.h")), None)
    if folder is None:
        left_out("books", "libpq-fe.h is not on this machine")
        return None
    return compile_store(count, "books/main.cpp", library, f"{room}/{name}", f"-I{folder}", "-lpq", *links)


class Cluster:
    """The database of a cluster's books, and the program over it."""

    def __init__(self, server, program, name, books, nodes, processes, entries=100_000):
        self.words = program, server.new_database(name), books, nodes, processes, entries
        self.connection, self.books = server.connect(name), books

    def run(self, seconds=600):
        return Running(*self.words, seconds=seconds)

    def keep_what_is_cut(self):
        """Makes the tables, and others in which is kept from now on what is deleted of logs and images."""
        running = self.run()
        running.line()
        running.end()
        for table in ("log", "image"):
            self.connection.rows(f"CREATE TABLE older_{table} (LIKE {table})")
            self.connection.rows(f"CREATE FUNCTION keep_{table}() RETURNS trigger LANGUAGE plpgsql AS"
                                 f" 'BEGIN INSERT INTO older_{table} VALUES (OLD.*); RETURN OLD; END'")
            self.connection.rows(f"CREATE TRIGGER keep BEFORE DELETE ON {table} FOR EACH ROW EXECUTE FUNCTION keep_{table}()")

    def images(self, book, table="image"):
        return self.connection.rows(f"SELECT number, text, checksum FROM {table} WHERE book = $1 ORDER BY number", book)

    def entries(self, book):
        rows = self.connection.rows("SELECT number, entry FROM (SELECT * FROM log UNION ALL SELECT * FROM older_log) AS whole"
                                    " WHERE book = $1 ORDER BY number", book)
        numbers, entries = zip(*rows) if rows else ((), ())
        return list(numbers) == list(range(1, len(rows) + 1)), list(entries)

    def nodes(self, book):
        (text,), = self.connection.rows("SELECT nodes FROM book WHERE book = $1", book)
        return text


def rate_of(line):
    """The calls a second of a line `told N calls a second`; 0 if it is another."""
    words = (line or "").split()
    return int(words[1]) if words[:1] == ["told"] else 0


def expect(count, running, line, *right):
    found = running.ask(line) if line else running.line()
    return count.check(f"books: `{line}`: {found}, and not {right}", found in right)


def test_log(count, cluster, library):
    """Each book has its entries in order, and they are those of the model. Its images are those of the entries before them, and
    it keeps two, and the log from the older one on. The slots of no node are in use twice."""
    shares, library = Counter(), ctypes.CDLL(library)
    for book in range(cluster.books):
        is_whole, entries = cluster.entries(book)
        text = cluster.nodes(book)
        nodes = harness.nodes_of(text.encode())
        shares.update({number: node.slots for number, node in nodes.items()})
        count.check(f"books: the numbers of book {book}", is_whole)
        _, wrong = model_of(nodes, entries[:MODELLED])
        count.add(min(len(entries), MODELLED) - len(wrong), [f"books: book {book}: {line}" for line in wrong])
        kept = cluster.images(book)
        (first,), = cluster.connection.rows("SELECT min(number) FROM log WHERE book = $1", book)
        count.check(f"books: book {book} keeps {len(kept)} images", len(kept) == 2 and first == kept[0][0] + 1)
        images = {number: image for number, *image in kept + cluster.images(book, "older_image")}
        try:
            with lrc_embed.Book(library, text) as replayed:
                for number, (image, checksum) in sorted(images.items()):
                    replayed.replay(entries[replayed.count():number])
                    is_right = replayed.image() == image and checksum == zlib.crc32(image.encode())
                    count.check(f"books: image {number} of book {book}", is_right)
                replayed.replay(entries[replayed.count():])
                count.check(f"books: the replay of book {book}", replayed.count() == len(entries))
                before = max(images)
                with lrc_embed.Book(library, text, entries[before:], images[before][0]) as begun:
                    count.check(f"books: book {book} from its image", begun.image() == replayed.image())
        except lrc_embed.Fault as fault:
            count.check(f"books: the replay of book {book}: {fault} at {fault.position}", False)
    count.check("books: the slots are shared out", max(shares.values()) <= SLOTS)


def end_at(count, cluster, why):
    """A process of the cluster ends at its start, with this reason."""
    _, status, errors = cluster.run().end()
    count.check(f"books: {why}: status {status}: {errors}", status == 1 and why in errors)


def test_images(count, cluster):
    """A book begins in the image before where its newest is damaged. Where both are, or a record behind is missing, its process
    ends."""
    whole = [cluster.images(book) for book in range(cluster.books)]
    cluster.connection.rows("UPDATE image SET text = text || ' ' WHERE book = 1 AND number = $1", whole[1][1][0])
    running = cluster.run()
    expect(count, running, None, "ready")
    expect(count, running, "book 1 down 20", "1 changed")
    expect(count, running, "book 1 up 20", "1 changed")
    running.end()
    cluster.connection.rows("UPDATE image SET text = text || ' ' WHERE book = 1")
    next_record = cluster.images(1)[-1][0] + 1
    end_at(count, cluster, "book 1: record 1 is missing or damaged")
    cluster.connection.rows("UPDATE image SET text = rtrim(text, ' ')")
    cluster.connection.rows("DELETE FROM log WHERE book = 1 AND number = $1", next_record)
    end_at(count, cluster, f"book 1: record {next_record} is missing or damaged")
    cluster.connection.rows("INSERT INTO log SELECT * FROM older_log WHERE book = 1 AND number = $1", next_record)
    cluster.connection.rows("DELETE FROM older_log WHERE book = 1 AND number = $1", next_record)
    running = cluster.run()
    expect(count, running, None, "ready")
    running.end()


def urgent(cluster):
    """What the models say is nearest to loss: the margin, of the first book and stripe that has it."""
    rows = []
    for book in range(cluster.books):
        model, _ = model_of(harness.nodes_of(cluster.nodes(book).encode()), cluster.entries(book)[1])
        first = next((stripe for stripe in model.in_order() if model.level(stripe)), None)
        if first is not None:
            rows.append((model.rank(first), book, first))
    rank, book, stripe = min(rows)
    return f"urgent {book} {stripe} 2 {rank}"


def expect_refused(count, running):
    expect(count, running, "jump 9", "the first word is not a command")
    expect(count, running, "down 9 9", "the command takes another number of words")
    expect(count, running, "book 1 upgrade 256", "a number is out of its range")
    expect(count, running, "place 9", "this is not of all books: place 9")


def test_orders(count, cluster):
    """Node events, the most urgent stripe, and upgrades."""
    books = cluster.books
    running = cluster.run()
    expect(count, running, None, "ready")
    expect(count, running, "fill 64", "filled")
    expect(count, running, "urgent", "whole")
    expect(count, running, "fail 9", f"{books} changed")
    expect(count, running, "fail 9", f"{books} refused 105")
    expect(count, running, "book 2 down 20", "1 changed")
    expect(count, running, "urgent", urgent(cluster))
    expect(count, running, "book 2 up 20", "1 changed")
    expect_refused(count, running)
    expect(count, running, "ask 200", "yes")  # no book has a node in this domain: nothing is in the way
    expect(count, running, "begin 3", "ask first")
    expect(count, running, "ask 3", "yes")
    # After it was asked, whole domains go down in one book, which then refuses.
    for node in nodes_in(cluster, range(4, 7)):
        expect(count, running, f"book 1 down {node}", "1 changed")
    refused = running.ask("begin 3") or ""
    count.check(f"books: {refused}", refused.startswith("refused: book 1 refused 109 "))
    expect(count, running, None, f"taken back in {books - 1} books")
    expect(count, running, "ask 3", "no: " + refused.removeprefix("refused: "))
    for node in nodes_in(cluster, range(4, 7)):
        expect(count, running, f"book 1 up {node}", "1 changed")
    expect(count, running, "ask 3", "yes")
    expect(count, running, "begin 3", "begun")
    expect(count, running, "ask 4", "no: book 0 refused 107 3")
    expect(count, running, "end 3", f"{books} changed")
    expect(count, running, "join 9", f"{books} changed")
    # A coordinator that is killed in the middle of a begin.
    cluster.connection.rows("INSERT INTO upgrade VALUES (6, false)")
    expect(count, running, "book 0 upgrade 6", "1 changed")
    running.kill()
    running = cluster.run()
    expect(count, running, None, "taken back in 1 books")
    expect(count, running, None, "ready")
    expect(count, running, "ask 6", "yes")
    _, status, errors = running.end()
    count.check(f"books: status {status}: {errors}", status == 0)


def nodes_in(cluster, domains):
    """The nodes of upgrade domains, but for that which has failed."""
    nodes = harness.nodes_of(cluster.nodes(0).encode())
    return [number for number, node in nodes.items() if node.upgrade in domains and number != 9]


def test_kills(count, cluster, kills):
    """The coordinator and a process are killed while the workers of all books are at it, and the next run goes on."""
    for at in range(kills):
        running = cluster.run()
        expect(count, running, None, "ready")
        running.send("work 30\n")
        time.sleep(0.2)
        if at % 2:
            os.kill(child_of(running), signal.SIGKILL)
            _, status, errors = running.end()
            is_told = "a process has ended" in errors
            count.check(f"books: a process was killed: status {status}: {errors}", status == 1 and is_told)
        else:
            running.kill()
    running = cluster.run()
    expect(count, running, None, "ready")
    # Each book has to cut its log, which takes longer on a busy machine.
    for _ in range(20):
        rate = rate_of(running.ask("work 0.5"))
        if rate and all(len(cluster.images(book)) > 1 for book in range(cluster.books)):
            break
    count.check("books: it goes on", rate > 0)
    running.end()


def child_of(running):
    """One of the processes that have the books."""
    return int(harness.read(f"/proc/{running.process.pid}/task/{running.process.pid}/children").split()[0])


def test_versions(count, cluster, other):
    """A library of another interface does not run, and a log of other rules is not taken: it stays as it is."""
    check_other_version(count, "books", [other, *cluster.words[1:]])
    own, logs = lrc_embed.RULES_VERSION, [cluster.entries(book) for book in range(cluster.books)]
    cluster.connection.rows("UPDATE book SET rules = $1 WHERE book = 1", own + 1)
    _, status, errors = cluster.run().end()
    right = f"book 1: the log is of version {own + 1} of the rules, and the library of version {own}"
    count.check(f"books: other rules: status {status}: {errors}", status == 1 and right in errors)
    cluster.connection.rows("UPDATE book SET rules = $1", own)
    is_kept = logs == [cluster.entries(book) for book in range(cluster.books)]
    count.check("books: logs of other rules stay as they are", is_kept)
    running = cluster.run()
    expect(count, running, None, "ready")
    count.check("books: it ends well", running.end()[1] == 0)


def test_one_process(count, cluster):
    """While a process of the run before still has its books, no other one takes them."""
    running = cluster.run()
    expect(count, running, None, "ready")
    running.send("work 30\n")
    time.sleep(0.2)
    child = child_of(running)
    os.kill(child, signal.SIGSTOP)
    running.process.kill()  # (its output is open until the child ends)
    running.process.wait()
    other = cluster.run()
    is_told, _, _ = select.select([other.process.stdout], [], [], 1)
    count.check("books: a second process has to wait", not is_told)
    os.kill(child, signal.SIGCONT)
    expect(count, other, None, "ready")
    count.check("books: it goes on after the wait", rate_of(other.ask("work 1")) > 0)
    _, status, errors = other.end()
    count.check(f"books: status {status}: {errors}", status == 0)
    running.end()


def speed(count, cluster, stripes, seconds):
    """The calls a second that are told to the workers of all books."""
    running = cluster.run(seconds=3600)
    expect(count, running, None, "ready")
    expect(count, running, f"fill {stripes}", "filled")
    rate = rate_of(running.ask(f"work {seconds}"))
    running.end()
    count.check(f"books: {rate} calls a second", rate > 0)
    return rate


def test(count, folder, room, is_long, server):
    program = compile_books(count, folder, room)
    if program is None:
        return
    library, cores = f"{folder}/liblrc_embed.so", os.cpu_count()
    orders = Cluster(server, program, "orders", 4, 64, 3, 150)
    orders.keep_what_is_cut()
    test_orders(count, orders)
    test_kills(count, orders, 20 if is_long else 4)
    test_one_process(count, orders)
    other = compile_books(count, folder, room, "books-other", next_version(count, room).links)
    test_versions(count, orders, other)
    test_log(count, orders, library)
    test_images(count, orders)
    check_readme(count, "books", Cluster(server, program, "readme_of_books", 4, 64, 2).run())
    books, nodes, stripes, seconds = (64, 512, 4096, 20) if is_long else (8, 64, 64, 1)
    one = speed(count, Cluster(server, program, "one", 1, nodes, 1), stripes, seconds)
    all_books = speed(count, Cluster(server, program, "books", books, nodes, cores), stripes, seconds)
    print(f"books: {one} calls a second of one book, {all_books} of {books} books in {cores} processes, on {nodes} nodes"
          f" with {stripes} stripes a book")
