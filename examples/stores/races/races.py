#!/usr/bin/env python3
"""Plays what may go wrong between a book and the bytes on disks, with files: a worker that is late, a writer that dies, a restart.

Usage: races.py LIBRARY NODES FOLDER, where LIBRARY is liblrc_embed.so, NODES a file with the text of the nodes, and FOLDER is for
the files

It prints each call with the number of its entry and its reply, and what there is on the disks."""
import ctypes
import os
import sys

sys.dont_write_bytecode = True
HERE = os.path.dirname(os.path.abspath(__file__))
sys.path += [HERE, os.path.join(HERE, os.pardir)]
from commands import command_of, lrc_embed
from stripes import Stripes


class Disks:
    """A folder for each node, with a file for each name."""

    def __init__(self, folder):
        self.folder = folder

    def path(self, node, name):
        return os.path.join(self.folder, f"node-{node}", name)

    def write(self, node, name, data):
        """Once it returns, the bytes are durable under their name."""
        path = self.path(node, name)
        os.makedirs(os.path.dirname(path), exist_ok=True)
        with open(f"{path}.part", "wb") as file:
            file.write(data)
            file.flush()
            os.fsync(file.fileno())
        os.rename(f"{path}.part", path)
        folder = os.open(os.path.dirname(path), os.O_RDONLY)
        os.fsync(folder)
        os.close(folder)

    def read(self, node, name):
        """The bytes; None if there are none."""
        try:
            with open(self.path(node, name), "rb") as file:
                return file.read()
        except FileNotFoundError:
            return None

    def delete(self, node, name):
        if self.read(node, name) is not None:
            os.remove(self.path(node, name))


class Store:
    """A book, what is kept beside it, and the log of both: the bytes of an entry, or a stripe and its generation, which was
    written. (What stands in memory here is on a disk in the other stores, before anybody is told.)"""

    def __init__(self, library, nodes, image=None, rows=(), log=()):
        self.library, self.nodes, self.log = library, nodes, []
        self.book, self.stripes = lrc_embed.Book(library, nodes, image=image), Stripes(rows)
        for record in log:
            self.follow(record)

    def follow(self, record):
        """Follows a record of the log, which the book may have already. Whether it says something that is so."""
        self.log.append(record)
        if isinstance(record, tuple):
            return self.stripes.follow_written(*record)
        number = self.book.before() + sum(not isinstance(it, tuple) for it in self.log)
        if number > self.count():
            self.book.replay(record)
        self.stripes.follow(number, lrc_embed.Entry.from_buffer_copy(record))
        return True

    def count(self):
        return self.book.before() + self.book.count()

    def call(self, line, session=1):
        """Makes a call, prints it, and returns its reply."""
        entry = self.book.call_entry(session, command_of(self.library, line))
        self.follow(bytes(entry))
        print(f"{self.count():2} {line:9} {lrc_embed.reply_text(self.library, entry.reply)}")
        return entry.reply

    def homes(self, stripe):
        """The node of each fragment that has one."""
        homes = self.book.homes(stripe).homes
        return {fragment: home.seat.node for fragment, home in enumerate(homes) if home.is_there}

    def begin_again(self):
        """The same store after a restart in an image that was kept now."""
        return Store(self.library, self.nodes, self.book.image(), self.stripes.rows())


def fragments_of(library, text):
    """The sixteen fragments of a wide stripe."""
    data = [f"{text} {fragment}".encode().ljust(32, b".") for fragment in range(12)]
    return data + lrc_embed.encode(library, lrc_embed.Code.WIDE, data)


def write(store, disks, stripe, fragments):
    """Writes a stripe that was just placed, and then tells so. Whether it is still there."""
    generation = store.stripes.generations[stripe]
    for fragment, node in store.homes(stripe).items():
        disks.write(node, store.stripes.name(stripe, fragment), fragments[fragment])
    return store.follow((stripe, generation))


def right(store, disks, stripe, fragments):
    """How many of a stripe's fragments are at home with these bytes."""
    return sum(disks.read(node, store.stripes.name(stripe, fragment)) == fragments[fragment]
               for fragment, node in store.homes(stripe).items())


def late_worker(store, disks):
    """A worker is held up. Meanwhile its stripe goes, and its seat and the number of its stripe are given anew."""
    older, newer = (fragments_of(store.library, text) for text in ("older", "newer"))
    store.call("place 1")
    write(store, disks, 1, older)
    store.call("fail 3")
    lease = store.call("next").lease
    name = store.stripes.name(lease.stripe, lease.fragment, lease.epoch)  # what it will write, as it is granted
    store.call("drop 1")
    store.call("place 2")
    store.call("join 3")
    seats = list(map(str, store.call("place 1").seats))
    write(store, disks, 1, newer)
    disks.write(lease.target.node, name, older[lease.fragment])
    print(f"   the worker writes {name} to {lease.target}, where fragment {seats.index(str(lease.target))} is now")
    print(f"   node {lease.target.node} has {' '.join(sorted(os.listdir(os.path.dirname(disks.path(lease.target.node, '')))))}")
    reply = store.call(f"done {lease.stripe} {lease.fragment} {lease.epoch}")
    if reply.refusal == lrc_embed.Refusal.STALE:
        disks.delete(lease.target.node, name)
    print(f"   {right(store, disks, 1, newer)} fragments of stripe 1 are right")


def dead_writer(store, disks):
    """A writer dies between `place` and the last of its bytes, or seems to."""
    fragments = fragments_of(store.library, "half")
    store.call("place 5")
    generation = store.stripes.generations[5]
    for fragment, node in list(store.homes(5).items())[:4]:
        disks.write(node, store.stripes.name(5, fragment), fragments[fragment])
    level = lrc_embed.LevelKind(store.book.level(5).kind).name.lower()
    print(f"   stripe 5 is {level} to the book, and {right(store, disks, 5, fragments)} of its fragments are there")
    print(f"   not written: {store.stripes.unwritten(store.count())}")
    for stripe in store.stripes.unwritten(generation):  # which was long ago
        store.call(f"drop {stripe}")
    print(f"   the writer is there after all, and tells that it has written: {store.follow((5, generation))}")


def restart(store, disks):
    """A fragment moves, the store begins again in an image, and its names are the same."""
    fragments = fragments_of(store.library, "newer")
    store.call("fail 0")
    lease = store.call("lease 1 4").lease
    disks.write(lease.target.node, store.stripes.name(1, 4, lease.epoch), fragments[4])
    store.call(f"done 1 4 {lease.epoch}")
    print(f"   fragment 4 is {store.stripes.name(1, 4)} on node {store.homes(1)[4]}")
    again = store.begin_again()
    print(f"   after a restart {right(again, disks, 1, fragments)} fragments of stripe 1 are right")


def main(path, nodes, folder):
    library = ctypes.CDLL(path)
    lrc_embed.expect_version(library)
    with open(nodes, encoding="utf-8") as file:
        store, disks = Store(library, file.read()), Disks(folder)
    for name, play in (("A late worker", late_worker), ("A writer that dies", dead_writer), ("A restart", restart)):
        print(name)
        play(store, disks)


if __name__ == "__main__":
    if len(sys.argv) != 4:
        sys.exit(__doc__)
    main(*sys.argv[1:])
