#!/usr/bin/env python3
"""The late worker of late_worker.c from Python.

Usage: late_worker.py [LIBRARY], where LIBRARY is the liblrc_embed.so that `build` makes; by default that which is installed."""
import sys

sys.dont_write_bytecode = True
from lrc_embed import Book, Command, CommandKind, Entry, Fault, OtherVersion, ReplyKind, load, reply_text


def main(path=None):
    library = load(path)
    nodes = "".join(f"[[node]]\nnumber = {i}\nfault = {i}\nupgrade = {i % 10}\nslots = 4\n" for i in range(20))
    of_fragment = {"stripe": 1, "fragment": 3}
    script = [
        Command(CommandKind.PLACE, stripe=1), Command(CommandKind.FAIL, node=3),
        Command(CommandKind.LEASE, **of_fragment), Command(CommandKind.REVOKE, **of_fragment),
        Command(CommandKind.LEASE, **of_fragment),
        Command(CommandKind.REPORT, epoch=1, **of_fragment), Command(CommandKind.REPORT, epoch=2, **of_fragment),
        Command(CommandKind.REPORT, epoch=2, **of_fragment), Command(CommandKind.REVOKE, **of_fragment),
    ]
    log = []
    with Book(library, nodes) as book:
        print("script 1")
        for command in script:
            entry = book.call_entry(1, command)
            # A store writes the bytes of the entry to its own log before it acts on the reply.
            log.append(bytes(entry))
            print(book.count(), reply_text(library, entry.reply))
        # Nothing is left to repair, and a worker that asks by a peek adds no entry.
        assert book.peek(1, Command(CommandKind.NEXT)).kind == ReplyKind.IDLE
        assert book.count() == len(log)

    # The program starts again; a long log is read and replayed in pieces.
    with Book(library, nodes) as book:
        for piece in (log[:5], log[5:]):
            book.replay(b"".join(piece))
        print("replayed", book.count())
        assert book.risk() == []

    # A log that was changed is found out.
    changed = Entry.from_buffer_copy(log[4])
    changed.reply.lease.epoch = 1
    log[4] = bytes(changed)
    try:
        Book(library, nodes, b"".join(log))
    except Fault as fault:
        print(fault.status.name.lower(), "at", fault.position)


try:
    main(*sys.argv[1:])
except OtherVersion as why:
    sys.exit(f"late_worker: {why}")
