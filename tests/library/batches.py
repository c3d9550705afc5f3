"""Calls that are made in groups by one call, beside a book that makes them one by one, and beside the model.

Calls are drawn by a fixed rule, in groups of 0 to 40. In some groups one can't be made, since its session, its kind or a number
that it names is out of range: the calls before it are made, and those from it on are not."""
import ctypes

from tests import harness
from tests.library import library
from tests.library.comparing import STRIPES, Differs, compare, expect
from tests.library.library import lrc_embed
from tests.model import draws, rules

Entry, Status = lrc_embed.Entry, lrc_embed.Status
TWENTY = harness.nodes_in_order(20, 16)
# What makes a call one that can't be made: a field of its entry, or of its command, and a number out of its range.
SPOILED = [("session", 0), ("session", 9), ("kind", 0), ("kind", 19), ("kind", 255), ("stripe", 4096), ("fragment", 16)]


def spoil(row, entries, at):
    """The entry at a position is changed into a call that can't be made."""
    name, number = SPOILED[next(row) % len(SPOILED)]
    of = entries[at] if name == "session" else entries[at].command
    if name in ("stripe", "fragment"):  # (of a command that has both)
        entries[at].command.kind = lrc_embed.CommandKind.LEASE
    ctypes.memset(ctypes.addressof(of) + getattr(type(of), name).offset, 0, getattr(type(of), name).size)
    ctypes.memmove(ctypes.addressof(of) + getattr(type(of), name).offset, number.to_bytes(2, "little"),
                   getattr(type(of), name).size)


def called(book, entries):
    """Makes the calls of these entries. Returns the status and how many are made."""
    made = ctypes.c_size_t(99)
    status = book.status_of("calls", entries, ctypes.c_size_t(len(entries)), ctypes.byref(made))
    return Status(status), made.value


def make_group(book, single, store, drawn, entries, stop):
    """Makes a group of calls on a book, and those before `stop` one by one on another one and on the model."""
    asked = [bytes(entry) for entry in entries]
    wanted = (Status.DONE if stop == len(entries) else Status.OUT_OF_RANGE), stop
    expect("status, and how many calls are made", called(book, entries), wanted)
    for (session, line), entry in zip(drawn[:stop], entries):
        expect("entry of a call in a group", bytes(entry), bytes(single.call_entry(session, library.command_of(line))))
        expect("reply in a group", library.text_of(entry.reply), store.call(session, line))
    expect("what is behind the calls that are made", [bytes(entry) for entry in entries[stop:]], asked[stop:])


def run(shared, groups, seed):
    """Makes groups of calls. Returns how many, how many of them stop, and the calls."""
    row, store = draws.numbers(seed), rules.Store(TWENTY)
    within, stops, count = draws.Range(STRIPES, [*TWENTY, 65535], range(12)), 0, 0
    nodes = harness.topology_of(TWENTY)
    with lrc_embed.Book(shared, nodes) as book, lrc_embed.Book(shared, nodes) as single:
        for _ in range(groups):
            # (a draw looks at the model, which makes no call before the group is drawn)
            drawn = [draws.drawn_call(store, row, within) for _ in range(next(row) % 41)]
            entries = (Entry * len(drawn))()
            for entry, (session, line) in zip(entries, drawn):
                entry.session, entry.command = session, library.command_of(line)
            stop = next(row) % len(drawn) if drawn and next(row) % 4 == 0 else len(drawn)
            if stop < len(drawn):
                spoil(row, entries, stop)
            try:
                make_group(book, single, store, drawn, entries, stop)
                count += stop
                compare(book, store, count)
                expect("image after a group", book.image(), single.image())
            except Differs as differs:
                raise Differs(f"after {count} calls in groups: {differs}") from None
            stops += stop < len(drawn)
        entries = [bytes(entry) for entry in book.entries()]
        with lrc_embed.Book(shared, nodes, entries) as again:
            expect("image of a book that replays the entries", again.image(), book.image())
    return stops, count


def test(count, shared):
    groups = 120
    try:
        stops, calls = run(shared, groups, 11)
    except Differs as differs:
        count.check(f"groups: {differs}", False)
        return
    print(f"calls in groups: {calls} in {groups}, of which {stops} stop at a call that can't be made")
    count.add(calls, [])
    count.check(f"groups: {stops} of them stop", 10 < stops < groups)
