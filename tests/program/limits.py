"""Gives the program, and the library, input at every limit, and compares with the model in tests/model/rules.py. Want of memory must be
told only where memory was refused, and no contract can say so: here it never is.

Usage: tests/program/limits [PROGRAM [FOLDER]], where FOLDER has what examples/embed/build makes; without it the program alone is tried,
by default the one that `rt ci` or `rt run` has built in crates/lrcman.

- A store of 512 nodes with the highest numbers and 4,096 stripes, a lease for each fragment, and some nodes gone, down or
  draining (tests/library/full.py): its image, its tables, commands after it, and what would become of it if all nodes stopped or were
  lost, by name, each thrice, or as one domain.
- Topologies of 512 nodes of which the last is wrong, alone and with an image.
- Images that are refused: in the last of 67,000 lines; in one beyond row 1,000, for each cause that a stripe, a count of grants
  or a lease can have; in the last of 512 nodes; in one behind more rows of nodes than a store has; and small ones for each cause.
- A script that places 4,096 stripes, and has more than 1,000 at risk at its end; one over 4,096 stripes that are all lost;
  commands after 1,000 ticks; and commands after the highest numbers that an image may have.
- To the library alone: 60,000 calls in one; a tick that ends each lease of the full store, with its changes; and 300 books that are
  closed again, which may not stay in memory.
- To the program alone: 4 MiB of lines of which the last is bad, or none, in one script and in two; two scripts over 512 nodes;
  and nodes in 256 fault or upgrade domains.

The last line is 'N passed, M failed'."""
import ctypes
import os
import re
import subprocess
import sys
from collections import namedtuple
from functools import cache

from tests import harness
from tests.library import comparing, full, library, walked
from tests.library.full import CLOCK, COUNT, FIRST
from tests.library.library import command_of, lrc_embed
from tests.model import causes, rules, shown
from tests.model.rules import MOST_BYTES, MOST_ENTRIES, MOST_GRANTS, MOST_STRIPES, MOST_TICKS, Cause, Node
from tests.program import judging

TWENTY = harness.nodes_in_order(20, 256)
TIMEOUT = 30 * 60  # (a program that is compiled with checks is far slower than a proved one)
END = "end\n"
TORN = "lrcman: the last line has no end: is the file whole?\n"


def difference(found, right):
    """The first line in which two texts differ."""
    pairs = ((line, wanted) for line, wanted in zip(found.split("\n"), right.split("\n")) if line != wanted)
    return next((f"`{line[:200]}` and not `{wanted[:200]}`" for line, wanted in pairs), "another number of lines")


def run(program, words, given):
    ran = subprocess.run([program, *words], input=given.encode(), capture_output=True, timeout=TIMEOUT)
    return ran.returncode, *(text.decode(errors="replace") for text in (ran.stdout, ran.stderr))


def expect(count, name, program, words, given, wanted, status=0, told=""):
    """The words have to print this and end with the status, with this on standard error."""
    ended, printed, error = run(program, words, given)
    is_right = (ended, printed, error) == (status, wanted, told)
    why = "" if is_right else f"status {ended}, `{error[:200].rstrip()}`, {difference(printed, wanted)}"
    count.check(f"lrcman {' '.join(words)[:40]} of {name}: {why}", is_right)


# Topologies that are refused.


def wrong_topologies():
    """512 nodes of which the last is wrong: how, the text, what the program tells, and what the library does."""
    others = harness.topology_of(full.nodes_of(COUNT - 1))
    last = "[[node]]\nnumber = {}\nfault = {}\nupgrade = 0\nslots = 1\n"
    twice, status = FIRST + COUNT - 2, lrc_embed.Status
    yield "has no fault domain", others + last.format(2**16 - 1, '"0"'), f"3 {COUNT - 1}", (status.BAD_FIELD, COUNT - 1)
    yield "has fault domain 256", others + last.format(2**16 - 1, 256), f"4 {COUNT - 1}", (status.NODE_OUT_OF_RANGE, COUNT - 1)
    yield "has the number of another", others + last.format(twice, 0), f"5 {twice}", (status.DOUBLE_NODE, twice)


def test_topologies(count, program):
    for name, text, right, _ in wrong_topologies():
        expect(count, f"{COUNT} nodes of which the last {name}", program, ["check"], text, f"topology {right}\n", 2)


def fault_of_book(shared, text, image):
    """The status and the detail with which a book does not open."""
    try:
        with lrc_embed.Book(shared, text, image=image):
            return None
    except lrc_embed.Fault as fault:
        return fault.status, fault.position


def test_book_topologies(count, shared):
    for name, text, _, right in wrong_topologies():
        for image in None, f"image 1\nbefore 0\nclock 0\n{END}":
            found = fault_of_book(shared, text, image)
            count.check(f"the library, the last of {COUNT} nodes {name}: {found}", found == right)


# Images that are taken, or refused.


def with_wrong_row(text, word, number, change):
    """An image with another word in the last row of a kind, and the line of that row, from 1."""
    lines = text.split("\n")
    at = max(at for at, line in enumerate(lines) if line.split(" ")[0] == word)
    words = lines[at].split(" ")
    words[number] = change
    lines[at] = " ".join(words)
    return "\n".join(lines), at + 1


@cache
def full_store():
    store = full.full_store()
    return store, store.image(full.BEFORE)


@cache
def part_full():
    """An image of more than 1,000 rows of each kind but nodes: the first stripes, and the leases of the last of them."""
    text = full.full_store(1_104).image(full.BEFORE)
    lines = text.split("\n")
    return "\n".join(line for line in lines if not line.startswith("lease ") or int(line.split(" ")[1]) >= 1_024)


def wrong_rows():
    """By the kind of a row: a word of the last one in `part_full`, by its place, what it becomes, and the cause. That stripe is
    narrow and of the last group."""
    first, eighth, last = (full.node_at(15, full.PLACES[rules.NARROW][fragment]) for fragment in (0, 8, 9))
    seats = [(f"{FIRST - 1}:0", Cause.UNKNOWN_NODE), (f"{FIRST}:255", Cause.NODE_GONE)]
    yield "stripe6", 1, "0", Cause.OUT_OF_ORDER
    for seat, cause in [*seats, (f"{first}:256", Cause.UNKNOWN_SLOT), (f"{first}:0", Cause.SEAT_TAKEN)]:
        yield "stripe6", 2, seat, cause
    yield "stripe6", 3, f"{first}:255", Cause.NOT_LAWFUL
    yield "granted", 1, "0", Cause.OUT_OF_ORDER
    yield "granted", slice(2, None), ["0"] * 16, Cause.SAYS_NOTHING
    yield "granted", -1, str(MOST_GRANTS + 1), Cause.TOO_MANY_GRANTS
    yield "lease", 1, "0", Cause.OUT_OF_ORDER
    yield "lease", 1, "4095", Cause.UNKNOWN_STRIPE
    yield "lease", 2, "10", Cause.NEVER_GRANTED
    yield "lease", 2, "15", Cause.UNKNOWN_FRAGMENT
    for expiry in CLOCK, CLOCK + 4:
        yield "lease", 5, str(expiry), Cause.WRONG_EXPIRY
    for seat, cause in [*seats, (f"{last}:256", Cause.UNKNOWN_SLOT), (f"{last}:0", Cause.SEAT_TAKEN)]:
        yield "lease", 4, seat, cause
    yield "lease", 4, f"{eighth}:255", Cause.NOT_LAWFUL


def images_of_nodes():
    """Nodes, an image with a row for each number from one on, and what becomes of it."""
    head = "image 1\nbefore 0\nclock 0\n"
    down = [f"node {number} down\n" for number in range(2**16)]
    most = "".join(down[FIRST:])
    last, line = down[-1], 3 + COUNT
    yield full.nodes_of(), head + most + END, head + most + END
    yield full.nodes_of(COUNT - 1), head + most + END, (line, Cause.UNKNOWN_NODE)
    yield full.nodes_of(), head + most.replace(last, "node 65535 gone down\n") + END, (line, Cause.GONE_AND_DOWN)
    yield full.nodes_of(), head + most.replace(last, down[FIRST]) + END, (line, Cause.OUT_OF_ORDER)
    # More rows than a store has nodes: a row, or a line, is wrong behind them.
    yield full.nodes_of(), head + most + last + END, (line + 1, Cause.OUT_OF_ORDER)
    yield full.nodes_of(), head + most + last + "x\n" + END, line + 2
    yield full.nodes_of(), head + "".join(down) + END, (4, Cause.UNKNOWN_NODE)
    yield full.nodes_of(), head + "".join(down) + "x\n" + END, 4 + 2**16


def images():
    """The name, the nodes and the text of each image, and what becomes of it: the text of its image, or what the fault is."""
    small = [(it, None) for it in causes.TAKEN] + [(it, (line, cause)) for line, cause, it in causes.WRONG]
    for image, fault in small:
        yield f"an image with {image}", causes.TWENTY, causes.text_of(image), fault or causes.text_of(image)
    for nodes, text, right in images_of_nodes():
        yield f"an image of {text.count('node ')} nodes", nodes, text, right
    yield "a store that is partly full", full.nodes_of(), part_full(), part_full()
    for word, number, change, cause in wrong_rows():
        text, line = with_wrong_row(part_full(), word, number, change)
        yield f"an image with a wrong row, {cause!r} of `{word}`", full.nodes_of(), text, (line, cause)
    store, text = full_store()
    yield "the full store", store.nodes, text, text
    late, line = with_wrong_row(text, "lease", 5, str(CLOCK))
    yield "the full store, wrong in its last row", store.nodes, late, (line, Cause.WRONG_EXPIRY)


def begin_program(program):
    """A way to begin in an image: it returns the text of the image in which it began, or what the fault is."""

    def begin(nodes, text):
        status, printed, error = run(program, ["image"], text + harness.topology_of(nodes))
        if status == 0:
            return printed
        fault = re.fullmatch("lrcman: [^:]+: image ([0-9]+)(?: cause ([0-9]+))?\n", error)
        if (status, printed) != (2, "") or not fault:
            return f"status {status}, `{printed[:200]}`, `{error[:200].rstrip()}`"
        line, cause = (number and int(number) for number in fault.groups())
        return (line, Cause(cause)) if cause else line

    return begin


def begin_book(shared):
    """The same by the library."""

    def begin(nodes, text):
        try:
            fault, book = comparing.begun_in_book(shared, nodes, text)
            if fault:
                return fault
            with book:
                return book.image()
        except lrc_embed.Fault as fault:
            return str(fault)

    return begin


def test_longest(count):
    """The image of the full store is not far below the most that the header says of any, but for its counts of grants, of one digit."""
    text, most = full_store()[1], lrc_embed.IMAGE_MOST
    short = sum(16 * len(" 4294967294") - len(" ".join(["", *line.split(" ")[2:]])) for line in text.split("\n")
                if line.startswith("granted "))
    count.check(f"the image of the full store has {len(text)} bytes, {short} fewer by its counts, and the most is {most}",
                most * 4 // 5 < len(text) + short <= most)


def test_images(count, who, begin):
    for name, nodes, text, right in images():
        found = begin(nodes, text)
        why = "" if found == right else difference(str(found), str(right))
        count.check(f"{who} begins in {name}: {why}", found == right)


# Scripts.

Played = namedtuple("Played", "name nodes image lines before replies store")


def played(name, store, image, before, lines):
    """A script that the model has played, from an image on if there is one."""
    return Played(name, store.nodes, image, lines, before, [store.call(1, line) for line in lines], store)


def lines_for_many():
    """Lines that place all stripes on the highest nodes, fail and stop some, and repair."""
    yield from (f"place{'' if stripe % 4 else 6} {stripe}" for stripe in range(MOST_STRIPES))
    yield from (f"fail {FIRST + 33 * at}" for at in range(15))
    yield from (f"down {FIRST + 33 * at + 2}" for at in range(15))
    yield from ["next"] * 500


def lines_for_full():
    """Lines for the full store: refused ones, three ticks that end all leases, and repairs in the room of these."""
    yield from ["place 0", "lease 0 0", "next", "done 0 0 1", "drop 4095", "place6 4095", "tick", "tick", "tick"]
    yield from ["next"] * 300
    yield from ["upgrade 6", f"fail {FIRST + 100}", f"up {full.node_at(2, 0)}", f"join {FIRST}", f"retire {full.node_at(3, 5)}"]
    yield from ["next"] * 300


def lines_after_ticks():
    """More than 1,000 ticks, and commands of which many lack room."""
    yield from ["tick"] * 1_001
    yield from (f"place{'' if stripe % 2 else 6} {stripe * 8}" for stripe in range(100))
    yield from ["fail 3", "down 4", *["next"] * 60, "tick", "drain 5", *["next"] * 60, "tick", "tick", *["next"] * 30]


def begun(text):
    """The store of twenty nodes that begins in an image, the image, and the number of entries before it."""
    store, before = rules.Store.begin(TWENTY, text)
    return store, text, before


@cache
def scripts():
    spent = f"image 1\nbefore {MOST_ENTRIES}\nclock {MOST_TICKS}\ngranted 1{f' {MOST_GRANTS}' * 16}\n{END}"
    entries = f"image 1\nbefore {MOST_ENTRIES}\nclock 0\n{END}"
    again = ["place 1", "fail 0", "next", "lease 1 0", "tick", "tick", "tick", "next"]
    return [
        played("all stripes placed", full.Store(full.nodes_of()), "", 0, list(lines_for_many())),
        played("1,001 ticks", rules.Store(TWENTY), "", 0, list(lines_after_ticks())),
        played("the highest numbers", *begun(spent), again),
        played("the highest number of entries", *begun(entries), []),
        played("the full store", full.full_store(), full_store()[1], full.BEFORE, list(lines_for_full())),
        played("all stripes lost", in_one_domain(), all_lost()[1], 0, ["next"]),
    ]


def expect_script(count, program, it):
    """The replies with both tables, the status, and the image after it."""
    given = it.image + harness.bundle_of(it.nodes, [it.lines])
    places = [f"{it.before + at} {reply}" for at, reply in enumerate(it.replies, 1)]
    output, after = "\n".join(["script 1", *places, *it.store.tables(), ""]), it.before + len(it.lines)
    expect(count, it.name, program, ["resume" if it.image else "run"], given, output)
    expect(count, it.name, program, ["show", "status"], given, shown.shown("status", it.store, after))
    image = ("", 2, "lrcman: a number of the state is at its end: image full\n") if it.store.is_spent(after) else (it.store.image(after),)
    expect(count, it.name, program, ["image"], given, *image)


def test_scripts(count, program):
    for it in scripts():
        expect_script(count, program, it)
    many, risky, lost = scripts()[0], *(len(list(scripts()[at].store.risk_rows())) for at in (0, -1))
    right = risky > 1_000 and all(reply.startswith("placed ") for reply in many.replies[:MOST_STRIPES])
    count.check(f"the script that places all stripes: {risky} stripes are at risk", right)
    count.check(f"the script over lost stripes: {lost} stripes are at risk", lost == MOST_STRIPES)


def test_book_scripts(count, shared):
    for it in scripts():
        try:
            wrong = list(wrong_in_book(shared, it))
        except lrc_embed.Fault as fault:
            wrong = [str(fault)]
        count.add(4 + len(it.lines) - len(wrong), [f"the library, {it.name}: {line}" for line in wrong])


def wrong_in_book(shared, it):
    """What a book has otherwise than the model, while it plays a script and at its end."""
    with lrc_embed.Book(shared, harness.topology_of(it.nodes), image=it.image or None) as book:
        for line, right in zip(it.lines, it.replies):
            found = library.text_of(book.call(1, command_of(line)))
            if found != right:
                yield f"`{line}`: {found}, and not {right}"
        after = it.before + len(it.lines)
        image = None if it.store.is_spent(after) else it.store.image(after)
        for name, found, right in (
            ("entries", book.before() + book.count(), after), ("the image", comparing.image_in_book(book), image),
            ("risk", list(library.risk_rows(book)), list(it.store.risk_rows())),
            ("load", list(library.load_rows(book, it.nodes)), list(it.store.load_rows())),
        ):
            if found != right:
                yield name


# Tables, walks and forecasts.


def in_one_domain():
    """A store of which all nodes are in one fault domain and one upgrade domain, so that a stripe has one home at most."""
    store = full.Store(full.nodes_of(domains=(255, 255)))
    for stripe in range(MOST_STRIPES):
        store.add_stripe(stripe, (rules.WIDE, rules.NARROW)[stripe % 2])
        store.set_home((stripe, stripe % 10), (FIRST + stripe % COUNT, stripe // COUNT))
    return store


@cache
def all_lost():
    store = in_one_domain()
    return store, store.image(0)


@cache
def forecasts():
    """The store and its image, the word, the words and the numbers that name the nodes, the outage, and the state after it."""
    thrice, found = [str(number) for number in range(2**16 - 1, FIRST - 1, -1)] * 3, []
    for word, whole, named in (
        ("may-stop", full_store(), thrice), ("may-lose", full_store(), thrice), ("may-stop", full_store(), thrice[:1]),
        ("may-lose", full_store(), ["upgrade", "0"]), ("may-stop", all_lost(), ["fault", "255"]),
        ("may-lose", all_lost(), ["upgrade", "255"]),
    ):
        outage = lrc_embed.Outage.STOP if word == "may-stop" else lrc_embed.Outage.LOSE
        nodes = shown.nodes_of(whole[0], named)
        found.append((*whole, word, named, nodes, outage, walked.after_outage(full.plain(whole[0]), outage, set(nodes))))
    return found


@cache
def tables():
    """The tables of the full store, by their views."""
    return {view: shown.shown(view, full_store()[0], full.BEFORE) for view in shown.VIEWS}


@cache
def outlooks():
    """Of each forecast the table, and why stripes are harmed."""
    return [shown.outlook(store, after, nodes) for store, _, _, _, nodes, _, after in forecasts()]


def test_tables(count, program):
    store, image = full_store()
    given = image + harness.topology_of(store.nodes)
    for view, table in tables().items():
        status = 4 if view == "health" and shown.is_in_danger(store) else 0
        expect(count, "the full store", program, ["show", *view.split(" ")], given, table, status)
    for (store, image, word, named, *_), (table, harms) in zip(forecasts(), outlooks()):
        given = image + harness.topology_of(store.nodes)
        expect(count, f"{len(store.leases)} leases", program, [word, *named], given, table, 4 if harms else 0)


def of_book(shared, store, image, look):
    """What a book that begins in the image of a store returns to a look, or the fault."""
    try:
        with lrc_embed.Book(shared, harness.topology_of(store.nodes), image=image) as book:
            return look(book)
    except lrc_embed.Fault as fault:
        return str(fault)


def test_walks(count, shared):
    (store, image), asked = full_store(), [0, 1, 2, 3, 12, 4_095]
    found = of_book(shared, store, image, lambda book: dict(walked.rows_in_book(book, store.nodes, asked, 60_000)))
    if count.check(f"the library, walks over the full store: {str(found)[:80]}", isinstance(found, dict)):
        for name, right in walked.rows_in_model(store, asked):
            count.check(f"the library, the full store: {name}", found[name] == right)


def test_book_forecasts(count, shared):
    for store, image, word, _, nodes, outage, after in forecasts():
        found = of_book(shared, store, image, lambda book, asked=(outage, nodes): walked.forecast_in_book(book, *asked))
        right = walked.outlook(store, after, nodes)
        count.check(f"the library, {word} of {len(nodes)} nodes: {str(found)[:80]}", found == right)


def test_book_tables(count, shared):
    numbers = [lrc_embed.View[view.replace(" ", "_").upper()] for view in tables()]
    found = of_book(shared, *full_store(), lambda book: list(map(book.show, numbers)))
    count.check(f"the library, the tables of the full store: {str(found)[:80]}", found == list(tables().values()))
    for (store, image, word, _, nodes, outage, _), (table, harms) in zip(forecasts(), outlooks()):
        found = of_book(shared, store, image, lambda book, asked=(outage, nodes): book.forecast_table(*asked))
        count.check(f"the library, the table of {word} of {len(nodes)} nodes: {str(found)[:80]}", found == (table, not harms))


def test_calls(count, shared):
    """A call of many calls."""
    store, lines = full.Store(TWENTY), ["place 1", "next", "tick", "down 3", "up 3", "drop 1"] * 10_000
    asked = [(1 + at % 8, command_of(line)) for at, line in enumerate(lines)]
    with lrc_embed.Book(shared, harness.topology_of(TWENTY)) as book:
        entries, status = book.calls(asked)
    found, right = [library.text_of(it.reply) for it in entries], [store.call(1 + at % 8, line) for at, line in enumerate(lines)]
    count.check(f"the library, {len(lines)} calls in one: {status!r} after {len(found)}", (found, status) == (right, lrc_embed.Status.DONE))


def test_changes(count, shared):
    """A tick that ends all leases at once, with a row for each."""
    store = full.full_store()
    for key, lease in list(store.leases.items()):
        store.end_lease(key)
        store.set_lease(key, lease._replace(expiry=CLOCK + 1))
    image, was = store.image(full.BEFORE), comparing.fragments_in_model(store)
    found = of_book(shared, store, image, lambda book: book.call_changes(1, command_of("tick")))
    right = store.call(1, "tick"), comparing.changes_in_model(was, comparing.fragments_in_model(store))
    if isinstance(found, tuple):
        found = library.text_of(found[0].reply), [comparing.change_in_book(row) for row in found[1]]
    count.check(f"the library, a tick that ends {len(right[1])} leases: {str(found)[:80]}", found == right)


def resident():
    """The bytes of this process that are in memory."""
    with open("/proc/self/statm", encoding="utf-8") as file:
        return int(file.read().split()[1]) * os.sysconf("SC_PAGESIZE")


def test_closes(count, shared):
    """A book that is closed does not stay in memory. No contract says so: what a book takes is of no clause."""
    store, _ = full_store()
    text, sizes = harness.topology_of(store.nodes), []
    for times in (20, 300):
        for _ in range(times):
            with lrc_embed.Book(shared, text):
                pass
        sizes.append(resident())
    # (one takes more than a MiB)
    count.check(f"the library: 300 books that are closed take {sizes[1] - sizes[0]} bytes", sizes[1] - sizes[0] < 32 << 20)


# For the program alone.


def far_lines():
    """A line that a bundle is filled with, the last line, and why it is bad."""
    comment = "#" + "x" * 39
    yield from [("next", "x", 1), ("next", "next 1", 2), (comment, "up x", 3), (comment, "place 4096", 4)]
    yield from [(comment, "x" * 1_025, 5), ("", "x", 1), ("tick", "next", None)]


def test_far_lines(count, program):
    """Bundles of as many bytes as there may be."""
    topology = harness.bundle_of(TWENTY, [[]])
    for line, last, cause in far_lines():
        lines, rest = divmod(MOST_BYTES - len(topology) - len(last), len(line) + 1)
        # (the bytes that are over are a comment behind the topology, or an empty line)
        over = f"#{'x' * (rest - 2)}\n" if rest > 1 else "\n" * rest
        given = topology + over + f"{line}\n" * lines + last
        at, commands = given.count("\n") + 1, 1 + lines
        right = (f"line {at} cause {cause}\n", 1) if cause else (f"ok nodes 20 scripts 1 commands {commands}\n", 0, TORN)
        expect(count, f"{lines} lines `{line}`, and `{last[:20]}`", program, ["check"], given, *right)


def test_long_run(count, program):
    """As many commands as there may be."""
    topology = harness.bundle_of(TWENTY, [[]])
    lines = (MOST_BYTES - len(topology)) // 5
    output = "\n".join(["script 1", *(f"{at} idle" for at in range(1, lines + 1)), *rules.Store(TWENTY).tables(), ""])
    expect(count, f"{lines} commands", program, ["run"], topology + "next\n" * lines, output)


def pairs_of_scripts():
    """Nodes and two scripts: as many commands as there may be, and some over 512 nodes."""
    lines = ["next"] * ((MOST_BYTES - len(harness.bundle_of(TWENTY, [[], []]))) // 10)
    yield TWENTY, [lines, lines]
    halves = [[f"place{'' if stripe % 4 else 6} {stripe}" for stripe in range(half, 80, 2)] for half in range(2)]
    more = [[f"{word} {FIRST + 33 * at}" for at in range(9)] for word in ("fail", "down")]
    yield full.nodes_of(), [place + change + ["next"] * 20 for place, change in zip(halves, more)]


def test_two_scripts(count, program):
    for nodes, scripts in pairs_of_scripts():
        given, why = harness.bundle_of(nodes, scripts), ""
        status, printed, error = run(program, ["run"], given)
        try:
            judging.judge(given.encode(), printed.encode(), full.Store)
        except judging.Wrong as wrong:
            why = str(wrong)
        name = f"lrcman run of {' and '.join(f'{len(script)}' for script in scripts)} commands over {len(nodes)} nodes"
        count.check(f"{name}: status {status}, `{error[:200].rstrip()}`, {why}", (status, error, why) == (0, "", ""))


def test_domains(count, program):
    """Nodes in as many domains as there may be."""
    for faults, upgrades in (256, 7), (256, 256), (256, 3), (9, 256), (201, 4):
        nodes = {FIRST + at: Node(at % faults, at % upgrades, 1) for at in range(COUNT)}
        needed = [("wide", 16, 7), ("narrow", 10, 4)]
        told = [f"lrcman: no {code} stripe can be placed: {faults} of {fault} fault domains, {upgrades} of {upgrade} upgrade domains\n"
                for code, fault, upgrade in needed if faults < fault or upgrades < upgrade]
        line = f"ok nodes {COUNT} scripts 0 commands 0\n"
        expect(count, f"{faults} domains", program, ["check"], harness.topology_of(nodes), line, 0, "".join(told))


def main(words):
    count, program = harness.Count(), harness.program_of(words[:1])
    test_domains(count, program)
    test_far_lines(count, program)
    test_long_run(count, program)
    test_two_scripts(count, program)
    test_topologies(count, program)
    test_scripts(count, program)
    test_tables(count, program)
    test_longest(count)
    test_images(count, "the program", begin_program(program))
    if words[1:]:
        shared = ctypes.CDLL(f"{words[1]}/liblrc_embed.so")
        test_book_topologies(count, shared)
        test_book_scripts(count, shared)
        test_walks(count, shared)
        test_book_forecasts(count, shared)
        test_book_tables(count, shared)
        test_calls(count, shared)
        test_changes(count, shared)
        test_images(count, "the library", begin_book(shared))
        test_closes(count, shared)
    return count.report()


if __name__ == "__main__":
    sys.exit(main(sys.argv[1:]))
