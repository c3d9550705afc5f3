"""Takes over drawn stores with tools/takeover, and looks at each image with the program and with the model of tests/model/rules.py.

Usage: tests/program/takeover [PROGRAM], by default the program that `rt ci` or `rt run` has built in crates/lrcman.

Ten stores, the first of 300 stripes laid out by racks alone, others with seats that are held twice, nodes that are unknown or gone,
slots that are none or not told, domains that are few, and narrow stripes. Right is, of each, after one run:
- The image is one that the program and the model open, and has each node in the mode of its table, down or upgrading. A seat of
  HOMES stands in it, or has a row of the report, and not both; a slot that is not told is the least that no row claims.
- The model refuses each seat of the report, put back into the image, for the cause of its row, which names a fragment in the way.
- The homes that stay leave a stripe the greatest margin that any set of them leaves, and of these the fewest are left out: of
  some stripes of each store, for which each set is looked at.
- The program and the report agree which stripes are lost; the status is 4 if one is. After the moves that are needed, made in their
  order, none is, and no fewer would do; after all moves no seat breaks a rule but those without a step. What is needed comes first,
  of stripes first that one fault domain would take, then the rest by margin; no node gets anything that is not active and online.
Bad input is refused by file, line and column. The last line is 'N passed, M failed'."""
import csv
import os
import random
import subprocess
import sys
import tempfile
from collections import namedtuple
from functools import cache

from tests import harness
from tests.harness import TOP, topology_of
from tests.model import rules
from tests.model.rules import NARROW, WIDE, Node, members, set_of

TOOL = f"{TOP}/tools/takeover"
HEADER = "stripe,code,fragment,node,slot"
REASONS = {"unknown node": 6, "no such slot": 9, "node gone": 10, "seat held": 11, "fault domain": 12, "upgrade domain": 12}
CODES = {"wide": WIDE, "narrow": NARROW}

# A fragment of HOMES; `slot` is None where it is not told.
Home = namedtuple("Home", "stripe code fragment node slot")
# What is drawn: fault domains, upgrade domains, nodes of a fault domain, stripes, and of a hundred seats how many are wrong.
Shape = namedtuple("Shape", "faults upgrades each stripes wrong")
SHAPES = [Shape(30, 10, 4, 300, 0), Shape(20, 7, 3, 40, 0), Shape(40, 12, 2, 60, 3), Shape(12, 9, 4, 30, 0), Shape(10, 4, 6, 30, 1),
          Shape(24, 30, 4, 60, 10), Shape(16, 7, 2, 20, 0), Shape(18, 10, 2, 40, 5), Shape(8, 3, 8, 20, 0), Shape(30, 16, 1, 12, 2)]


# Drawn stores.


def drawn_nodes(draw, shape):
    return {100 * fault + at: Node(fault, (3 * fault + at) % shape.upgrades, draw.choice([36, 60, 90]))
            for fault in range(shape.faults) for at in range(shape.each)}


def drawn_homes(draw, shape, nodes):
    """Stripes whose fragments are in different fault domains where there are enough, whatever their upgrade domains."""
    free = {number: list(range(node.slots)) for number, node in nodes.items()}
    homes = []
    for stripe in draw.sample(range(4096), shape.stripes):
        code = "narrow" if draw.random() < 0.3 and shape != SHAPES[0] else "wide"
        racks = draw.sample(range(shape.faults), min(shape.faults, 16))
        for fragment in CODES[code].fragments:
            fitting = [number for number, node in nodes.items() if node.fault == racks[fragment % len(racks)] and free[number]]
            number = draw.choice(fitting or [number for number in nodes if free[number]])
            slot = free[number].pop(0)
            if draw.random() * 100 < shape.wrong:
                taken = draw.choice(homes)[3:] if homes else (9999, 0)
                number, slot = draw.choice([(number, 255), (9999, slot), taken, (number, None)])
            if draw.random() > 0.01 or shape == SHAPES[0]:
                homes.append(Home(stripe, code, fragment, number, slot))
    return homes


def drawn_script(draw, nodes, gone):
    """Nodes that are down, draining, or both, and a domain that upgrades: none of them takes anything."""
    down, draining, both = draw.sample(sorted(nodes.keys() - gone), 3)
    return [f"down {down}", f"drain {draining}", f"drain {both}", f"down {both}", f"upgrade {nodes[draining].upgrade}"]


def text_of(homes):
    return "\n".join([HEADER, *(",".join("" if field is None else str(field) for field in home) for home in homes), ""])


class Tool:
    """The tool in a folder, with the nodes of a store, of which some are gone, and others as a script leaves them."""

    def __init__(self, program, folder, nodes, gone, script=()):
        self.program, self.folder, self.nodes, self.gone = program, folder, nodes, gone
        self.topology = topology_of(nodes).encode()
        lines = "".join(f"{line}\n" for line in [*(f"fail {node}" for node in gone), *script]).encode()
        table = self.show("nodes", self.topology + b"%%\n" + lines)
        self.write("nodes.csv", table)
        self.table = table.decode().splitlines()

    def write(self, name, data):
        with open(f"{self.folder}/{name}", "wb") as file:
            file.write(data)

    def show(self, view, sequel):
        return subprocess.run([self.program, "show", view], input=sequel, capture_output=True, check=True).stdout

    def run(self, homes):
        """What the tool makes of homes: its end, the image, and the report."""
        self.write("homes.csv", text_of(homes).encode())
        ran = subprocess.run([TOOL, "nodes.csv", "homes.csv", "report.csv"], cwd=self.folder, capture_output=True, text=True)
        with open(f"{self.folder}/report.csv", encoding="utf-8") as file:
            return ran, ran.stdout, list(csv.DictReader(file))

    def nodes_after(self, image):
        """The table of nodes of an image, without the numbers of its homes."""
        return without_homes(self.show("nodes", image.encode() + self.topology).decode().splitlines())

    def lost(self, image):
        """The stripes that the program counts as lost, of an image."""
        rows = csv.DictReader(self.show("stripes", image.encode() + self.topology).decode().splitlines())
        return {int(row["stripe"]) for row in rows if row["level"] == "lost"}


# What is right.


def without_homes(table):
    """A table of nodes without the numbers of homes and held slots."""
    return [row.split(",")[:7] + row.split(",")[-1:] for row in table]


def told_slots(tool, homes):
    """The slot of each fragment: the one that is told, or else the least of its node that no row claims; None if there is none."""
    claimed = {(home.node, home.slot) for home in homes if home.node not in tool.gone}  # (nobody holds a seat of one that is gone)
    slots = {(home.stripe, home.fragment): home.slot for home in homes}
    for home in homes:
        if home.slot is None and home.node in tool.nodes:
            free = (slot for slot in range(tool.nodes[home.node].slots) if (home.node, slot) not in claimed)
            slots[home.stripe, home.fragment] = slot = next(free, None)
            claimed |= {(home.node, slot)} if home.node not in tool.gone else set()
    return slots


def seats_in(image):
    """The seats of an image by stripe and fragment."""
    rows = [line.split(" ") for line in image.split("\n") if line.startswith("stripe")]
    seats = {(int(row[1]), fragment): seat for row in rows for fragment, seat in enumerate(row[2:]) if seat != "-"}
    return {key: tuple(map(int, seat.split(":"))) for key, seat in seats.items()}


def causes_of(tool, kept, report):
    """The cause for which the model refuses each seat of the report beside the homes that stay; None where it takes it."""
    store, of_stripe = rules.Store(tool.nodes), {}
    for node in tool.gone:
        store.set_mode(node, "gone", False)
    for number, code in tool.codes.items():
        store.add_stripe(number, code)
    for key in kept:
        of_stripe.setdefault(key[0], []).append(key)
    by_seat = {seat: key for key, seat in kept.items()}
    for row in report:
        node, slot = row["seat"].split(":")
        key, seat = (int(row["stripe"]), int(row["fragment"])), (int(node), int(slot or 256))
        beside = [*of_stripe.get(key[0], []), *([by_seat[seat]] if seat in by_seat else [])]
        store.homes = {other: kept[other] for other in beside if other != key}
        try:
            store.expect_seat(1, key, seat)
            yield None
        except rules.WrongLine as wrong:
            yield wrong.args[1]


def held_by(row):
    return (int(row["other_stripe"]), int(row["other_fragment"])) if row["other_stripe"] else None


def best_of(tool, code, seats):
    """Of one stripe with seats by fragment: the best margin that lawful homes leave and the fewest fragments left out for it; and
    the least number of moves after which the stripe can be recovered. Each subset is looked at."""
    store, found = rules.Store(tool.nodes), {}
    fragments = sorted(seats)
    barred = {one: set_of(other for other in fragments if other != one and
                          store.bars[seats[other][0]][code.class_of[one] >> other & 1] >> seats[one][0] & 1) for one in fragments}
    lawful = {0}
    for fragment in fragments:
        lawful |= {kept | 1 << fragment for kept in lawful if not kept & barred[fragment]}
    for kept in lawful:
        gone = code.all & ~kept
        rank = rules.margin(code, gone)
        found[-1 if rank is None else rank] = min(found.get(-1 if rank is None else rank, 99), gone.bit_count())
    best = max(found)
    # (each move takes one fragment out of what is missing, so the least number is that of the smallest set that is to be taken out)
    moves = min(fewest_out(code, code.all & ~kept) for kept in lawful)
    return best, found[best], moves


@cache
def fewest_out(code, gone):
    """How many fragments have to be taken out of a set before it is recoverable."""
    if rules.is_recoverable(code, gone):
        return 0
    return 1 + min(fewest_out(code, gone & ~(1 << fragment)) for fragment in members(gone))


def look(count, name, tool, homes):
    """Checks one run of the tool; returns the report, or None."""
    ran, image, report = tool.run(homes)
    told = {(home.stripe, home.fragment): (home.node, home.slot) for home in homes}
    tool.codes = {home.stripe: CODES[home.code] for home in homes}
    kept, left = seats_in(image), {(int(row["stripe"]), int(row["fragment"])) for row in report}
    checked = subprocess.run([tool.program, "check"], input=image.encode() + tool.topology + b"%%\n", capture_output=True)
    if not count.check(f"{name}: the program opens the image: {checked.stdout} {ran.stderr}", checked.returncode == 0):
        return None
    store, _ = rules.Store.begin(tool.nodes, image)
    count.check(f"{name}: a seat is in the image or in the report", kept.keys() | left == told.keys() and not kept.keys() & left)
    slots = told_slots(tool, homes)
    same = all((told[key][0], slots[key]) == seat for key, seat in kept.items())
    count.check(f"{name}: a seat of the image is another one", same)
    told_seats = {(int(row["stripe"]), int(row["fragment"])): row["seat"] for row in report}
    wrong = {key: seat for key, seat in told_seats.items() if seat != f"{told[key][0]}:{'' if slots[key] is None else slots[key]}"}
    count.check(f"{name}: {len(wrong)} seats of the report are others, as {list(wrong.items())[:1]}", not wrong)
    count.check(f"{name}: a node of the image is another one", tool.nodes_after(image) == without_homes(tool.table))
    causes = causes_of(tool, kept | first_claims(told, report), report)
    wrong = [row for row, cause in zip(report, causes) if not REASONS[row["reason"]] == int(row["cause"]) == cause]
    count.check(f"{name}: {len(wrong)} seats have another cause, as {wrong[:1]}", not wrong)
    wrong = [row for row in report if not is_in_the_way(tool, row, told)]
    count.check(f"{name}: {len(wrong)} rows name what is not in the way, as {wrong[:1]}", not wrong)
    lost = tool.lost(image)
    told_lost = {int(row["stripe"]) for row in report if row["level"] == "lost"}
    count.check(f"{name}: the report has other lost stripes", told_lost == lost & {key[0] for key in left})
    count.check(f"{name}: status {ran.returncode}", ran.returncode == (4 if lost else 0))
    levels = {row["stripe"]: (row["level"], row["margin"]) for row in report}
    margins = {key[0]: margin_of(store, key[0]) for key in left}
    right = {str(it): ("lost", "-") if margin is None else ("risk", str(margin)) for it, margin in margins.items()}
    count.check(f"{name}: the levels of the report are those of the model", levels == right)
    words = f"{len(tool.codes)} stripes, {len(homes)} homes; {len(report)} break a rule; {len(lost)} stripes are lost in the image"
    words += f", and {sum(row['needed'] == 'yes' for row in report)} moves mend that"
    count.check(f"{name}: it tells {ran.stderr}", ran.stderr == f"tools/takeover: {words}\n")
    return image, report, lost


def margin_of(store, stripe):
    """The margin of a stripe if all its nodes were online; None if it is lost."""
    code = store.stripes[stripe]
    return rules.margin(code, set_of(it for it in code.fragments if (stripe, it) not in store.homes))


def first_claims(told, report):
    """The seats that a row names as held by an earlier row, though that one may not stay, by that one."""
    first = [held_by(row) for row in report if row["reason"] == "seat held"]
    return {key: told[key] for key in first if told[key][1] is not None}


def is_in_the_way(tool, row, told):
    """Whether the fragment that a row names shares what the row says."""
    if row["reason"] in ("unknown node", "no such slot", "node gone"):
        return row["other_stripe"] == row["other_fragment"] == ""
    key, other = (int(row["stripe"]), int(row["fragment"])), held_by(row)
    one, two = tool.nodes[told[key][0]], tool.nodes[told[other][0]]
    if row["reason"] == "seat held":
        return told[key] == told[other]
    if row["reason"] == "fault domain":
        return other[0] == key[0] and one.fault == two.fault
    return other[0] == key[0] and one.upgrade == two.upgrade and bool(tool.codes[key[0]].class_of[key[1]] >> other[1] & 1)


def look_at_choice(count, name, tool, image, report, lost):
    """The homes that stay are the best ones, and the moves that are needed are the fewest."""
    kept, seats = seats_in(image), {}
    for key, seat in kept.items():
        seats.setdefault(key[0], {})[key[1]] = seat
    for row in report:
        if row["cause"] == "12":
            seats.setdefault(int(row["stripe"]), {})[int(row["fragment"])] = tuple(map(int, row["seat"].split(":")))
    asked = sorted({int(row["stripe"]) for row in report})
    for stripe in [*[it for it in asked if it in lost][:3], *[it for it in asked if it not in lost][:4]]:
        code = tool.codes[stripe]
        gone = code.all & ~set_of(key[1] for key in kept if key[0] == stripe)
        margin = rules.margin(code, gone)
        best, fewest, moves = best_of(tool, code, seats.get(stripe, {}))
        needed = sum(int(row["stripe"]) == stripe and row["needed"] == "yes" for row in report)
        if stripe in lost:
            count.check(f"{name}: stripe {stripe} is lost, and need not be", best == -1)
            count.check(f"{name}: stripe {stripe}: {needed} moves, and not {moves}", needed in (moves, 0))
        else:
            count.check(f"{name}: stripe {stripe}: margin {margin}, {gone.bit_count()} left out, and not {best}, {fewest}",
                        (margin, gone.bit_count()) == (best, fewest))


def moved(homes, rows):
    """The homes after the moves of these rows, each onto a seat that is free then."""
    seats, held = {(home.stripe, home.fragment): home for home in homes}, {(home.node, home.slot) for home in homes}
    for row in rows:
        seat = tuple(map(int, row["move_to"].split(":")))
        assert seat not in held, row
        held.add(seat)
        key = int(row["stripe"]), int(row["fragment"])
        seats[key] = seats[key]._replace(node=seat[0], slot=seat[1])
    return list(seats.values())


def is_exposed(tool, homes, stripe):
    """Whether the store as it stands would lose a stripe with one fault domain."""
    faults, code = {}, tool.codes[stripe]
    for home in homes:
        if home.stripe == stripe and home.node in tool.nodes:
            faults.setdefault(tool.nodes[home.node].fault, []).append(home.fragment)
    absent = set(code.fragments) - {home.fragment for home in homes if home.stripe == stripe}
    return any(not rules.is_recoverable(code, set_of({*absent, *fragments})) for fragments in faults.values())


def look_at_moves(count, name, tool, homes, report):
    steps = [row for row in report if row["step"]]
    count.check(f"{name}: the steps are counted", [int(row["step"]) for row in steps] == list(range(1, len(steps) + 1)))
    count.check(f"{name}: a row without a step has a seat", all((row["move_to"] == "-") == (row["step"] == "") for row in report))
    needed = [row for row in steps if row["needed"] == "yes"]
    exposed = {row["stripe"] for row in needed if is_exposed(tool, homes, int(row["stripe"]))}
    urgency = [(0, row["stripe"] not in exposed) if row["needed"] == "yes" else (1, -1 if row["level"] == "lost" else int(row["margin"]))
               for row in steps]
    count.check(f"{name}: what is needed comes first, and what is urgent of that and of the rest", urgency == sorted(urgency))
    online = {int(row[0]) for row in without_homes(tool.table)[1:] if row[3] == "active" and row[6] == "yes"}
    count.check(f"{name}: a move to a node that takes nothing", all(int(row["move_to"].split(":")[0]) in online for row in steps))
    # (a slot that was not told is the one of the report or of the image)
    ran, image, after = tool.run(moved(homes, needed))
    hopeless = {row["stripe"] for row in report if row["level"] == "lost"} - {row["stripe"] for row in needed}
    still = {row["stripe"] for row in after if row["level"] == "lost"}
    count.check(f"{name}: {ran.returncode} after what is needed", still <= hopeless)
    ran, image, after = tool.run(moved(homes, steps))
    stuck = {(row["stripe"], row["fragment"]) for row in report if not row["step"]}
    left = {(row["stripe"], row["fragment"]) for row in after}
    count.check(f"{name}: {len(after)} seats break a rule after all moves", left <= stuck)
    return hopeless


def drawn(count, program):
    for seed, shape in enumerate(SHAPES):
        draw = random.Random(seed)
        nodes = drawn_nodes(draw, shape)
        homes = drawn_homes(draw, shape, nodes)
        gone = draw.sample(sorted(nodes), 2) if shape.wrong else []
        script = drawn_script(draw, nodes, gone) if shape != SHAPES[0] else []
        with tempfile.TemporaryDirectory(prefix="lrcman-takeover-") as folder:
            tool, name = Tool(program, folder, nodes, gone, script), f"store {seed}"
            found = look(count, name, tool, homes)
            if not found:
                continue
            image, report, lost = found
            look_at_choice(count, name, tool, image, report, lost)
            hopeless = look_at_moves(count, name, tool, homes, report)
            if shape == SHAPES[0]:
                needed = sum(row["needed"] == "yes" for row in report)
                words = f"{len(report):,} of 4,800 seats break a rule, {len(lost)} stripes would be lost, and {needed} moves mend that"
                page = " ".join(harness.read(f"{TOP}/docs/OPERATING.md").decode().split())
                count.check(f"docs/OPERATING.md has not: {words}", words in page and not hopeless)


# Small stores, whose reports are written by hand, on twenty nodes with four slots, in ten upgrade domains in turn.

WIDE_SEATS = [0, 1, 2, 3, 4, 5, 6, 7, 8, 9, 10, 11, 16, 12, 13, 14]
BY_HAND = {
    # (of two equal choices the later fragment goes; fragment 0 lessens the margin no more than 15 does, but is rebuilt from fewer)
    "an upgrade domain twice": ({12: 15}, {}, ["1,14,1,12,15:0,upgrade domain,12,1,5,risk,2,no,16:0"]),
    "a rack twice": ({15: 0}, {15: 1}, ["1,2,1,0,0:0,fault domain,12,1,15,risk,2,no,17:0"]),
    "a node that is not there": ({3: 77}, {}, ["1,5,1,3,77:0,unknown node,6,,,risk,2,no,3:0"]),
    "a slot that is not there": ({}, {3: 4}, ["1,5,1,3,3:4,no such slot,9,,,risk,2,no,3:0"]),
    "all is well": ({}, {}, []),
}


def by_hand(count, program):
    for name, (others, slots, right) in BY_HAND.items():
        homes = [Home(1, "wide", it, others.get(it, node), slots.get(it, 0)) for it, node in enumerate(WIDE_SEATS)]
        with tempfile.TemporaryDirectory(prefix="lrcman-takeover-") as folder:
            tool = Tool(program, folder, harness.nodes_in_order(20, 4), [])
            ran, _, _ = tool.run(homes)
            lines = harness.read(f"{folder}/report.csv").decode().splitlines()
            count.check(f"{name}: {ran.stderr} {lines[1:]}", lines[1:] == right and ran.returncode == 0)


# Two stripes that would be lost, node and slot by fragment: the first for upgrade domains alone, the second on few nodes, so that one
# fault domain would take it. Its moves come first.
BY_UPGRADES = [(node, 0) for node in (0, 10, 1, 11, 2, 12, 4, 14, 5, 15, 6, 16, 3, 7, 8, 9)]
ON_FEW_NODES = [*((17, slot) for slot in range(4)), (0, 1), (1, 1), *((18, slot) for slot in range(3)),
                *((node, 1) for node in (3, 4, 5, 2, 6, 8, 9))]


def two_stripes(count, program):
    """Which of two stripes has its moves first; and which slots they have, where those of the first are not told."""
    with tempfile.TemporaryDirectory(prefix="lrcman-takeover-") as folder:
        tool = Tool(program, folder, harness.nodes_in_order(20, 4), [])
        seats = {1: BY_UPGRADES, 2: ON_FEW_NODES}
        homes = [Home(stripe, "wide", it, *seat) for stripe in seats for it, seat in enumerate(seats[stripe])]
        _, report, lost = look(count, "two lost stripes", tool, homes)
        look_at_moves(count, "two lost stripes", tool, homes, report)
        needed = [row["stripe"] for row in report if row["needed"] == "yes"]
        count.check(f"two lost stripes: {lost}, with the moves of {needed}", lost == {1, 2} and needed == ["2", "1", "1"])
        homes = [Home(stripe, "wide", it, node, slot) for stripe, slot in ((1, None), (2, 0)) for it, node in enumerate(WIDE_SEATS)]
        _, report, _ = look(count, "slots that are not told", tool, homes)
        count.check(f"slots that are not told: {report}", report == [])


# Bad input.

GOOD_HOMES = f"{HEADER}\n1,wide,0,3,0\n1,wide,1,4,\n2,narrow,9,5,1\n"
BAD_HOMES = [
    ("4096,wide,0,3,0", "line 5, column stripe: not a number of its range, 0 to 4095: '4096'"),
    ("3,Wide,0,3,0", "line 5, column code: none of wide, narrow: 'Wide'"),
    ("3,wide,16,3,0", "line 5, column fragment: not a number of its range, 0 to 15: '16'"),
    ("3,narrow,10,3,0", "line 5, column fragment: not a number of its range, 0 to 9: '10'"),
    ("3,wide,0,65536,0", "line 5, column node: not a number of its range, 0 to 65535: '65536'"),
    ("3,wide,0,-,0", "line 5, column node: not a number of its range, 0 to 65535: '-'"),
    ("3,wide,0,3,256", "line 5, column slot: not a number of its range, 0 to 255: '256'"),
    ("3,wide,0,03,0", "line 5, column node: not a number of its range, 0 to 65535: '03'"),
    ("1,wide,0,9,0", "line 5, column fragment: line 2 has this fragment of stripe 1: '0'"),
    ("1,narrow,2,9,0", "line 5, column code: stripe 1 has another code in an earlier line: 'narrow'"),
    ("1,wide,2,9", "line 5: 4 fields, and not 5"),
    ("", "line 5: 1 fields, and not 5"),
]
NODES_HEADER = "node,fault,upgrade,mode,down,upgrading,online,homes,targets,load,slots"
BAD_NODES = [
    ("0,0,0,active,no,no,yes,0,0,0,4", "line 3, column node: a node that is there twice: '0'"),
    ("65536,0,0,active,no,no,yes,0,0,0,4", "line 3, column node: not a number of its range, 0 to 65535: '65536'"),
    ("1,256,0,active,no,no,yes,0,0,0,4", "line 3, column fault: not a number of its range, 0 to 255: '256'"),
    ("1,0,256,active,no,no,yes,0,0,0,4", "line 3, column upgrade: not a number of its range, 0 to 255: '256'"),
    ("1,0,0,idle,no,no,yes,0,0,0,4", "line 3, column mode: none of active, draining, gone: 'idle'"),
    ("1,0,0,active,maybe,no,yes,0,0,0,4", "line 3, column down: none of yes, no: 'maybe'"),
    ("1,0,0,gone,no,no,yes,0,0,0,4", "line 3, column online: not what mode, down and upgrading say: 'yes'"),
    ("1,0,0,active,no,no,yes,5,0,5,4", "line 3, column homes: not a number of its range, 0 to 4: '5'"),
    ("1,0,0,active,no,no,yes,1,1,1,4", "line 3, column load: not the sum of homes and targets: '1'"),
    ("1,0,0,active,no,no,yes,0,0,0,257", "line 3, column slots: not a number of its range, 1 to 256: '257'"),
    ("1,0,0,gone,yes,no,no,0,0,0,4", "line 3, column down: a node that is gone is not down: 'yes'"),
    ("1,0,0,gone,no,no,no,1,0,1,4", "line 3, column load: a node that is gone holds nothing: '1'"),
    ("1,0,0,active,no,yes,no,0,0,0,4", "line 3, column upgrading: another node of the upgrade domain has another word: 'yes'"),
    ("1,0,1,active,no,yes,no,0,0,0,4\n2,0,2,gone,no,yes,no,0,0,0,4",
     "line 4, column upgrading: another upgrade domain is upgrading: 'yes'"),
    ("\n".join(f"{it},0,0,active,no,no,yes,0,0,0,4" for it in range(1, 513)), "line 514, column node: more than 512 nodes: '512'"),
    ("1,0,0,active,no,no,yes,1,0,1,4", "line 3, column load: the node holds seats of stripes that the image would not have: '1'"),
]


def keep_inputs(count, nodes):
    """A report that would take the place of a table is refused, whatever path names it."""
    with tempfile.TemporaryDirectory(prefix="lrcman-takeover-") as folder:
        texts = {"nodes.csv": nodes, "homes.csv": GOOD_HOMES}
        for name, text in texts.items():
            with open(f"{folder}/{name}", "w", encoding="utf-8") as out:
                out.write(text)
        os.link(f"{folder}/homes.csv", f"{folder}/linked.csv")
        for report in ("nodes.csv", "homes.csv", "./homes.csv", "linked.csv"):
            ran = subprocess.run([TOOL, *texts, report], cwd=folder, capture_output=True, text=True)
            line = f"tools/takeover: {report}: the report would take the place of a table\n"
            are_kept = all(harness.read(f"{folder}/{name}").decode() == text for name, text in texts.items())
            count.check(f"{report} as the report: {ran.stderr}", (ran.returncode, ran.stdout, ran.stderr) == (2, "", line) and are_kept)


def refuse(count):
    node = f"{NODES_HEADER}\n0,0,0,active,no,no,yes,0,0,0,4\n"
    cases = [("homes.csv", node, GOOD_HOMES + row + "\n", why) for row, why in BAD_HOMES]
    cases += [("nodes.csv", node + row + "\n", GOOD_HOMES, why) for row, why in BAD_NODES]
    cases += [("homes.csv", node, "a,b\n", f"line 1: the header is not {HEADER}"),
              ("nodes.csv", "", GOOD_HOMES, f"line 1: the header is not {NODES_HEADER}"),
              ("nodes.csv", f"{NODES_HEADER}\n", GOOD_HOMES, "the table has no nodes")]
    for name, nodes, homes, why in cases:
        with tempfile.TemporaryDirectory(prefix="lrcman-takeover-") as folder:
            for file, text in (("nodes.csv", nodes), ("homes.csv", homes)):
                with open(f"{folder}/{file}", "w", encoding="utf-8") as out:
                    out.write(text)
            ran = subprocess.run([TOOL, "nodes.csv", "homes.csv", "report.csv"], cwd=folder, capture_output=True, text=True)
            right = (ran.returncode, ran.stdout, ran.stderr) == (2, "", f"tools/takeover: {name}: {why}\n")
            count.check(f"{why}: {ran.stderr}", right and not os.path.exists(f"{folder}/report.csv"))
    keep_inputs(count, node)
    for words in ([], ["a"], ["a", "b", "c", "d"], ["a", "b", "c"]):
        ran = subprocess.run([TOOL, *words], capture_output=True, text=True)
        is_line = ran.stderr.startswith("tools/takeover: ") and ran.stderr.count("\n") == 1
        count.check(f"the words {words}", ran.returncode == 2 and ran.stdout == "" and is_line)


def main(words):
    program, count = harness.program_of(words), harness.Count()
    drawn(count, program)
    by_hand(count, program)
    two_stripes(count, program)
    refuse(count)
    return count.report()


if __name__ == "__main__":
    sys.exit(main(sys.argv[1:]))
