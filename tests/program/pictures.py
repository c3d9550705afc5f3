"""Draws pictures with tools/picture, of examples that the program shows, of drawn stores and of wide topologies, and checks them.

Usage: tests/program/pictures [PROGRAM], by default the program that `rt ci` or `rt run` has built in crates/lrcman.

Right is, and nothing else:
- a picture is XML; it has each node once, with its domains, mode, homes, targets and whether it is full, down, upgrading and
  online, inside the picture and over no other node; a grid has no more cells than half as many nodes again; it has the first
  stripes at risk once, in their order, each with its code and fragments, those without a home, those that are offline and
  those that are leased apart, and the levels of all and of the others; it tells entries, clock, upgrading domain and leases;
- with --load, each node that is not gone is counted once in the class of its share, in all and in its fault domain, in their
  order, with a line at the share of them all;
- for tables that do not fit, alone or together: status 2, one line on standard error with the place, and nothing on standard output.
The last line is 'N passed, M failed'."""
import random
import re
import subprocess
import sys
import tempfile
import xml.etree.ElementTree as ElementTree
from collections import Counter

from tests import harness
from tests.harness import example, parts_of
from tests.model import draws, shown
from tests.model.rules import NARROW, WIDE, Node, members
from tests.model.store import Store

PICTURE = f"{harness.TOP}/tools/picture"
EXAMPLES = ("each_mode_and_level", "most_nodes", "nodes_fail_under_both_codes", "narrow_stripe_unavailable")
VIEWS = "nodes", "stripes", "status", "leases"
SVG = "{http://www.w3.org/2000/svg}"
CODES = {"wide": WIDE, "narrow": NARROW}
# The columns of a stripe's fragments, of sixteen.
COLUMNS = {"wide": range(16), "narrow": [*range(3), *range(6, 9), *range(12, 16)]}
NODES = ",".join(shown.HEADS["nodes"])
STRIPES = ",".join(shown.HEADS["stripes"])
DRAWN = 40


def draw(folder, tables, *more):
    """Runs tools/picture on the texts of tables by their names."""
    for name, table in tables.items():
        with open(f"{folder}/{name}.csv", "w", encoding="utf-8", newline="") as file:
            file.write(table)
    return subprocess.run([PICTURE, *more, *(f"{name}.csv" for name in tables)], cwd=folder, capture_output=True)


def rows_of(table):
    """The rows of a table by the names of their columns."""
    head, *lines = table.splitlines()
    return [dict(zip(head.split(","), line.split(","))) for line in lines]


def groups(element, x=0.0, y=0.0):
    """Each group of an SVG that has an id, in order, with where its origin lies."""
    for child in element:
        if child.tag == SVG + "g":
            shift = child.get("transform", "translate(0,0)")[len("translate("):-1].split(",")
            at = x + float(shift[0]), y + float(shift[1])
            if child.get("id"):
                yield child, *at
            yield from groups(child, *at)


def right_places(picture):
    """Whether the nodes and stripes lie inside the picture, and no node over another."""
    width, height = float(picture.get("width")), float(picture.get("height"))
    tiles = []
    for group, x, y in groups(picture):
        for box in group.iter(SVG + "rect"):
            left, upper = x + float(box.get("x")), y + float(box.get("y"))
            right, lower = left + float(box.get("width")), upper + float(box.get("height"))
            if not (0 <= left <= right <= width and 0 <= upper <= lower <= height):
                return False
            if box.get("class") == "back":
                tiles.append((left, upper, right, lower))
    return not any(a[0] < b[2] and b[0] < a[2] and a[1] < b[3] and b[1] < a[3]
                   for at, a in enumerate(tiles) for b in tiles[:at])


def titles(picture, kind):
    """The ids and the titles of the nodes, or of the stripes, in the order of the picture."""
    found = [group for group, _, _ in groups(picture) if group.get("class").split()[0] == kind]
    return [(group.get("id"), group.find(SVG + "title").text, group.get("class").split()[1:]) for group in found]


def words_of(row):
    return ["full"] * (row["load"] == row["slots"]) + [word for word in ("down", "upgrading") if row[word] == "yes"]


def right_nodes(picture, nodes):
    wanted = []
    for row in nodes:
        matter = [row["mode"], *words_of(row)]
        told = (f"node {row['node']}: fault domain {row['fault']}, upgrade domain {row['upgrade']}, {', '.join(matter)}, "
                f"{'online' if row['online'] == 'yes' else 'not online'}, {row['homes']} homes and {row['targets']} targets in "
                f"{row['slots']} slots")
        wanted.append((f"node-{row['node']}", told, matter))
    return sorted(titles(picture, "node")) == sorted(wanted)


def right_marks(picture, nodes):
    """A tile is filled by what its node holds, the targets apart, and has a mark for each thing that is the matter."""
    rows = {f"node-{row['node']}": row for row in nodes}
    for group, _, _ in groups(picture):
        if group.get("class").split()[0] != "node":
            continue
        row = rows[group.get("id")]
        heights = {box.get("class"): float(box.get("height")) for box in group.iter(SVG + "rect")}
        filled = heights["fill"] + heights["targets"]
        drawn = {path.get("class") for path in [*group.iter(SVG + "path"), *group.iter(SVG + "rect")]}
        marks = {"hatch": row["mode"] == "draining", "cross": row["mode"] == "gone", "full-mark": row["load"] == row["slots"],
                 "barred": row["down"] == "yes", "arrow": row["upgrading"] == "yes"}
        if {mark for mark, is_met in marks.items() if is_met} != drawn & marks.keys():
            return False
        if abs(filled - 34 * int(row["load"]) / int(row["slots"])) > 2 or (heights["targets"] > 0) > (row["targets"] != "0"):
            return False
    return True


def at_risk(stripes):
    """The stripes that are not whole, in the order of repair."""
    rows = [row for row in stripes if row["level"] != "whole"]
    return sorted(rows, key=lambda row: (4 if row["margin"] == "-" else int(row["margin"]), int(row["stripe"])))


def leased_of(leases, row):
    return " ".join(lease["fragment"] for lease in leases if lease["stripe"] == row["stripe"])


def told_levels(rows):
    """How many of these stripes have which level, in words, the most urgent first."""
    counts = Counter(f"with margin {row['margin']}" if row["level"] == "risk" else row["level"] for row in rows)
    return ", ".join(f"{count:,} {kind}" for kind, count in counts.items())


def right_stripes(picture, stripes, leases, most=40):
    wanted, risk = [], at_risk(stripes)
    for row in risk[:most]:
        words = [row["missing_fragments"], row["homeless_fragments"] or "none", leased_of(leases, row) or "none"]
        told = "stripe {stripe}: {code}, {level}, margin {margin}, ".format(**row)
        told += "missing {}, homeless {}, leased {}".format(*words)
        wanted.append((f"stripe-{row['stripe']}", told, []))
    texts = [text.text or "" for text in picture.iter(SVG + "text")]
    more = [text for text in texts if text.startswith("and ")]
    left = [f"and {len(risk) - most:,} more: {told_levels(risk[most:])}"] if len(risk) > most else []
    told = f"{len(risk):,} in all: {told_levels(risk)}" if risk else "none: every stripe is whole"
    return titles(picture, "stripe") == wanted and more == left and told in texts


def right_fragments(picture, stripes, leases):
    """Each stripe has its code as a word and the fragments of its code, each in the columns of its group; what is homeless, offline
    and leased is drawn so."""
    rows = {f"stripe-{row['stripe']}": row for row in stripes}
    for group, _, _ in groups(picture):
        if group.get("class") != "stripe":
            continue
        row = rows[group.get("id")]
        code = CODES[row["code"]]
        words = [text.text for text in group.iter(SVG + "text")]
        drawn = [int(text.text) for text in group.iter(SVG + "text") if "fragment" in text.get("class")]
        boxes = [box for box in group.iter(SVG + "rect") if box.get("class") in ("here", "homeless", "away")]
        edges = [float(box.get("x")) for box in boxes]
        wanted = [edges[0] + column * 17 + 8 * ((column > 5) + (column > 11) + (column > 13)) for column in COLUMNS[code.name]]
        missing, homeless = set(row["missing_fragments"].split()), set(row["homeless_fragments"].split())
        kinds = ["homeless" if str(it) in homeless else "away" if str(it) in missing else "here" for it in code.fragments]
        rings = sorted(float(ring.get("cx")) for ring in group.iter(SVG + "circle"))
        leased = sorted(edges[code.fragments.index(int(it))] + 8.5 for it in leased_of(leases, row).split())
        if drawn != code.fragments or edges != wanted or [box.get("class") for box in boxes] != kinds or rings != leased:
            return False
        if [word for word in words if word in COLUMNS] != [code.name]:
            return False
        kind = f"risk-{row['margin']}" if row["level"] == "risk" else row["level"]
        if [box.get("class") for box in group.iter(SVG + "rect") if box.get("rx")] != [kind]:
            return False
        if words[:4] != [row["stripe"], row["code"], row["level"], row["margin"]] or words[-1] != row["missing"][2:]:
            return False
    return True


def right_words(picture, nodes, status):
    """What is told above the picture."""
    texts = [text.text for text in picture.iter(SVG + "text")]
    modes = Counter(row["mode"] for row in nodes)
    held, slots = (sum(int(row[name]) for row in nodes) for name in ("load", "slots"))
    counts = [sum(row[name] == it for row in nodes) for name, it in (("online", "no"), ("down", "yes"))]
    full = sum("full" in words_of(row) for row in nodes)
    told = [f"Nodes: {len(nodes)} ({modes['active']} active, {modes['draining']} draining, {modes['gone']} gone), {counts[0]} of "
            f"them not online ({counts[1]} down), {full} full. Slots: {held:,} of {slots:,} held."]
    if status:
        it = {row["name"]: row["value"] for row in status}
        domain = "no domain is" if it["upgrading"] == "none" else f"upgrade domain {it['upgrading']} is"
        told.append(f"After entry {int(it['entries']):,}, at clock {int(it['clock']):,}: {int(it['stripes']):,} stripes, {domain} "
                    f"upgrading, {int(it['leases']):,} leases under way.")
    return all(words in texts for words in told)


def labels(picture, kind):
    """The numbers that stand outside of nodes, stripes and histograms in letters of a kind."""
    inside = {text for group, _, _ in groups(picture) for text in group.iter(SVG + "text")}
    return {int(text.text) for text in picture.iter(SVG + "text") if text.get("class") == kind and text not in inside}


def right_domains(picture, nodes):
    """A grid has the numbers of all domains beside it; in boxes each node has that of its upgrade domain below it."""
    upgrades = {row["node"]: row["upgrade"] for row in nodes}
    below = [(one.get("id"), other.text) for group in picture.iter(SVG + "g") for one, other in zip(group, list(group)[1:])
             if (one.get("id") or "").startswith("node-") and other.tag == SVG + "text"]
    if below:
        return sorted(below) == sorted((f"node-{node}", f"u {upgrade}") for node, upgrade in upgrades.items())
    wanted = [{int(row[kind]) for row in nodes} for kind in ("fault", "upgrade")]
    return [labels(picture, "middle bold"), labels(picture, "end bold")] == wanted


def right_room(picture, nodes):
    """A grid has cells for at most half as many nodes again. (Boxes have a name each.)"""
    texts = [text.text for text in picture.iter(SVG + "text")]
    if any((text or "").startswith("Boxes are") for text in texts):
        named = [int(text.split(" ")[1]) for text in texts if re.fullmatch("fault [0-9]+", text or "")]
        return named == sorted({int(row["fault"]) for row in nodes})
    return len({row["fault"] for row in nodes}) * len({row["upgrade"] for row in nodes}) <= 1.5 * len(nodes)


def parsed(count, name, ran):
    count.check(f"{name}: drawn: {ran.stderr}", ran.returncode == 0 and ran.stderr == b"")
    try:
        return ElementTree.fromstring(ran.stdout)
    except ElementTree.ParseError:
        count.check(f"{name}: well-formed", False)
        return None


def look(count, name, ran, tables, most=40):
    """Checks a picture against its tables."""
    picture = parsed(count, name, ran)
    if picture is None:
        return
    nodes, stripes, status, leases = (rows_of(tables.get(view, "")) if tables.get(view) else [] for view in VIEWS)
    count.check(f"{name}: its nodes", right_nodes(picture, nodes))
    count.check(f"{name}: its marks", right_marks(picture, nodes))
    count.check(f"{name}: its stripes at risk", right_stripes(picture, stripes, leases, most))
    count.check(f"{name}: its fragments", right_fragments(picture, stripes, leases))
    count.check(f"{name}: its words", right_words(picture, nodes, status))
    count.check(f"{name}: its places", right_places(picture))
    count.check(f"{name}: its room", right_room(picture, nodes))
    count.check(f"{name}: its domains", right_domains(picture, nodes))


def right_load(picture, nodes):
    """Each histogram with its counts, and bars as high as they say."""
    wanted, shares, means = [], [], []
    there = [row for row in nodes if row["mode"] != "gone"]
    faults = sorted({int(row["fault"]) for row in there})
    racks = [(f"fault {it}", [row for row in there if row["fault"] == str(it)]) for it in faults]
    for words, rows in [("all nodes", there), *racks]:
        bins = Counter(min(19, 20 * int(row["load"]) // int(row["slots"])) for row in rows)
        held, slots = (sum(int(row[name]) for row in rows) for name in ("load", "slots"))
        shares.append(100 * held / slots)
        told = ", ".join(f"{5 * at} to {5 * at + 5} %: {bins[at]}" for at in sorted(bins))
        wanted.append((f"{words}: {len(rows)} nodes, share {100 * held / slots:.1f} %; {told}", [bins[at] for at in sorted(bins)]))
    found = []
    for group, _, _ in groups(picture):
        if group.get("class") == "shares":
            bars = [float(box.get("height")) for box in group.iter(SVG + "rect")]
            counts = [int(text.text) for text in group.iter(SVG + "text") if text.get("class") == "middle under"]
            means.extend(float(path.get("d")[1:].split(",")[0]) for path in group.iter(SVG + "path"))
            found.append((group.find(SVG + "title").text, counts))
            if any(abs(bar * counts[0] - bars[0] * it) > 0.1 * (it + counts[0]) for bar, it in zip(bars, counts, strict=True)):
                return False
    # (a class of five points is thirty wide, and the first begins at 110)
    return found == wanted and all(abs(mean - 110 - 6 * share) <= 0.1 for mean, share in zip(means, shares, strict=True))


def look_at_load(count, name, folder, tables):
    of_nodes = {view: tables[view] for view in tables if view in ("nodes", "status")}
    picture = parsed(count, f"{name}, --load", draw(folder, of_nodes, "--load"))
    if picture is not None:
        count.check(f"{name}: its shares", right_load(picture, rows_of(tables["nodes"])))
        count.check(f"{name}, --load: its places", right_places(picture))


def tables_of(store, entries):
    """The tables of a store, as the model makes them."""
    return {view: shown.shown(view, store, entries) for view in VIEWS}


def shown_by(program, name):
    """The tables of an example, as the program prints them."""
    bundle = example(name)
    return {view: subprocess.run([program, "show", view], input=bundle, capture_output=True).stdout.decode() for view in VIEWS}


def examples(count, folder, program):
    for name in EXAMPLES:
        tables = shown_by(program, name)
        look(count, name, draw(folder, tables), tables)
        look(count, f"{name}, one row", draw(folder, tables, "--rows", "1"), tables, 1)
        look(count, f"{name}, in another order", draw(folder, dict(reversed(tables.items()))), tables)
        two = {view: tables[view] for view in ("nodes", "stripes")}
        look(count, f"{name}, two tables", draw(folder, two), two)
        look(count, f"{name}, CRLF", draw(folder, {view: table.replace("\n", "\r\n") for view, table in tables.items()}), tables)
        look_at_load(count, name, folder, tables)


def drawn(count, folder):
    """Stores of drawn calls, with every mode and level and with leases under way."""
    for seed in range(DRAWN):
        row, nodes = draws.numbers(seed), harness.nodes_in_order(24, 3)
        store, within, calls = Store(nodes), draws.Range(8, [*nodes, 99], [*range(10), 77]), []
        for _ in range(60 + 3 * seed):
            calls.append(draws.drawn_call(store, row, within))
            store.call(*calls[-1])
        tables = tables_of(store, len(calls))
        look(count, f"store {seed}", draw(folder, tables), tables)
        look_at_load(count, f"store {seed}", folder, tables)


def wide_topologies():
    """Yields names and nodes of topologies that a plain grid would not fit."""
    yield "two nodes in each of 256 racks", {i * 128: Node(i // 2, i * 37 % 256, 1 + i % 256) for i in range(512)}
    yield "512 nodes in one cell", {i: Node(7, 7, 4) for i in range(512)}
    yield "64 cells of eight nodes", {i: Node(i % 8, i // 8 % 8, 4) for i in range(512)}
    yield "128 racks of four", {i: Node(i // 4, i % 4, 4) for i in range(512)}
    yield "two racks of 256", {i: Node(i // 256, i % 256, 4) for i in range(512)}
    yield "all on a diagonal", {i: Node(i, i, 4) for i in range(256)}
    racks = [rack for rack in range(31) for _ in range(rack + 1)]
    yield "racks of one to 31 nodes", {i: Node(rack, i * 11 % 16, 9) for i, rack in enumerate(racks)}
    yield "one node", {65535: Node(255, 255, 256)}


def filled(nodes):
    """A store with nodes of every mode, full and not, and stripes of every level, narrow and wide: 4,096, most of them lost where
    there are few seats."""
    row, store = random.Random(1), Store(nodes)
    for at, node in enumerate(nodes):
        store.set_mode(node, ("active", "active", "draining", "draining", "gone")[at % 5], at % 5 in (1, 3))
    store.set_upgrading(next((node.upgrade for node in nodes.values() if node.upgrade == 7), None))
    there = [node for node in nodes if store.mode[node] != "gone"]
    for stripe in range(4096):
        code = NARROW if stripe % 3 == 2 else WIDE
        store.add_stripe(stripe, code)
        homeless = {row.choice(code.fragments) for _ in range(row.randrange(7))}
        for fragment in code.fragments:
            node = next((it for it in row.sample(there, min(3, len(there))) if store.load(it) < store.nodes[it].slots), None)
            if node is not None and fragment not in homeless and not store.barred((stripe, fragment)) >> node & 1:
                store.set_home((stripe, fragment), (node, store.free_slot(node)))
    for _ in range(50):
        store.call(1, "next")
    return store


def wide(count, folder):
    for name, nodes in wide_topologies():
        tables = tables_of(filled(nodes), 0)
        look(count, name, draw(folder, tables, "--rows", "1500"), tables, 1500)
        look_at_load(count, name, folder, tables)
    tables = tables_of(Store({0: Node(0, 0, 4)}), 0)
    ran = draw(folder, tables, "--title", 'a<b>&"\x01 c')
    look(count, "a title with odd letters", ran, tables)
    count.check("a title with odd letters is shown", 'a&lt;b&gt;&amp;"'.encode() in ran.stdout)


# Seventeen nodes, of which the first is empty; a stripe without its fragment 0, which is leased.
NODE = "0,0,0,active,no,no,yes,0,0,0,4"
OTHERS = "".join(f"{it},{it},{it},active,no,no,yes,{int(it < 16)},{it // 16},1,4\n" for it in range(1, 17))
STRIPE = "7,wide,risk,2,0x0001,0,0x0001,0,-" + "".join(f",{it}:0" for it in range(1, 16))
STATUS = "name,value\nstripes,1\nleases,1\nclock,3\nentries,9\nupgrading,none\n"
LEASE = "7,0,1,16:0,1,3"
LEASES = "stripe,fragment,holder,target,epoch,expiry\n"
# A row of a table in place of the right one, and where and why it is refused.
BAD_ROWS = [
    ("nodes", "0,0,0,active,no,no,yes,0,0,0", "nodes.csv: line 2: 10 fields, and not 11"),
    ("nodes", "0,0,0,active,no,no,yes,5,0,5,4", "nodes.csv: line 2, column homes: not a number of its range, 0 to 4: '5'"),
    ("nodes", "0,0,0,active,yes,no,yes,0,0,0,4", "nodes.csv: line 2, column online: not what mode, down and upgrading say: 'yes'"),
    ("stripes", STRIPE.replace("7,", "4096,", 1),
     "stripes.csv: line 2, column stripe: not a number of its range, 0 to 4095: '4096'"),
    ("stripes", STRIPE.replace("risk", "Risk"),
     "stripes.csv: line 2, column level: none of whole, risk, unavailable, lost: 'Risk'"),
    ("stripes", STRIPE.replace("risk,2", "risk,1"), "stripes.csv: line 2, column margin: not that of the missing fragments: '1'"),
    ("stripes", STRIPE.replace("risk,2", "whole,2"),
     "stripes.csv: line 2, column level: not that of the missing and the homeless fragments: 'whole'"),
    ("stripes", STRIPE.replace("0x0001,0,0x", "0x0001,0 1,0x"),
     "stripes.csv: line 2, column missing_fragments: not the list of the mask before it: '0 1'"),
    ("stripes", STRIPE.replace(",-,", ",0:0,"),
     "stripes.csv: line 2, column home_0: not what the mask of the homeless fragments says: '0:0'"),
    ("stripes", STRIPE.replace("risk,2", "risk,-"), "stripes.csv: line 2, column margin: not that of the missing fragments: '-'"),
    ("stripes", STRIPE.replace("0x0001", "0001", 1),
     "stripes.csv: line 2, column missing: no set of fragments of a wide stripe: '0001'"),
    ("stripes", STRIPE.replace("wide", "narrow").replace("0x0001", "0x0400", 1),
     "stripes.csv: line 2, column missing: no set of fragments of a narrow stripe: '0x0400'"),
    ("stripes", STRIPE.replace("0,0x0001", "0,0x0003"),
     "stripes.csv: line 2, column homeless: not among the missing fragments: '0x0003'"),
    ("stripes", f"{STRIPE}\n{STRIPE}", "stripes.csv: line 3, column stripe: a stripe that is there twice: '7'"),
    ("stripes", STRIPE.replace(",9:0", ",99:0"), "stripes.csv: line 2, column home_9: the table of nodes has no such seat: '99:0'"),
    ("stripes", STRIPE.replace(",9:0", ",9:4"), "stripes.csv: line 2, column home_9: the table of nodes has no such seat: '9:4'"),
    ("stripes", STRIPE.replace(",9:0", ",8:1"),
     "stripes.csv: line 2, column home_9: another fragment of the stripe rules the node out: '8:1'"),
    ("stripes", STRIPE.replace("7,", "8,", 1), "leases.csv: line 2, column stripe: the table of stripes does not have it: '7'"),
    ("stripes", STRIPE.replace(",15:0", ",0:0"),
     "the tables are not of one state: node 0 has 0 homes and 0 targets in the one, 1 and 0 in the others"),
    ("leases", "7,0,9,0:0,1,3", "leases.csv: line 2, column holder: not a number of its range, 1 to 8: '9'"),
    ("leases", "7,16,1,16:0,1,3", "leases.csv: line 2, column fragment: not a number of its range, 0 to 15: '16'"),
    ("leases", "7,0,1,99:0,1,3", "leases.csv: line 2, column target: the table of nodes has no such seat: '99:0'"),
    ("leases", f"{LEASE}\n{LEASE}", "leases.csv: line 3, column fragment: a lease that is there twice: '0'"),
    ("leases", "7,0,1,0:0,1,3",
     "the tables are not of one state: node 0 has 0 homes and 0 targets in the one, 0 and 1 in the others"),
    ("status", "stripes,2\nleases,1\nclock,3\nentries,9\nupgrading,none",
     "status.csv: line 2, column value: the other tables have 1: '2'"),
    ("status", "stripes,1\nleases,0\nclock,3\nentries,9\nupgrading,none",
     "status.csv: line 3, column value: the other tables have 1: '0'"),
    ("status", "stripes,1\nleases,1\nclock,3\nentries,9\nupgrading,3",
     "status.csv: line 6, column value: the other tables have none: '3'"),
    ("status", "stripes,1\nleases,1\nclock,3\nentries,9\nupgrading,none\nclock,4",
     "status.csv: line 7, column name: a name that is there twice: 'clock'"),
    ("status", "stripes,1\nleases,x\nclock,3\nentries,9\nupgrading,none",
     "status.csv: line 3, column value: not a number of its range, 0 to 9223372036854775807: 'x'"),
    ("status", "stripes,1\nleases,1\nclock,3\nupgrading,none", "status.csv: there is no row entries"),
    ("status", "stripes,1\nleases,1\nclock,3\nentries,9\nupgrading,256",
     "status.csv: line 6, column value: not a number of its range, 0 to 255: '256'"),
]


def refusals():
    """Yields tables, the words before them, and why they are refused."""
    right = {"nodes": f"{NODES}\n{NODE}\n{OTHERS}", "stripes": f"{STRIPES}\n{STRIPE}\n", "status": STATUS,
             "leases": f"{LEASES}{LEASE}\n"}
    for view, row, why in BAD_ROWS:
        yield right | {view: f"{right[view].splitlines()[0]}\n{row}\n"}, [], why
    yield {"nodes": right["nodes"], "status": STATUS.replace("leases,1", "leases,2")}, ["--load"], \
        "status.csv: line 3, column value: the other tables have 1: '2'"
    yield {"nodes": right["nodes"]}, [], "there is no table of `show stripes`"
    yield {"stripes": right["stripes"]}, [], "there is no table of `show nodes`"
    yield {"stripes": right["stripes"]}, ["--load"], "there is no table of `show nodes`"
    yield right | {"other": "a,b\n"}, [], "other.csv: line 1: this is no table of nodes, stripes, status or leases"
    yield right | {"other": ""}, [], "other.csv: line 1: this is no table of nodes, stripes, status or leases"
    yield right | {"other": right["nodes"]}, [], "other.csv: nodes.csv is such a table too"
    yield right | {"nodes": f"{NODES}\n"}, [], "nodes.csv: the table has no nodes"


def refuse(count, folder):
    for tables, words, why in refusals():
        ran = draw(folder, tables, *words)
        is_line = ran.stderr.decode() == f"tools/picture: {why}\n"
        count.check(f"{why}: {ran.stderr}", ran.returncode == 2 and ran.stdout == b"" and is_line)
    for words in ([], ["--rows", "x", "a"], ["--rows", "-1", "a"], [folder], ["nothing-is-here"], ["--loads", "a"]):
        ran = subprocess.run([PICTURE, *words], capture_output=True)
        is_line = ran.stderr.startswith(b"tools/picture: ") and ran.stderr.count(b"\n") == 1
        count.check(f"the words {words}: {ran.stderr}", ran.returncode == 2 and ran.stdout == b"" and is_line)
    ran = subprocess.run([PICTURE, "--help"], capture_output=True)
    count.check("--help", ran.returncode == 0 and b"TABLE" in ran.stdout)


def shipped(count, folder, program):
    """The picture of README is the one that tools/picture draws of its example."""
    ran = draw(folder, shown_by(program, "each_mode_and_level"), "--title", "each_mode_and_level")
    count.check("docs/store.svg", ran.returncode == 0 and ran.stdout == harness.read(f"{harness.TOP}/docs/store.svg"))


def main(words):
    program, count = harness.program_of(words), harness.Count()
    with tempfile.TemporaryDirectory() as folder:
        examples(count, folder, program)
        drawn(count, folder)
        wide(count, folder)
        refuse(count, folder)
        shipped(count, folder, program)
    return count.report()


if __name__ == "__main__":
    sys.exit(main(sys.argv[1:]))
