"""The tables of `lrcman show`, as the tools beside this file read them, and the rules of a lawful seat.

A table is CSV: a header that the reader expects, and rows with as many fields as it has. A table that is not so is refused with
its file, line and column. These files run without the rest of the repository, so the rules stand here once more; docs/RULES.md
(Placement, Levels and ranks) has them."""
import os
import re
import sys
from collections import Counter
from dataclasses import dataclass

NODE, STRIPE, DOMAIN, SLOTS = range(65536), range(4096), range(256), range(1, 257)
MOST_NODES = 512
# The numbers of a lease, by their columns.
TERMS = {"holder": range(1, 9), "epoch": range(1, 2**32 - 1), "expiry": range(1, 2**32 - 1)}
MODES = ("active", "draining", "gone")
NODES = "node,fault,upgrade,mode,down,upgrading,online,homes,targets,load,slots"
STRIPES = ("stripe,code,level,margin,missing,missing_fragments,homeless,homeless_fragments,"
           + ",".join(f"home_{fragment}" for fragment in range(16)))
LEASES = "stripe,fragment,holder,target,epoch,expiry"
FRAGMENTS = "stripe,fragment,node,slot,fault,upgrade,state,mode,why,target,holder,epoch,expiry"
STATUS = "name,value"
LEVELS = ("whole", "risk", "unavailable", "lost")


class Refused(Exception):
    """An input is not what it has to be; the text says where and why, in one line."""


class Code:
    """A code: its name, how many fragments it has, and the sets of fragments of its classes A, B and G."""

    def __init__(self, name, *classes):
        self.name, self.count = name, sum(map(len, classes))
        self.classes = [sum(1 << fragment for fragment in members) for members in classes]
        self.class_of = {fragment: set_of for members, set_of in zip(classes, self.classes) for fragment in members}
        self.all = (1 << self.count) - 1

    def deficit(self, missing):
        """How many equations of the global parities a loss needs: two are there, so one of three or more is not recoverable."""
        a, b, c = ((missing & set_of).bit_count() for set_of in self.classes)
        return max(0, a - 1) + max(0, b - 1) + c

    def is_recoverable(self, missing):
        return self.deficit(missing) <= 2

    def margin(self, missing):
        """How many more fragments may go missing, whichever they are; None where this set is too much already."""
        if not self.is_recoverable(missing):
            return None
        others = missing & ~self.classes[2]
        return 2 - self.deficit(missing) if others else 3 - missing.bit_count()

    def level(self, missing, homeless):
        """The level of a stripe."""
        if not self.is_recoverable(homeless):
            return "lost"
        if not self.is_recoverable(missing):
            return "unavailable"
        return "risk" if missing else "whole"


CODES = {code.name: code for code in (Code("wide", (*range(6), 12), (*range(6, 12), 13), (14, 15)),
                                      Code("narrow", (0, 1, 2, 6), (3, 4, 5, 7), (8, 9)))}


def members(fragments):
    """The members of a set, in rising order."""
    while fragments:
        yield (fragments & -fragments).bit_length() - 1
        fragments &= fragments - 1


@dataclass(slots=True)
class Node:
    """A row of `show nodes`. `load` is the number of held slots, homes and targets."""
    number: int
    fault: int
    upgrade: int
    mode: str
    is_down: bool
    is_upgrading: bool
    is_online: bool
    homes: int
    targets: int
    load: int
    slots: int


@dataclass(frozen=True, slots=True)
class Stripe:
    """A row of `show stripes`: its margin is None where its missing fragments are not recoverable; `homes` are seats by fragment."""
    number: int
    code: Code
    level: str
    margin: int | None
    missing: int
    homeless: int
    homes: dict


class Placement:
    """Where a stripe lies: its code, whether it is whole, and the node of each home and of each target by fragment."""

    def __init__(self, code, is_whole=True):
        self.code, self.is_whole, self.homes, self.targets = code, is_whole, {}, {}

    def beside(self, fragment):
        """The nodes of the other fragments, each with whether it is of the same class."""
        class_of = self.code.class_of
        for placed in (self.homes, self.targets):
            for other, node in placed.items():
                if other != fragment:
                    yield node, class_of[other] == class_of[fragment]


def bars(one, other, same_class):
    """Whether two fragments of a stripe, of one class or not, may not be on these two nodes."""
    return one.fault == other.fault or same_class and one.upgrade == other.upgrade


# Reading


class Text:
    """A table that was read elsewhere, under a name, where a file is due."""

    def __init__(self, name, text):
        self.name, self.text = name, text

    def __str__(self):
        return self.name


def read(path):
    """The text of a file, or of standard input for `-`."""
    if isinstance(path, Text):
        return path.text
    try:
        if path == "-":
            return sys.stdin.buffer.read().decode()
        with open(path, "rb") as file:
            return file.read().decode()
    except OSError as error:
        raise Refused(f"{path}: {error.strerror}")
    except UnicodeDecodeError:
        raise Refused(f"{path}: the text is not UTF-8")


class Row:
    """A row of a table: its fields by the names of their columns."""

    def __init__(self, path, line, names, fields):
        self.path, self.line, self.fields = path, line, dict(zip(names, fields))

    def __getitem__(self, column):
        return self.fields[column]

    def refuse(self, column, why):
        raise Refused(f"{self.path}: line {self.line}, column {column}: {why}: {self[column][:40]!r}")

    def number(self, column, within, why="not a number of its range"):
        """A number of this range, in decimal without a leading zero."""
        word = self[column]
        if not re.fullmatch("0|[1-9][0-9]{0,18}", word) or int(word) not in within:
            self.refuse(column, f"{why}, {within[0]} to {within[-1]}")
        return int(word)

    def one_of(self, column, words):
        if self[column] not in words:
            self.refuse(column, f"none of {', '.join(words)}")
        return self[column]

    def flag(self, column):
        return self.one_of(column, ("yes", "no")) == "yes"

    def seat(self, column):
        """The node and the slot of a seat, NODE:SLOT."""
        found = re.fullmatch("(0|[1-9][0-9]{0,4}):(0|[1-9][0-9]{0,2})", self[column])
        if not found or int(found[1]) not in NODE or int(found[2]) >= SLOTS[-1]:
            self.refuse(column, "no seat NODE:SLOT")
        return int(found[1]), int(found[2])

    def mask(self, column, code):
        """A set of fragments of a code, as 0x and four hexadecimal digits."""
        if not re.fullmatch("0x[0-9a-f]{4}", self[column]) or int(self[column], 16) & ~code.all:
            self.refuse(column, f"no set of fragments of a {code.name} stripe")
        return int(self[column], 16)


def header_of(path):
    """The first line of a file."""
    return read(path).split("\n", 1)[0].removesuffix("\r")


def rows_of(path, *headers):
    """The rows of a table that has one of these headers. A line may end with CRLF; the last may lack its end."""
    header, *lines = read(path).replace("\r\n", "\n").split("\n")
    if header not in headers:
        raise Refused(f"{path}: line 1: the header is not {' or '.join(headers)}")
    names = header.split(",")
    if lines and not lines[-1]:
        lines.pop()
    rows = []
    for line, fields in enumerate((text.split(",") for text in lines), 2):
        if len(fields) != len(names):
            raise Refused(f"{path}: line {line}: {len(fields)} fields, and not {len(names)}")
        rows.append(Row(path, line, names, fields))
    return rows


def node_rows(path):
    """The rows of a table of `show nodes`, each with its node, in its order."""
    numbers, upgrading = set(), {}
    for row in rows_of(path, NODES):
        node = node_of(row)
        if node.number in numbers:
            row.refuse("node", "a node that is there twice")
        numbers.add(node.number)
        if upgrading.setdefault(node.upgrade, node.is_upgrading) != node.is_upgrading:
            row.refuse("upgrading", "another node of the upgrade domain has another word")
        if sum(upgrading.values()) > 1:
            row.refuse("upgrading", "another upgrade domain is upgrading")
        if len(numbers) > MOST_NODES:
            row.refuse("node", f"more than {MOST_NODES} nodes")
        yield row, node
    if not numbers:
        raise Refused(f"{path}: the table has no nodes")


def node_of(row):
    """The node of a row, in which each column is what the others say."""
    flags = [row.flag(name) for name in ("down", "upgrading", "online")]
    slots = row.number("slots", SLOTS)
    counts = [row.number(name, range(slots + 1)) for name in ("homes", "targets", "load")]
    if counts[0] + counts[1] != counts[2]:
        row.refuse("load", "not the sum of homes and targets")
    fault, upgrade = row.number("fault", DOMAIN), row.number("upgrade", DOMAIN)
    node = Node(row.number("node", NODE), fault, upgrade, row.one_of("mode", MODES), *flags, *counts, slots)
    if node.is_online != (node.mode != "gone" and not node.is_down and not node.is_upgrading):
        row.refuse("online", "not what mode, down and upgrading say")
    if node.mode == "gone" and node.is_down:
        row.refuse("down", "a node that is gone is not down")
    if node.mode == "gone" and node.load:
        row.refuse("load", "a node that is gone holds nothing")
    return node


def nodes_of(path):
    """The nodes of a table of `show nodes`, by their numbers, in its order."""
    return {node.number: node for _, node in node_rows(path)}


def stripe_of(row):
    """The stripe of a row, in which each column is what the masks of its fragments say."""
    code = CODES[row.one_of("code", tuple(CODES))]
    margin = None if row["margin"] == "-" else row.number("margin", range(4))
    missing, homeless = row.mask("missing", code), row.mask("homeless", code)
    stripe = Stripe(row.number("stripe", STRIPE), code, row.one_of("level", LEVELS), margin, missing, homeless, {})
    if homeless & ~missing:
        row.refuse("homeless", "not among the missing fragments")
    if margin != code.margin(missing):
        row.refuse("margin", "not that of the missing fragments")
    if stripe.level != code.level(missing, homeless):
        row.refuse("level", "not that of the missing and the homeless fragments")
    for column, fragments in (("missing_fragments", missing), ("homeless_fragments", homeless)):
        if row[column] != " ".join(map(str, members(fragments))):
            row.refuse(column, "not the list of the mask before it")
    for fragment in range(16):
        column = f"home_{fragment}"
        if fragment >= code.count and row[column]:
            row.refuse(column, f"a {code.name} stripe has no such fragment")
        if (row[column] == "-") != bool(homeless >> fragment & 1):
            row.refuse(column, "not what the mask of the homeless fragments says")
        if fragment < code.count and row[column] != "-":
            stripe.homes[fragment] = row.seat(column)
    return stripe


def target_of(row):
    """The target of the lease in a row, of which the other terms are numbers too."""
    for column, within in TERMS.items():
        row.number(column, within)
    return row.seat("target")


# Tables of one state


class Seats:
    """The seats that are held, of the nodes of a table."""

    def __init__(self, nodes):
        self.nodes, self.held = nodes, set()

    def take(self, row, column, seat, placement, fragment, slot_column=None):
        """The node of a seat for a fragment beside the others that its stripe has so far."""
        node = self.nodes.get(seat[0])
        if node is None or seat[1] >= node.slots:
            row.refuse(slot_column if node and slot_column else column, "the table of nodes has no such seat")
        if node.mode == "gone":
            row.refuse(column, "the node of the seat is gone")
        if seat in self.held:
            row.refuse(slot_column or column, "the seat is held already")
        if any(bars(self.nodes[other], node, same_class) for other, same_class in placement.beside(fragment)):
            row.refuse(column, "another fragment of the stripe rules the node out")
        self.held.add(seat)
        return seat[0]


def placements_of(path, leases, nodes):
    """The stripes of a table of `show stripes` by number, and where each lies, with the targets of one of `show leases` if there
    is one."""
    stripes, placements, seats = {}, {}, Seats(nodes)
    for row in rows_of(path, STRIPES):
        stripe = stripe_of(row)
        if stripe.number in stripes:
            row.refuse("stripe", "a stripe that is there twice")
        stripes[stripe.number], placements[stripe.number] = stripe, placement_of(row, stripe, seats)
    for row in rows_of(leases, LEASES) if leases else ():
        number = row.number("stripe", STRIPE)
        if number not in placements:
            row.refuse("stripe", "the table of stripes does not have it")
        placement, target = placements[number], target_of(row)
        fragment = row.number("fragment", range(placement.code.count))
        if fragment in placement.targets:
            row.refuse("fragment", "a lease that is there twice")
        placement.targets[fragment] = seats.take(row, "target", target, placement, fragment)
    return stripes, placements


def placement_of(row, stripe, seats):
    """Where the stripe of a row lies, of which only what has no home on an online node is missing."""
    placement = Placement(stripe.code, stripe.level == "whole")
    for fragment, seat in stripe.homes.items():
        placement.homes[fragment] = seats.take(row, f"home_{fragment}", seat, placement, fragment)
    away = sum(1 << fragment for fragment, node in placement.homes.items() if not seats.nodes[node].is_online)
    if stripe.missing != stripe.homeless | away:
        row.refuse("missing", "not the homeless fragments and those whose node is not online in the table of nodes")
    return placement


def expect_counts(nodes, placements, has_leases=True):
    """Each node has as many homes as its row says, and as many targets if there is a table of leases."""
    homes = Counter(node for placement in placements.values() for node in placement.homes.values())
    targets = Counter(node for placement in placements.values() for node in placement.targets.values())
    for number, node in nodes.items():
        told = homes[number], targets[number] if has_leases else node.targets
        if told != (node.homes, node.targets):
            raise Refused(f"the tables are not of one state: node {number} has {node.homes} homes and {node.targets} targets "
                          f"in the one, {told[0]} and {told[1]} in the others")


def run(name, main):
    """Runs a tool: what it refuses is one line on standard error and status 2; a reader that closes early is no fault."""
    try:
        status = main()
        sys.stdout.flush()
        sys.exit(status)
    except Refused as why:
        print(f"{name}:", " ".join(str(why).split()), file=sys.stderr)
        sys.exit(2)
    except BrokenPipeError:
        os.dup2(os.open(os.devnull, os.O_WRONLY), sys.stdout.fileno())
        sys.exit(3)
