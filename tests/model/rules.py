"""The rules of the stripe manager, written once more after docs/RULES.md: plain, and no part of the program.

A `Store` takes one command after the other and returns the text of each reply. Each command is a method, and asks the
questions above it, which search all homes and leases: nothing is stored beside them but the counts of grants and of ticks.
tests/model/store.py answers the same questions from indexes. A set of nodes, stripes or fragments is a whole number with a bit
for each member."""
from collections import Counter, namedtuple
from enum import IntEnum
from functools import cache

from tests.model import image_text

FRAGMENTS = range(16)  # what a command may name, whatever the code of its stripe
MOST_STRIPES, MOST_SLOTS, MOST_BYTES = 4096, 256, 4_194_304
TERM = 3  # a lease ends this many ticks after its grant
MOST_ENTRIES, MOST_TICKS, MOST_GRANTS = 2**63, 4_293_967_291, 4_293_967_294  # of an image
RANKS = 5  # the margins from 0 to 3, and 4 for a stripe that is not recoverable
RISK_HEADER, LOAD_HEADER = "stripe,level,margin,missing", "node,mode,online,load,slots"

Node = namedtuple("Node", "fault upgrade slots")
Lease = namedtuple("Lease", "holder target epoch expiry")


class Refused(Exception):
    """A command is refused, with the number of the refusal and its detail."""


class Cause(IntEnum):
    """Why a line of an image is wrong."""

    UNKNOWN_DOMAIN, TOO_MANY_ENTRIES, TOO_MANY_TICKS, OUT_OF_ORDER, SAYS_NOTHING, UNKNOWN_NODE, GONE_AND_DOWN = range(1, 8)
    UNKNOWN_FRAGMENT, UNKNOWN_SLOT, NODE_GONE, SEAT_TAKEN, NOT_LAWFUL, TOO_MANY_GRANTS = range(8, 14)
    UNKNOWN_STRIPE, NEVER_GRANTED, WRONG_EXPIRY = range(14, 17)


class WrongLine(Exception):
    """A line of an image that the nodes or the lines before it do not allow: its number, from 1, and the cause."""


def allow(is_right, line, cause):
    if not is_right:
        raise WrongLine(line, cause)


def in_order(rows, place_of):
    """Rows of an image, each of which has to come after the one before it."""
    last = None
    for row in rows:
        allow(last is None or last < place_of(row), row.line, Cause.OUT_OF_ORDER)
        last = place_of(row)
        yield row


# Sets.


def set_of(numbers):
    return sum(1 << number for number in numbers)


def least(numbers):
    return (numbers & -numbers).bit_length() - 1


def members(numbers):
    """The members of a set, in rising order."""
    while numbers:
        yield (numbers & -numbers).bit_length() - 1
        numbers &= numbers - 1


# The two codes.


class Code:
    """The name of a code, the sets of fragments of its classes A, B and G, and the class of each fragment."""

    def __init__(self, name, *classes):
        self.name, self.classes = name, classes
        self.all = sum(classes)
        self.fragments = list(members(self.all))
        self.class_of = {fragment: of_class for of_class in classes for fragment in members(of_class)}

    def __reduce__(self):
        return self.name.upper()  # (a copy of a store has the same two codes)


WIDE = Code("wide", set_of([0, 1, 2, 3, 4, 5, 12]), set_of([6, 7, 8, 9, 10, 11, 13]), set_of([14, 15]))
NARROW = Code("narrow", set_of([0, 1, 2, 6]), set_of([3, 4, 5, 7]), set_of([8, 9]))
PLACES = {"place": WIDE, "place6": NARROW}
CODES = {"stripe": WIDE, "stripe6": NARROW}  # by the first word of a line of an image


@cache
def is_recoverable(code, missing):
    """At most two are left after at most one member of A and at most one of B are taken out."""
    left = missing.bit_count()
    for of_class in code.classes[:2]:
        left -= 1 if missing & of_class else 0
    return left <= 2


@cache
def margin(code, missing):
    """The number of further fragments that may be missing, whichever they are; None where the set is not recoverable."""
    if not is_recoverable(code, missing):
        return None
    margins = [margin(code, missing | 1 << fragment) for fragment in members(code.all & ~missing)]
    return 0 if None in margins else 1 + min(margins)


@cache
def rank_of(code, missing):
    left = margin(code, missing)
    return RANKS - 1 if left is None else left


@cache
def local_repair(code, fragment):
    """The kind of a local repair of a fragment, with its sources: the other members of its group."""
    return " ".join(["local", *map(str, members(code.class_of[fragment] & ~(1 << fragment)))])


class Store:
    """The nodes by their numbers, in the order of the file, and the stripes, homes and leases on them."""

    def __init__(self, nodes):
        self.nodes = nodes
        in_fault, self.in_upgrade = Counter(), Counter()  # domain: the set of its nodes
        for number, node in nodes.items():
            in_fault[node.fault] |= 1 << number
            self.in_upgrade[node.upgrade] |= 1 << number
        # node: the set of nodes that a seat there bars for a fragment of another class, and for one of the same class
        self.bars = {number: (in_fault[node.fault], in_fault[node.fault] | self.in_upgrade[node.upgrade])
                     for number, node in nodes.items()}
        self.mode = dict.fromkeys(nodes, "active")
        self.down = set()
        self.upgrading = None
        self.stripes = {}  # stripe: its code
        self.homes = {}  # (stripe, fragment): (node, slot)
        self.leases = {}  # (stripe, fragment): Lease
        self.grants = Counter()  # (stripe, fragment): the number of leases that were granted
        self.clock = 0  # the number of ticks

    # Nodes.

    def nodes_in(self, mode):
        return [node for node in self.nodes if self.mode[node] == mode]

    def is_away(self, node):
        return self.mode[node] == "gone" or node in self.down

    def is_online(self, node):
        return not self.is_away(node) and self.nodes[node].upgrade != self.upgrading

    def is_eligible(self, node, load):
        """Whether a node with this load takes a fragment."""
        return load < self.nodes[node].slots and self.mode[node] == "active" and self.is_online(node)

    def held(self):
        """Each seat that is held, with its stripe and fragment: the homes and the targets."""
        yield from self.homes.items()
        for key, lease in self.leases.items():
            yield key, lease.target

    def slots_in_use(self):
        """The slots that are held, of each node."""
        slots = {node: [] for node in self.nodes}
        for _, (node, slot) in self.held():
            slots[node].append(slot)
        return slots

    def load(self, node):
        return len(self.slots_in_use()[node])

    def free_slot(self, node):
        """The least free slot of a node."""
        return min(set(range(self.nodes[node].slots)) - set(self.slots_in_use()[node]))

    def eligible_by_load(self):
        """The eligible nodes: a set for each load, in rising order of the loads."""
        by_load = Counter()
        for node, slots in self.slots_in_use().items():
            if self.is_eligible(node, len(slots)):
                by_load[len(slots)] |= 1 << node
        return [by_load[load] for load in sorted(by_load)]

    def homes_on(self, node):
        return [key for key, home in self.homes.items() if home[0] == node]

    def targets_on(self, node):
        return [key for key, lease in self.leases.items() if lease.target[0] == node]

    # Fragments and stripes.

    def fragments(self, stripe):
        """The fragments that a stripe has by its code."""
        return self.stripes[stripe].fragments

    def is_missing(self, key):
        home = self.homes.get(key)
        return home is None or not self.is_online(home[0])

    def needs_lease(self, key):
        """Whether a fragment of a stripe is to be repaired or moved. One that the code lacks is not."""
        home = self.homes.get(key)
        if home is None:
            return key[1] in self.stripes[key[0]].class_of
        return self.mode[home[0]] == "draining"

    def is_open(self, key):
        return self.needs_lease(key) and key not in self.leases

    def homeless(self, stripe):
        return set_of(fragment for fragment in self.fragments(stripe) if (stripe, fragment) not in self.homes)

    def missing(self, stripe):
        return set_of(fragment for fragment in self.fragments(stripe) if self.is_missing((stripe, fragment)))

    def open_fragments(self, stripe):
        """The set of fragments that need a lease and have none."""
        return set_of(fragment for fragment in self.fragments(stripe) if self.is_open((stripe, fragment)))

    def can_recover(self, stripe):
        return is_recoverable(self.stripes[stripe], self.missing(stripe))

    def beyond_recovery(self):
        """The set of stripes that cannot be recovered."""
        return set_of(stripe for stripe in self.stripes if not self.can_recover(stripe))

    def margin(self, stripe):
        return margin(self.stripes[stripe], self.missing(stripe))

    def rank(self, stripe):
        return rank_of(self.stripes[stripe], self.missing(stripe))

    def level(self, stripe):
        """The level of a stripe as the risk table writes it; None where it is Whole."""
        if not is_recoverable(self.stripes[stripe], self.homeless(stripe)):
            return "lost"
        if not self.can_recover(stripe):
            return "unavailable"
        return "risk" if self.missing(stripe) else None

    def in_order(self):
        """The stripes in the order of repair."""
        return sorted(self.stripes, key=lambda stripe: (self.rank(stripe), stripe))

    def with_work(self):
        """The stripes with a fragment that needs a lease and has none, in the order of repair."""
        return (stripe for stripe in self.in_order() if self.open_fragments(stripe))

    # The choice of a seat.

    def nodes_of(self, stripe):
        """Each fragment of a stripe that has a home or a target, with the node."""
        for fragment in self.fragments(stripe):
            key = stripe, fragment
            if key in self.homes:
                yield fragment, self.homes[key][0]
            if key in self.leases:
                yield fragment, self.leases[key].target[0]

    def barred(self, key):
        """The set of nodes on which a fragment would not be lawful beside the other fragments of its stripe."""
        stripe, fragment = key
        same_class, bars, barred = self.stripes[stripe].class_of[fragment], self.bars, 0
        for other, node in self.nodes_of(stripe):
            if other != fragment:
                barred |= bars[node][same_class >> other & 1]
        return barred

    def choice(self, key):
        """The seat for a fragment: the least slot of the node with the least load and number. Or it is refused."""
        barred = self.barred(key)
        for nodes in self.eligible_by_load():
            if fitting := nodes & ~barred:
                node = least(fitting)
                return node, self.free_slot(node)
        raise Refused(103, key[1])

    # The changes, of which each command makes one or more.

    def add_stripe(self, stripe, code):
        self.stripes[stripe] = code

    def remove_stripe(self, stripe):
        """A stripe goes with its homes and leases."""
        for fragment in self.fragments(stripe):
            self.clear_home((stripe, fragment))
            self.end_lease((stripe, fragment))
        del self.stripes[stripe]

    def set_home(self, key, seat):
        self.homes[key] = seat

    def clear_home(self, key):
        self.homes.pop(key, None)

    def set_lease(self, key, lease):
        self.leases[key] = lease

    def end_lease(self, key):
        self.leases.pop(key, None)

    def set_mode(self, node, mode, is_down):
        self.mode[node] = mode
        (self.down.add if is_down else self.down.discard)(node)

    def set_upgrading(self, domain):
        self.upgrading = domain

    # The commands, each a method of its name. It returns a reply, or raises Refused and changes nothing.

    def call(self, session, line):
        """The reply to the command of a line."""
        word, *numbers = line.split(" ")
        try:
            return getattr(self, "do_" + word)(session, *map(int, numbers))
        except Refused as refused:
            return " ".join(map(str, ["refused", *refused.args]))

    def expect_stripe(self, stripe):
        if stripe not in self.stripes:
            raise Refused(101)

    def place(self, stripe, code):
        if stripe in self.stripes:
            raise Refused(102)
        self.add_stripe(stripe, code)
        seats = []
        try:
            for fragment in code.fragments:
                key = stripe, fragment
                seats.append(self.choice(key))
                self.set_home(key, seats[-1])
        except Refused:
            self.remove_stripe(stripe)
            raise
        return " ".join(["placed", *("%d:%d" % seat for seat in seats)])

    def do_place(self, session, stripe):
        return self.place(stripe, WIDE)

    def do_place6(self, session, stripe):
        return self.place(stripe, NARROW)

    def do_drop(self, session, stripe):
        self.expect_stripe(stripe)
        self.remove_stripe(stripe)
        return "dropped"

    def lease_for(self, key):
        """The target and the kind of the lease that a fragment may get. Or it is refused."""
        stripe = key[0]
        self.expect_stripe(stripe)
        if key in self.leases:
            raise Refused(110, self.leases[key].epoch)
        if not self.needs_lease(key):
            raise Refused(111)
        kind = self.kind(key)
        if kind == "global" and not self.can_recover(stripe):
            raise Refused(112)
        return self.choice(key), kind

    def kind(self, key):
        """The kind of a lease, with its sources, as a reply writes them."""
        stripe, fragment = key
        code, missing = self.stripes[stripe], self.missing(stripe)
        if not missing >> fragment & 1:
            return "move"
        of_class = code.class_of[fragment]
        if of_class == code.classes[2] or of_class & missing & ~(1 << fragment):
            return "global"
        return local_repair(code, fragment)

    def grant(self, session, key, target, kind):
        self.grants[key] += 1
        lease = Lease(session, target, self.grants[key], self.clock + TERM)
        self.set_lease(key, lease)
        return "granted %d %d %d:%d epoch %d %s" % (*key, *target, lease.epoch, kind)

    def do_lease(self, session, *key):
        return self.grant(session, key, *self.lease_for(key))

    def do_next(self, session):
        """The first lease that `lease` would grant."""
        for stripe in self.with_work():
            for fragment in members(self.open_fragments(stripe)):
                try:
                    target, kind = self.lease_for((stripe, fragment))
                except Refused:
                    continue
                return self.grant(session, (stripe, fragment), target, kind)
        return "idle"

    def own_lease(self, session, key, epoch):
        """The live lease of a fragment, which has this epoch and this holder. Or it is refused."""
        self.expect_stripe(key[0])
        lease = self.leases.get(key)
        if lease is None or lease.epoch != epoch:
            raise Refused(113)
        if lease.holder != session:
            raise Refused(114, lease.holder)
        return lease

    def do_done(self, session, stripe, fragment, epoch):
        key = stripe, fragment
        target = self.own_lease(session, key, epoch).target
        if not self.is_online(target[0]):
            raise Refused(115, target[0])
        self.end_lease(key)
        self.clear_home(key)
        self.set_home(key, target)
        return "ended"

    def do_abandon(self, session, stripe, fragment, epoch):
        self.own_lease(session, (stripe, fragment), epoch)
        self.end_lease((stripe, fragment))
        return "ended"

    def do_revoke(self, session, *key):
        self.expect_stripe(key[0])
        if key not in self.leases:
            raise Refused(116)
        self.end_lease(key)
        return "ended"

    def ending(self):
        """The leases that end now."""
        return [key for key, lease in self.leases.items() if lease.expiry == self.clock]

    def do_tick(self, session):
        self.clock += 1
        ending = self.ending()
        for key in ending:
            self.end_lease(key)
        return f"ticked {self.clock} {len(ending)}"

    # Whether the mode of a node allows a command: its mode, and whether it is down.
    ALLOWS = {
        "fail": lambda mode, is_down: mode != "gone",
        "down": lambda mode, is_down: mode != "gone" and not is_down,
        "up": lambda mode, is_down: is_down,
        "drain": lambda mode, is_down: mode == "active",
        "undrain": lambda mode, is_down: mode == "draining",
        "retire": lambda mode, is_down: mode == "draining",
        "join": lambda mode, is_down: mode == "gone",
    }

    def allows(self, word, node):
        return self.ALLOWS[word](self.mode[node], node in self.down)

    def expect_node(self, word, node):
        if node not in self.nodes:
            raise Refused(104)
        if not self.allows(word, node):
            raise Refused(105)

    def do_fail(self, session, node):
        self.expect_node("fail", node)
        for key in self.targets_on(node):
            self.end_lease(key)
        for key in self.homes_on(node):
            self.end_lease(key)
            self.clear_home(key)
        self.set_mode(node, "gone", False)
        return "changed"

    def do_down(self, session, node):
        self.expect_node("down", node)
        self.set_mode(node, self.mode[node], True)
        return "changed"

    def do_up(self, session, node):
        self.expect_node("up", node)
        self.set_mode(node, self.mode[node], False)
        return "changed"

    def do_drain(self, session, node):
        self.expect_node("drain", node)
        self.set_mode(node, "draining", node in self.down)
        return "changed"

    def do_undrain(self, session, node):
        self.expect_node("undrain", node)
        self.set_mode(node, "active", node in self.down)
        return "changed"

    def do_retire(self, session, node):
        self.expect_node("retire", node)
        if self.load(node):
            raise Refused(117, self.load(node))
        self.set_mode(node, "gone", False)
        return "changed"

    def do_join(self, session, node):
        self.expect_node("join", node)
        self.set_mode(node, "active", False)
        return "changed"

    def expect_domain(self, domain):
        if domain not in self.in_upgrade:
            raise Refused(106)

    def do_upgrade(self, session, domain):
        self.expect_domain(domain)
        if self.upgrading is not None:
            raise Refused(107, self.upgrading)
        before = self.beyond_recovery()
        self.set_upgrading(domain)
        lost = self.beyond_recovery() & ~before
        if lost:
            self.set_upgrading(None)
            raise Refused(109, least(lost))
        return "changed"

    def do_upgraded(self, session, domain):
        self.expect_domain(domain)
        if self.upgrading != domain:
            raise Refused(108)
        self.set_upgrading(None)
        return "changed"

    # The tables.

    def risk_rows(self):
        for stripe in self.in_order():
            level = self.level(stripe)
            if level is not None:
                left = self.margin(stripe) if level == "risk" else "-"
                yield f"{stripe},{level},{left},{self.missing(stripe):04x}"

    def load_rows(self):
        for (number, node), slots in zip(self.nodes.items(), self.slots_in_use().values()):
            online = "yes" if self.is_online(number) else "no"
            yield f"{number},{self.mode[number]},{online},{len(slots)},{node.slots}"

    def image(self, before):
        """The text of the image of the state, after so many entries of the store."""
        lines = ["image 1", f"before {before}", f"clock {self.clock}"]
        if self.upgrading is not None:
            lines.append(f"upgrading {self.upgrading}")
        for node in sorted(self.nodes):
            words = [] if self.mode[node] == "active" else [self.mode[node]]
            words += ["down"] if node in self.down else []
            if words:
                lines.append(" ".join(["node", str(node), *words]))
        for stripe, code in sorted(self.stripes.items()):
            homes = [self.homes.get((stripe, fragment)) for fragment in code.fragments]
            words = ["%d:%d" % home if home else "-" for home in homes]
            lines.append(" ".join(["stripe" if code is WIDE else "stripe6", str(stripe), *words]))
        for stripe in sorted({key[0] for key, count in self.grants.items() if count}):
            counts = [self.grants[stripe, fragment] for fragment in FRAGMENTS]
            lines.append(" ".join(["granted", str(stripe), *map(str, counts)]))
        for key, lease in sorted(self.leases.items()):
            lines.append("lease %d %d %d %d:%d %d" % (*key, lease.holder, *lease.target, lease.expiry))
        return "\n".join([*lines, "end", ""])

    def is_spent(self, before):
        """Whether a number of the state after so many entries is at its end, so that there is no image of it."""
        counts = self.grants.values()
        return before > MOST_ENTRIES or self.clock > MOST_TICKS or any(count > MOST_GRANTS for count in counts)

    # The beginning in an image, row by row. Each row is judged beside the nodes and the rows before it.

    @classmethod
    def begin(cls, nodes, text):
        """The store of the text of an image, and the number of entries before it. Raises image_text.BadLine; or WrongLine
        with the first line that is wrong, and the first cause why."""
        image, store = image_text.read(text), cls(nodes)
        store.begin_head(image)
        for row in in_order(image.nodes, lambda row: row.node):
            store.begin_node(row)
        for row in in_order(image.stripes, lambda row: row.stripe):
            store.begin_stripe(row)
        for row in in_order(image.grants, lambda row: row.stripe):
            store.begin_grants(row)
        for row in in_order(image.leases, lambda row: (row.stripe, row.fragment)):
            store.begin_lease(row)
        return store, image.before

    def begin_head(self, image):
        # (the domain is on line 4, but it is looked at first)
        allow(image.upgrading is None or image.upgrading in self.in_upgrade, 4, Cause.UNKNOWN_DOMAIN)
        allow(image.before <= MOST_ENTRIES, 2, Cause.TOO_MANY_ENTRIES)
        allow(image.clock <= MOST_TICKS, 3, Cause.TOO_MANY_TICKS)
        self.set_upgrading(image.upgrading)
        self.clock = image.clock

    def begin_node(self, row):
        # (a node that is active and up has no line)
        allow(row.node in self.nodes, row.line, Cause.UNKNOWN_NODE)
        allow(row.mode != "gone" or not row.is_down, row.line, Cause.GONE_AND_DOWN)
        self.set_mode(row.node, row.mode, row.is_down)

    def expect_seat(self, line, key, seat):
        """A seat that a fragment of a stripe may hold."""
        node, slot = seat
        allow(key[1] in self.fragments(key[0]), line, Cause.UNKNOWN_FRAGMENT)
        allow(node in self.nodes, line, Cause.UNKNOWN_NODE)
        allow(slot < self.nodes[node].slots, line, Cause.UNKNOWN_SLOT)
        allow(self.mode[node] != "gone", line, Cause.NODE_GONE)
        allow(all(seat != other for _, other in self.held()), line, Cause.SEAT_TAKEN)
        allow(not self.barred(key) >> node & 1, line, Cause.NOT_LAWFUL)

    def begin_stripe(self, row):
        self.add_stripe(row.stripe, CODES[row.word])
        for fragment, seat in enumerate(row.homes):
            if seat is not None:
                self.expect_seat(row.line, (row.stripe, fragment), seat)
                self.set_home((row.stripe, fragment), seat)

    def begin_grants(self, row):
        allow(any(row.counts), row.line, Cause.SAYS_NOTHING)
        allow(max(row.counts) <= MOST_GRANTS, row.line, Cause.TOO_MANY_GRANTS)
        self.grants.update({(row.stripe, fragment): count for fragment, count in enumerate(row.counts) if count})

    def begin_lease(self, row):
        key = row.stripe, row.fragment
        allow(row.stripe in self.stripes, row.line, Cause.UNKNOWN_STRIPE)
        allow(self.grants[key] > 0, row.line, Cause.NEVER_GRANTED)
        allow(self.clock < row.expiry <= self.clock + TERM, row.line, Cause.WRONG_EXPIRY)
        self.expect_seat(row.line, key, row.target)
        self.set_lease(key, Lease(row.holder, row.target, self.grants[key], row.expiry))

    def tables(self):
        """The lines of an output after its replies."""
        return ["risk", RISK_HEADER, *self.risk_rows(), "load", LOAD_HEADER, *self.load_rows()]
