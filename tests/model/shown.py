"""What `lrcman show`, `may-stop` and `may-lose` print of a store of tests/model/rules.py, written once more after docs/FORMATS.md."""
import copy
from collections import Counter

from tests.model import rules
from tests.model.field import read_for
from tests.model.rules import FRAGMENTS, is_recoverable, margin, members

# The words after `show`. The service shows all of them, with "-" in place of a space there.
VIEWS = ("status", "stripes", "nodes", "leases", "work", "fragments", "domains fault", "domains upgrade", "health", "capacity")
LEVELS = ("whole", "at_risk_margin_2", "at_risk_margin_1", "at_risk_margin_0", "unavailable", "lost")
STRIPES = 4_096  # the number of stripe numbers
DOMAINS = ["domain", "nodes", "online", "homes", "targets", "load", "slots", "stripes", *LEVELS]
HOMES = [f"home_{fragment}" for fragment in FRAGMENTS]
HEADS = {
    "status": ["name", "value"],
    "stripes": ["stripe", "code", "level", "margin", "missing", "missing_fragments", "homeless", "homeless_fragments", *HOMES],
    "nodes": ["node", "fault", "upgrade", "mode", "down", "upgrading", "online", "homes", "targets", "load", "slots"],
    "leases": ["stripe", "fragment", "holder", "target", "epoch", "expiry"],
    "work": ["stripe", "fragment", "kind", "sources", "reads", "standing", "holder", "epoch"],
    "fragments": ["stripe", "fragment", "node", "slot", "fault", "upgrade", "state", "mode", "why", "target", "holder", "epoch",
                  "expiry"],
    "domains fault": DOMAINS,
    "domains upgrade": DOMAINS,
    "health": ["reason", "count", "first"],
    "capacity": ["code", "stripes", "fragment", "not_active", "offline", "full", "fault_domain", "upgrade_domain", "free_slots"],
}

REPORTS = {"may-stop": "down", "may-lose": "fail"}
FORECAST = ["stripe", "code", "level_before", "margin_before", "level_after", "margin_after", "missing_after", "missing_fragments_after",
            "leases_ended", "harmed"]


def yes(flag):
    return "yes" if flag else "no"


def mask(fragments):
    """A set of fragments as a mask that no program takes for a number, and as a list."""
    return [f"0x{fragments:04x}", " ".join(map(str, members(fragments)))]


def seat(home):
    return "%d:%d" % home


def level_of(store, stripe):
    """The level of a stripe and its margin."""
    margin = store.margin(stripe)
    return [store.level(stripe) or "whole", "-" if margin is None else margin]


def home_of(store, stripe, fragment):
    home = store.homes.get((stripe, fragment))
    if home:
        return seat(home)
    return "-" if fragment in store.fragments(stripe) else ""


def stripes_rows(store):
    for stripe in sorted(store.stripes):
        yield [stripe, store.stripes[stripe].name, *level_of(store, stripe), *mask(store.missing(stripe)),
               *mask(store.homeless(stripe)), *(home_of(store, stripe, fragment) for fragment in FRAGMENTS)]


def nodes_rows(store):
    for number, node in store.nodes.items():
        flags = number in store.down, node.upgrade == store.upgrading, store.is_online(number)
        yield [number, node.fault, node.upgrade, store.mode[number], *map(yes, flags), len(store.homes_on(number)),
               len(store.targets_on(number)), store.load(number), node.slots]


def leases_rows(store):
    for key, lease in sorted(store.leases.items()):
        yield [*key, lease.holder, seat(lease.target), lease.epoch, lease.expiry]


def standing(store, key):
    """Where the repair of a fragment stands, with the holder and the epoch of its lease."""
    if key in store.leases:
        lease = store.leases[key]
        return ["leased", lease.holder, lease.epoch]
    try:
        store.lease_for(key)
    except rules.Refused as refused:
        return [{112: "unrecoverable", 103: "no_node"}[refused.args[0]], "", ""]
    return ["open", "", ""]


def reads(store, key, kind):
    """How many fragments are read to move or rebuild a fragment; nothing where what is not missing does not determine it."""
    if kind == "move":
        return 1
    sources = read_for(store.stripes[key[0]], store.missing(key[0]), key[1])
    return "" if sources is None else len(sources)


def work_rows(store):
    for stripe in store.in_order():
        for fragment in store.fragments(stripe):
            key = stripe, fragment
            if store.needs_lease(key):
                kind, *sources = store.kind(key).split(" ")
                yield [*key, kind, " ".join(sources), reads(store, key, kind), *standing(store, key)]


def level_name(code, homeless, missing):
    """The level of a stripe of this code, with the margin, by its homeless and its missing fragments."""
    if not is_recoverable(code, homeless):
        return "lost"
    left = margin(code, missing)
    if left is None:
        return "unavailable"
    return f"at_risk_margin_{left}" if missing else "whole"


def levels_of(store):
    """The level of each stripe."""
    return {stripe: level_name(code, store.homeless(stripe), store.missing(stripe)) for stripe, code in store.stripes.items()}


def level_counts(levels):
    """How many stripes have each level."""
    counts = Counter(levels.values())
    assert counts.keys() <= set(LEVELS), counts
    return [counts[level] for level in LEVELS]


def status_rows(store, entries):
    yield ["stripes", len(store.stripes)]
    yield from zip(LEVELS, level_counts(levels_of(store)))
    yield ["missing_fragments", sum(store.missing(stripe).bit_count() for stripe in store.stripes)]
    yield ["homeless_fragments", sum(store.homeless(stripe).bit_count() for stripe in store.stripes)]
    yield ["leases", len(store.leases)]
    yield ["held_seats", len(list(store.held()))]
    yield ["slots", sum(node.slots for node in store.nodes.values())]
    for mode in ("active", "draining", "gone"):
        yield [f"nodes_{mode}", len(store.nodes_in(mode))]
    yield ["nodes_down", len(store.down)]
    yield ["nodes_online", sum(map(store.is_online, store.nodes))]
    yield ["upgrading", "none" if store.upgrading is None else store.upgrading]
    yield ["clock", store.clock]
    yield ["entries", entries]


def whereabouts(store, home):
    """Where a fragment is: its seat, the domains of the node, whether it is there, and the mode of a node and why it is offline."""
    if home is None:
        return ["", "", "", "", "homeless", "", ""]
    node, slot = home
    info, is_met = store.nodes[node], {"down": node in store.down, "upgrading": store.nodes[node].upgrade == store.upgrading}
    why = " ".join(word for word in is_met if is_met[word])
    return [node, slot, info.fault, info.upgrade, "present" if store.is_online(node) else "offline", store.mode[node], why]


def fragments_rows(store):
    for stripe in sorted(store.stripes):
        for fragment in store.fragments(stripe):
            key = stripe, fragment
            lease = store.leases.get(key)
            terms = [seat(lease.target), lease.holder, lease.epoch, lease.expiry] if lease else [""] * 4
            yield [*key, *whereabouts(store, store.homes.get(key)), *terms]


def domains_of(store, kind):
    """The domains of a kind, in rising order, each with its nodes, and with the set of fragments that each stripe has there."""
    nodes, hits = {}, {}
    for number, node in store.nodes.items():
        nodes.setdefault(getattr(node, kind), []).append(number)
    for (stripe, fragment), (node, _) in store.homes.items():
        hits.setdefault(getattr(store.nodes[node], kind), Counter())[stripe] |= 1 << fragment
    for domain in sorted(nodes):
        yield domain, nodes[domain], hits.get(domain, {})


def levels_without(store, levels, hits, is_lost):
    """The levels once these fragments of each stripe are lost, or offline."""
    return levels | {stripe: level_name(store.stripes[stripe], store.homeless(stripe) | (hits[stripe] if is_lost else 0),
                                        store.missing(stripe) | hits[stripe]) for stripe in hits}


def domains_rows(store, kind):
    levels = levels_of(store)
    for domain, nodes, hits in domains_of(store, kind):
        later = levels_without(store, levels, hits, kind == "fault")
        yield [domain, len(nodes), sum(map(store.is_online, nodes)), sum(len(store.homes_on(node)) for node in nodes),
               sum(len(store.targets_on(node)) for node in nodes), sum(map(store.load, nodes)),
               sum(store.nodes[node].slots for node in nodes), len(hits), *level_counts(later)]


def fragile_domains(store, levels):
    """The fault domains whose loss would lose a stripe that is not lost."""
    for domain, _, hits in domains_of(store, "fault"):
        later = levels_without(store, levels, hits, True)
        if any(later[stripe] == "lost" != levels[stripe] for stripe in hits):
            yield domain


def reasons(store):
    """Why a store is not well: each reason, and where it is there."""
    levels = levels_of(store)
    for reason, level in zip(("lost", "unavailable", "margin_0", "margin_1", "margin_2"), reversed(LEVELS)):
        yield reason, [stripe for stripe in sorted(levels) if levels[stripe] == level]
    work = {"no_node": [], "open": []}
    for stripe, fragment, *_, standing, _, _ in work_rows(store):
        work.get(standing, []).append(f"{stripe} {fragment}")
    yield "no_node", work["no_node"]
    yield "waiting", work["open"]
    yield "ending", ["%d %d" % key for key, lease in sorted(store.leases.items()) if lease.expiry == store.clock + 1]
    yield "upgrading", [] if store.upgrading is None else [store.upgrading]
    yield "fault_domains", list(fragile_domains(store, levels))


def health_rows(store):
    rows = [[reason, len(places), places[0]] for reason, places in reasons(store) if places]
    active = store.nodes_in("active")
    slots, load = sum(store.nodes[node].slots for node in active), sum(map(store.load, active))
    if slots - load < slots / 10:
        rows.append(["slots", slots - load, ""])
    return rows or [["ok", 0, ""]]


def clash(code, fragment, node, other, beside):
    """The condition by which a fragment on one node rules out another node for a fragment of its stripe, if it does."""
    if node.fault == beside.fault:
        return "fault_domain"
    return "upgrade_domain" if code.class_of[fragment] >> other & 1 and node.upgrade == beside.upgrade else None


class Filling:
    """Stripes of a code that are placed on a store, one after the other, by the loads of its nodes alone."""

    def __init__(self, store, code):
        self.store, self.code = store, code
        self.load = Counter(node for _, (node, _) in store.held())

    def takes_seats(self, node):
        return self.store.mode[node] == "active" and self.store.is_online(node)

    def ruled_out(self, number, fragment, placed):
        """The first condition that rules out a node for a fragment, where other fragments of its stripe are placed."""
        nodes = self.store.nodes
        if self.store.mode[number] != "active":
            return "not_active"
        if not self.store.is_online(number):
            return "offline"
        if self.load[number] >= nodes[number].slots:
            return "full"
        met = {clash(self.code, fragment, nodes[number], other, nodes[node]) for other, node in placed.items()}
        return next((word for word in ("fault_domain", "upgrade_domain") if word in met), None)

    def place(self):
        """Places a stripe. Or returns the first fragment without a node, and how many nodes each condition rules out."""
        placed = {}
        for fragment in self.code.fragments:
            words = {node: self.ruled_out(node, fragment, placed) for node in self.store.nodes}
            fitting = [node for node, word in words.items() if word is None]
            if not fitting:
                counts = Counter(words.values())
                return [fragment, *(counts[word] for word in HEADS["capacity"][3:8])]
            placed[fragment] = min(fitting, key=lambda node: (self.load[node], node))
            self.load[placed[fragment]] += 1
        return None

    def free_slots(self):
        return sum(self.store.nodes[node].slots - self.load[node] for node in self.store.nodes if self.takes_seats(node))


def capacity_rows(store):
    """For each code how many stripes are placed with the numbers that are left, and why no more."""
    for code in rules.WIDE, rules.NARROW:
        filling, refused, free = Filling(store, code), [""] * 6, None
        for count in range(STRIPES - len(store.stripes) + 1):
            free = filling.free_slots()
            if count + len(store.stripes) < STRIPES and (short := filling.place()):
                refused = short
                break
        yield [code.name, count, *refused, free]


def is_in_danger(store):
    """Whether `show health` ends with status 4."""
    return any(level in LEVELS[3:] for level in levels_of(store).values())


def text_of(head, rows):
    return "".join(",".join(map(str, row)) + "\n" for row in [head, *rows])


def shown(view, store, entries):
    """The table of a view, after so many entries."""
    word, *kind = view.split(" ")
    rows = {"status": lambda: status_rows(store, entries), "stripes": lambda: stripes_rows(store), "nodes": lambda: nodes_rows(store),
            "leases": lambda: leases_rows(store), "work": lambda: work_rows(store), "fragments": lambda: fragments_rows(store),
            "domains": lambda: domains_rows(store, *kind), "health": lambda: health_rows(store),
            "capacity": lambda: capacity_rows(store)}
    return text_of(HEADS[view], rows[word]())


def nodes_of(store, words):
    """The nodes that the words after `may-stop` or `may-lose` name, one after the other."""
    nodes, domain = [], None
    for word in words:
        if word in ("fault", "upgrade"):
            domain = word
        elif domain:
            nodes += [number for number, node in store.nodes.items() if getattr(node, domain) == int(word)]
        else:
            nodes.append(int(word))
    return nodes


def harm_of(store, later, stripe, nodes):
    """Why a stripe is harmed from one state to the other by an outage of these nodes: none where it is recoverable then; else some of
    that it was so, a home on one of them, and a target on one."""
    if later.can_recover(stripe):
        return []
    keys = [(stripe, fragment) for fragment in store.fragments(stripe)]
    homes = {store.homes[key][0] for key in keys if key in store.homes}
    targets = {store.leases[key].target[0] for key in keys if key in store.leases}
    harm = {"recoverable": store.can_recover(stripe), "home": homes & set(nodes), "target": targets & set(nodes)}
    return [word for word, is_met in harm.items() if is_met]


def ended(store, later):
    """How many leases of each stripe are live in the one state and not in the other."""
    return Counter(key[0] for key in store.leases if key not in later.leases)


def after_reports(word, store, nodes):
    """The store after a report of each node; one that is refused changes nothing."""
    later = copy.deepcopy(store)
    for node in nodes:
        later.call(1, f"{REPORTS[word]} {node}")
    return later


def outlook(store, later, nodes):
    """The table of the stripes that are not whole later, after an outage of these nodes, and why each is harmed."""
    rows, harms, leases = [], [], ended(store, later)
    for stripe in sorted(store.stripes):
        before, after, harm = level_of(store, stripe), level_of(later, stripe), harm_of(store, later, stripe, nodes)
        if after[0] != "whole":
            fields = store.stripes[stripe].name, *before, *after, *mask(later.missing(stripe))
            rows.append([stripe, *fields, leases[stripe], yes(harm)])
            harms.append(harm)
    return text_of(FORECAST, rows), [harm for harm in harms if harm]


def forecast(word, store, nodes):
    """The outlook after a report of each node."""
    return outlook(store, after_reports(word, store, nodes), nodes)
