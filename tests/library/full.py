"""A store at its limits: 512 nodes with the highest numbers, in 256 fault domains, and 4,096 stripes, of which each fragment
has a lease, with its target beside its home. Some nodes are gone, down or draining. The questions of the rules are answered
from the indexes of tests/model/store.py: a search over so many homes takes too long."""
from tests.model import rules
from tests.model.rules import MOST_SLOTS, MOST_STRIPES, NARROW, WIDE, Lease, Node, members
from tests.model.store import Store

COUNT, FIRST = 512, 2**16 - 512
BEFORE, CLOCK = 2**63 - 100_000, 1_000_000
# The fault domains go in groups of sixteen, each for the stripes of every sixteenth number. By their places in a group: the
# upgrade domains, of which the first has 96 nodes, and where the fragments of each class of a code begin.
GROUP = 16
UPGRADES = [*range(7), *range(7), 0, 1]
BEGINS = 0, 7, 14
NARROW_FROM = 12  # the groups from here on have narrow stripes
# The nodes that are not active and up, by group and place: three gone ones that leave stripes at risk, four that leave them
# lost, four that are down and leave them unavailable, and two that are draining.
STANDINGS = {
    **dict.fromkeys([(0, 0), (0, 7), (12, 14), *((1, place) for place in range(4))], ("gone", False)),
    **dict.fromkeys([(2, place) for place in range(4)], ("active", True)), (3, 5): ("draining", False), (4, 5): ("draining", True),
}


def nodes_of(count=COUNT, domains=None):
    """Nodes of the highest numbers, two after each other in one fault domain; or all in this one and this upgrade domain."""
    near = [domains or (at // 2, UPGRADES[at // 2 % GROUP]) for at in range(count)]
    return {FIRST + at: Node(*domain, MOST_SLOTS) for at, domain in enumerate(near)}


def places_of(code):
    """The place in its group of the fault domain of each fragment."""
    return {fragment: begin + at for begin, of_class in zip(BEGINS, code.classes) for at, fragment in enumerate(members(of_class))}


PLACES = {code: places_of(code) for code in (WIDE, NARROW)}


def node_at(group, place):
    """The first node of a fault domain: homes are on it, and targets on the next one."""
    return FIRST + 2 * (GROUP * group + place)


def add_stripe(store, stripe):
    """A stripe with a home for each fragment, but on nodes that are gone, and with a lease for each."""
    slot, group = divmod(stripe, GROUP)
    code = WIDE if group < NARROW_FROM else NARROW
    store.add_stripe(stripe, code)
    for fragment in code.fragments:
        key, node, turn = (stripe, fragment), node_at(group, PLACES[code][fragment]), stripe + fragment
        if store.mode[node] != "gone":
            store.set_home(key, (node, slot))
        store.grants[key] = 1 + turn % 3
        store.set_lease(key, Lease(1 + turn % 8, (node + 1, slot), store.grants[key], store.clock + 1 + turn % rules.TERM))
    # (a stripe that is narrow may have been wide before)
    store.grants[stripe, rules.FRAGMENTS[-1]] += code is NARROW


def full_store(stripes=MOST_STRIPES):
    """The store, or one with fewer stripes, the first ones."""
    store = Store(nodes_of())
    store.clock = CLOCK
    for at, standing in STANDINGS.items():
        store.set_mode(node_at(*at), *standing)
    for stripe in range(stripes):
        add_stripe(store, stripe)
    return store


def plain(store):
    """The same state in a store of the rules without indexes."""
    same = rules.Store(store.nodes)
    for name in vars(same):
        setattr(same, name, getattr(store, name))
    return same
