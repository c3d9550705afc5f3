"""The store of the rules (tests/model/rules.py) with indexes, so that bundles for large stores take seconds to make.

No rule stands here: a method answers a question of the rules from an index, or makes a change and updates the indexes."""
from collections import defaultdict
from itertools import chain

from tests.model import rules
from tests.model.rules import least, members, set_of


class Fragments:
    """What is stored of the fragments of a stripe."""

    __slots__ = "away", "open", "stale", "in_upgrade", "homes", "targets", "barred"

    def __init__(self):
        self.away = self.open = 0  # the sets of fragments that are missing whichever domain is upgrading, and of open ones
        self.stale = 0  # the set of fragments of which these two may be out of date
        self.in_upgrade = defaultdict(int)  # upgrade domain: the set of fragments with a home there
        self.homes, self.targets = {}, {}  # fragment: node
        self.barred = {}  # class: the set of nodes that are barred for its fragments without home and target


class Ranks:
    """The stripes of each rank, while a domain is upgrading or none is."""

    __slots__ = "stale", "of_stripe", "stripes"

    def __init__(self):
        self.stale = 0  # the set of stripes of which the rest may be out of date
        self.of_stripe = {}  # stripe: rank
        self.stripes = [0] * rules.RANKS  # rank: the set of stripes

    def list_stripe(self, stripe, rank):
        """Lists a stripe under a rank, or nowhere."""
        listed = self.of_stripe.get(stripe)
        if rank != listed:
            self.of_stripe[stripe] = rank
            for changed in {rank, listed} - {None}:
                self.stripes[changed] ^= 1 << stripe


class Store(rules.Store):
    """The store of the rules, in which a command takes about as long on a large store as on a small one."""

    def __init__(self, nodes):
        super().__init__(nodes)
        self.in_mode = {"active": set(nodes), "draining": set(), "gone": set()}
        self.slots = dict.fromkeys(nodes, 0)  # node: the set of its slots in use
        self.eligible = defaultdict(int)  # load: the set of eligible nodes
        self.loads = 0  # the set of loads that an eligible node has
        self.listed = dict.fromkeys(nodes)  # node: the load under which it is listed as eligible
        self.unsure = 0  # the set of nodes that may be listed wrongly
        self.home_keys, self.target_keys = ({node: set() for node in nodes} for _ in range(2))
        self.of_stripe = {}  # stripe: Fragments
        self.open = 0  # the set of stripes with an open fragment
        self.ranks = {domain: Ranks() for domain in (None, *self.in_upgrade)}  # the domain that is upgrading: Ranks
        self.stale = set()  # the stripes of which these two may be out of date
        self.skipped = 0  # the set of stripes that `next` can grant nothing of, until a change that is no grant
        self.ends = defaultdict(set)  # clock: the leases that end then
        for node in nodes:
            self.list_node(node)

    # Nodes.

    def nodes_in(self, mode):
        return self.in_mode[mode]

    def load(self, node):
        return self.slots[node].bit_count()

    def free_slot(self, node):
        return least(~self.slots[node])

    def eligible_by_load(self):
        self.list_unsure()
        return map(self.eligible.__getitem__, members(self.loads))

    def homes_on(self, node):
        return list(self.home_keys[node])

    def targets_on(self, node):
        return list(self.target_keys[node])

    def list_node(self, node):
        """Lists a node under its load if it is eligible, and nowhere else."""
        load, listed, bit = self.slots[node].bit_count(), self.listed[node], 1 << node
        if not self.is_eligible(node, load):
            load = None
        if load != listed:
            eligible = self.eligible
            if listed is not None:
                eligible[listed] ^= bit
                if not eligible[listed]:
                    self.loads ^= 1 << listed
            if load is not None:
                eligible[load] |= bit
                self.loads |= 1 << load
            self.listed[node] = load

    def list_unsure(self):
        unsure, self.unsure = self.unsure, 0
        for node in members(unsure):
            self.list_node(node)

    def set_mode(self, node, mode, is_down):
        was_away = self.is_away(node)
        self.in_mode[self.mode[node]].remove(node)
        if mode != self.mode[node]:  # (whether a fragment is open depends on nothing else of a node)
            for stripe, fragment in self.home_keys[node]:
                self.of_stripe[stripe].stale |= 1 << fragment
                self.stale.add(stripe)
        super().set_mode(node, mode, is_down)
        self.in_mode[mode].add(node)
        if self.is_away(node) != was_away:
            for stripe, fragment in self.home_keys[node]:
                self.of_stripe[stripe].away ^= 1 << fragment
                self.stale.add(stripe)
        self.list_node(node)
        self.skipped = 0

    def set_upgrading(self, domain):
        changed = [known for known in (self.upgrading, domain) if known is not None]
        super().set_upgrading(domain)
        for known in changed:
            self.unsure |= self.in_upgrade[known]
        self.skipped = 0

    # Stripes.

    def updated(self, stripe):
        """What is stored of a stripe, after its stale fragments are looked at again."""
        of_stripe = self.of_stripe[stripe]
        if of_stripe.stale:
            stale, of_stripe.stale = of_stripe.stale, 0
            away, is_open = of_stripe.away & ~stale, of_stripe.open & ~stale
            while stale:
                bit = stale & -stale
                fragment = bit.bit_length() - 1
                node = of_stripe.homes.get(fragment)
                if node is None or self.is_away(node):
                    away |= bit
                if self.is_open((stripe, fragment)):
                    is_open |= bit
                stale ^= bit
            of_stripe.away, of_stripe.open = away, is_open
        return of_stripe

    def missing(self, stripe):
        of_stripe = self.updated(stripe)
        return of_stripe.away | of_stripe.in_upgrade.get(self.upgrading, 0)

    def open_fragments(self, stripe):
        return self.updated(stripe).open

    def nodes_of(self, stripe):
        of_stripe = self.of_stripe[stripe]
        return chain(of_stripe.homes.items(), of_stripe.targets.items())

    def with_work(self):
        self.list_unsure()
        if not self.loads:
            return  # (no node takes a fragment, so that nothing could be granted)
        for stripes in self.updated_ranks().stripes:
            for stripe in members(stripes & self.open & ~self.skipped):
                yield stripe
                # (the caller asks for more only where nothing of this stripe could be granted)
                self.skipped |= 1 << stripe

    def count_open(self):
        """The number of stripes with an open fragment."""
        if self.stale:
            self.update_stripes()
        return self.open.bit_count()

    def beyond_recovery(self):
        return self.updated_ranks().stripes[-1]

    def updated_ranks(self):
        """The ranks as things are, after stale stripes are looked at again."""
        if self.stale:
            self.update_stripes()
        ranks = self.ranks[self.upgrading]
        stale, ranks.stale = ranks.stale, 0
        for stripe in members(stale):
            is_there = stripe in self.stripes
            ranks.list_stripe(stripe, rules.rank_of(self.stripes[stripe], self.missing(stripe)) if is_there else None)
        return ranks

    def update_stripes(self):
        """Finds again which of the stale stripes have an open fragment; they are stale in all ranks."""
        stale = set_of(self.stale)
        self.open &= ~stale
        self.open |= set_of(stripe for stripe in self.stale if stripe in self.stripes and self.updated(stripe).open)
        for ranks in self.ranks.values():
            ranks.stale |= stale
        self.stale.clear()

    def add_stripe(self, stripe, code):
        super().add_stripe(stripe, code)
        self.of_stripe[stripe] = Fragments()
        self.of_stripe[stripe].stale = code.all
        self.stale.add(stripe)

    def remove_stripe(self, stripe):
        super().remove_stripe(stripe)
        del self.of_stripe[stripe]
        self.stale.add(stripe)

    # The choice of a seat.

    def barred(self, key):
        stripe, fragment = key
        of_stripe, of_class = self.of_stripe[stripe], self.stripes[stripe].class_of[fragment]
        if fragment in of_stripe.homes or fragment in of_stripe.targets:
            return super().barred(key)
        if of_class not in of_stripe.barred:
            of_stripe.barred[of_class] = super().barred(key)
        return of_stripe.barred[of_class]

    # Homes and leases.

    def hold(self, key, seat, keys_on, nodes):
        (stripe, fragment), (node, slot) = key, seat
        keys_on[node].add(key)
        nodes[fragment] = node
        of_stripe = self.of_stripe[stripe]
        of_stripe.stale |= 1 << fragment
        self.stale.add(stripe)
        for of_class in of_stripe.barred:
            of_stripe.barred[of_class] |= self.bars[node][of_class >> fragment & 1]
        self.slots[node] |= 1 << slot
        self.list_node(node)

    def release(self, key, seat, keys_on, nodes):
        (stripe, fragment), (node, slot) = key, seat
        keys_on[node].remove(key)
        del nodes[fragment]
        of_stripe = self.of_stripe[stripe]
        of_stripe.stale |= 1 << fragment
        self.stale.add(stripe)
        of_stripe.barred.clear()
        self.slots[node] ^= 1 << slot
        self.list_node(node)
        self.skipped = 0

    def set_home(self, key, seat):
        super().set_home(key, seat)
        self.of_stripe[key[0]].in_upgrade[self.nodes[seat[0]].upgrade] |= 1 << key[1]
        self.hold(key, seat, self.home_keys, self.of_stripe[key[0]].homes)

    def clear_home(self, key):
        if key in self.homes:
            seat = self.homes[key]
            super().clear_home(key)
            self.of_stripe[key[0]].in_upgrade[self.nodes[seat[0]].upgrade] ^= 1 << key[1]
            self.release(key, seat, self.home_keys, self.of_stripe[key[0]].homes)

    def set_lease(self, key, lease):
        super().set_lease(key, lease)
        self.ends[lease.expiry].add(key)
        self.hold(key, lease.target, self.target_keys, self.of_stripe[key[0]].targets)

    def end_lease(self, key):
        if key in self.leases:
            lease = self.leases[key]
            super().end_lease(key)
            self.ends[lease.expiry].discard(key)
            self.release(key, lease.target, self.target_keys, self.of_stripe[key[0]].targets)

    def ending(self):
        return list(self.ends.pop(self.clock, ()))
