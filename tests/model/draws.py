"""Numbers and calls that are drawn by a fixed rule, so that a run can be made again."""
from collections import namedtuple

from tests.model.rules import FRAGMENTS, PLACES

# What is drawn from: stripe numbers 0 to `stripes`, of which the last is never placed; nodes and upgrade domains, with one
# of each that the store does not have.
Range = namedtuple("Range", "stripes nodes domains")

# How often a command is drawn, of a hundred. A narrow stripe nearly always finds its nodes and a wide one seldom, so with
# more of `place6` there would be hardly a wide one.
WEIGHTS = {
    "place": 8, "place6": 1, "drop": 3, "lease": 9, "next": 24, "done": 15, "abandon": 2, "revoke": 2, "tick": 10, "fail": 1,
    "join": 6, "down": 3, "up": 4, "drain": 3, "undrain": 1, "retire": 2, "upgrade": 2, "upgraded": 4,
}


def numbers(seed):
    """A fixed row of numbers, each below 2^32."""
    while True:
        seed = (seed * 6364136223846793005 + 1442695040888963407) % 2**64
        yield seed >> 32


def one_of(row, values):
    values = list(values)
    return values[next(row) % len(values)]


def is_seldom(row):
    return next(row) % 8 == 0


def drawn_word(row, weights):
    at = next(row) % sum(weights.values())
    for word, weight in weights.items():
        if at < weight:
            return word
        at -= weight
    raise AssertionError("the weights end before their sum")


def drawn_node(row, fitting, all_nodes):
    """Most often a node that the command can act on, else any."""
    return one_of(row, fitting) if fitting and not is_seldom(row) else one_of(row, all_nodes)


def fitting_nodes(store, word):
    """The nodes whose mode allows the command, where few do: a node most often comes back."""
    if word not in ("up", "join", "undrain", "retire"):
        return []
    return [node for node in store.nodes if store.allows(word, node) and (word != "retire" or store.load(node) == 0)]


def drawn_stripe(store, row, word, within):
    """Most often one that can be placed, or one to be given up."""
    if word in PLACES:
        fitting = [stripe for stripe in range(within.stripes) if stripe not in store.stripes]
    else:
        fitting = [stripe for stripe in sorted(store.stripes) if store.level(stripe) == "lost"]
    return one_of(row, fitting) if fitting and not is_seldom(row) else next(row) % (within.stripes + (word == "drop"))


def drawn_fragment(store, row):
    """Most often one that needs a lease, where there is one."""
    needy = [(stripe, fragment) for stripe in sorted(store.stripes) for fragment in FRAGMENTS
             if store.needs_lease((stripe, fragment))]
    return one_of(row, needy) if needy and not is_seldom(row) else None


def drawn_lack(store, row):
    """Now and then a fragment that the code of its stripe lacks, where there is such a stripe."""
    lacking = [(stripe, fragment) for stripe in sorted(store.stripes) for fragment in FRAGMENTS
               if fragment not in store.fragments(stripe)]
    return one_of(row, lacking) if lacking and is_seldom(row) else None


def drawn_report(store, row, session):
    """A session, a stripe, a fragment and an epoch: most often of a live lease, now and then of one that has ended, or with
    one thing wrong."""
    wrong = next(row) % 16
    ended = sorted(key for key in store.grants if key not in store.leases and key[0] in store.stripes)
    if ended and (wrong == 4 or not store.leases):
        key = one_of(row, ended)
        return session, *key, store.grants[key]
    if not store.leases:
        return session, 0, next(row) % 16, 1
    stripe, fragment = key = one_of(row, sorted(store.leases))
    lease = store.leases[key]
    epoch = lease.epoch + (wrong == 0) - (wrong == 1)
    return session if wrong == 2 else lease.holder, stripe, (fragment + (wrong == 3)) % 16, epoch


def drawn_call(store, row, within, weights=WEIGHTS):
    """A session and the line of its command."""
    word, session = drawn_word(row, weights), 1 + next(row) % 8
    stripe, fragment = next(row) % (within.stripes + 1), next(row) % 16
    if word in ("next", "tick"):
        return session, word
    if word in PLACES or word == "drop":
        return session, f"{word} {drawn_stripe(store, row, word, within)}"
    if word in ("lease", "revoke"):
        held = sorted(store.leases) if word == "revoke" and not is_seldom(row) else []
        key = drawn_lack(store, row) or (one_of(row, held) if held else drawn_fragment(store, row) or (stripe, fragment))
        return session, "%s %d %d" % (word, *key)
    if word in ("done", "abandon"):
        lack = drawn_lack(store, row)
        session, *rest = (session, *lack, 1) if lack else drawn_report(store, row, session)
        return session, "%s %d %d %d" % (word, *rest)
    if word == "upgraded" and store.upgrading is not None and not is_seldom(row):
        return session, f"{word} {store.upgrading}"
    if word in ("upgrade", "upgraded"):
        return session, f"{word} {one_of(row, within.domains)}"
    return session, f"{word} {drawn_node(row, fitting_nodes(store, word), within.nodes)}"
