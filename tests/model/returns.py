"""What a forecast means, held to the model in tests/model/rules.py: a stripe that an outage does not harm is, after any returns,
recoverable with the outage exactly where it is recoverable without it. Returns are `up`, `upgraded` and `done`. With the outage its
nodes stay away: an `up` of one of them is left out.

Of a drawn store there are two copies, of which one gets the reports of a drawn outage; then both get the same drawn returns, but
for those that are left out. Among these are some that are refused, and some that one copy takes and the other refuses."""
import copy
import time
from collections import Counter

from tests.model import draws, shown
from tests.model.draws import numbers, one_of
from tests.model.rules import Node, Store

SEEDS, FRESH, STATES = 1_000, 100, 3  # the stores that are the same each time, the others, and the states that each comes to
COMMANDS, TROUBLE, RETURNS = 30, 12, 10  # before the first state; before each one; after it
SHARE = 10  # of so many states one is asked of the program

# How often a command is drawn in trouble: what takes fragments away, and leases that bring them back.
WEIGHTS = {"place": 2, "place6": 2, "lease": 8, "next": 6, "done": 2, "fail": 3, "down": 7, "up": 1, "drain": 1, "join": 2,
           "upgrade": 4}

# Each ground of harm that is a seat: the outage, what the seat is, and how its node was before.
OUTAGES = ("may-stop", "may-lose")
SEATS = [f"{word} {kind} {standing}" for word in OUTAGES for kind in ("home", "target") for standing in ("online", "upgrading", "down")]

# What has to be met, each at least so often, or the comparison could not fail: each way of harm, also alone and shown by a return;
# stripes that come back with an outage too; and returns that both take, one, or none, or that are left out.
LEAST = 4
WANTED = [
    "harmed, and was recoverable", "not harmed, and comes back", *(f"harmed, {seat}" for seat in SEATS),
    *(f"{seat} alone, shown by a return" for seat in SEATS), "up changed changed", "up changed left",
    "up refused refused", "up refused left", "upgraded changed changed", "upgraded refused refused", "done ended ended", "done ended refused",
    "done refused refused",
]


# What is drawn.


def beyond(store):
    """The stripes that cannot be recovered."""
    return [stripe for stripe in sorted(store.stripes) if not store.can_recover(stripe)]


def aimed_trouble(store, row):
    """Lines, of which each is to be called before the next one: trouble for a stripe with a live lease. The node of its target
    goes down, or the domain of that node upgrades; or neither. Then homes go, while the stripe can be recovered."""
    stripe, fragment = one_of(row, sorted(store.leases))
    node, kind = store.leases[stripe, fragment].target[0], next(row) % 4
    if kind == 0:
        yield f"down {node}"
    elif kind in (1, 2):
        if store.upgrading is not None:
            yield f"upgraded {store.upgrading}"
        yield f"upgrade {store.nodes[node].upgrade}"
    for _ in range(next(row) % 6):
        homes = [home for (of, _), (home, _) in sorted(store.homes.items()) if of == stripe and store.is_online(home)]
        if homes and store.can_recover(stripe):
            yield f"{one_of(row, ('down', 'fail'))} {one_of(row, homes)}"


def drawn_states(seed):
    """The states that a drawn store comes to, each with the number of commands before it and the numbers that are drawn next."""
    row = numbers(seed)
    count, slots = 16 + next(row) % 10, 2 + next(row) % 6
    store = Store({number: Node(number % (16 + next(row) % 8), number % (7 + next(row) % 4), slots) for number in range(count)})
    within, entries = draws.Range(4, range(count + 1), range(11)), 0
    for state in range(STATES):
        for weights in [draws.WEIGHTS] * (0 if state else COMMANDS) + [WEIGHTS] * TROUBLE:
            store.call(*draws.drawn_call(store, row, within, weights))
            entries += 1
        if store.leases and not draws.is_seldom(row):
            for line in aimed_trouble(store, row):
                store.call(1, line)
                entries += 1
        yield store, entries, row


def drawn_outage(store, row):
    """`may-stop` or `may-lose`, and nodes: one of a target, where a stripe that is not recoverable has one; or up to three, most
    often of one stripe, which is one that is not recoverable where there is one."""
    word, kind, gone, nodes = one_of(row, OUTAGES), next(row) % 8, beyond(store), list(store.nodes)
    targets = [lease.target[0] for (stripe, _), lease in sorted(store.leases.items()) if stripe in gone]
    if kind < 4 and targets:
        return word, [one_of(row, targets)]
    if kind < 7 and store.stripes:
        nodes = [node for _, node in store.nodes_of(one_of(row, gone or sorted(store.stripes)))] or nodes
    return word, [one_of(row, nodes) for _ in range(1 + next(row) % 3)]


def drawn_return(store, other, row):
    """The session and the line of a return, most often of one that one of two stores takes."""
    word, session = one_of(row, ("up", "up", "upgraded", "done", "done")), 1 + next(row) % 8
    if word == "done":
        session, *rest = draws.drawn_report(one_of(row, (store, other)), row, session)
        return session, "done %d %d %d" % tuple(rest)
    if word == "upgraded":
        domains = [] if store.upgrading is None else [store.upgrading]
        return session, f"upgraded {draws.drawn_node(row, domains, store.in_upgrade)}"
    return session, f"up {draws.drawn_node(row, sorted(store.down | other.down), store.nodes)}"


def all_returns(store, row):
    """All that can return of a store, in a drawn order: its nodes, its domain, and its reports; and these once more."""
    lines = [(1, f"up {node}") for node in sorted(store.down)]
    lines += [] if store.upgrading is None else [(1, f"upgraded {store.upgrading}")]
    reports = [(lease.holder, "done %d %d %d" % (*key, lease.epoch)) for key, lease in sorted(store.leases.items())]
    return sorted([*lines, *reports], key=lambda _: next(row)) + reports


# What is compared.


def twin(store):
    """A copy of a store that takes commands of its own."""
    same = copy.copy(store)
    for name in ("mode", "down", "stripes", "homes", "leases", "grants"):
        setattr(same, name, copy.copy(getattr(store, name)))
    return same


def seats_on(word, store, stripe, named):
    """The grounds that an outage of these nodes has in the seats of a stripe."""
    kinds = [("home", node) for (of, _), (node, _) in store.homes.items() if of == stripe]
    kinds += [("target", lease.target[0]) for (of, _), lease in store.leases.items() if of == stripe]
    for kind, node in kinds:
        if node in named:
            standing = "upgrading" if store.nodes[node].upgrade == store.upgrading else "online"
            yield f"{word} {kind} {'down' if node in store.down else standing}"


def kinds_of(harm, seats, shown_at, comes_back):
    """What is met of a stripe: whether it is harmed and how, and after how many returns that is shown, if at all."""
    if not harm:
        yield "not harmed"
        if comes_back:
            yield "not harmed, and comes back"
        return
    yield "harmed"
    if "recoverable" in harm:
        yield "harmed, and was recoverable"
    yield from (f"harmed, {seat}" for seat in seats)
    if shown_at is not None:
        yield "harmed, and it is shown"
    if shown_at and len(seats) == 1:
        yield f"{seats.pop()} alone, shown by a return"


def play(store, word, named, row):
    """Plays drawn returns without an outage, and those of other nodes with it. Returns how stripes differ that are not harmed, and
    what was met."""
    later, without, met, wrong, calls = twin(store), twin(store), Counter(), [], []
    for node in named:
        later.call(1, f"{shown.REPORTS[word]} {node}")
    stay_away = {f"up {node}" for node in named}
    harms = {stripe: shown.harm_of(store, later, stripe, named) for stripe in sorted(store.stripes)}
    pairs = [(beyond(later), beyond(without))]
    for known in all_returns(store, row) if next(row) % 2 else [None] * RETURNS:
        session, line = known or drawn_return(without, later, row)
        reply = without.call(session, line).split()[0]
        reply_later = "left" if line in stay_away else later.call(session, line).split()[0]
        met[" ".join([line.split()[0], reply, reply_later])] += 1
        calls.append(f"{line} by {session}")
        pairs.append((beyond(later), beyond(without)))
    for stripe, harm in harms.items():
        shown_at = next((at for at, (here, there) in enumerate(pairs) if (stripe in here) != (stripe in there)), None)
        if shown_at is not None and not harm:
            wrong.append(f"{word} {named} does not harm stripe {stripe}, but makes a difference after {calls[:shown_at]}")
        comes_back = stripe in pairs[0][0] and stripe not in pairs[-1][0]
        met.update(kinds_of(harm, set(seats_on(word, store, stripe, named)), shown_at, comes_back))
    return wrong, met


def test(count, fresh=None, ask=None):
    """The drawn states, some of them of a seed of the hour, which is printed. What `ask` is called with is one of so many states:
    a name of it, the store, the number of its entries, and the word and the nodes of an outage."""
    fresh = int(time.time()) // 3600 if fresh is None else fresh
    print(f"seed {fresh}", flush=True)
    met, played = Counter(), 0
    for seed in [*range(SEEDS), *(fresh * 2**16 + at for at in range(FRESH))]:
        for store, entries, row in drawn_states(seed):
            word, named = drawn_outage(store, row)
            wrong, kinds = play(store, word, named, row)
            count.check(f"the store of {seed} after {entries} commands: {wrong[:1]}", not wrong)
            met += kinds
            if ask and played % SHARE == 0:
                ask(f"the store of {seed} after {entries} commands", store, entries, word, named)
            played += 1
    for kind in WANTED:
        count.check(f"{met[kind]} times: {kind}", met[kind] >= LEAST)
    return met
