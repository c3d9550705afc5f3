"""What the walks of a book of the library return, and the looks beside them, as rows; and the same rows of a model in
tests/model/rules.py."""
import copy
from collections import Counter

from tests.library import library
from tests.library.library import lrc_embed

FRAGMENTS = range(lrc_embed.FRAGMENTS)


def level_in_model(store, stripe):
    """A level and its margin as `library.level_words` returns them."""
    level = store.level(stripe)
    return level and (level, str(store.margin(stripe)) if level == "risk" else "-")


def word(enum, number):
    return enum(number).name.lower()


def plan_words(plan):
    """How a fragment is rebuilt, as a reply writes it."""
    word, *sources = library.plan_words(plan.repair, plan.sources)
    if any(plan.sources[len(sources):]) or plan.reserved:
        return "more than its sources"
    return " ".join([word, *map(str, sources)])


def rows_in_book(book, nodes, stripes, room):
    """All rows, by walks with so much room; the repairs are those of these stripes, of which only one is not there."""
    domain = book.upgrading()
    yield "upgrading", None if domain is None else domain.value
    first = book.first_risk()
    yield "the first row of risk", first and (first.stripe, library.level_words(first.level))
    yield "stripes", [(row.stripe, word(lrc_embed.Code, row.code), row.missing, library.level_words(row.level))
                      for row in book.stripes(room)]
    yield "nodes", [(row.number, row.fault, row.upgrade, row.slots, word(lrc_embed.ModeKind, row.mode), row.is_online == 1,
                     row.is_down == 1, row.load) for row in book.nodes(room)]
    yield "down", [book.is_down(node).value == 1 for node in nodes]
    yield "leases", [(row.stripe, row.fragment, row.holder, str(row.target), row.epoch, row.expiry)
                     for row in book.leases(room)]
    for node in nodes:
        yield f"homes on node {node}", [(row.stripe, row.fragment) for row in book.homes_on(node, room)]
    plans = ((stripe, fragment, book.repair(stripe, fragment)) for stripe in stripes for fragment in FRAGMENTS)
    yield "repairs", {(stripe, fragment): plan_words(plan) for stripe, fragment, plan in plans if plan}


def rows_in_model(store, stripes):
    """The same rows of a model."""
    risky = [stripe for stripe in store.in_order() if store.level(stripe)]
    yield "upgrading", store.upgrading
    yield "the first row of risk", (risky[0], level_in_model(store, risky[0])) if risky else None
    yield "stripes", [(stripe, code.name, store.missing(stripe), level_in_model(store, stripe))
                      for stripe, code in sorted(store.stripes.items())]
    slots = store.slots_in_use()
    yield "nodes", [(number, *node, store.mode[number], store.is_online(number), number in store.down, len(slots[number]))
                    for number, node in store.nodes.items()]
    yield "down", [node in store.down for node in store.nodes]
    yield "leases", [(*key, lease.holder, "%d:%d" % lease.target, lease.epoch, lease.expiry)
                     for key, lease in sorted(store.leases.items())]
    homes = {node: [] for node in store.nodes}
    for key, (node, _) in sorted(store.homes.items()):
        homes[node].append(key)
    for node, keys in homes.items():
        yield f"homes on node {node}", keys
    needing = ((stripe, fragment) for stripe in stripes if stripe in store.stripes for fragment in FRAGMENTS)
    yield "repairs", {key: store.kind(key) for key in needing if store.needs_lease(key)}


# Forecasts.


def drawn_outage(store, count):
    """An outage of up to four nodes, by the number of calls so far."""
    nodes = list(store.nodes)
    return lrc_embed.Outage(1 + count // 2 % 2), [nodes[(count * 7 + i * 5) % len(nodes)] for i in range(count % 5)]


def after_outage(store, outage, nodes):
    """A copy of the model in which the nodes are stopped or lost, whether or not a command would be refused."""
    after = copy.copy(store)
    after.homes, after.mode, after.down = dict(store.homes), dict(store.mode), set(store.down)
    after.leases = dict(store.leases)
    for node in nodes:
        if outage == lrc_embed.Outage.STOP:
            after.down.add(node)
            continue
        for key in {*after.targets_on(node), *after.homes_on(node)}:
            after.leases.pop(key, None)
        for key in after.homes_on(node):
            del after.homes[key]
        after.mode[node] = "gone"
    return after


def outlook_in_model(store, after, stripe, is_hit, ended):
    """The row of a stripe of which so many leases end, from one state to another: also whether it is harmed, which is where it
    is not recoverable then, and was so before, or is hit."""
    before, then, missing = level_in_model(store, stripe), level_in_model(after, stripe), after.missing(stripe)
    newly = missing & ~store.missing(stripe)
    was_recoverable = before is None or before[0] == "risk"
    is_harmed = then[0] in ("unavailable", "lost") and (was_recoverable or is_hit)
    return stripe, store.stripes[stripe].name, missing, newly, is_harmed, ended, before, then


def outlook(store, after, nodes):
    """The rows of a forecast for what is after an outage of these nodes, and whether no stripe is harmed. A stripe is hit if a home
    or a target of it is on one of them."""
    ended = Counter(key[0] for key in store.leases.keys() - after.leases.keys())
    hit = {stripe for (stripe, _), (node, _) in store.held() if node in nodes}
    rows = [outlook_in_model(store, after, stripe, stripe in hit, ended[stripe]) for stripe in sorted(store.stripes)
            if after.level(stripe)]
    return rows, not any(is_harmed for _, _, _, _, is_harmed, *_ in rows)


def forecast_in_model(store, outage, nodes):
    return outlook(store, after_outage(store, outage, nodes), nodes)


def forecast_in_book(book, outage, nodes):
    """The same by the library."""
    rows, is_safe = book.forecast(outage, nodes)
    return [(row.stripe, word(lrc_embed.Code, row.code), row.missing, row.newly_missing, row.is_harmed == 1, row.leases_ended,
             library.level_words(row.before), library.level_words(row.after)) for row in rows], is_safe
