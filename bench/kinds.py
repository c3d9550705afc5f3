"""The kinds of load: a function for each way to use a store, which writes a script after what fills the store (fills.py). Each
goes on until the script is full, but for `place`."""
import string
from collections import deque
from itertools import cycle

from bench.fills import fill, groups, home, quarter, sleepers
from bench.scripts import LAST, LONGEST, UPGRADES
from tests.model.rules import FRAGMENTS, MOST_STRIPES, PLACES

LIVE = 40000  # the leases of `ticks` that are live at once, where there are as many stripes as there can be
PLACES = list(PLACES)


def place(script):
    """The stripes are placed, and nothing else."""
    fill(script)


def churn(script):
    """A stripe is dropped and placed again, in turn."""
    while True:
        stripe = script.stripe()
        script.say(f"drop {stripe}", "dropped")
        script.say(f"place {stripe}", "placed")


def repair_next(script):
    """The next fragment that needs a lease is leased and reported. Returns whether there was one."""
    lease = script.lease_next()
    if lease:
        script.call("done %d %d %d" % lease)
    return lease is not None


def repair_all(script):
    while repair_next(script):
        pass


def repairs(script):
    """A node fails; what it held is leased and reported, one after the other; it joins again."""
    while True:
        node = script.node()
        script.call(f"fail {node}")
        repair_all(script)
        script.call(f"join {node}")


def leases(script):
    """Nodes fail; all that they held is leased before some is reported, given up or taken back, in any order."""
    while True:
        nodes = script.random.sample(script.own_nodes, 3)
        for node in nodes:
            script.call(f"fail {node}")
        while live := list(iter(script.lease_next, None)):
            script.random.shuffle(live)
            for stripe, fragment, epoch in live:
                word = script.random.choices(["done", "abandon", "revoke"], [8, 1, 1])[0]
                script.call(f"{word} {stripe} {fragment}" + (f" {epoch}" if word != "revoke" else ""))
        for node in nodes:
            script.call(f"join {node}")


def bulk(script):
    """All nodes of a fault domain fail; all that they held is leased, and then reported in the order of the grants; they join."""
    while True:
        domain = script.nodes[script.node()].fault
        nodes = [node for node in script.own_nodes if script.nodes[node].fault == domain]
        for node in nodes:
            script.call(f"fail {node}")
        for lease in list(iter(script.lease_next, None)):
            script.call("done %d %d %d" % lease)
        for node in nodes:
            script.call(f"join {node}")


def ticks(script):
    """Fragments on nodes that drain are leased, and nothing is reported: before each tick a third of as many as are live at
    once, so that each tick from the third on ends a third."""
    third = LIVE * len(script.own_stripes) // MOST_STRIPES // 3 + 1
    while True:
        for _ in range(third):
            if not script.lease_next():
                break
        script.call("tick")


def drains(script):
    """A node is drained: what it holds is moved, one after the other; then it is retired, and joins again."""
    while True:
        node = script.node()
        script.call(f"drain {node}")
        repair_all(script)
        script.call(f"retire {node}")
        script.call(f"join {node}")


def flaps(script):
    """Nodes go down and come up, a few at a time."""
    down = []
    while True:
        if len(down) > len(script.own_nodes) // 64 or down and script.random.random() < 0.5:
            node = down.pop(script.random.randrange(len(down)))
            script.say(f"up {node}", "changed")
        else:
            node = script.node()
            while node in down:
                node = script.node()
            down.append(node)
            script.say(f"down {node}", "changed")


def upgrades(script):
    """The upgrade domains are upgraded one after the other, round and round, while one node is down. None is upgrading at the
    end of this load and the next two, or the table would list each stripe with a home there."""
    script.call(f"down {script.node()}")
    while True:
        for domain in script.own_domains:
            # A stripe misses one fragment at most, and at most one of each class more: it stays recoverable.
            script.expect_room(f"upgrade {domain}", f"upgraded {domain}")
            script.say(f"upgrade {domain}", "changed")
            script.say(f"upgraded {domain}", "changed")


def upgrades_down(script):
    """The upgrade domains are upgraded one after the other, while three to eleven nodes of 512 are down, and at least two. Half
    of them or so have homes of the same stripes. After two rounds some more go down, or one comes up."""
    pick, down = script.random, []
    fewest, most = (max(2, count * len(script.own_nodes) // 512) for count in (3, 11))
    while True:
        if len(down) == most or len(down) > fewest and pick.random() < 0.5:
            script.call(f"up {down.pop(0)}")
        while len(down) < fewest or len(down) < most and pick.random() < 0.5:
            node = near(script, pick.choice(down)) if down and pick.random() < 0.5 else script.node()
            if node not in down:
                script.call(f"down {node}")
                down.append(node)
        for domain in [*script.own_domains] * 2:
            script.expect_room(f"upgrade {domain}", f"upgraded {domain}")
            if script.call(f"upgrade {domain}") == "changed":
                script.call(f"upgraded {domain}")


def near(script, node):
    """A node with a home of a stripe that has one on this node, if there is such a stripe."""
    stripe, _ = min(script.store.homes_on(node), default=(0, 0))
    return home(script, stripe, script.random.choice(FRAGMENTS))


def upgrades_work(script):
    """The upgrade domains are upgraded one after the other, while a stripe of sixteen at least is to be repaired. During each
    upgrade two fragments are leased and reported. When fewer stripes are left, a node fails, and the one before it joins."""
    fewest, failed = len(script.own_stripes) // 16, None
    while True:
        for domain in script.own_domains:
            while script.store.count_open() < fewest:
                if failed is not None:
                    script.call(f"join {failed}")
                failed = script.node()
                script.call(f"fail {failed}")
            script.expect_room(*[LONGEST] * 6)
            is_upgrading = script.call(f"upgrade {domain}") == "changed"
            repair_next(script)
            repair_next(script)
            if is_upgrading:
                script.call(f"upgraded {domain}")


def refused(script):
    """Every command is refused."""
    pick = script.random
    while True:
        stripe, fragment = script.stripe(), pick.choice(FRAGMENTS)
        script.call(
            pick.choice(
                [
                    f"place {stripe}",
                    f"lease {stripe} {fragment}",
                    f"revoke {stripe} {fragment}",
                    f"done {stripe} {fragment} {pick.randrange(9)}",
                    f"abandon {stripe} {fragment} {pick.randrange(9)}",
                    f"fail {60000 + stripe}",
                    f"up {script.node()}",
                    f"join {script.node()}",
                    f"undrain {script.node()}",
                    f"retire {script.node()}",
                    f"upgrade {UPGRADES + pick.randrange(9)}",
                    f"upgraded {pick.randrange(UPGRADES)}",
                ]
            )
        )


def comments(script):
    """Every line is passed over: comments of up to 62 bytes, and one line of sixteen, or so, that is empty."""
    pick, letters = script.random, string.ascii_lowercase * 3
    while True:
        script.add("# " + letters[: pick.randrange(61)] if pick.randrange(16) else "")


def idle(script):
    """The next lease is asked for, and there is none: nothing is to be repaired."""
    while True:
        script.say("next", "idle")


def stuck(script):
    """The next lease is asked for, and there is none: all is to be moved, and no node takes anything."""
    idle(script)


def wakes(script):
    """The next lease is asked for in vain, since no node takes anything, until one comes up; then leases are granted. It goes
    down again, and ticks end the leases."""
    for node in cycle(sleepers(script)):
        wake(script, node, min(64, len(script.own_stripes) // 8))


def waits(script):
    """The next lease is asked for in vain, since no stripe with work can be recovered, until a node comes up; then leases are
    granted. It goes down again, and ticks end the leases."""
    for stripe in cycle(range(groups(script))):
        node = home(script, stripe, LAST)
        wake(script, node, len(script.store.homes_on(node)) // 4)


def wake(script, node, most):
    """The next lease is asked for up to so many times in vain, and up to so many times while a node is up."""
    for line in (f"up {node}", f"down {node}"):
        for _ in range(script.random.randrange(max(most, 1)) + 1):
            script.call("next")
        script.call(line)
    script.call("tick")


def mixed(script):
    """All commands but `tick` and `place6`, most of them such as do something."""
    mix(script, lambda: "place")


def mixed6(script):
    """As `mixed`, with stripes of both codes: one that was dropped is placed of either."""
    mix(script, lambda: script.random.choice(PLACES))


def mix(script, place_word):
    """As `mixed`; a stripe is placed by the command that the function returns."""
    pick, state = script.random, script.store
    for node in pick.sample(script.own_nodes, 2):
        script.call(f"fail {node}")
    while True:
        if state.leases and pick.random() < 0.6:
            script.call(report(script))
        elif pick.random() < 0.5:
            script.call("next")
        else:
            script.call(any_change(script, place_word))


def report(script):
    """A lease is reported, given up or taken back."""
    pick, live = script.random, script.store.leases
    lease = pick.choice(list(live))
    word = pick.choices(["done", "abandon", "revoke"], [12, 1, 1])[0]
    return " ".join(map(str, [word, *lease, *([live[lease].epoch] if word != "revoke" else [])]))


def any_change(script, place_word):
    """A command on a stripe, a node or a domain."""
    stripe, node = script.stripe(), script.node()
    if script.random.random() < 0.6:
        return change_of_stripe(script, stripe, place_word)
    if script.store.upgrading is not None:
        return f"upgraded {script.store.upgrading}"
    return change_of_node(script, node, 4, 0.02)


def change_of_stripe(script, stripe, place_word):
    """One fragment is leased, or the stripe is dropped, or placed where it is not there."""
    pick = script.random
    if pick.random() < 0.1:
        return f"lease {stripe} {pick.choice(FRAGMENTS)}"
    return f"drop {stripe}" if stripe in script.store.stripes else f"{place_word()} {stripe}"


def change_of_node(script, node, most_away, upgrades):
    """Nodes that are away come back before many of them are. Of the rest so many commands are upgrades."""
    back = coming_back(script, most_away)
    if back:
        return back
    if script.random.random() < upgrades:
        return f"upgrade {script.random.choice(sorted(script.store.in_upgrade))}"
    return f"{script.random.choices(['fail', 'down', 'drain'], [1, 4, 1])[0]} {node}"


def coming_back(script, most_away):
    """A command on one of the nodes that are away, if they are more than so many."""
    pick, state = script.random, script.store
    gone, draining = state.nodes_in("gone"), state.nodes_in("draining")
    if len(gone) + len(state.down) + len(draining) <= most_away:
        return None
    sets = {"join": gone, "up": state.down, "undrain": draining, "retire": draining}
    word = pick.choice([word for word in sets if sets[word]])
    return f"{word} {pick.choice(sorted(sets[word]))}"


def mixed_hurt(script):
    """Commands of all kinds on a hurt store: a stripe of sixteen at least is to be repaired or moved, or another node fails or
    drains, and some nodes are down. One line of nine begins an upgrade or ends it; none is upgrading at the end."""
    pick, state, dropped = script.random, script.store, []
    fewest, most_away = len(script.own_stripes) // 16, max(2, len(script.own_nodes) // 128)
    while script.has_room(LONGEST, LONGEST):
        what = pick.choices(["next", "report", "stripe", "upgrade", "node", "tick"], [32, 30, 15, 12, 10, 1])[0]
        if what == "report" and state.leases:
            script.call(report(script))
        elif what == "stripe":
            stripe = dropped.pop() if dropped else script.stripe()
            script.call(change_of_stripe(script, stripe, lambda: pick.choice(PLACES)))
            dropped += [stripe] if stripe not in state.stripes else []
        elif what == "upgrade":
            upgrading = state.upgrading
            script.call(f"upgrade {pick.choice(script.own_domains)}" if upgrading is None else f"upgraded {upgrading}")
        elif what == "node" and state.count_open() < fewest:
            script.call(f"{pick.choice(['fail', 'drain'])} {script.node()}")
        elif what == "node":
            script.call(coming_back(script, most_away) or f"down {script.node()}")
        else:
            script.call("tick" if what == "tick" else "next")
    if state.upgrading is not None:
        script.call(f"upgraded {state.upgrading}")


def mixed_parts(part):
    """Commands of most kinds, by one of several scripts. A quarter of its nodes drains, and now and then another one does in
    place of one of them. The first script upgrades domains."""
    pick, turn = part.random, deque(part.own_nodes)
    upgrades = 2 * part.scripts if part.own_domains else 0
    while True:
        stripe, fragment, domain = part.stripe(), pick.choice(FRAGMENTS), pick.randrange(UPGRADES)
        first, other, last = turn[0], part.node(), turn[quarter(part) % len(turn)]
        lines = pick.choices(
            [
                [f"drop {stripe}", f"{pick.choice(PLACES)} {stripe}"],
                ["next", "next"],
                [f"lease {stripe} {fragment}", f"done {stripe} {fragment} 1"],
                [f"lease {stripe} {fragment}", f"abandon {stripe} {fragment} 1"],
                [f"lease {stripe} {fragment}", f"revoke {stripe} {fragment}"],
                [f"down {other}", "next", f"up {other}"],
                [f"undrain {first}", f"drain {last}"],
                ["tick"],
                [f"upgrade {domain}", "next", f"upgraded {domain}"],
            ],
            [6, 5, 4, 1, 1, 3, 1, 1, upgrades],
        )[0]
        if lines[0].startswith("undrain"):
            turn.rotate(-1)
        part.expect_room(*lines)
        for line in lines:
            part.call(line)
