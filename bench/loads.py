"""Bundles that are made by a fixed rule from a seed: a kind of load for each way to use a store.

Every bundle fills its store first: `place` of each stripe, and what else its kind needs once. Then its kind goes on until
the bundle has as many bytes, or as many more lines, as it may have. Where a bundle has one script, each command comes with
the beginning of its reply, by `store.Store`."""
import pickle
from collections import Counter, namedtuple
from functools import lru_cache

from bench import fills, kinds
from bench.fills import fill
from bench.scripts import UPGRADES, Full, Part, Script
from tests.harness import bundle_of, topology_of
from tests.model.rules import MOST_SLOTS, Node

FAULTS = 32  # domains

# A function that writes the load; one that fills the store first; and what the load is about: the least share of its calls,
# in hundredths, that are of this command and have this reply, or are of `any` command, or are `asked`, whatever the reply, or
# are `taken`, with no refusal.
Kind = namedtuple("Kind", "write fill about")

KINDS = {
    "place": Kind(kinds.place, fills.fill_nothing, {"place placed": 100}),
    "churn": Kind(kinds.churn, fill, {"drop dropped": 49, "place placed": 49}),
    "repairs": Kind(kinds.repairs, fill, {"next granted": 45, "done ended": 45}),
    "leases": Kind(kinds.leases, fill, {"next granted": 40, "done ended": 25, "abandon ended": 3, "revoke ended": 3}),
    "bulk": Kind(kinds.bulk, fill, {"next granted": 45, "done ended": 25}),
    "ticks": Kind(kinds.ticks, fills.fill_for_moves, {"next granted": 99}),
    "drains": Kind(kinds.drains, fill, {"next granted": 45, "done ended": 45}),
    "flaps": Kind(kinds.flaps, fill, {"down changed": 45, "up changed": 45}),
    "upgrades": Kind(kinds.upgrades, fill, {"upgrade changed": 49, "upgraded changed": 49}),
    "upgrades_down": Kind(kinds.upgrades_down, fill, {"upgrade changed": 40, "upgraded changed": 40}),
    "upgrades_work": Kind(
        kinds.upgrades_work, fill, {"upgrade changed": 13, "upgraded changed": 13, "next granted": 30, "done ended": 30}
    ),
    "refused": Kind(kinds.refused, fill, {"any refused": 100}),
    "comments": Kind(kinds.comments, fill, {}),
    "idle": Kind(kinds.idle, fill, {"next idle": 100}),
    "stuck": Kind(kinds.stuck, fills.fill_and_drain, {"next idle": 100}),
    "wakes": Kind(kinds.wakes, fills.fill_asleep, {"next idle": 30, "next granted": 30, "up changed": 1, "down changed": 1}),
    "waits": Kind(kinds.waits, fills.fill_waiting, {"next idle": 30, "next granted": 30, "up changed": 1, "down changed": 1}),
    "mixed": Kind(kinds.mixed, fill, {"taken": 80, "next granted": 10, "done ended": 15, "place placed": 1}),
    "mixed6": Kind(
        kinds.mixed6, fills.fill_both,
        {"taken": 80, "next granted": 10, "done ended": 15, "place placed": 0.5, "place6 placed": 0.5},
    ),
    "mixed_hurt": Kind(
        kinds.mixed_hurt, fills.fill_both,
        {"taken": 80, "next granted": 15, "done ended": 10, "upgrade changed": 2, "place placed": 1, "place6 placed": 1},
    ),
}
SEVERAL = {
    "churn": KINDS["churn"],
    "idle": KINDS["idle"],
    "mixed": Kind(
        kinds.mixed_parts, fills.fill_part,
        # (whether an upgrade is refused depends on how the scripts interleave)
        {"taken": 60, "next granted": 15, "place placed": 1, "place6 placed": 1, "upgrade asked": 1, "down changed": 3},
    ),
}
SCRIPTS = (2, 4, 8)
KINDS.update({f"{name}-{scripts}": kind for name, kind in SEVERAL.items() for scripts in SCRIPTS})
FEWEST = 200  # a load with fewer calls after those that fill the store is not looked at


def shares(commands, replies):
    """The share of these calls for what `about` may name, in hundredths."""
    counts = Counter()
    for command, reply in zip(commands, replies):
        word, told = command.split(" ")[0], reply.split(" ")[0]
        counts.update([f"{word} {told}", f"{word} asked", f"any {told}", *(["taken"] if told != "refused" else [])])
    return {what: 100 * count / len(commands) for what, count in counts.items()}


class Load:
    """A bundle that is made, with the nodes of its topology."""

    def __init__(self, kind, nodes, scripts):
        self.kind, self.nodes, self.scripts = kind, nodes, scripts

    def text(self):
        return bundle_of(self.nodes, [script.lines for script in self.scripts])

    def filling(self):
        """The bundle that fills the store, and does nothing else."""
        return bundle_of(self.nodes, [script.lines[:script.filled] for script in self.scripts])

    def lines(self):
        return sum(len(script.lines) for script in self.scripts)

    def more_lines(self):
        """The number of lines after those that fill the store."""
        return sum(len(script.lines[script.filled:]) for script in self.scripts)

    def commands(self):
        """The commands of each script."""
        return [[line for line in script.lines if is_command(line)] for script in self.scripts]

    def calls(self, replies):
        """The commands after those that fill the store, and of these replies to each script those to them."""
        for script, commands, told in zip(self.scripts, self.commands(), replies):
            if script.filled is not None:
                yield from zip(commands[script.filled:], told[script.filled:])

    def lacks(self, replies):
        """What the load, with these replies to each script, lacks of what it is about: as text, or None."""
        calls = list(self.calls(replies))
        found = shares(*zip(*calls)) if len(calls) >= FEWEST else None
        for what, least in KINDS[self.kind].about.items():
            if found is not None and found.get(what, 0) < least:
                return f"of the calls {found.get(what, 0):.1f} in a hundred are `{what}`, and not {least}"
        return None


def is_command(line):
    return line != "" and line[0] != "#"


def make(kind, nodes, stripes, seed, most_bytes, most_lines=None):
    """The load of a kind, with at most this number of lines after those that fill the store, if one is given."""
    count, nodes = int(kind.partition("-")[2] or 1), nodes_of(nodes)
    seed = f"{seed} {kind} {len(nodes)} {stripes}"
    most_bytes = (most_bytes - len(topology_of(nodes))) // count - len("%%\n")
    scripts = []
    for index in range(count):
        script = pickle.loads(filled(KINDS[kind].fill, len(nodes), stripes, most_bytes, index, count))
        script.random.seed(seed if count == 1 else f"{seed} {index}")
        script.lines_left = None if most_lines is None else (most_lines + index) // count
        if script.filled is not None:
            write(script, KINDS[kind].write)
        scripts.append(script)
    return Load(kind, nodes, scripts)


def nodes_of(count):
    return {number: Node(number % FAULTS, (number // FAULTS + number) % UPGRADES, MOST_SLOTS) for number in range(count)}


@lru_cache(maxsize=16)
def filled(fill, nodes, stripes, most_bytes, index, count):
    """A script that has filled the store, or one of several, as bytes: many kinds begin with the same."""
    room = nodes_of(nodes), stripes, most_bytes
    script = Script(*room) if count == 1 else Part(*room, index, count)
    if write(script, fill):
        script.filled = len(script.lines)
    return pickle.dumps(script, pickle.HIGHEST_PROTOCOL)


def write(script, part):
    """Writes a part of a script. Returns whether there was room for it."""
    try:
        part(script)
    except Full:
        return False
    return True
