"""Evens out drawn stores by the scripts of tools/balance, round by round, with the program and beside it the model of tests/model.

Usage: tests/program/balance [--long | --write] [PROGRAM], by default the one that `rt ci` or `rt run` has built in crates/lrcman.

Thirty stores (300 with --long) with slots that differ, of which some have nodes that are down, gone or draining, a domain that
upgrades, stripes at risk and leases under way; and the store of docs/OPERATING.md, of fifteen racks to which one comes. After each
round what it leases is reported, of some stores half of it only after the next round. Right is:
- The program replies as the model does, and shows the same in the end. Each drain and undrain changes something, each lease is
  granted as a move, of a node above the mean to one below it. After the script each node is as before but for its leases.
- After each command no stripe has a lower level or margin than before it. No fragment of a stripe at risk is leased, and no node
  has more leases than is allowed, of fragments that come or go, or than it had.
- The first move of a round is of the fullest node that has one, to the emptiest. When the script is empty, no lawful move helps:
  each fragment is tried on each node by the model. So the share of each node is near the mean where the rules allow it. The moves
  are at most an eighth more than the least possible, whatever the rules.
- With --dry it tells the spread that the model counts now, and after the last round; with --moves the leases that the model grants to
  the script, with the shares that it counts.
- While the leases of a round keep the next one from being planned, standard error says so, and --dry tells what is left. A lease that
  is live counts for the node that gives, too.
- Tables of `show fragments`, as the model makes them, give the same script; and so does a book over HTTP, of members that a test
  plays: some are away, busy or wrong, and a book changes while it is read.
- Tables of 300 stores of drawn calls are read, by stripe and by fragment alike. A table in which one column says something else is
  refused by file, line and column, as is bad input of other kinds.
With --write the pictures of the page are drawn anew. The last line is 'N passed, M failed'."""
import contextlib
import copy
import functools
import importlib.machinery
import importlib.util
import io
import random
import subprocess
import sys
import tempfile
import unittest.mock
from collections import Counter
from math import ceil, floor, sqrt

from tests import harness
from tests.harness import TOP, topology_of
from tests.model import draws, shown
from tests.model.rules import Node
from tests.model.store import Store
from tests.program.books import test_books

TOOL = f"{TOP}/tools/balance"
FRAGMENTS = "stripe,fragment,node,slot,fault,upgrade,state,mode,why,target,holder,epoch,expiry"
DRAWN, LONG = 30, 300
MOST_ROUNDS = 200
VIEWS = "nodes", "stripes", "leases"


class Run:
    """A store of the model, with the commands that it was given, and a folder for the tables that the tool reads."""

    def __init__(self, program, folder, nodes, count, name):
        self.program, self.folder, self.count, self.name = program, folder, count, name
        self.nodes, self.store, self.lines, self.replies = nodes, Store(nodes), [], []
        self.late = []  # the reports of moves that are under way when the next round is planned

    def call(self, lines):
        replies = [self.store.call(1, line) for line in lines]
        self.lines += lines
        self.replies += replies
        return replies

    def write(self, name, text):
        with open(f"{self.folder}/{name}", "w", encoding="utf-8") as file:
            file.write(text)

    def tables(self):
        for view in VIEWS:
            self.write(f"{view}.csv", shown.shown(view, self.store, len(self.lines)))

    def tool(self, *words, homes=("stripes.csv", "leases.csv")):
        """What the tool prints, which is called as its command line is."""
        words, said = [TOOL, *words, *(f"{self.folder}/{name}" for name in ("nodes.csv", *homes))], io.StringIO()
        with unittest.mock.patch.object(sys, "argv", words), contextlib.redirect_stdout(said), contextlib.redirect_stderr(io.StringIO()):
            status = tool().main()
        self.count.check(f"{self.name}: {words}: status {status}", status == 0)
        return said.getvalue().splitlines()

    def compare(self):
        """Compares all replies and the tables at the end with those of the program."""
        bundle = harness.bundle_of(self.nodes, [self.lines]).encode()
        told = harness.run_bundle(self.program, bundle).stdout.decode().split("\n")[1:len(self.lines) + 1]
        told = [line.split(" ", 1)[1] for line in told]
        self.count.check(f"{self.name}: the replies are those of the model", told == self.replies)
        for view in VIEWS:
            table = subprocess.run([self.program, "show", view], input=bundle, capture_output=True).stdout.decode()
            self.count.check(f"{self.name}: show {view}", table == shown.shown(view, self.store, len(self.lines)))


@functools.cache
def tool():
    """The tool, as a module."""
    with unittest.mock.patch.object(sys, "path", [f"{TOP}/tools", *sys.path]):
        loader = importlib.machinery.SourceFileLoader("balance_tool", TOOL)
        module = importlib.util.module_from_spec(importlib.util.spec_from_loader("balance_tool", loader))
        loader.exec_module(module)
    return module


# What is right.


def settled(store):
    """The fragments on each node once each lease is reported."""
    loads = Counter(store.leases[key].target[0] if key in store.leases else home[0] for key, home in store.homes.items())
    loads.update(lease.target[0] for key, lease in store.leases.items() if key not in store.homes)
    return loads


def partners(store):
    return [node for node in store.nodes if store.mode[node] == "active" and store.is_online(node)]


def mean_of(store):
    loads, nodes = settled(store), partners(store)
    return sum(loads[node] for node in nodes) / sum(store.nodes[node].slots for node in nodes)


def distances(store):
    """How far each node that takes part is above the mean, in points."""
    loads, mean = settled(store), mean_of(store)
    return {node: 100 * (loads[node] / store.nodes[node].slots - mean) for node in partners(store)}


def spread(store, within):
    """What --dry prints of the spread, after the count of moves."""
    loads, far, mean = settled(store), distances(store), 100 * mean_of(store)
    shares = [100 * loads[node] / store.nodes[node].slots for node in far]
    deviation = sqrt(sum(it ** 2 for it in far.values()) / len(far))
    counts = sum(it > within for it in far.values()), sum(-it > within for it in far.values())
    full = sum(loads[node] == store.nodes[node].slots for node in far)
    return [f"{it:.1f}" for it in (min(shares), mean, max(shares), deviation)] + [str(it) for it in (*counts, full)]


def helping_move(store, within):
    """A lawful move that would help, if there is one: each fragment of a whole stripe, onto each node."""
    loads, far = settled(store), distances(store)
    takers = [node for node in far if far[node] < 0 and store.load(node) < store.nodes[node].slots]
    for key, (source, _) in store.homes.items():
        if far.get(source, 0) > 0 and key not in store.leases and not store.missing(key[0]):
            barred = store.barred(key)
            for target in takers:
                gain = (2 * loads[source] - 1) / store.nodes[source].slots - (2 * loads[target] + 1) / store.nodes[target].slots
                if max(far[source], -far[target]) > within and gain > 1e-9 and not barred >> target & 1:
                    return key, source, target
    return None


def can_move(store, source, target, within):
    """Whether a fragment of a whole stripe may move from one node to another, which helps."""
    loads, far = settled(store), distances(store)
    gain = (2 * loads[source] - 1) / store.nodes[source].slots - (2 * loads[target] + 1) / store.nodes[target].slots
    if far[source] <= 0 or far[target] >= 0 or max(far[source], -far[target]) <= within or gain <= 1e-9:
        return False
    idle = (key for key in store.homes_on(source) if key not in store.leases and not store.missing(key[0]))
    return any(not store.barred(key) >> target & 1 for key in idle)


def better_end(store, source, target, within, at_once):
    """A fuller node that could give to the target of a move, or an emptier one that could take of its source; None if there is none.
    Each has room for one lease more."""
    loads, far, busy = settled(store), distances(store), leases_on(store)
    behind = {node: (2 * loads[node] + 1) / store.nodes[node].slots for node in far}
    free = [node for node in far if busy[node] < at_once]
    fuller = [node for node in free if far[node] > far[source] and can_move(store, node, target, within)]
    emptier = [node for node in free if far[node] < far[target] and behind[node] < behind[target]
               and store.load(node) < store.nodes[node].slots and can_move(store, source, node, within)]
    return (fuller + emptier or [None])[0]


def least_moves(store, within):
    """No fewer moves bring each node that near to the mean: each takes one from one node, and gives one to one."""
    loads, mean = settled(store), mean_of(store)
    slots = {node: store.nodes[node].slots for node in partners(store)}
    given = sum(max(0, loads[node] - floor((mean + within / 100) * slots[node])) for node in slots)
    taken = sum(max(0, ceil((mean - within / 100) * slots[node]) - loads[node]) for node in slots)
    return max(given, taken)


def leases_on(store):
    """The leases of each node: those with their target there, and those of fragments with their home there."""
    on = Counter(lease.target[0] for lease in store.leases.values())
    on.update(store.homes[key][0] for key in store.leases if key in store.homes)
    return on


def is_over(store, limits, at_once):
    """Whether a node has more leases than is allowed and than it had."""
    return any(leases > max(at_once, limits[node]) for node, leases in leases_on(store).items())


def ranks(store):
    return {stripe: store.rank(stripe) if store.can_recover(stripe) else -1 for stripe in store.stripes}


def fragments_table(store):
    """What `show fragments` is to print."""
    lines = [FRAGMENTS]
    for stripe in sorted(store.stripes):
        for fragment in store.fragments(stripe):
            key, fields = (stripe, fragment), ["", "", "", "", "homeless", "", ""]
            if key in store.homes:
                node, slot = store.homes[key]
                info, is_online = store.nodes[node], store.is_online(node)
                words = ["down"] * (node in store.down) + ["upgrading"] * (info.upgrade == store.upgrading)
                why = "" if is_online else " ".join(words)
                fields = [node, slot, info.fault, info.upgrade, "present" if is_online else "offline", store.mode[node], why]
            lease = store.leases.get(key)
            terms = ["%d:%d" % lease.target, lease.holder, lease.epoch, lease.expiry] if lease else [""] * 4
            lines.append(",".join(map(str, [*key, *fields, *terms])))
    return "\n".join([*lines, ""])


# Rounds.


def one_round(run, script, at_once, is_late=False):
    """Makes a round, with each promise checked command by command; returns how many fragments move. Some reports may be late."""
    store, count, name = run.store, run.count, run.name
    before, modes, limits, far = ranks(store), dict(store.mode), leases_on(store), distances(store)
    sunk = over = risky = False
    watch = copy.deepcopy(store)
    for line in script:
        word, *given = line.split(" ")
        risky = risky or word == "lease" and bool(watch.missing(int(given[0])))
        watch.call(1, line)
        if len(before) < 100:  # (of a large store only after the last command)
            sunk = sunk or any(rank < before[stripe] for stripe, rank in ranks(watch).items())
            over = over or is_over(watch, limits, at_once)
    sunk = sunk or any(rank < before[stripe] for stripe, rank in ranks(watch).items())
    over = over or is_over(watch, limits, at_once)
    count.check(f"{name}: a stripe is at a lower level", not sunk)
    count.check(f"{name}: a fragment of a stripe at risk is leased", not risky)
    count.check(f"{name}: a node has too many leases", not over)
    replies = run.call(script)
    leases = [reply.split(" ") for reply in replies if reply.startswith("granted")]
    right = all(reply.startswith("granted") and reply.endswith(" move") if line.startswith("lease") else reply == "changed"
                for line, reply in zip(script, replies))
    count.check(f"{name}: a reply is not as it should be", right)
    count.check(f"{name}: a lease is not to a node below the mean", all(far[int(words[3].split(":")[0])] < 0 for words in leases))
    homes = [store.homes[int(words[1]), int(words[2])][0] for words in leases]
    count.check(f"{name}: a lease is not of a node above the mean", all(far[node] > 0 for node in homes))
    count.check(f"{name}: a node is in another mode", store.mode == modes)
    reports = [f"done {words[1]} {words[2]} {words[5]}" for words in leases]
    in_time = len(reports) // 2 if is_late else len(reports)
    done = run.call(run.late + reports[:in_time])
    run.late = reports[in_time:]
    count.check(f"{name}: a report is refused", set(done) <= {"ended"})
    is_sunk = any(rank < before[stripe] for stripe, rank in ranks(store).items())
    count.check(f"{name}: a stripe is at a lower level at the end", not is_sunk)
    return len(leases)


def look_at_first(run, script, within, at_once):
    """The first move of a round is of the fullest node, to the emptiest."""
    watch = copy.deepcopy(run.store)
    replies = (watch.call(1, line).split(" ") for line in script)
    words = next(words for words in replies if words[0] == "granted")
    source, target = watch.homes[int(words[1]), int(words[2])][0], int(words[3].split(":")[0])
    better = better_end(run.store, source, target, within, at_once)
    run.count.check(f"{run.name}: the first move is from {source} to {target}, and {better} is fuller or emptier", better is None)


def moves_of(store, script):
    """The moves of a script, with the shares of both nodes before and after each, in percent."""
    watch, rows = copy.deepcopy(store), ["stripe,fragment,from,from_before,from_after,to,to_before,to_after"]
    for line in script:
        before, reply = settled(watch), watch.call(1, line).split(" ")
        if reply[0] == "granted":
            key, after = (int(reply[1]), int(reply[2])), settled(watch)
            sides = watch.homes[key][0], watch.leases[key].target[0]
            told = [f"{node},{','.join(f'{100 * loads[node] / watch.nodes[node].slots:.1f}' for loads in (before, after))}" for node in sides]
            rows.append(f"{key[0]},{key[1]},{','.join(told)}")
    return rows


def even_out(run, within, at_once, late_rounds=0):
    """Makes rounds until none is left; the first ones are planned anew when half is reported. Returns the least number of moves,
    and those made."""
    words = ("--within", str(within), "--at-once", str(at_once))
    least, moves, rounds = least_moves(run.store, within), 0, 0
    run.tables()
    is_idle = not run.store.leases and not late_rounds
    dry = [row.split(",") for row in run.tool("--dry", *words)]
    run.count.check(f"{run.name}: --dry tells {dry[1:2]}", dry[1] == ["now", "0", "0", *spread(run.store, within)])
    while (script := run.tool(*words)) or run.late:
        if rounds == 0 and script:
            run.write("fragments.csv", fragments_table(run.store))
            run.count.check(f"{run.name}: another script of fragments", run.tool(*words, homes=("fragments.csv",)) == script)
            told, right = run.tool("--moves", *words), moves_of(run.store, script)
            run.count.check(f"{run.name}: the moves {told}, and not {right}", told == right and len(told) > 1)
        if script:
            look_at_first(run, script, within, at_once)
        moves, rounds = moves + one_round(run, script, at_once, rounds < late_rounds), rounds + 1
        if not run.count.check(f"{run.name}: it does not end", rounds <= MOST_ROUNDS):
            break
        run.tables()
    move = helping_move(run.store, within)
    busy = leases_on(run.store)
    run.count.check(f"{run.name}: {move} would help", move is None or not is_idle and max(busy.values(), default=0) >= at_once)
    run.compare()
    end = ["end", str(rounds), str(moves), *spread(run.store, within)]
    run.count.check(f"{run.name}: --dry told {dry[-1:]}, and not {end}", dry[-1] == end or not is_idle)
    return least, moves


# Stores.


def drawn_store(draw, program, folder, count, name):
    """A store whose shares differ, by slots and by nodes that came later."""
    faults, upgrades = draw.choice([18, 20, 24]), draw.choice([8, 10, 12])
    nodes = {100 * fault + at: Node(fault, (2 * fault + at) % upgrades, draw.choice([6, 12, 12, 20]))
             for fault in range(faults) for at in range(2)}
    run = Run(program, folder, nodes, count, name)
    late = draw.sample(sorted(nodes), draw.choice([0, 3, 8]))
    room = sum(node.slots for number, node in nodes.items() if number not in late)
    stripes = draw.sample(range(4096), max(2, int(room * draw.uniform(0.4, 0.8) / 13)))
    places = [f"{draw.choice(['place', 'place6'])} {stripe}" for stripe in stripes]
    lines = [*(f"fail {node}" for node in late), *places, *(f"join {node}" for node in late)]
    if draw.random() < 0.5:
        troubled = draw.sample(sorted(nodes), draw.randrange(4))
        lines += [f"{word} {node}" for word, node in zip(("down", "fail", "drain", "down"), troubled)]
        lines += [f"upgrade {draw.randrange(upgrades)}"] * (draw.random() < 0.3) + ["next"] * draw.choice([0, 0, 3])
    run.call(lines)
    return run


def drawn(count, program, how_many):
    least = moves = 0
    for seed in range(how_many):
        draw = random.Random(seed)
        with tempfile.TemporaryDirectory(prefix="lrcman-balance-") as folder:
            run = drawn_store(draw, program, folder, count, f"store {seed}")
            within = draw.choice([2, 5, 10])
            found = even_out(run, within, draw.choice([1, 2, 4]), 2 * (seed % 3 == 2))
            if spread(run.store, within)[4:6] == ["0", "0"]:
                least, moves = least + found[0], moves + found[1]
    count.check(f"{moves} moves, and {least} are the least possible", least <= moves <= least * 9 / 8)


def under_way(count, program):
    """A round that nobody has reported yet: no next one is planned, which standard error tells; --dry tells of the rounds that are left."""
    nodes = {fault: Node(fault, fault % 10, 24) for fault in range(24)}
    with tempfile.TemporaryDirectory(prefix="lrcman-balance-") as folder:
        run = Run(program, folder, nodes, count, "a round under way")
        run.call([*(f"fail {node}" for node in range(4)), *(f"place {stripe}" for stripe in range(15)), *(f"join {node}" for node in range(4))])
        run.tables()
        script, left, files = run.tool(), run.tool("--dry")[-1].split(","), [f"{folder}/{view}.csv" for view in VIEWS]
        said = subprocess.run([TOOL, *files], capture_output=True, text=True).stderr
        count.check(f"a round is planned, and {said!r} is told", script and said == "")
        leases = sum(reply.startswith("granted") for reply in run.call(script))
        run.tables()
        ran = subprocess.run([TOOL, *files], capture_output=True, text=True)
        told = f"tools/balance: {leases} leases are not yet reported: plan the next round then\n"
        count.check(f"a round is under way: {ran.stdout!r}, {ran.stderr!r}", (ran.stdout, ran.stderr, ran.returncode) == ("", told, 0))
        after = run.tool("--dry")[-1].split(",")
        fewer = ["end", str(int(left[1]) - 1), str(int(left[2]) - leases), *left[3:]]
        count.check(f"--dry tells {after}, and not {fewer}", after == fewer and int(after[1]) > 0)


def one_at_a_time(count, program):
    """A node that gives has one lease at a time: none is planned while one of its fragments is on the way, though all others may take."""
    nodes = {fault: Node(fault, fault % 10, 6 if fault == 0 else 24) for fault in range(24)}
    with tempfile.TemporaryDirectory(prefix="lrcman-balance-") as folder:
        run = Run(program, folder, nodes, count, "one node gives")
        run.call([f"place {stripe}" for stripe in range(4)])
        run.tables()
        moves = [row.split(",")[2] for row in run.tool("--moves", "--at-once", "1")[1:]]
        run.call(run.tool("--at-once", "1"))
        run.tables()
        count.check(f"node 0 gives one: {moves}", moves == ["0"] and leases_on(run.store)[0] == 1)
        for at_once in (1, 2):
            more = [row.split(",")[2] for row in run.tool("--moves", "--at-once", str(at_once))[1:]]
            count.check(f"with {at_once} at a time node 0 gives {more} more", more == ["0"] * (at_once - 1))


def look_at_picture(count, folder, name, title):
    """A picture of OPERATING is that of these nodes."""
    ran = subprocess.run([f"{TOP}/tools/picture", "--load", "--title", title, "nodes.csv"], cwd=folder, capture_output=True)
    if "--write" in sys.argv:
        with open(f"{TOP}/docs/{name}.svg", "wb") as file:
            file.write(ran.stdout)
    count.check(f"docs/{name}.svg is another picture", ran.stdout == harness.read(f"{TOP}/docs/{name}.svg"))


def new_rack(count, program):
    """The store of docs/OPERATING.md: fifteen racks of eight nodes, on two power feeds each, to which a rack comes."""
    slots = (36, 60, 60, 90)
    nodes = {100 * rack + at: Node(2 * rack + at % 2, (3 * rack + at) % 10, slots[at % 4]) for rack in range(15) for at in range(8)}
    new = {1600 + at: Node(30 + at % 2, (45 + at) % 10, 90) for at in range(8)}
    with tempfile.TemporaryDirectory(prefix="lrcman-balance-") as folder:
        run = Run(program, folder, nodes | new, count, "the new rack")
        places = [f"{'place' if stripe % 2 else 'place6'} {stripe}" for stripe in range(400)]
        run.call([*(f"fail {node}" for node in new), *places, *(f"join {node}" for node in new)])
        before, page = spread(run.store, 5), harness.read(f"{TOP}/docs/OPERATING.md").decode()
        run.tables()
        tables = {view: harness.read(f"{folder}/{view}.csv").decode() for view in VIEWS}
        test_books(count, folder, tables, "".join(f"{line}\n" for line in run.tool()))
        dry = "".join(f"    {line}\n" for line in run.tool("--dry"))
        count.check(f"docs/OPERATING.md has another table than {dry}", dry in page)
        look_at_picture(count, folder, "uneven", "Before")
        least, moves = even_out(run, 5, 4)
        after = spread(run.store, 5)
        look_at_picture(count, folder, "even", "After")
        is_even = before[:3] == ["0.0", "64.2", "100.0"] and after[4:] == ["0"] * 3
        count.check(f"the new rack: the shares were {before}, and are {after}", is_even)
        count.check(f"the new rack: {moves} moves, and {least} are the least possible", least <= moves <= least * 9 / 8)


# Bad input.

NODES = "node,fault,upgrade,mode,down,upgrading,online,homes,targets,load,slots\n"
NODES += "0,0,0,active,no,no,yes,1,0,1,4\n1,1,1,active,no,no,yes,0,0,0,4\n"
HOMES = ",".join(f"home_{fragment}" for fragment in range(16))
STRIPES = f"stripe,code,level,margin,missing,missing_fragments,homeless,homeless_fragments,{HOMES}\n"
LEASES = "stripe,fragment,holder,target,epoch,expiry\n"
ROW = "1,narrow,lost,-,0x03fe,1 2 3 4 5 6 7 8 9,0x03fe,1 2 3 4 5 6 7 8 9,0:0" + ",-" * 9 + "," * 6 + "\n"
BAD = [
    ((NODES, STRIPES + ROW.replace("narrow", "wide"), LEASES), "stripes.csv: line 2, column home_10: no seat NODE:SLOT: ''"),
    ((NODES, STRIPES + ROW.replace("0:0", "0:256"), LEASES), "stripes.csv: line 2, column home_0: no seat NODE:SLOT: '0:256'"),
    ((NODES, STRIPES + ROW.replace("0:0", "7:0"), LEASES),
     "stripes.csv: line 2, column home_0: the table of nodes has no such seat: '7:0'"),
    ((NODES, STRIPES + ROW.replace("0:0", "0:4"), LEASES),
     "stripes.csv: line 2, column home_0: the table of nodes has no such seat: '0:4'"),
    ((NODES, STRIPES + ROW.replace("lost", "gone"), LEASES),
     "stripes.csv: line 2, column level: none of whole, risk, unavailable, lost: 'gone'"),
    ((NODES, STRIPES + ROW * 2, LEASES), "stripes.csv: line 3, column stripe: a stripe that is there twice: '1'"),
    ((NODES, STRIPES + ROW[:-1] + "0:1\n", LEASES),
     "stripes.csv: line 2, column home_15: a narrow stripe has no such fragment: '0:1'"),
    ((NODES, STRIPES + ROW, LEASES + "2,0,1,1:0,1,3\n"),
     "leases.csv: line 2, column stripe: the table of stripes does not have it: '2'"),
    ((NODES, STRIPES + ROW, LEASES + "1,10,1,1:0,1,3\n"),
     "leases.csv: line 2, column fragment: not a number of its range, 0 to 9: '10'"),
    ((NODES, STRIPES + ROW, LEASES + "1,1,1,1,1,3\n"), "leases.csv: line 2, column target: no seat NODE:SLOT: '1'"),
    ((NODES, STRIPES, LEASES),
     "the tables are not of one state: node 0 has 1 homes and 0 targets in the one, 0 and 0 in the others"),
    ((NODES, STRIPES + ROW, LEASES + "1,1,1,1:0,1,3\n"),
     "the tables are not of one state: node 1 has 0 homes and 0 targets in the one, 0 and 1 in the others"),
    ((NODES, FRAGMENTS + "\n1,0,0,0,0,0,present,active,,,,,\n", LEASES),
     "stripes.csv: a table of `show fragments` has the leases too; leases.csv is one too many"),
    ((NODES, "a\n", LEASES), f"stripes.csv: line 1: the header is not {STRIPES[:-1]}"),
    ((NODES.replace("active,no,no,yes", "draining,no,no,yes"), STRIPES + ROW, LEASES), "nodes.csv: no node is active and online"),
]


# A field of a right table that is changed: its table, the line's first fields, the column, the word, and why it is refused.
NOT_SAID = "the table of nodes has {} for node {}"
CHANGED = [
    ("stripes", "1", "level", "whole", "not that of the missing and the homeless fragments"),
    ("stripes", "1", "level", "unavailable", "not that of the missing and the homeless fragments"),
    ("stripes", "1", "level", "lost", "not that of the missing and the homeless fragments"),
    ("stripes", "3", "level", "risk", "not that of the missing and the homeless fragments"),
    ("stripes", "2", "level", "whole", "not that of the missing and the homeless fragments"),
    ("stripes", "2", "level", "lost", "not that of the missing and the homeless fragments"),
    ("stripes", "2", "margin", "0", "not that of the missing fragments"),
    ("stripes", "1", "margin", "9", "not a number of its range, 0 to 3"),
    ("stripes", "1", "margin", "2", "not that of the missing fragments"),
    ("stripes", "3", "margin", "-", "not that of the missing fragments"),
    ("stripes", "3", "missing", "0x0001", "not that of the missing fragments"),
    ("stripes", "3", "missing_fragments", "junk", "not the list of the mask before it"),
    ("stripes", "1", "missing_fragments", "0", "not the list of the mask before it"),
    ("stripes", "1", "homeless", "0x0004", "not among the missing fragments"),
    ("stripes", "1", "homeless_fragments", "", "not the list of the mask before it"),
    ("stripes", "3", "home_0", "-", "not what the mask of the homeless fragments says"),
    ("stripes", "1", "home_0", "0:0", "not what the mask of the homeless fragments says"),
    ("stripes", "2", "home_10", "-", "a narrow stripe has no such fragment"),
    ("stripes", "3", "home_9", "14:0", "the seat is held already"),
    ("stripes", "3", "home_9", "14:2", "another fragment of the stripe rules the node out"),
    ("stripes", "3", "home_9", "15:4", "the table of nodes has no such seat"),
    ("stripes", "3", "home_9", "20:0", "the table of nodes has no such seat"),
    ("stripes", "3", "home_9", "0:0", "the node of the seat is gone"),
    ("stripes", "3", "home_9", "1:3", "not the homeless fragments and those whose node is not online in the table of nodes"),
    ("leases", "2,4", "target", "15:1", "the seat is held already"),
    ("leases", "2,4", "target", "0:1", "the node of the seat is gone"),
    ("leases", "2,4", "target", "4:3", "another fragment of the stripe rules the node out"),
    ("leases", "2,4", "holder", "9", "not a number of its range, 1 to 8"),
    ("leases", "2,4", "epoch", "b", "not a number of its range, 1 to 4294967294"),
    ("leases", "2,4", "epoch", "0", "not a number of its range, 1 to 4294967294"),
    ("leases", "2,4", "expiry", "", "not a number of its range, 1 to 4294967294"),
    ("fragments", "3,0", "slot", "0", "the seat is held already"),
    ("fragments", "3,9", "slot", "4", "the table of nodes has no such seat"),
    ("fragments", "3,9", "node", "20", "the table of nodes has no such seat"),
    ("fragments", "3,9", "node", "0", "the node of the seat is gone"),
    ("fragments", "2,9", "node", "15", "another fragment of the stripe rules the node out"),
    ("fragments", "3,9", "fault", "77", NOT_SAID.format("'15'", 15)),
    ("fragments", "3,9", "upgrade", "junk", NOT_SAID.format("'5'", 15)),
    ("fragments", "3,9", "mode", "gone", NOT_SAID.format("'active'", 15)),
    ("fragments", "3,9", "why", "xx", NOT_SAID.format("''", 15)),
    ("fragments", "3,9", "state", "offline", NOT_SAID.format("'present'", 15)),
    ("fragments", "1,1", "state", "present", NOT_SAID.format("'offline'", 1)),
    ("fragments", "1,1", "why", "", NOT_SAID.format("'down'", 1)),
    ("fragments", "1,0", "state", "present", "not a number of its range, 0 to 65535"),
    ("fragments", "1,0", "state", "whole", "none of present, offline, homeless"),
    ("fragments", "3,9", "state", "homeless", "a fragment without a home has none"),
    ("fragments", "1,0", "mode", "active", "a fragment without a home has none"),
    ("fragments", "2,4", "epoch", "b", "not a number of its range, 1 to 4294967294"),
    ("fragments", "2,4", "target", "4:3", "another fragment of the stripe rules the node out"),
    ("fragments", "2,4", "target", "", "there is no lease"),
    ("fragments", "1,0", "epoch", "1", "there is no lease"),
    ("nodes", "0", "fault", "256", "not a number of its range, 0 to 255"),
]
# The column that is refused where it is another one than was changed.
REFUSED_AT = {("3", "missing"): "margin", ("1,0", "state", "present"): "node", ("3,9", "state", "homeless"): "node",
              ("2,4", "target", ""): "holder", ("3", "home_9", "1:3"): "missing"}


def right_store():
    """A store with both codes, stripes that are whole, at risk and unavailable, nodes of each mode, some down, and leases."""
    store = Store({number: Node(number, number % 10, 4) for number in range(20)})
    for line in ("place 1", "place6 2", "place6 3", "drain 12", "fail 0", "down 1", "lease 2 4", "lease 3 6", *(f"down {node}" for node in (17, 18, 19))):
        assert store.call(1, line).split(" ")[0] != "refused", line
    return store


def changed_line(text, where, column, word):
    """A table with another word in the line that begins so; the number of that line, and the words that it has now."""
    lines = text.splitlines()
    names = lines[0].split(",")
    at = next(at for at, line in enumerate(lines) if line.startswith(f"{where},"))
    fields = dict(zip(names, lines[at].split(","))) | {column: word}
    lines[at] = ",".join(fields.values())
    return "\n".join([*lines, ""]), at + 1, fields


def written(folder, tables):
    """The paths of tables that are written there."""
    for name, text in tables.items():
        with open(f"{folder}/{name}.csv", "w", encoding="utf-8") as file:
            file.write(text)
    return {name: f"{folder}/{name}.csv" for name in tables}


def refusal(folder, tables):
    """What the tool refuses of tables, or None."""
    with unittest.mock.patch.object(sys, "argv", [TOOL, *written(folder, tables).values()]):
        try:
            with contextlib.redirect_stdout(io.StringIO()):
                tool().main()
        except tool().Refused as why:
            return str(why).removeprefix(f"{folder}/")
    return None


def refuse_changed(count):
    """Each column of a right table that is changed is refused."""
    store = right_store()
    tables = {view: shown.shown(view, store, 0) for view in VIEWS} | {"fragments": fragments_table(store)}
    given = {False: VIEWS, True: ("nodes", "fragments")}
    with tempfile.TemporaryDirectory(prefix="lrcman-balance-") as folder:
        for names in given.values():
            told = refusal(folder, {name: tables[name] for name in names})
            count.check(f"right tables are refused: {told}", told is None)
        for view, where, column, word, why in CHANGED:
            text, line, fields = changed_line(tables[view], where, column, word)
            at = REFUSED_AT.get((where, column, word)) or REFUSED_AT.get((where, column), column)
            told = refusal(folder, {name: tables[name] for name in given[view == "fragments"]} | {view: text})
            right = f"{view}.csv: line {line}, column {at}: {why}: {fields[at]!r}"
            count.check(f"{view} {where} {column} {word}: {told}, and not {right}", told == right)
        twice = tables["leases"] + tables["leases"].splitlines()[1] + "\n"
        told = refusal(folder, {name: tables[name] for name in VIEWS} | {"leases": twice})
        count.check(f"a lease twice: {told}", told == "leases.csv: line 4, column fragment: a lease that is there twice: '4'")


def read_right(count):
    """No table of a store is refused: stores of drawn calls, after which up to eight nodes fail."""
    levels = set()
    with tempfile.TemporaryDirectory(prefix="lrcman-balance-") as folder:
        for seed in range(LONG):
            row, nodes = draws.numbers(seed), harness.nodes_in_order(24, 3)
            store, within = Store(nodes), draws.Range(8, [*nodes, 99], [*range(10), 77])
            for _ in range(40 + seed):
                store.call(*draws.drawn_call(store, row, within))
            for node in random.Random(seed).sample(sorted(nodes), seed % 9):  # (so that some are lost)
                store.call(1, f"fail {node}")
            tables = {view: shown.shown(view, store, 0) for view in VIEWS} | {"fragments": fragments_table(store)}
            paths = written(folder, tables)
            try:
                nodes = tool().nodes_of(paths["nodes"])
                by_row = tool().stripes_of(paths["stripes"], paths["leases"], nodes)
                by_fragment = tool().stripes_of(paths["fragments"], None, nodes)
                tool().Store(nodes, by_row)
                right = [{number: vars(stripe) for number, stripe in stripes.items()} for stripes in (by_row, by_fragment)]
                count.check(f"store {seed}: other stripes by fragment", right[0] == right[1])
            except tool().Refused as why:
                count.check(f"store {seed}: {why}", False)
            levels |= {store.level(stripe) or "whole" for stripe in store.stripes}
    count.check(f"the stores have stripes that are {levels}", levels == {"whole", "risk", "unavailable", "lost"})


def refuse(count):
    refuse_changed(count)
    for texts, why in BAD:
        with tempfile.TemporaryDirectory(prefix="lrcman-balance-") as folder:
            names = "nodes.csv", "stripes.csv", "leases.csv"
            for name, text in zip(names, texts):
                with open(f"{folder}/{name}", "w", encoding="utf-8") as file:
                    file.write(text)
            ran = subprocess.run([TOOL, *names], cwd=folder, capture_output=True, text=True)
            count.check(f"{why}: {ran.stderr}", (ran.returncode, ran.stdout, ran.stderr) == (2, "", f"tools/balance: {why}\n"))
    given = "a b c".split()
    for words in ([], ["a"], [*given, "d"], ["--within", "x", *given], ["--within", "-1", *given], ["--at-once", "0", *given],
                  ["--dry", "--moves", *given]):
        ran = subprocess.run([TOOL, *words], capture_output=True, text=True)
        count.check(f"the words {words}: {ran.stderr}", ran.returncode == 2 and ran.stdout == "" and ran.stderr.count("\n") == 1)


def main(words):
    is_long = words[:1] == ["--long"]
    program, count = harness.program_of(words[words[:1] in (["--long"], ["--write"]):]), harness.Count()
    drawn(count, program, LONG if is_long else DRAWN)
    under_way(count, program)
    one_at_a_time(count, program)
    new_rack(count, program)
    read_right(count)
    refuse(count)
    return count.report()


if __name__ == "__main__":
    sys.exit(main(sys.argv[1:]))
