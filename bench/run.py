"""Measures programs side by side on bundles that are made by a fixed rule.

Usage: bench/run [OPTION].. [PROGRAM]..      by default the program that `rt run` has built in crates/lrcman
       bench/run --budget [--write] [PROGRAM]
                                             counts instructions, and holds them to bench/budget
       bench/run --self-test [PROGRAM]       makes small bundles of all kinds and checks the replies; the last line is
                                             'N passed, M failed'

Each program is run as `PROGRAM run < BUNDLE`, in turn, several rounds. A round of a short run is the mean of several: as
many as take 0.2 seconds or so, and at most 40, by a first run that is in no round. Each reply has to be that of the rules,
and what the load is about has to happen in it. The output (in a round, that of the last run) has to be the same bytes each
time and for each program. With several scripts it depends on how they interleave: then the output of each first run has to
be one that the rules allow, and the others are only looked at for the places of their replies. A table reports medians of
the rounds: wall, user and system time, peak memory, user and system time together for each line of the script (a command,
or a comment of `comments`), and the ratios to the first program.

  --only KIND     this kind of load alone; may be given several times: place churn repairs leases bulk ticks drains flaps
                  upgrades upgrades_down upgrades_work refused comments idle stuck wakes waits mixed mixed6 mixed_hurt; and
                  of 2, 4 or 8 scripts churn-2 churn-4 churn-8 idle-2 idle-4 idle-8 mixed-2 mixed-4 mixed-8
  --nodes N       nodes of the store, 16 to 512 (512)
  --stripes N     stripes that fill it, 1 to 4096, at most eight for each node (4096)
  --bytes N       the most bytes of a bundle, up to 4194304 (1048576)
  --commands N    the most commands, or lines of `comments`, after those that fill the store (no limit but the bytes)
  --rounds N      how many rounds each program has on a bundle (5)
  --seed N        another seed makes other bundles (1). If it is given several times and there are two programs, each load has
                  one row of the table: the medians of all seeds, and a ratio that differs by more than a tenth as a range
  --scale         in place of the table: the cost of a line on stores of 32 nodes and 256 stripes, and of twice as many
                  up to 512 and 4096, with the same number of lines (20000, of ticks 160000), beyond that of filling the
                  store
  --quick         32 nodes, 256 stripes, 65536 bytes, one round, where no option says otherwise
  --keep FOLDER   leaves the bundles there
  --budget        in place of the table: counts the instructions that the program takes for a line of each kind, with
                  valgrind, on the smallest and the largest of these stores, and compares them with those of bench/budget.
                  It takes no other option but --only and --write. The last line is 'N passed, M failed'; without valgrind
                  nothing is counted and none fails
  --write         writes these counts to bench/budget in place of comparing them

The status is 0, or 1 where an output is wrong, a program fails or the budget is exceeded, or 2 where the options are
refused. Peak memory below that of a bare Python (about 9 MiB) can't be seen: it is written as `< N`."""
import os
import shutil
import statistics
import subprocess
import sys
import tempfile
from collections import Counter, namedtuple
from itertools import islice

from bench import common, instructions, loads
from bench.bundles import check_again, check_output, make_bundle
from bench.common import HERE, Wrong, number, print_head, print_row, status_of
from bench.scripts import LONGEST
from tests.harness import Count
from tests.model import draws, rules
from tests.model.rules import MOST_BYTES, MOST_STRIPES
from tests.model.store import Store

COMMAND = os.path.join(HERE, "run")
ONCE = [sys.executable, "-S", "-I", os.path.join(HERE, "once.py")]
USUAL = {"nodes": 512, "stripes": MOST_STRIPES, "bytes": MOST_BYTES // 4, "rounds": 5}
QUICK = {"nodes": 32, "stripes": 256, "bytes": 65536, "rounds": 1}
LIMIT = "120"  # seconds that a run may take
ROUND = 0.2  # seconds that the runs of a round take, or so, where one takes less
MOST_RUNS = 40  # of a round
PROGRAM = os.path.join(common.TOP, "crates/lrcman/out/lrcman")
KINDS = list(loads.KINDS)
SIZES = [(32, 256), (64, 512), (128, 1024), (256, 2048), (512, 4096)]
SCALED = [kind for kind in KINDS if kind not in ("place", "comments", "stuck")]
# The lines after those that fill a store, where stores are compared. With fewer of `ticks` few leases would end on the
# largest one.
LINES, MORE_LINES = 20000, {"ticks": 160000}

Run = namedtuple("Run", "wall user system memory")


def options(words):
    parser = common.parser_of("bench/run [OPTION].. [PROGRAM]..", ("--scale", "--budget", "--write", "--self-test"))
    parser.add_argument("programs", nargs="*", metavar="PROGRAM")
    parser.add_argument("--only", action="append", choices=KINDS, metavar="KIND")
    parser.add_argument("--nodes", type=number(16, 512))
    parser.add_argument("--stripes", type=number(1, MOST_STRIPES))
    parser.add_argument("--bytes", type=number(1, MOST_BYTES))
    parser.add_argument("--commands", type=number(1, 1000000))
    parser.add_argument("--rounds", type=number(1, 1000))
    parser.add_argument("--seed", action="append", dest="seeds", type=number(0, 10**9), metavar="N")
    parser.add_argument("--keep", metavar="FOLDER")
    given = common.parsed(parser, words, __doc__, USUAL, QUICK)
    if given.stripes > 8 * given.nodes:
        parser.error("a store takes at most eight stripes for each node")
    if given.scale and "place" in (given.only or []):
        parser.error("--scale measures the lines after those that fill the store, and place has none")
    others = {word.split("=")[0] for word in words if word.startswith("--")} - {"--budget", "--write", "--only"}
    if given.budget and (others or len(given.programs) > 1) or given.write and not given.budget:
        parser.error("--budget takes one program, and no option but --only and --write, which goes with it alone")
    given.programs = [common.expect_program(parser, program) for program in given.programs or [PROGRAM]]
    given.seeds = given.seeds or [1]
    given.seed = given.seeds[0]
    if len(given.seeds) > 1 and (given.scale or given.self_test or len(given.programs) != 2):
        parser.error("several seeds take two programs, and neither --scale nor --self-test")
    return given


# Runs.


def run(program, bundle, times, output):
    """Runs a program on a bundle several times; the last output goes to a file. Returns the means and the greatest peak
    memory."""
    words = [*ONCE, LIMIT, str(times), program, bundle.path, output]
    ended = subprocess.run(words, stdout=subprocess.PIPE, text=True, check=True)
    *means, memory, status = ended.stdout.split()
    if int(status) < 0:
        raise Wrong(f"{bundle.kind}: {program} ends by signal {-int(status)}; a run has {LIMIT} seconds")
    if status != "0":
        raise Wrong(f"{bundle.kind}: {program} ends with status {status}")
    return Run(*map(float, means), int(memory) / 1024)


def run_again(program, bundle, times, first, other):
    """Runs a program whose output, which goes to the other file, has to be the first one, or as good."""
    ran = run(program, bundle, times, other)
    check_again(bundle, program, first, other)
    return ran


def runs_a_round(ran):
    """The number of runs of a round, by the time of a first run."""
    return min(max(round(ROUND / ran.wall), 1), MOST_RUNS)


def measure(programs, bundle, rounds):
    """The medians of each program's rounds, which are run in turn, after a first run of each program."""
    with tempfile.TemporaryDirectory() as folder:
        files = os.path.join(folder, "first"), os.path.join(folder, "other")
        ran = [run(programs[0], bundle, 1, files[0])]
        check_output(bundle, files[0])
        for program in programs[1:]:
            ran.append(run_again(program, bundle, 1, *files))
            check_output(bundle, files[1])
        times = list(map(runs_a_round, ran))
        turns = [[run_again(program, bundle, runs, *files) for program, runs in zip(programs, times)] for _ in range(rounds)]
    return [Run(*map(statistics.median, zip(*of_program))) for of_program in zip(*turns)]


def cost(ran, lines):
    """Nanoseconds of user and system time a line."""
    return (ran.user + ran.system) * 1e9 / lines


def ratio(value, first):
    return f"{value / first:.2f}" if first > 0.0005 else "-"


def names_of(programs):
    """The names of the programs in a table: file names, or whole paths where two file names are the same."""
    names = [os.path.basename(program) for program in programs]
    return names if len(set(names)) == len(names) else programs


# Tables.


def least_memory():
    """The peak memory that is measured of a program that needs next to nothing, in MiB."""
    words = [*ONCE, LIMIT, "1", shutil.which("true"), os.devnull, os.devnull]
    ended = subprocess.run(words, stdout=subprocess.PIPE, text=True, check=True)
    return int(ended.stdout.split()[3]) / 1024


def memory_text(memory, least):
    return f"< {least + 0.5:.0f}" if memory < least + 0.5 else f"{memory:.1f}"


def print_table(given, folder):
    sizes = f"{given.nodes} nodes, {given.stripes} stripes, at most {given.bytes} bytes"
    print(f"{sizes}, {given.rounds} rounds, seed {given.seed}\n")
    print_head("load,program,lines,wall ms,user ms,system ms,MiB,ns a line,wall ratio,user ratio".split(","), 2)
    least, wrong = least_memory(), 0
    for kind in given.only or KINDS:
        bundle = make_bundle(folder, kind, given.nodes, given.stripes, given, given.commands)
        try:
            rows = measure(given.programs, bundle, given.rounds)
        except Wrong as what:
            print(f"wrong: {what}", flush=True)
            wrong += 1
            continue
        for name, row in zip(names_of(given.programs), rows):
            times = [f"{1000 * seconds:.1f}" for seconds in row[:3]]
            costs = [memory_text(row.memory, least), f"{cost(row, bundle.lines):.0f}"]
            print_row([kind, name, bundle.lines, *times, *costs, ratio(row.wall, rows[0].wall), ratio(row.user, rows[0].user)])
    return wrong


def print_pairs(given, folder):
    """The table over several seeds: a row for each load, with what both programs take."""
    sizes = f"{given.nodes} nodes, {given.stripes} stripes, at most {given.bytes} bytes"
    print(f"{sizes}, {given.rounds} rounds, seeds {', '.join(map(str, given.seeds))}\n")
    print_head(["load", "user ms", "user ratio", "wall ratio", "MiB"], 1)
    least, wrong = least_memory(), 0
    for kind in given.only or KINDS:
        try:
            pairs = list(measured_pairs(given, kind, folder))
        except Wrong as what:
            print(f"wrong: {what}", flush=True)
            wrong += 1
            continue
        users = (f"{1000 * statistics.median(of_seeds):.1f}" for of_seeds in zip(*([ran.user for ran in pair] for pair in pairs)))
        sizes = (memory_text(max(ran.memory for ran in of_program), least) for of_program in zip(*pairs))
        ratios = (range_text([getattr(ours, time) / getattr(first, time) for first, ours in pairs]) for time in ("user", "wall"))
        print_row([kind, " / ".join(users), *ratios, " / ".join(sizes)])
    return wrong


def measured_pairs(given, kind, folder):
    """The medians of both programs on the bundle of each seed."""
    for given.seed in given.seeds:
        bundle = make_bundle(folder, kind, given.nodes, given.stripes, given, given.commands)
        yield measure(given.programs, bundle, given.rounds)


def range_text(ratios):
    """The median of ratios, or their range where they differ by more than a tenth."""
    least, most = min(ratios), max(ratios)
    return f"{statistics.median(ratios):.2f}" if most <= 1.1 * least else f"{least:.2f} to {most:.2f}"


def extra_costs(given, kind, size, folder):
    """The cost of a line of this kind for each program, without the lines that fill the store."""
    filled = make_bundle(folder, kind, *size, given, 0)
    bundle = make_bundle(folder, kind, *size, given, given.commands or MORE_LINES.get(kind, LINES))
    more = bundle.lines - filled.lines
    before = measure(given.programs, filled, given.rounds)
    after = measure(given.programs, bundle, given.rounds)
    return [(b.user + b.system - a.user - a.system) * 1e9 / more for a, b in zip(before, after)]


def print_scale(given, folder):
    lines = given.commands or f"{LINES} ({', '.join(f'{kind} {more}' for kind, more in MORE_LINES.items())})"
    print(f"nanoseconds a line, {lines} lines after those that fill the store, {given.rounds} rounds, seed {given.seed}\n")
    print_head(["load", "program", *(f"{nodes} x {stripes}" for nodes, stripes in SIZES), "last to first"], 2)
    wrong = 0
    for kind in given.only or SCALED:
        try:
            costs = [extra_costs(given, kind, size, folder) for size in SIZES]
        except Wrong as what:
            print(f"wrong: {what}", flush=True)
            wrong += 1
            continue
        for name, row in zip(names_of(given.programs), zip(*costs)):
            print_row([kind, name, *(f"{nanoseconds:.0f}" for nanoseconds in row), ratio(row[-1], row[0])])
    return wrong


# The budget.


def hold_budget(given, folder):
    count = Count()
    instructions.hold(given, folder, count)
    count.report()
    return count.failed


# The test of this script.


def self_test(given, folder):
    count = Count()
    given.nodes, given.stripes, given.bytes = 32, 64, 16384
    test_store(count)
    test_kinds(given, folder, count)
    test_loads(given, folder, count)
    test_seeds(given, folder, count)
    test_rounds(given, folder, count)
    test_options(given, folder, count)
    test_budget(given, folder, count)
    count.report()
    return count.failed


def test_store(count):
    """The store with indexes replies as the one that searches, and writes the same tables and work."""
    nodes = {(i * 37) % 61 * 7: rules.Node(i % 20, i % 8, 6 + i % 9) for i in range(60)}
    plain, store, row = rules.Store(nodes), Store(nodes), draws.numbers(1)
    within = draws.Range(24, [*nodes, 65535], range(10))
    for session, line in islice(iter(lambda: draws.drawn_call(plain, row, within), None), 1500):
        told, right = store.call(session, line), plain.call(session, line)
        if not count.check(f"the store with indexes: `{line}`: {told}, and not {right}", told == right):
            return
        same = store.leases == plain.leases and store.tables() == plain.tables()
        if not count.check(f"the store with indexes after `{line}`", same):
            return


def test_options(given, folder, count):
    other = write_program(folder, "other", f"{given.programs[0]} run | sed 's/^9 .*/9 idle/'")
    for programs, status in (([given.programs[0]] * 2, 0), ([given.programs[0], other], 1), ([other], 1)):
        words = ["--quick", "--only", "churn", *programs]
        count.check(f"{programs} end with status {status}", status_of(COMMAND, words) == status)
    words = ["--quick", "--only", "churn", "--seed", "1", "--seed", "2", *[given.programs[0]] * 2]
    ended = subprocess.run([sys.executable, COMMAND, *words], capture_output=True, text=True)
    rows = [line for line in ended.stdout.splitlines() if line.startswith("| churn |")]
    count.check(f"two seeds have one row: {ended}", ended.returncode == 0 and len(rows) == 1 and rows[0].count(" / ") == 2)
    texts = [range_text(ratios) for ratios in ([1.0, 1.1], [1.5, 1.0], [2.0])]
    count.check(f"ranges are {texts}", texts == ["1.05", "1.00 to 1.50", "2.00"])
    for words in ("--seed 1 --seed 2", "--only nothing", "--nodes 513", "--bytes 4194305", "--rounds 0",
                  "--nodes 16 --stripes 129", "--seed x", "--scale --only place", "--write", "--budget --rounds 2", "--budget --seed=2", "--no", "/nowhere"):
        count.check(f"{words} is refused", status_of(COMMAND, words.split()) == 2)


def test_kinds(given, folder, count):
    """Each kind fills its bundle, but for `place`; its replies are right, and are of what it is about."""
    for kind in KINDS:
        bundle = small_bundle(folder, given, kind)
        size, scripts = os.path.getsize(bundle.path), bundle.load.scripts
        count.check(f"{kind} has at most {given.bytes} bytes", size <= given.bytes)
        count.check(f"{kind} is full", kind == "place" or size > given.bytes - 7 * len(LONGEST) * len(scripts))
        what = what_is_wrong(measure, given.programs[:1], bundle, 1)
        count.check(what, what is None)
        test_about(bundle, count)


def test_about(bundle, count):
    """A load that is refused is found out, if it is about calls that are taken."""
    refusals = [["refused 101"] * len(commands) for commands in bundle.load.commands()]
    calls, about = len(list(bundle.load.calls(refusals))), loads.KINDS[bundle.kind].about
    is_looked_at = bool(about) and calls >= loads.FEWEST
    count.check(f"{bundle.kind}: {calls} calls are looked at", is_looked_at or bundle.kind in ("place", "comments"))
    if is_looked_at and bundle.kind != "refused":
        count.check(f"{bundle.kind}: refusals are found out", bundle.load.lacks(refusals) is not None)


def test_loads(given, folder, count):
    """Ticks end leases, `mixed6` places both codes, stripes wait for repair in `upgrades_work`, and lines are limited."""
    replies = replies_of(small_bundle(folder, given, "ticks"))
    ended = [int(reply.split(" ")[2]) for reply in replies if reply.startswith("ticked ")]
    same = len(ended) > 4 and len(set(ended[2:])) == 1 and ended[2] > 99
    count.check(f"ticks end leases: {ended}", ended[:2] == [0, 0] and same)
    words = Counter(line.split(" ")[0] for line in text_of(small_bundle(folder, given, "mixed6")).splitlines())
    count.check(f"mixed6 goes on with both codes: {words}", min(words["place"], words["place6"]) > given.stripes // 2 + 9)
    script = small_bundle(folder, given, "upgrades_work").load.scripts[0]
    count.check("stripes are to be repaired in upgrades_work", script.store.count_open() >= given.stripes // 16 - 2)
    for kind, replies in (("comments", given.stripes), ("idle", given.stripes + 99)):
        bundle = small_bundle(folder, given, kind, 99)
        count.check(f"{kind} has 99 lines more", bundle.lines == given.stripes + 99 and len(replies_of(bundle)) == replies)
    for scripts in loads.SCRIPTS:
        bundle = small_bundle(folder, given, f"idle-{scripts}", 99)
        count.check(f"{scripts} scripts of idle have 99 lines more", bundle.lines == given.stripes + 99)


def test_seeds(given, folder, count):
    made = []
    for given.seed in (1, 1, 2):
        made.append(text_of(small_bundle(folder, given, "mixed")))
    count.check("one seed makes one bundle", made[0] == made[1])
    count.check("another seed makes another", made[0] != made[2])


def test_rounds(given, folder, count):
    """A program that fails in one of several runs, or prints something else in one, is found out."""
    lengths = [runs_a_round(Run(wall, 0, 0, 0)) for wall in (0.001, 0.005, 0.02, 0.19, 0.5, 100)]
    count.check(f"rounds have {lengths} runs", lengths == [40, 40, 10, 1, 1, 1])
    bundle, sink = small_bundle(folder, given, "place"), os.path.join(folder, "sink")
    for times, what in ((2, "None"), (5, "status 7")):
        fails = write_counting(folder, given.programs[0], "[ $n -ne 3 ] || exit 7")
        count.check(f"{times} runs end with {what}", str(what_is_wrong(run, fails, bundle, times, sink)).endswith(what))
    changes = write_counting(folder, given.programs[0], "[ $n -lt 3 ] || echo")
    count.check("another output is found out", str(what_is_wrong(measure, [changes], bundle, 2)).endswith("something else"))


def test_budget(given, folder, count):
    """What takes more than its row allows is found out, and what takes less is told; without valgrind nothing is counted."""
    rows = {"churn": instructions.Row([1000, 2000], 5, ""), "mixed-8": instructions.Row([300, 400], 10, "two words")}
    count.check("a table is read as it was written", instructions.rows_of(instructions.text_of(rows)) == rows)
    cases = (1050, 1900, 0, 0), (1051, 1900, 1, 0), (1050, 1899, 0, 1), (900, 2200, 1, 1), (1100, 2200, 2, 0)
    for *counts, wrong, told in cases:
        lines = instructions.compare("churn", counts, rows["churn"])
        count.check(f"{counts} beside {rows['churn']}: {lines}", list(map(len, lines)) == [wrong, told])
    count.check("a count within ten percent", instructions.compare("mixed-8", [330, 360], rows["mixed-8"]) == ([], []))
    count.check("a kind without a row", list(map(len, instructions.compare("idle", [1, 1], None))) == [1, 0])
    words = [sys.executable, COMMAND, "--budget", given.programs[0]]
    ended = subprocess.run(words, env={**os.environ, "PATH": folder}, capture_output=True, text=True)
    count.check(f"without valgrind: {ended}", ended.returncode == 0 and ended.stdout.endswith("\n0 passed, 0 failed\n"))


def what_is_wrong(work, *words):
    """The text of the Wrong that a function raises, or None."""
    try:
        work(*words)
    except Wrong as what:
        return what


def write_program(folder, name, script):
    path = os.path.join(folder, name)
    with open(path, "w") as to:
        to.write(f"#!/bin/sh\n{script}\n")
    os.chmod(path, 0o700)
    return path


def write_counting(folder, program, script):
    """A program that first runs a script, which finds the number of runs, with this one, as n."""
    runs = os.path.join(folder, "runs")
    open(runs, "w").close()
    return write_program(folder, "counting", f"echo >> {runs}\nn=$(wc -l < {runs})\n{script}\nexec {program} run")


def small_bundle(folder, given, kind, commands=None):
    return make_bundle(folder, kind, given.nodes, given.stripes, given, commands)


def text_of(bundle):
    with open(bundle.path) as file:
        return file.read()


def replies_of(bundle):
    """The beginnings of the replies to the only script of a bundle."""
    return bundle.load.scripts[0].replies


def main(words):
    given = options(words)
    with tempfile.TemporaryDirectory() as folder:
        if given.keep:
            os.makedirs(given.keep, exist_ok=True)
            folder = given.keep
        table = print_scale if given.scale else print_pairs if len(given.seeds) > 1 else print_table
        work = self_test if given.self_test else hold_budget if given.budget else table
        return 1 if work(given, folder) else 0


if __name__ == "__main__":
    sys.exit(main(sys.argv[1:]))
