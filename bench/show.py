"""Measures the tables of `lrcman show` on stores at their limits, in milliseconds of processor time.

Usage: bench/show [OPTION].. [PROGRAM]      by default the program that `rt run` has built in crates/lrcman
       bench/show --check [PROGRAM]         makes each table once, within a bound; the last line is 'N passed, M failed'

Three stores of 512 nodes, each given as a sequel:

  full      4,096 stripes of every level, with a lease for each fragment (tests/library/full.py)
  no room   3,200 wide stripes in all slots; then a node fails, and no other one can take what it held
  empty     256 slots a node and no stripe: `capacity` places 4,096 stripes of each code

A table has medians over the rounds of what a whole run takes, with the reading of its input. The first row is that alone, of
`lrcman check`.

  --rounds N   rounds, 1 to 1000 (5)
  --quick      one round
  --check      a run that takes more than 5 seconds of processor time fails, and so does one of another store than is said here"""
import os
import resource
import statistics
import subprocess
import sys
import tempfile

from bench import common
from bench.common import Wrong, number, print_head, print_row, status_of
from tests import harness
from tests.harness import Count
from tests.library import full
from tests.model import shown
from tests.model.rules import MOST_SLOTS, Node

PROGRAM = os.path.join(common.TOP, "crates/lrcman/out/lrcman")
USUAL, QUICK = {"rounds": 5}, {"rounds": 1}
BOUND = 5  # seconds of processor time of a run
LIMIT = 600  # the same where nothing is checked
COUNT, FILLED = 512, 3200
LOOKS = ["check", *(f"show {view}" for view in shown.VIEWS)]
# What `show capacity` begins its rows with, which tells the stores apart: stripes that fit, and the fragment that does not.
CAPACITY = {"full": ["wide,0,,", "narrow,0,,"], "no room": ["wide,0,0,1,0,511,", "narrow,0,0,1,0,511,"],
            "empty": ["wide,4096,,", "narrow,4096,,"]}


def options(words):
    parser = common.parser_of("bench/show [OPTION].. [PROGRAM]", ("--check",))
    parser.add_argument("program", nargs="?", default=PROGRAM, metavar="PROGRAM")
    parser.add_argument("--rounds", type=number(1, 1000))
    given = common.parsed(parser, words, __doc__, USUAL, QUICK)
    given.program = common.expect_program(parser, given.program)
    return given


# Stores.


def nodes_with(slots):
    """Nodes in 32 fault domains of 16 upgrade domains each."""
    return {number: Node(number // 16, number % 16, slots) for number in range(COUNT)}


def sequels(program):
    """The stores by their names."""
    store = full.full_store()
    nodes = nodes_with(FILLED * 16 // COUNT)
    script = [f"place {stripe}" for stripe in range(FILLED)] + ["fail 0"]
    given = harness.bundle_of(nodes, [script]).encode()
    image = subprocess.run([program, "image"], input=given, capture_output=True, check=True).stdout
    return {"full": (store.image(full.BEFORE) + harness.topology_of(store.nodes)).encode(),
            "no room": image + harness.topology_of(nodes).encode(),
            "empty": harness.topology_of(nodes_with(MOST_SLOTS)).encode()}


# Runs.


def run(program, look, path, seconds):
    """The processor time of a run, in milliseconds, and what it prints."""
    def limit():
        resource.setrlimit(resource.RLIMIT_CPU, (seconds, seconds))

    with open(path, "rb") as given, tempfile.TemporaryFile() as printed:
        child = subprocess.Popen([program, *look.split(" ")], stdin=given, stdout=printed, stderr=subprocess.DEVNULL, preexec_fn=limit)
        _, status, used = os.wait4(child.pid, 0)
        child.returncode = os.waitstatus_to_exitcode(status)
        printed.seek(0)
        text = printed.read().decode()
    if child.returncode < 0:
        raise Wrong(f"{look} ends by signal {-child.returncode}; a run has {seconds} seconds of processor time")
    if child.returncode not in ((0, 4) if look == "show health" else (0,)):
        raise Wrong(f"{look} ends with status {child.returncode}")
    return 1000 * (used.ru_utime + used.ru_stime), text


def what_is_wrong(name, look, text):
    """What a look prints that it should not, or None."""
    lines = text.splitlines()
    view = look.removeprefix("show ")
    if view in shown.HEADS and lines[:1] != [",".join(shown.HEADS[view])]:
        return f"it begins with {lines[:1]}"
    if view == "capacity" and not all(map(str.startswith, lines[1:], CAPACITY[name])):
        return f"it is {lines[1:]}"
    return None


def written(folder, program):
    """The file of each store."""
    paths = {}
    for name, sequel in sequels(program).items():
        paths[name] = os.path.join(folder, name)
        with open(paths[name], "wb") as file:
            file.write(sequel)
    return paths


def print_table(given, folder):
    paths = written(folder, given.program)
    print(f"{given.rounds} rounds; milliseconds of processor time\n")
    print_head(["Table", *paths])
    for look in LOOKS:
        cells = []
        for path in paths.values():
            spent = [run(given.program, look, path, LIMIT)[0] for _ in range(given.rounds)]
            cells.append(f"{statistics.median(spent):,.0f}")
        print_row([f"`{look}`", *cells])


def check(given, folder):
    count = Count()
    for name, path in written(folder, given.program).items():
        for look in LOOKS:
            try:
                told = what_is_wrong(name, look, run(given.program, look, path, BOUND)[1])
            except Wrong as what:
                told = what
            count.check(f"{name}: {look}: {told}", told is None)
    for words in ("--rounds 0", "--no", "/nowhere"):
        count.check(f"{words} is refused", status_of(os.path.join(common.HERE, "show"), words.split()) == 2)
    return count.report()


def main(words):
    given = options(words)
    with tempfile.TemporaryDirectory(prefix="lrcman-show-") as folder:
        if given.check:
            return check(given, folder)
        try:
            print_table(given, folder)
        except Wrong as what:
            print(f"wrong: {what}")
            return 1
    return 0


if __name__ == "__main__":
    sys.exit(main(sys.argv[1:]))
