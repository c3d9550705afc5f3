"""Instructions a line of each kind of load, which valgrind counts, and bench/budget, the table of what they may be."""
import os
import re
import shutil
import subprocess
from collections import namedtuple
from functools import cache

from bench import loads
from bench.bundles import Bundle, check_output
from bench.common import HERE, Wrong, print_head, print_row
from tests.model.rules import MOST_BYTES

TABLE = os.path.join(HERE, "budget")
SIZES = [(32, 256), (512, 4096)]
SEED = 1
PERCENT = 5  # that a load may take more or less, where its row has no other number
# The lines after those that fill the store, on each size. Of `ticks` there are as many as end leases; dear ones are fewer.
LINES = {"ticks": (6000, 54000), **dict.fromkeys(["wakes", "upgrades_down", "upgrades_work", "mixed_hurt"], (2000, 2000))}
LINES.update({kind: (2000, 600 if kind.startswith("mixed") else 2000) for kind in loads.KINDS if "-" in kind})
USUAL_LINES = (6000, 6000)
# (threads take turns, or the counts of several scripts would differ more from run to run)
# The C library copies memory by what the processor has; so that the counts are those of any, it takes its plainest way.
LEFT_OUT = ["AVX512F", "AVX512VL", "AVX512BW", "AVX2", "AVX", "BMI2", "ERMS", "FSRM", "RTM"]
PLAINEST = ",".join(["Fast_Unaligned_Copy", *(f"-{it}" for it in LEFT_OUT)])
COUNTING = ["valgrind", "--tool=callgrind", "--callgrind-out-file=/dev/null", "--fair-sched=yes"]
HEAD = """\
# Instructions a line of each kind of load of bench/run: on 32 nodes with 256 stripes, and on 512 with 4,096; then how many
# percent more are too many, and why, where that is not 5. `bench/run --budget` counts and compares. `bench/run --budget
# --write` writes the counts, and leaves the percents and reasons as they are.
#
# Valgrind's callgrind counts. What a run takes that fills the store, and does nothing else, is subtracted: the start of the
# program, the topology, and the first places. The figures of `place` are of such a run, with all that counted in. The C
# library copies memory in its plainest way, whatever the processor has.
#
# load         32 nodes 512 nodes   %  why
"""

# The instructions a line on each size; how many percent more or less are too many; and why it is so many.
Row = namedtuple("Row", "counts percent why")


def rows_of(text):
    """The rows of a table, by their kinds."""
    rows = {}
    for line in text.splitlines():
        if line and not line.startswith("#"):
            kind, *words = line.split(maxsplit=len(SIZES) + 2)
            *counts, percent = map(int, words[:len(SIZES) + 1])
            rows[kind] = Row(counts, percent, "".join(words[len(SIZES) + 1:]))
    return rows


def text_of(rows):
    lines = [f"{kind:16}" + "".join(f"{count:9}" for count in row.counts) + f"{row.percent:4}  {row.why}".rstrip() + "\n"
             for kind, row in rows.items()]
    return HEAD + "".join(lines)


def read_table():
    if not os.path.exists(TABLE):
        return {}
    with open(TABLE) as file:
        return rows_of(file.read())


def write_table(counted):
    """Writes what was counted, by its kind, and keeps the rest of the table."""
    old = read_table()
    rows = {}
    for kind in loads.KINDS:
        row = old.get(kind, Row(None, PERCENT, ""))
        if kind in counted or row.counts:
            rows[kind] = row._replace(counts=counted.get(kind, row.counts))
    with open(TABLE, "w") as file:
        file.write(text_of(rows))


# Counting.


def instructions(program, text, output):
    """The instructions of a run on a bundle, of which the output goes to a file."""
    with open(output, "wb") as to:
        how = {"input": text.encode(), "stdout": to, "stderr": subprocess.PIPE}
        env = {**os.environ, "GLIBC_TUNABLES": f"glibc.cpu.hwcaps={PLAINEST}"}
        ended = subprocess.run([*COUNTING, program, "run"], env=env, **how)
    found = re.search(rb"^==[0-9]+== Collected : ([0-9]+)$", ended.stderr, re.MULTILINE)
    if ended.returncode != 0 or not found:
        raise Wrong(f"status {ended.returncode}, {ended.stderr.decode(errors='replace')[-300:]}")
    return int(found[1])


def in_functions(names, words):
    """The instructions within the functions of these names, and what they call, for each of the calls that the program prints."""
    env = {**os.environ, "GLIBC_TUNABLES": f"glibc.cpu.hwcaps={PLAINEST}"}
    ended = subprocess.run([*COUNTING, f"--toggle-collect={names}", *words], env=env, capture_output=True)
    found = re.search(rb"^==[0-9]+== Collected : ([0-9]+)$", ended.stderr, re.MULTILINE)
    if ended.returncode != 0 or not found or found[1] == b"0":
        raise Wrong(f"status {ended.returncode}, {ended.stderr.decode(errors='replace')[-300:]}")
    return int(found[1]) / int(ended.stdout)


class Counter:
    """Counts the instructions of a program, of each filling of a store once."""

    def __init__(self, program, folder):
        self.program, self.folder, self.output = program, folder, os.path.join(folder, "output")
        self.of_filling = cache(self.of_text)

    def of_text(self, text):
        return instructions(self.program, text, self.output)

    def a_line(self, kind, size, lines):
        """The instructions a line of a load, of which the output has to be right."""
        load = loads.make(kind, *size, SEED, MOST_BYTES, lines)
        # (a load that fills nothing first has the start of the program in its lines)
        filling = self.of_filling(load.filling()) if load.more_lines() < load.lines() else 0
        whole = self.of_text(load.text())
        check_output(Bundle(kind, None, load, load.lines()), self.output, is_judged=False)
        return round((whole - filling) / load.more_lines())


# The verdict.


def compare(kind, counts, row):
    """What is wrong with the counts of a load beside its row, and what is to be told of them, each as lines."""
    if row is None:
        return [f"{kind} has no row in bench/budget"], []
    wrong, told = [], []
    for (nodes, _), count, budget in zip(SIZES, counts, row.counts):
        more = 100 * (count - budget) / budget
        line = f"{kind} on {nodes} nodes takes {count} instructions a line, {abs(more):.1f} percent"
        if more > row.percent:
            wrong.append(f"{line} more than the {budget} of bench/budget")
        elif more < -row.percent:
            told.append(f"{line} less than the {budget} of bench/budget: write it anew")
    return wrong, told


def hold(given, folder, count):
    """Counts the instructions of each kind, and compares them with the table, or writes it."""
    if not shutil.which(COUNTING[0]):
        print("there is no valgrind: no instruction is counted")
        return
    rows, counter, counted = read_table(), Counter(given.programs[0], folder), {}
    kinds = given.only or list(loads.KINDS)
    print_head(["load", *(f"{nodes} x {stripes}" for nodes, stripes in SIZES), "last to first", *["budget"] * len(SIZES)])
    for kind in kinds:
        try:
            counts = counted[kind] = [counter.a_line(kind, *sizes) for sizes in zip(SIZES, LINES.get(kind, USUAL_LINES))]
        except Wrong as wrong:
            count.check(f"{kind}: {wrong}", False)
            continue
        row = rows.get(kind)
        print_row([kind, *counts, f"{counts[-1] / counts[0]:.2f}", *(row.counts if row else ["-"] * len(SIZES))])
        if not given.write:
            wrong, told = compare(kind, counts, row)
            count.add(len(SIZES) - len(wrong), wrong)
            for line in told:
                print(f"less: {line}")
    if given.write:
        write_table(counted)
    else:
        count.check(f"bench/budget has rows of {set(rows) - set(loads.KINDS)}", set(rows) <= set(loads.KINDS))
