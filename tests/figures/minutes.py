"""Runs a command and tells where its minutes went.

Usage: tests/figures/minutes TABLE NAME COMMAND..    runs the command, and adds lines of CSV to the file TABLE
       tests/figures/minutes TABLE                   prints the table, beside that of the last landing: tests/figures/minutes.csv
       tests/figures/minutes --keep                  makes the whole run that was printed last the table of a landing

A line has a name, when it began and ended, and seconds of processors. A check of crates runs many provers side by side, so it has a
line for each kind of work too: proofs, tests, and edits, which are wrong bodies and the proofs that they begin from. These
are sampled each second from what the system tells of the processes, so they are short of some seconds; the rest is what is
built and run. The wall of a kind is the time in which some process did such work.

At its end stand minutes by kind, and each part that costs a fifth more than at the last landing: on a machine of this pace, which
is the middle of the ratios of all parts. That fails nothing."""
import collections
import csv
import os
import resource
import statistics
import subprocess
import sys
import threading
import time

from tests import harness

TICKS = os.sysconf("SC_CLK_TCK")
LANDED = f"{harness.TESTS}/figures/minutes.csv"
PRINTED = f"{harness.TESTS}/figures/out/minutes.csv"
FEWEST, SHORT = 3, 20  # ratios that make a pace; seconds below which a part tells nothing
KINDS = {"proofs": "  proofs", "tests": "  tests that are proved", "edits": "  wrong bodies"}


def kind_of(pid):
    """The kind of work of a process that runs the prover, or None."""
    with open(f"/proc/{pid}/cmdline", "rb") as file:
        words = file.read().split(b"\0")
    if os.path.basename(words[0]) != b"rattle" or words[1:2] not in ([b"check"], [b"build"]):
        return None
    if "/rt-edit-" in os.readlink(f"/proc/{pid}/cwd"):
        return "edits"
    return "tests" if b"--test" in words else "proofs"


def seconds_of(pid):
    """The parent of a process, and the seconds of a processor that it has taken."""
    with open(f"/proc/{pid}/stat", encoding="utf-8", errors="replace") as file:
        fields = file.read().rpartition(")")[2].split()
    return fields[1], (int(fields[11]) + int(fields[12])) / TICKS


class Sampler(threading.Thread):
    """Sums the processor seconds of the processes below this one, by the kind of their work."""

    def __init__(self):
        super().__init__(daemon=True)
        self.ended = threading.Event()
        self.taken, self.wall = {}, collections.Counter()

    def run(self):
        while not self.ended.wait(1):
            self.sample()

    def sample(self):
        parents, found = {}, {}
        for pid in filter(str.isdigit, os.listdir("/proc")):
            try:
                parents[pid], seconds = seconds_of(pid)
                kind = kind_of(pid)
            except (OSError, IndexError):
                continue
            if kind:
                found[pid] = kind, seconds
        own = {pid: it for pid, it in found.items() if self.is_below(pid, parents)}
        self.taken.update(own)
        self.wall.update({kind for kind, _ in own.values()})

    @staticmethod
    def is_below(pid, parents):
        while pid in parents:
            pid = parents[pid]
            if pid == str(os.getpid()):
                return True
        return False

    def rows(self):
        for kind, name in KINDS.items():
            seconds = sum(seconds for it, seconds in self.taken.values() if it == kind)
            if seconds:
                yield name, self.wall[kind], seconds


def run(table, name, command):
    sampler, begun = Sampler(), time.time()
    sampler.start()
    status = subprocess.run(command).returncode
    sampler.ended.set()
    sampler.join()
    used = resource.getrusage(resource.RUSAGE_CHILDREN)
    rows = [(name, begun, time.time(), used.ru_utime + used.ru_stime)]
    rows += [(kind, begun, begun + wall, seconds) for kind, wall, seconds in sampler.rows()]
    with open(table, "a", encoding="utf-8", newline="") as file:
        csv.writer(file).writerows(rows)
    return status if status >= 0 else 128 - status


# What is printed.

Row = collections.namedtuple("Row", "name wall processor")  # in seconds


def is_kind(name):
    """Whether a row is of a kind of work within the part before it."""
    return name.startswith(" ")


def wall_of(spans):
    """The seconds in which one or more of these spans ran."""
    total, until = 0, 0
    for begun, ended in sorted(spans):
        total += max(0, ended - max(begun, until))
        until = max(until, ended)
    return total


def measured(lines):
    """The rows of a table that was measured, and at their end those of all parts but the proofs, and of all."""
    spans = [(name, *map(float, numbers)) for name, *numbers in lines]
    rows = [Row(name, ended - begun, seconds) for name, begun, ended, seconds in spans]
    within = {one.name for one, after in zip(rows, rows[1:]) if is_kind(after.name) and not is_kind(one.name)}
    for name, apart in ("other parts", within), ("all", set()):
        chosen = [it for it in spans if not is_kind(it[0]) and it[0] not in apart]
        if chosen:
            rows.append(Row(name, wall_of((begun, ended) for _, begun, ended, _ in chosen), sum(it[3] for it in chosen)))
    return rows


def rows_in(path):
    """The rows of a landing, by their names."""
    if not os.path.exists(path):
        return {}
    with open(path, encoding="utf-8", newline="") as file:
        return {name: Row(name, float(wall), float(processor)) for name, wall, processor in csv.reader(file)}


def pace_of(rows, landed):
    """How many seconds of this machine are one of the landing's, or none where too few parts tell."""
    pairs = [(it.processor, landed[it.name].processor) for it in rows if it.name in landed and not is_kind(it.name) and it.name != "all"]
    ratios = [now / then for now, then in pairs if min(now, then) >= SHORT]
    return statistics.median(ratios) if len(ratios) >= FEWEST else None


def dearer(rows, landed):
    """The parts and kinds of work that cost a fifth more than at the landing, at the pace of this machine."""
    pace = pace_of(rows, landed) or 1
    for it in rows:
        before = landed.get(it.name)
        more = it.processor - pace * before.processor if before else 0
        if more >= SHORT and more >= pace * before.processor / 5:
            yield f"dearer: {it.name.strip()} took {it.processor / 60:.1f} minutes of processor, and {before.processor / 60:.1f} at the " \
                  f"last landing, {pace * before.processor / 60:.1f} at this pace"


def by_kind(rows, landed):
    """A line of the minutes of each kind of work, or nothing of a run that proved nothing."""
    found = {it.name: it for it in rows}
    if KINDS["proofs"] not in found:
        return ""
    told = []
    for name in [*KINDS.values(), "other parts", "all"]:
        if it := found.get(name):
            before = f" ({landed[name].wall / 60:.0f}, {landed[name].processor / 60:.0f})" if name in landed else ""
            told.append(f"{name.strip()} {it.wall / 60:.0f}, {it.processor / 60:.0f}{before}")
    pace = pace_of(rows, landed)
    return f"wall, processor (at the last landing): {'; '.join(told)}" + (f"; pace {pace:.2f}" if pace else "")


def lines_of(rows, landed):
    """The table as it is printed."""
    yield f"{'minutes':40}{'wall':>8}{'processor':>12}" + (f"{'landed':>10}" if landed else "")
    for it in rows:
        before = f"{landed[it.name].processor / 60:10.1f}" if it.name in landed else ""
        yield f"{it.name:40}{it.wall / 60:8.1f}{it.processor / 60:12.1f}{before}"
    yield from filter(None, [by_kind(rows, landed), *dearer(rows, landed)])


def show(table):
    with open(table, encoding="utf-8", newline="") as file:
        rows = measured(csv.reader(file))
    print(*lines_of(rows, rows_in(LANDED)), sep="\n")
    write(PRINTED, rows)


def write(path, rows):
    os.makedirs(os.path.dirname(path), exist_ok=True)
    with open(path, "w", encoding="utf-8", newline="") as file:
        csv.writer(file, lineterminator="\n").writerows((it.name, round(it.wall), round(it.processor, 1)) for it in rows)


def keep():
    """Makes what was printed last the table of a landing, if it was a whole run."""
    rows = rows_in(PRINTED)
    if KINDS["proofs"] not in rows or "other parts" not in rows:
        print("tests/figures/minutes: no whole run was printed here")
        return 1
    write(LANDED, rows.values())
    return 0


def self_test(count):
    """A small run beside a landing: one part is dearer at the pace of the machine, and one is not."""
    lines = [("proofs", 0, 100, 300), (KINDS["proofs"], 0, 60, 200), (KINDS["edits"], 50, 100, 90), ("a", 100, 160, 60), ("b", 100, 130, 30),
             ("c", 130, 190, 100)]
    rows = measured(lines)
    count.check(f"minutes of parts: {rows[-2:]}", rows[-2:] == [Row("other parts", 90, 190), Row("all", 190, 490)])
    landed = {name: Row(name, 1, seconds) for name, seconds in (("proofs", 150), (KINDS["proofs"], 100), ("a", 30), ("b", 15), ("c", 25))}
    found = list(dearer(rows, landed))
    count.check(f"a pace: {pace_of(rows, landed)}", pace_of(rows, landed) == 2)
    count.check(f"parts that are dearer: {found}", [it.split()[1] for it in found] == ["c"])
    count.check("a pace of two parts", pace_of(rows[:1] + rows[3:4], landed) is None)
    told = by_kind(rows, landed)
    count.check(f"minutes by kind: {told}", "proofs 1, 3 (0, 2)" in told and told.endswith("pace 2.00") and not by_kind(rows[3:], landed))


def main(words):
    if words == ["--keep"]:
        return keep()
    if len(words) == 1:
        show(words[0])
        return 0
    return run(words[0], words[1], words[2:])


if __name__ == "__main__":
    sys.exit(main(sys.argv[1:]))
