"""Measures looks without the lock beside calls: what a look takes while another session calls, and what looks cost the calls.

Usage: bench/looks [OPTION].. [PROGRAM]      by default the program that `rt run` has built in crates/probes
       bench/looks --self-test [PROGRAM]     checks the program and this script; the last line is 'N passed, M failed'

The program places and drops one stripe by one session, while each other session looks at its level, each on a thread of
its own and in cache lines of its own. Before that it makes the same calls of a book alone, which nobody can look at.
`more` is what a call of the session takes more than those, in the same run. With no reader that is the publication's own
cost.

Each round runs the program for each number of readers three times: with calls that go on longer than the looks, where
looks are timed; with looks that go on longer than the calls, where calls are timed; and with no call at all. A run in
which a timed session was alone for more than a tenth of its time is made again; the last line counts them, since the
slowest are likelier to be.

A table reports medians over the rounds, in nanoseconds: `thread` is the processor time of the thread that looks or calls,
with what it spends on trying again while it waits; `wall` is wall time, in which it may also have slept, or waited for a
processor. Of the readers of one run, `look` is the median and `slowest` the slowest.

  --readers N     this number of readers, 0 to 7; may be given several times (0, 1, 2 and 4)
  --calls N       calls of a run, 1000 to 1000000 (100000)
  --rounds N      turns, 1 to 1000 (15)
  --quick         20000 calls, one round, where no option says otherwise"""
import os
import statistics
import subprocess
import sys
from collections import namedtuple

from bench import common
from bench.common import Wrong, number, print_head, print_row, status_of
from tests.harness import Count

PROGRAM = os.path.join(common.TOP, "crates/probes/out/probes")
USUAL = {"calls": 100000, "rounds": 15}
QUICK = {"calls": 20000, "rounds": 1}
MOST_CALLS = 1000000
LIMIT = 300  # seconds that a run may take
COVERED = 0.9  # of the time of a timed session
LOOKS_A_CALL = 100  # in a run, at first; a hundred looks take about as long as a call
TRIES = 30
HELD = 1.02  # wall time over processor time of a reader that kept its processor

# What one thread did: how often, and nanoseconds from the start of the program.
Done = namedtuple("Done", "count begun ended processor whole")
Row = namedtuple("Row", "look slowest look_wall slowest_wall alone call more call_wall more_wall book book_wall held")


def options(words):
    parser = common.parser_of("bench/looks [OPTION].. [PROGRAM]", ("--self-test",))
    parser.add_argument("program", nargs="?", default=PROGRAM, metavar="PROGRAM")
    parser.add_argument("--readers", action="append", type=number(0, 7))
    parser.add_argument("--calls", type=number(1000, MOST_CALLS))
    parser.add_argument("--rounds", type=number(1, 1000))
    given = common.parsed(parser, words, __doc__, USUAL, QUICK)
    given.readers = given.readers or [0, 1, 2, 4]
    given.program = common.expect_program(parser, given.program)
    return given


# Runs.


def run_once(program, readers, looks, calls):
    """Returns what the book alone, the session that calls and each reader did."""
    words = [program, "looks", str(readers), str(looks), str(calls)]
    ended = subprocess.run(words, capture_output=True, text=True, timeout=LIMIT)
    wanted = [f"book calls {calls}", f"session 1 calls {calls}"]
    wanted += [f"session {n} looks {looks}" for n in range(2, readers + 2)] + [f"entries {calls}"]
    if ended.returncode != 0 or ended.stdout.splitlines() != wanted:
        raise Wrong(f"{' '.join(words)} ends with status {ended.returncode} and prints {ended.stdout!r} {ended.stderr!r}")
    lines = [line.split() for line in ended.stderr.splitlines()]
    book, caller, *lookers = [Done(n, *map(int, line[-7::2])) for n, line in zip([calls, calls] + [looks] * readers, lines)]
    return book, caller, lookers


def covered(one, other):
    """The part of the time of one thread in which the other was at work too."""
    return (min(one.ended, other.ended) - max(one.begun, other.begun)) / max(one.ended - one.begun, 1)


def thread(done):
    return done.processor / done.count


def wall(done):
    return (done.ended - done.begun) / done.count


class Runs:
    """The runs with a number of readers. The timed sessions always do as much; the others twice as much after a run in which
    that was too little, and then less again."""

    def __init__(self, program, readers, calls):
        self.program, self.readers, self.calls = program, readers, calls
        self.looks = LOOKS_A_CALL * calls
        self.more_calls, self.more_looks = 1, 1
        self.made = self.again = 0

    def timed_looks(self):
        """What the readers did while the other session called all the time."""
        for _ in range(TRIES):
            calls = min(MOST_CALLS, int(self.more_calls * self.calls))
            _, caller, lookers = run_once(self.program, self.readers, self.looks, calls)
            is_covered = all(covered(one, caller) >= COVERED for one in lookers)
            self.more_calls = self.next(self.more_calls, is_covered)
            if is_covered:
                return lookers
        raise Wrong(f"{self.readers} readers: no call beside looks in {TRIES} runs")

    def timed_calls(self):
        """What the book alone, the session that calls, and the readers did that looked all the time."""
        for _ in range(TRIES):
            looks = int(self.more_looks * self.looks)
            book, caller, lookers = run_once(self.program, self.readers, looks, self.calls)
            is_covered = all(covered(caller, one) >= COVERED for one in lookers)
            self.more_looks = self.next(self.more_looks, is_covered)
            if is_covered:
                return book, caller, lookers
        raise Wrong(f"{self.readers} readers: no look beside calls in {TRIES} runs")

    def next(self, more, is_covered):
        """How much more than at first the others are to do in the next run."""
        self.made += 1
        self.again += not is_covered
        return max(1, more * 0.9) if is_covered else more * 2

    def timed_alone(self):
        """What the readers did where nobody called."""
        return run_once(self.program, self.readers, self.looks, 0)[2]

    def round(self):
        """What a look takes beside calls and where nobody calls; what a call takes; and what the book alone."""
        lookers, alone = (self.timed_looks(), self.timed_alone()) if self.readers else ([], [])
        book, caller, beside = self.timed_calls()
        calls = [of for clock in (thread, wall) for of in (clock(caller), clock(caller) - clock(book))]
        held = max((wall(one) / thread(one) for one in beside), default=None)
        return Row(*of_readers(lookers), of_readers(alone)[0], *calls, thread(book), wall(book), held)


def of_readers(lookers):
    """The median and the slowest look, by both clocks."""
    picks = statistics.median, max
    return [pick(list(map(clock, lookers))) if lookers else None for clock in (thread, wall) for pick in picks]


def medians(rows):
    return [statistics.median(column) if None not in column else None for column in zip(*rows)]


# The table.


def print_numbers(name, cells):
    print_row([name, *("-" if cell is None else f"{cell:,.1f}" if i < 5 else f"{cell:,.0f}" for i, cell in enumerate(cells))])


def print_table(given):
    every = {readers: Runs(given.program, readers, given.calls) for readers in dict.fromkeys(given.readers)}
    rounds = {readers: [] for readers in every}
    for _ in range(given.rounds):
        for readers, runs in every.items():
            rounds[readers].append(runs.round())
    rows = {readers: Row(*medians(of_number)) for readers, of_number in rounds.items()}
    book = medians([(row.book, row.book_wall) for of_number in rounds.values() for row in of_number])
    print(f"{given.calls} calls, {given.rounds} rounds; nanoseconds\n")
    print_head(["readers", "look, thread", "slowest", "look, wall", "slowest", "nobody calls", "call, thread", "more",
                "call, wall", "more"])
    print_numbers("a book alone", [*[None] * 5, book[0], None, book[1], None])
    for readers, row in rows.items():
        print_numbers(readers, row[:9])
    print()
    for readers in rows:
        if readers:
            print_bounds(readers, rows)
            free = [row.more_wall for row in rounds[readers] if row.held <= HELD]
            told = f": there the `more` of a call is {statistics.median(free):,.0f} by the wall" if free else ""
            print(f"{readers} readers: in {len(free)} of {given.rounds} runs none was without its processor{told}")
    made, again = (sum(getattr(runs, name) for runs in every.values()) for name in ("made", "again"))
    print(f"{again} of {made} runs were made again")


def print_bounds(readers, rows):
    """The slowest reader beside the single one, and what readers cost the calls beside what the publication does."""
    row, single, none = rows[readers], rows.get(1), rows.get(0)
    for clock, end in (("thread", ""), ("wall", "_wall")):
        name = f"{readers} readers, {clock}"
        if single:
            times = getattr(row, f"slowest{end}") / getattr(single, f"look{end}")
            bound = "not within" if times > 2 else "within"
            print(f"{name}: the slowest look takes {times:.2f} times the single one's: {bound} twice")
        if none:
            published = getattr(none, f"more{end}")
            extra = getattr(row, f"more{end}") - published
            bound = "not within" if extra > published else "within"
            print(f"{name}: a call takes {extra:,.0f} more than with none: {bound} the publication's {published:,.0f}")


# The test of this script and of the program.


def test_runs(count, program):
    for readers, looks, calls in ((0, 5, 7), (1, 1, 0), (2, 0, 1), (7, 1000, 100)):
        try:
            _, caller, lookers = run_once(program, readers, looks, calls)
        except Wrong as what:
            count.check(what, False)
            continue
        count.check(f"{readers} readers end after they began", all(one.begun <= one.ended for one in (caller, *lookers)))
        count.check(f"{readers} readers see no more than they look", all(one.whole <= looks for one in lookers))


def test_options(count, program):
    for words in ("", "1 1", "1 1 1 1", "8 1 1", "1 1 1000001", "x 1 1", "1 -1 1", "1 1 1.0"):
        ended = subprocess.run([program, "looks", *words.split()], capture_output=True)
        count.check(f"`probes looks {words}` is refused", ended.returncode == 2)
    for words in ("--readers 8", "--calls 999", "--rounds 0", "--no", "/nowhere"):
        count.check(f"{words} is refused", status_of(os.path.join(common.HERE, "looks"), words.split()) == 2)


def test_figures(count):
    one, other = Done(1, 0, 100, 1, 0), Done(1, 40, 90, 1, 0)
    count.check("half of a time is covered", (covered(one, other), covered(other, one)) == (0.5, 1))
    count.check("medians", medians([[1, None], [5, None], [2, None]]) == [2, None])
    count.check("the slowest reader", of_readers([other, one]) == [1, 1, 75, 100])


def self_test(program):
    count = Count()
    test_runs(count, program)
    test_options(count, program)
    test_figures(count)
    return count.report()


def main(words):
    given = options(words)
    if given.self_test:
        return self_test(given.program)
    try:
        print_table(given)
    except Wrong as what:
        print(f"wrong: {what}")
        return 1
    return 0


if __name__ == "__main__":
    sys.exit(main(sys.argv[1:]))
