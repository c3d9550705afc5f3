"""Runs the program with each request for memory refused in turn, and with each read and write failed or cut short.

Usage: tests/program/sweep [--quick] [PROGRAM], by default the program that `rt ci` or `rt run` has built in crates/lrcman.

With --quick it takes the first command line of each word, and where each call moves one byte, each 20th call.

Right is, and nothing else:
- a request for memory refused, alone or with all that follow: fault 1 with nothing written, or all as with ample memory;
- all requests refused: fault 1;
- a read that fails, for whatever reason: fault 3 with nothing written;
- a write that fails or takes no byte: fault 4, with what was taken before it, which is a beginning of the output;
- the same where it is a refusal that standard error does not take;
- a warning, the line of a fault, or the usage that standard error does not take: the status and standard output stay;
- reads and writes of one byte, all of them or one: all as with whole ones.
The status, standard output and standard error of each case are compared.

To start the program anew for each case takes long. So tests/program/calls.c lets it run once and forks it at each call, once for
each case of that call. A process with threads can't be forked: cases that were not tried so are run alone. Where all were,
some are run alone too, and have to end as the forked ones. The last line is 'N passed, M failed'."""
import errno
import os
import subprocess
import sys
import tempfile
from concurrent.futures import ThreadPoolExecutor

from tests import harness
from tests.harness import example
from tests.model.rules import MOST_BYTES
from tests.model.shown import VIEWS

STREAMS = ["INPUT", "OUTPUT", "ERRORS"]
KINDS = ["MEMORY", *STREAMS]
COUNTED = "requests for memory", "reads", "writes", "writes to standard error"
OPENED = {"given": "rb", "output": "w+b", "errors": "w+b"}
ERRORS = (errno.EIO, errno.EINTR)
GATHERED = 1024  # bytes of standard error: std writes longer texts in parts
# What makes each fault that a call on a run's way can meet, in the order of the counts.
FAULTS = {"REFUSE_FROM": "1"}, {"FAIL_INPUT": f"1:{errno.EIO}"}, {"FAIL_OUTPUT": f"1:{errno.EIO}"}
MOST_SEQUEL_BYTES = 8_388_608
SMALL = 10_000  # the most bytes of an input that is also read byte by byte
AGAIN = 499  # of so many forked cases one is run alone too


def sweeps():
    """Yields each command line that is swept, with its standard input."""
    stripe, bad_line = example("place_one_stripe"), example("refused/line_cause_4_stripe_4096")
    for name in ("drop_and_place_again", "failed_node_joins", "node_down_and_up", "refused_commands"):
        yield "run", example(name)
    for name in ("late_worker", "kinds_of_repair", "refused_leases", "every_reply", "lease_ends", "two_terms"):
        yield "run", example(name)
    # (both codes: places, repairs from three fragments and from the whole stripe, and a drop between)
    for name in ("narrow_on_six_upgrade_domains", "narrow_stripe_placed_anew", "rules/narrow_kinds_of_repair"):
        yield "run", example(name)
    # (scripts on threads, of which one alone has commands, so that there is one output)
    yield "run", example("late_worker") + b"%%\n# a script without commands\n%%\n"
    yield "run", example("refused/topology_5_number_twice")
    yield "run", bad_line
    yield "run", stripe + b"# a comment\n" * 20_000
    yield "run", b"#" * (MOST_BYTES + 1)
    yield "check", stripe
    yield "check", bad_line
    yield "check", example("six_upgrade_domains")  # (its warning goes to standard error)
    nine = harness.topology_of(harness.nodes_in_order(9, 4)).encode()
    yield "check", nine  # (and so do two)
    yield "check", nine + b"%%\nplace 1\nfail 1"  # (and a third, of the last line)
    yield "check", sequel("goes_on")
    yield "check", sequel("goes_on")[:-1]
    yield "check", sequel("goes_on").replace(b"\nend\n", b"\n")
    yield "check", sequel("goes_on").replace(b"17:0 3", b"17:4 3")
    yield "check", sequel("goes_on") + b"place\n"
    yield "check", b"#" * (MOST_SEQUEL_BYTES + 1)
    for word in ("image", "resume"):
        for name in ("goes_on", "taken_over", "without_an_image", "nodes_change"):
            yield word, sequel(name)
        yield word, sequel("goes_on").replace(b"\nend\n", b"\n")
        yield word, sequel("goes_on").replace(b"17:0 3", b"17:4 3")
        yield word, sequel("goes_on") + b"place\n"
        yield word, example("several/two_idle_scripts")
        yield word, b"#" * (MOST_SEQUEL_BYTES + 1)
    for view in VIEWS:
        yield f"show {view}", sequel("goes_on")
    yield "show work", example("every_reply")
    yield "show status", bad_line  # (its line goes to standard error, and so do those of the next)
    yield "show nodes", sequel("goes_on").replace(b"17:0 3", b"17:4 3")
    for names in ("3 5 3", "fault 3", "upgrade 3"):
        yield f"may-stop {names}", sequel("goes_on")
    yield "may-stop 2 3", example("outages_one_by_one")
    yield "may-stop upgrade 255", sequel("goes_on")
    yield "may-lose 0 1 2 3", example("every_reply")
    yield "may-lose 3 99", sequel("goes_on")
    yield "recover 0047", b""
    yield "recover 47", b""
    yield "recover6 0047", b""
    yield "recover6 000f", b""
    yield "recover6 0400", b""
    yield "recipe 0003 0", b""
    yield "recipe 0003 2", b""  # (its line goes to standard error, and so do those of the next)
    yield "recipe 47 0", b""
    yield "recipe6 0080 7", b""
    yield "recipe6 000f 16", b""
    yield "recipe6 0047 0", b""
    yield "matrix", b""
    yield "matrix6", b""
    yield "help", b""


def sequel(name):
    """A sequel among the examples."""
    return harness.read(f"{harness.EXAMPLES}/sequels/{name}.sequel")


def first_of_each_word(sweeps):
    """The first command line of each word."""
    words = set()
    for line, given in sweeps:
        word = line.split()[0]
        if word not in words:
            words.add(word)
            yield line, given


def fault(number, written=b"", told=b""):
    """A run that a fault has ended, with what was written to each of the two outputs before."""
    return 3, written, told + b"lrcman: fault %d\n" % number


def untold(words, usual, taken, error):
    """What may come of a run that usually ends so, where a write to standard error fails after these bytes."""
    status, output, told = usual
    if status == 3 or b"\nusage:" in told:
        # (std may try again to write a line that was interrupted)
        return [(status, output, taken)] + [usual] * (error == errno.EINTR)
    if words == "check":
        return [(status, output, taken)]
    return [fault(4, b"", taken)]


def failing(words, stream, usual, taken, error):
    """What may come of a run where a call on a stream fails, after these bytes were taken of what is written there."""
    if stream == "INPUT":
        return [fault(3)]
    if stream == "OUTPUT":
        return [fault(4, usual[1][:taken])]
    return untold(words, usual, usual[2][:taken], error)


def cases(words, base, usual, counts):
    """Yields each case of a run that usually ends so and makes so many calls, with what may come of it."""
    is_short, each = "SHORT" in base, int(base.get("EACH", 1))
    requests, *calls = counts
    for nth in range(1, requests + 1, each):
        yield f"REFUSE={nth}", [usual, fault(1)]
        yield f"REFUSE_FROM={nth}", [usual, fault(1)] if nth > 1 else [fault(1)]
    for stream, count in zip(STREAMS, calls):
        for nth in range(1, count + 1, each):
            # (a write takes all bytes that std has gathered, or else one)
            taken = nth - 1 if is_short else GATHERED * (nth - 1)
            for error in ERRORS if stream == "INPUT" else (0, *ERRORS):
                yield f"FAIL_{stream}={nth}:{error}", failing(words, stream, usual, taken, error)
            if not is_short:
                yield f"SHORT_{stream}={nth}", [usual]


class Sweep:
    """A command line and its standard input, to be run with calls refused, failed or cut short."""

    def __init__(self, program, shim, room, short, words, given):
        self.program, self.shim, self.room, self.short, self.words = program, shim, room, short, words
        self.is_small = len(given) <= SMALL
        self.count, self.alone, self.wrong = 0, 0, []
        os.mkdir(room)
        with open(f"{room}/given", "wb") as it:
            it.write(given)

    def run(self, asked, seconds=60):
        """Returns the status, standard output and standard error of a run that is asked for with these variables."""
        given, output, errors = (open(f"{self.room}/{name}", mode) for name, mode in OPENED.items())
        with given, output, errors:
            how = {"stdin": given, "stdout": output, "stderr": errors, "timeout": seconds}
            try:
                words = [self.program, *self.words.split()]
                status = subprocess.run(words, env={"LD_PRELOAD": self.shim, **asked}, **how).returncode
            except subprocess.TimeoutExpired:
                status = f"no end in {seconds} seconds"
            output.seek(0)
            errors.seek(0)
            return status, output.read(), errors.read()

    def counted(self, base):
        """Returns what a run gave, and how many requests for memory, reads, and writes to each output it made."""
        file = f"{self.room}/counts"
        if os.path.exists(file):
            os.remove(file)
        ran = self.run({**base, "COUNTS": file})
        if not os.path.exists(file):
            harness.stop(f"lrcman {self.words} ends without counts: {ran}")
        with open(file) as it:
            return ran, [int(count) for count in it.read().split()]

    def forked(self, base, kinds):
        """Returns what a run gave that was forked at each call of these kinds, and what came of each case."""
        file, came = f"{self.room}/cases", {}
        ran = self.run({**base, "CASES": file, "KINDS": " ".join(kinds)}, 3600)
        with open(file, "rb") as it:
            for line in it:
                status, output, errors, case = line.split()
                came[case.decode()] = int(status), it.read(int(output)), it.read(int(errors))
        return ran, came

    def run_alone(self, base, case):
        self.alone += 1
        return self.run({**base, **dict([case.split("=")])})

    def judge(self, base, case, got, wanted):
        """Counts a case, and keeps a line that tells what is wrong with it."""
        self.count += 1
        if got not in wanted:
            how = " ".join([*(f"{name}={value}" for name, value in base.items()), case])
            self.wrong.append(f"{how} lrcman {self.words}: {got[0]}, {got[1][:60]!r}, {got[2][:60]!r}")

    def judge_all(self, base, kinds):
        """Judges each case of these kinds, in runs that have this base."""
        usual, counts = self.counted(base)
        ran, came = self.forked(base, kinds)
        self.judge(base, "forked", ran, [usual])
        counts = [count if kind in kinds else 0 for kind, count in zip(KINDS, counts)]
        wanted = dict(cases(self.words, base, usual, counts))
        if untried := [case for case in wanted if case not in came]:
            came.update((case, self.run_alone(base, case)) for case in untried)
        else:
            for case in list(wanted)[::AGAIN]:
                self.judge(base, f"{case} alone", self.run_alone(base, case), [came[case]])
        for case, allowed in wanted.items():
            self.judge(base, case, came[case], allowed)
        for case in came.keys() - wanted.keys():
            self.judge(base, f"{case}, which is no case,", came[case], [])

    def sweep(self):
        """Judges all cases, and returns a line that tells how many calls there are."""
        ample, counts = self.counted({})
        self.judge({}, "LD_PRELOAD=", self.run({"LD_PRELOAD": ""}), [ample])
        self.judge_all({}, KINDS)
        if self.is_small:
            ran, calls = self.counted(self.short)
            self.judge(self.short, "", ran, [ample])
            self.judge(self.short, f"writes {calls[2:]}", ran, [ran] if calls[2:] == [len(it) for it in ran[1:]] else [])
            self.judge_all(self.short, STREAMS)
        # The line of each fault that a call can meet.
        for count, base in zip(counts, FAULTS):
            if count:
                self.judge_all(base, ["ERRORS"])
                if self.is_small:
                    self.judge_all({**self.short, **base}, ["ERRORS"])
        calls = ", ".join(f"{count} {name}" for count, name in zip(counts, COUNTED))
        return f"lrcman {self.words}: {calls}; {self.count} cases, {self.alone} run alone"


def main(words):
    is_quick = "--quick" in words
    program, count = harness.program_of([it for it in words if it != "--quick"]), harness.Count()
    lines = first_of_each_word(sweeps()) if is_quick else sweeps()
    short = {"SHORT": "1", "EACH": "20"} if is_quick else {"SHORT": "1"}
    with tempfile.TemporaryDirectory(prefix="lrcman-sweep-") as room, ThreadPoolExecutor(2 * os.cpu_count()) as pool:
        shim = harness.compiled_shim(room)
        lines = [Sweep(program, shim, f"{room}/{i}", short, *line) for i, line in enumerate(lines)]
        for it, told in zip(lines, pool.map(Sweep.sweep, lines)):
            print(told, flush=True)
            count.add(it.count - len(it.wrong), it.wrong)
    return count.report()


if __name__ == "__main__":
    sys.exit(main(sys.argv[1:]))
