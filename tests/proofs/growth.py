"""Refuses each request for memory of one call in turn, call by call, and compares the state before and after it.

Usage: tests/proofs/growth [PROGRAM], by default the program that `rt ci` or `rt run` has built in crates/probes.

The program prints its whole state, makes one call between two marks, prints the result and the state again. Where memory was
refused to the call, it makes it once more. tests/program/calls.c refuses memory between the first two marks alone. Right is only:
- with ample memory: the result that the rules give;
- with a request refused, alone or with all that follow: out of memory, and the state before the call; then, for the same
  call with ample memory, the result and the state as where nothing was refused;
- for a call that takes no memory: no request. For any other call something has to be refused in each case.
The last line is 'N passed, M failed'."""
import os
import re
import subprocess
import sys
import tempfile
from collections import namedtuple
from concurrent.futures import ThreadPoolExecutor

from tests import harness
from tests.model.causes import IMAGE

MARKS = "begin\nend\n"

P1 = "Placed([0:0, 1:0, 2:0, 3:0, 4:0, 5:0, 6:0, 7:0, 8:0, 9:0, 10:0, 11:0, 16:0, 12:0, 13:0, 14:0])"
P2 = "Placed([15:0, 17:0, 18:0, 19:0, 0:1, 1:1, 2:1, 3:1, 4:1, 5:1, 6:1, 7:1, 12:1, 8:1, 9:1, 10:1])"
NARROW = "Placed6([0:0, 1:0, 2:0, 3:0, 4:0, 5:0, 6:0, 7:0, 8:0, 9:0])"
AS_WIDE = "Placed([0:0, 2:0, 3:0, 4:0, 5:0, 6:0, 7:0, 8:0, 9:0, 10:0, 11:0, 12:0, 17:0, 13:0, 14:0, 15:0])"
AGAIN = "Placed([0:0, 1:0, 2:0, 4:0, 5:0, 6:0, 7:0, 8:0, 9:0, 10:0, 11:0, 12:0, 13:0, 14:0, 15:0, 16:0])"


def granted(stripe, fragment, target, epoch, kind="Local([0, 1, 2, 4, 5, 12])", expiry=3):
    lease = f"stripe: {stripe}, fragment: {fragment}, holder: 1, target: {target}, epoch: {epoch}, expiry: {expiry}"
    return f"Granted(Lease {{ {lease} }}, {kind})"


def ticked(clock, ended):
    return f"Ticked {{ clock: {clock}, ended: {ended} }}"


# Scripts of session 1 on twenty nodes with four slots each, with the reply to each command.
SCRIPTS = {
    "a lease": [
        ("place 1", P1), ("fail 3", "Changed"), ("lease 1 3", granted(1, 3, "17:0", 1)),
        ("lease 1 3", "Refused(AlreadyLeased(1))"), ("done 1 3 2", "Refused(Stale)"), ("done 1 3 1", "Ended")],
    "an epoch after a drop": [
        ("place 1", P1), ("fail 3", "Changed"), ("lease 1 3", granted(1, 3, "17:0", 1)), ("drop 1", "Dropped"),
        ("place 1", AGAIN), ("fail 4", "Changed"), ("lease 1 3", granted(1, 3, "17:0", 2)), ("done 1 3 1", "Refused(Stale)"),
        ("done 1 3 2", "Ended")],
    "the order of repair": [
        ("place 1", P1), ("place 2", P2), *((f"fail {node}", "Changed") for node in (17, 18, 19, 11)),
        ("next", granted(2, 1, "13:1", 1, "Global")), ("next", granted(2, 2, "14:1", 1, "Global")),
        ("next", granted(2, 3, "16:1", 1, "Global")), ("next", granted(1, 11, "15:1", 1, "Local([6, 7, 8, 9, 10, 13])")),
        ("next", "Idle")],
    "a node retired": [
        ("place 1", P1), ("drain 0", "Changed"), ("retire 0", "Refused(NotEmpty(1))"),
        ("lease 1 0", granted(1, 0, "17:0", 1, "Move")), ("down 17", "Changed"), ("done 1 0 1", "Refused(TargetOffline(17))"),
        ("up 17", "Changed"), ("done 1 0 1", "Ended"), ("retire 0", "Changed")],
    "a lease that a tick ends": [
        ("place 1", P1), ("fail 3", "Changed"), ("lease 1 3", granted(1, 3, "17:0", 1)), ("tick", ticked(1, 0)),
        ("tick", ticked(2, 0)), ("tick", ticked(3, 1)), ("done 1 3 1", "Refused(Stale)"),
        ("lease 1 3", granted(1, 3, "17:0", 2, expiry=6)), ("tick", ticked(4, 0)), ("done 1 3 2", "Ended")],
    "two leases that two ticks end": [
        ("place 1", P1), ("fail 3", "Changed"), ("fail 4", "Changed"), ("next", granted(1, 3, "17:0", 1, "Global")),
        ("tick", ticked(1, 0)), ("next", granted(1, 4, "18:0", 1, "Global", 4)), ("tick", ticked(2, 0)),
        ("tick", ticked(3, 1)), ("tick", ticked(4, 1))],
    "a narrow stripe that becomes a wide one": [
        ("place6 1", NARROW), ("fail 1", "Changed"), ("lease 1 12", "Refused(NotNeeded)"),
        ("lease 1 1", granted(1, 1, "11:0", 1, "Local3([0, 2, 6])")), ("done 1 12 1", "Refused(Stale)"),
        ("revoke 1 12", "Refused(NoLease)"), ("done 1 1 1", "Ended"), ("drop 1", "Dropped"), ("place 1", AS_WIDE),
        ("fail 2", "Changed"), ("lease 1 1", granted(1, 1, "18:0", 2, "Local([0, 2, 3, 4, 5, 12])"))],
}
# A history that grew entry by entry to this length has no room for one more.
FULL = 16
# Two stripes at risk and an empty command, which readers pass over; and what is printed of stripe 1, node 0 and all stripes
# at risk.
AT_RISK = "place 1\nplace 2\nfail 3\nnext"
LOOKED = "Ok((Some(AtRisk(2)), Some(2)))\n"
RISK = "[(1, AtRisk(2)), (2, AtRisk(2))]"
# The twenty nodes: in the plain form, and in another one.
PLAIN = harness.topology_of(harness.nodes_in_order(20, 4))
INLINE = "node = [" + "".join(f"{{ number = {i}, fault = {i}, upgrade = {i % 10}, slots = 4 }}," for i in range(20)) + "]"
# In place of all that is printed before the call.
BEFORE = "<before>"

# A call, the name of its cases, and what the program reads; a part of what is printed before the call; what is printed after
# it with ample memory, or, where there is an end, its beginning and its end; and the faults of the call, each of which some
# refusal has to show. There is none where the call takes no memory.
DEFAULTS = "", "", "", "Ok(())\n", None, ("Err(OutOfMemory)",)
Case = namedtuple("Case", "call name text before after end faults", defaults=DEFAULTS)


def made(*counts):
    return f"made [{', '.join(f'({number}, {count})' for number, count in enumerate(counts, 1))}]\n"


def receipt(place, reply):
    return f"Receipt {{ place: {place}, reply: {reply} }}"


def ran(first, count, stopped="stopped None"):
    """What is printed of a run that made one batch, if it made a call."""
    batch = f"Batch {{ first: {first}, count: {count} }}\n" if count else ""
    return f"Ok(())\n{batch}{stopped}\n"


def script_cases(name, rows):
    """Yields the cases of each command of a script, after idle ones that leave the history no room."""
    for at, (_, reply) in enumerate(rows):
        idle = FULL - at if at else 0
        place, text = idle + at + 1, "\n".join(["next"] * idle + [command for command, _ in rows[:at + 1]])
        yield Case("Book::call", name, text, "", f"Ok({reply})\n", "")
        yield Case("Book::prepare", name, text, "", f"Ok(())\n{BEFORE}{reply}\n", "")
        yield Case("Keeper::apply", name, text, f"seen {place - 1}\n", f"Ok({receipt(place, reply)})\n", f"seen {place}\n")
        yield Case("Manager::call", name, text, f"fronts {place - 1} 0\n", f"Ok({receipt(place, reply)})\nfronts {place} 0\n",
                   made(place, 0))
        yield Case("Book::decide", name, text, "", "Ok(Entry { session: 1, command: ",
                   f"reply: {reply} }})\n{BEFORE}", ())


def cases():
    for name, rows in SCRIPTS.items():
        yield from script_cases(name, rows)
    yield Case("Topology::read", "the plain form", PLAIN)
    yield Case("Topology::read", "another form", INLINE)
    yield Case("parse_script", "", "drop 1\nnext", after="Ok([Drop(1), Next])\n")
    # (no refusal shows NoReader: a reader takes no memory, and the places of all are taken with the writer)
    yield Case("Book::begin", "", IMAGE)
    for call in ("SlotTable::new", "Stripes::new", "Book::new", "Book::with_limit", "Parts::new", "Parts::with_limit",
                 "Keeper::open", "Manager::open"):
        yield Case(call)
    yield Case("Book::risk", "", AT_RISK, "", f"Ok({RISK})\n{BEFORE}")
    yield Case("Viewer::risk", "", AT_RISK, "seen 0\n", f"Ok(({RISK}, 3))\n", "seen 3\n")
    yield Case("Viewer::level_of", "and load_of", AT_RISK, "seen 0\n", LOOKED, "seen 3\n", ())
    yield Case("Session::risk", "", AT_RISK, "fronts 3 0\n", f"Ok(({RISK}, 3))\nfronts 3 3\n", made(3, 0))
    yield Case("Session::level_of", "and load_of", AT_RISK, "fronts 3 0\n", f"{LOOKED}fronts 3 3\n", made(3, 0), ())
    yield Case("Manager::meet", "", AT_RISK, "fronts 3 0\n", "Ok(())\nfronts 3 3\n", made(3, 0), ())
    yield Case("Manager::finish", "", AT_RISK, "fronts 3 0\n", "Ok(())\nEntry", made(3, 0), ())
    for name, rows in SCRIPTS.items():
        yield Case("run_sessions", name, "\n".join(command for command, _ in rows), "", ran(1, len(rows)), made(len(rows)),
                   ("Err(OutOfMemory)", "stopped Some(Fault(OutOfMemory))"))


def plain(text):
    """What the program prints, with numbers and seats as scripts write them."""
    text = re.sub(r"\w+ { value: (\d+) }", r"\1", text)
    return re.sub(r"Seat { node: (\d+), slot: (\d+) }", r"\1:\2", text)


class Growth:
    """The program, and the object that refuses memory to it."""

    def __init__(self, program, shim, room):
        self.program, self.shim, self.room = program, shim, room

    def run(self, case, **asked):
        """Returns the output of the program, and the number of requests for memory between the marks."""
        with tempfile.NamedTemporaryFile(dir=self.room) as counts:
            environment = {"LD_PRELOAD": self.shim, "MARKED": "1", "COUNTS": counts.name}
            environment.update({name: str(value) for name, value in asked.items()})
            words = [self.program, "growth", case.call, case.text]
            ran = subprocess.run(words, capture_output=True, text=True, timeout=60, env=environment)
            told = counts.read().split()
        if ran.returncode or ran.stderr:
            return f"status {ran.returncode}: {ran.stderr}", 0
        return ran.stdout, int(told[0])

    def judge(self, case):
        """Returns the case, the number of requests, the number of checks that passed, and the lines of the others."""
        ample, requests = self.run(case)
        before, _, after = ample.partition(MARKS)
        first, end = (text and text.replace(BEFORE, plain(before)) for text in (case.after, case.end))
        right = plain(after) == first if end is None else plain(after).startswith(first) and plain(after).endswith(end)
        if case.call == "run_sessions":
            replies = re.findall("^Entry .* reply: (.*) }$", plain(after), re.M)
            right &= replies == [reply for _, reply in SCRIPTS[case.name]]
        wrong = [] if right and case.before in before else [f"with ample memory: {after[:500]!r}"]
        if not case.faults:
            wrong += [f"{requests} requests for memory, and not 0"] if requests else []
            wrong += ["with all memory refused"] if self.run(case, REFUSE_FROM=1) != (ample, 0) else []
            return case, requests, 3 - len(wrong), wrong
        wanted, shown, checks = dict(self.refused(case, before, after)), set(), 1
        for asked in ({way: nth} for nth in range(1, requests + 1) for way in ("REFUSE", "REFUSE_FROM")):
            told, made = self.run(case, **asked)
            # (where one alone is refused, std may ask for it once more, or for less)
            is_asked_again = "REFUSE" in asked and told == ample and made > requests
            wrong += [f"with {asked}: {told[len(before):][:500]!r}"] if told not in wanted and not is_asked_again else []
            shown.add(wanted.get(told))
            checks += 1
        wrong += [f"no refusal has shown {fault}" for fault in case.faults if fault not in shown]
        return case, requests, checks + len(case.faults) - len(wrong), wrong

    def refused(self, case, before, after):
        """Yields what is printed where a request was refused, and the fault that it shows."""
        if case.call != "run_sessions":
            yield from ((f"{before}{MARKS}{fault}\n{before}{MARKS}{after}", fault) for fault in case.faults)
            return
        # (a run that was stopped goes on after the calls that it made, and has then nothing left)
        count, (fault, stopped) = len(SCRIPTS[case.name]), case.faults
        whole, nothing = ran(1, count), ran(1, 0)
        ended = after.partition(f"{MARKS}{nothing}")[2]
        yield f"{MARKS}{fault}\nfront 0\n{MARKS}{whole}{ended}", fault
        for few in range(count):
            yield (f"{MARKS}{ran(1, few, stopped)}front {few}\n{MARKS}{ran(few + 1, count - few)}{ended}", stopped)


def main(words):
    program, count, refused = harness.program_of(words, "probes"), harness.Count(), {}
    with tempfile.TemporaryDirectory(prefix="growth-") as room, ThreadPoolExecutor(os.cpu_count()) as pool:
        growth = Growth(program, harness.compiled_shim(room), room)
        for case, requests, right, wrong in pool.map(growth.judge, cases()):
            refused.setdefault((case.call, case.name), []).append(requests)
            count.add(right, [f"{case.call} after {case.text[-60:]!r} {line}" for line in wrong], 3)
    for (call, name), growths in refused.items():
        print(f"{call}{', ' if name else ''}{name}: growths refused {' '.join(map(str, growths))}")
    return count.report()


if __name__ == "__main__":
    sys.exit(main(sys.argv[1:]))
