"""Compares the library of crates/lrc_embed with the model in tests/model/rules.py, call by call.

Usage: tests/library/beside [--long] [FOLDER], where FOLDER has what examples/embed/build makes; by default it is built first.

Calls of all kinds are drawn by a fixed rule (tests/model/draws.py): 5,000 over twenty nodes, 1,000 over sixty nodes of uneven
size, whose numbers are in no order, and 2,000 with a book that forgets its entries after each hundredth call. Before each
call a peek returns its reply. After each tenth peek, and after each call, the book and the model are compared
(tests/library/comparing.py): the reply and the entry; of each third call the rows of the homes and leases that it changed; the code, level, missing fragments, homes and leases of each stripe; the load
and mode of each node, and whether it is online; the stripes at risk, in the order of repair; the clock; and the image of the
state. Then the commands are counted: each kind has to have been done and refused, and each refusal, repair and level of
either code has to have occurred, each refusal of a fragment that the code of its stripe lacks, and ticks that end no lease,
one, and several.

Then 120 groups of drawn calls are made, each group by one call, and one by one on another book and the model
(tests/library/batches.py): entries, replies, states and images are the same, also where a call in a group can't be made.

Then books and models begin in images:
- images that are written by hand (tests/model/causes.py), with the line and the cause that each is refused for, by the model too;
- a store that runs on for 30,000 calls (tests/library/restarts.py): each thousandth time an image is kept and the log cut, and the
  book is closed some hundred times and begins again in the last image with the entries behind it;
- 3,000 images with one thing changed (tests/library/changes.py): the model and the library report the same line and cause, or begin
  in the same state and make the same next fifty calls. Each cause has to come.
With --long these are 3,000,000 calls with 30 images, and 100,000 images.

The library is compared with eighteen models that have one wrong rule each, too, and with eight that lose something of each
image: each has to be found out. The last line is 'N passed, M failed'."""
import ctypes
import os
import subprocess
import sys
import tempfile
from collections import Counter
from itertools import islice

from tests import harness
from tests.library import batches, changes, restarts
from tests.library.comparing import STRIPES, Differs, begun_in_book, begun_in_model, compare, expect, make
from tests.library.library import lrc_embed
from tests.model import causes, draws, rules

TWENTY = harness.nodes_in_order(20, 16)
SIXTY = {(i * 37) % 61 * 7: rules.Node(i % 20, i % 8, 3 + i % 9) for i in range(60)}
# The replies to commands on a fragment that the code of its stripe lacks.
LACKED = {"lease": "refused 111", "done": "refused 113", "abandon": "refused 113", "revoke": "refused 116"}


def is_lacked(store, line):
    """Whether a command is on a fragment that the code of its stripe lacks."""
    word, *numbers = line.split(" ")
    return word in LACKED and int(numbers[0]) in store.stripes and int(numbers[1]) not in store.fragments(int(numbers[0]))


def run(shared, store, seed, calls, forgets):
    """Makes calls that are drawn, and compares after each. A book that `forgets` does so after each hundredth call. Returns
    each line with its reply and whether it is on a fragment that its stripe lacks, and counts of the levels."""
    within = draws.Range(STRIPES, [*store.nodes, 65535], range(max(store.in_upgrade) + 2))
    lines, levels = [], Counter()
    with lrc_embed.Book(shared, harness.topology_of(store.nodes)) as book:
        row = draws.numbers(seed)
        for session, line in islice(iter(lambda: draws.drawn_call(store, row, within), None), calls):
            lacked = is_lacked(store, line)
            try:
                reply = make(book, store, session, line, len(lines), looks=len(lines) % 10 == 0)
                compare(book, store, len(lines) + 1)
                if forgets and len(lines) % 100 == 99:
                    book.forget()
                    expect("entries that are left", book.count(), 0)
                    compare(book, store, len(lines) + 1)
            except Differs as differs:
                raise Differs(f"call {len(lines) + 1}, `{line}` by {session}: {differs}") from None
            lines.append((line, reply, lacked))
            levels.update((code.name, store.level(stripe)) for stripe, code in store.stripes.items())
    return lines, levels


# Models with one wrong rule.


class AbandonedByAnybody(rules.Store):
    def do_abandon(self, session, *given):
        return self.do_revoke(session, *given[:2]) if given[:2] in self.leases else super().do_abandon(session, *given)


class EpochsRestartAtDrop(rules.Store):
    def do_drop(self, session, stripe):
        reply = super().do_drop(session, stripe)
        self.grants = Counter({key: count for key, count in self.grants.items() if key[0] != stripe})
        return reply


class RefusedLeasesAreCounted(rules.Store):
    def do_lease(self, session, *key):
        self.grants[key] += key in self.leases
        return super().do_lease(session, *key)


class TargetsAreNoLoad(rules.Store):
    def held(self):
        yield from self.homes.items()


class NextLooksAtOneStripe(rules.Store):
    def with_work(self):
        return self.in_order()[:1]


class NextGoesByNumber(rules.Store):
    def with_work(self):
        return sorted(self.stripes)


class UpBringsNothingBack(rules.Store):
    def do_up(self, session, node):
        reply = super().do_up(session, node)
        self.down.add(node)
        return reply


class FailKeepsLeases(rules.Store):
    def do_fail(self, session, node):
        leases = dict(self.leases)
        reply = super().do_fail(session, node)
        self.leases = leases
        return reply


class UpgradeLosesStripes(rules.Store):
    def do_upgrade(self, session, domain):
        try:
            return super().do_upgrade(session, domain)
        except rules.Refused as refused:
            if refused.args[0] != 109:
                raise
            self.upgrading = domain
            return "changed"


class DrainingIsNoNeed(rules.Store):
    def needs_lease(self, key):
        return key not in self.homes and super().needs_lease(key)


class LeasesEndLate(rules.Store):
    def ending(self):
        return [key for key, lease in self.leases.items() if lease.expiry + 1 == self.clock]


class TicksEndOwnLeases(rules.Store):
    def do_tick(self, session):
        self.session = session
        return super().do_tick(session)

    def ending(self):
        return [key for key in super().ending() if self.leases[key].holder == self.session]


class EndedLeasesAreKept(rules.Store):
    """Stores the leases that ticks have ended, for the wrong models below."""

    def __init__(self, nodes):
        super().__init__(nodes)
        self.ended = {}

    def ending(self):
        ending = super().ending()
        self.ended |= {key: self.leases[key] for key in ending}
        return ending


class EndedTargetsStayHeld(EndedLeasesAreKept):
    def held(self):
        yield from super().held()
        for key, lease in self.ended.items():
            yield key, lease.target


class ReportsCountAfterTheEnd(EndedLeasesAreKept):
    def do_done(self, session, stripe, fragment, epoch):
        key = stripe, fragment
        if key not in self.leases and key in self.ended and self.ended[key].epoch == epoch:
            self.leases[key] = self.ended[key]._replace(holder=session)
        return super().do_done(session, stripe, fragment, epoch)


class WideClassesForNarrow(rules.Store):
    CODE = rules.Code("narrow", *(of_class & rules.NARROW.all for of_class in rules.WIDE.classes))

    def do_place6(self, session, stripe):
        return self.place(stripe, self.CODE)


class EpochsByCode(rules.Store):
    def __init__(self, nodes):
        super().__init__(nodes)
        self.apart = {"wide": Counter(), "narrow": Counter()}

    def do_lease(self, session, *key):
        if key[0] in self.stripes:
            self.grants = self.apart[self.stripes[key[0]].name]
        return super().do_lease(session, *key)


class CodesOutliveDrops(rules.Store):
    def __init__(self, nodes):
        super().__init__(nodes)
        self.dropped = {}

    def do_drop(self, session, stripe):
        code = self.stripes.get(stripe)
        reply = super().do_drop(session, stripe)
        self.dropped[stripe] = code
        return reply

    def place(self, stripe, code):
        return super().place(stripe, self.dropped.get(stripe, code))


class LackedFragmentsFindNoSeat(rules.Store):
    def lease_for(self, key):
        if key[0] in self.stripes and key[1] not in self.fragments(key[0]):
            raise rules.Refused(103, key[1])
        return super().lease_for(key)


WRONG = (AbandonedByAnybody, EpochsRestartAtDrop, RefusedLeasesAreCounted, TargetsAreNoLoad, NextLooksAtOneStripe,
         NextGoesByNumber, UpBringsNothingBack, FailKeepsLeases, UpgradeLosesStripes, DrainingIsNoNeed, LeasesEndLate,
         TicksEndOwnLeases, EndedTargetsStayHeld, ReportsCountAfterTheEnd, WideClassesForNarrow, EpochsByCode,
         CodesOutliveDrops, LackedFragmentsFindNoSeat)


# The test.


def check_run(count, shared, name, nodes, seed, calls, forgets=False):
    """A run has no difference. Returns its lines and levels."""
    try:
        lines, levels = run(shared, rules.Store(nodes), seed, calls, forgets)
    except Differs as differs:
        count.check(f"{name}: {differs}", False)
        return [], Counter()
    count.passed += len(lines)
    return lines, levels


def check_kinds(count, lines, levels):
    """Each kind of command was done at least ten times and, but for ticks, refused once; each refusal occurred, each repair,
    each level of either code, and each command on a fragment that its stripe lacks."""
    done = Counter(line.split()[0] for line, reply, _ in lines if not reply.startswith(("refused", "idle")))
    refused = Counter(line.split()[0] for line, reply, _ in lines if reply.startswith(("refused", "idle")))
    numbers = {int(reply.split()[1]) for _, reply, _ in lines if reply.startswith("refused")}
    granted = [reply.split() for _, reply, _ in lines if reply.startswith("granted")]
    repairs = {(words[6], len(words[7:])) for words in granted}
    lacked = {(line.split()[0], reply) for line, reply, is_lacked in lines if is_lacked}
    for word in draws.WEIGHTS:
        found = f"`{word}` was done {done[word]} times and refused {refused[word]} times"
        count.check(found, done[word] >= 10 and (refused[word] > 0) == (word != "tick"))
    ended = Counter(min(int(reply.split()[2]), 2) for _, reply, _ in lines if reply.startswith("ticked"))
    count.check(f"the ticks that ended no lease, one, and several: {ended}", min(ended[0], ended[1], ended[2]) >= 10)
    count.check(f"the refusals that occurred: {sorted(numbers)}", numbers == set(lrc_embed.Refusal))
    count.check(f"the repairs that occurred: {repairs}", repairs == {("local", 6), ("local", 3), ("global", 0), ("move", 0)})
    wanted = {(code, level) for code in ("wide", "narrow") for level in (None, "risk", "unavailable", "lost")}
    count.check(f"the levels that occurred: {levels}", set(levels) == wanted)
    count.check(f"the replies about fragments that are lacked: {lacked}", lacked == set(LACKED.items()))


def check_wrong(count, shared, wrong, seed, calls):
    """A wrong rule is found out."""
    try:
        run(shared, wrong(TWENTY), seed, calls, False)
        count.check(f"{wrong.__name__} is not found out", False)
    except Differs:
        count.passed += 1


def begin_model(nodes, text):
    """The fault of an image by the model, or the text of the image in which it began."""
    fault, store, before = begun_in_model(nodes, text)
    return fault or store.image(before)


def begin_book(shared, nodes, text):
    """The same by the library."""
    fault, book = begun_in_book(shared, nodes, text)
    if fault:
        return fault
    with book:
        return book.image()


def test_model(count, seed, calls):
    """A model begins in each twentieth image of another one as that one, and makes the same next twenty calls."""
    running, begun, row = rules.Store(TWENTY), None, draws.numbers(seed)
    within = draws.Range(STRIPES, [*TWENTY, 65535], range(12))
    for at in range(calls):
        if at % 20 == 0:
            image = running.image(at)
            begun, before = rules.Store.begin(TWENTY, image)
            count.check(f"the image in which the model began after {at} calls", (before, begun.image(before)) == (at, image))
        session, line = draws.drawn_call(running, row, within)
        right, found = running.call(session, line), begun.call(session, line)
        count.check(f"call {at + 1}, `{line}` of a model that began in an image: {found}, and not {right}", found == right)


def test_images(count, shared, is_long):
    test_model(count, 4, 2000)
    causes.test(count, "the model", begin_model)
    causes.test(count, "the library", lambda *given: begin_book(shared, *given))
    batches.test(count, shared)
    restarts.test(count, shared, is_long)
    changes.test(count, shared, is_long)


def test(folder, is_long):
    count, shared = harness.Count(), ctypes.CDLL(f"{folder}/liblrc_embed.so")
    lines, levels = check_run(count, shared, "twenty nodes", TWENTY, 1, 5000)
    check_kinds(count, lines, levels)
    check_run(count, shared, "sixty nodes", SIXTY, 2, 1000)
    check_run(count, shared, "twenty nodes, and a book that forgets", TWENTY, 3, 2000, forgets=True)
    for wrong in WRONG:
        check_wrong(count, shared, wrong, 1, 5000)
    test_images(count, shared, is_long)
    return count.report()


def main(words):
    is_long, folders = "--long" in words, [word for word in words if word != "--long"]
    if folders:
        return test(folders[0], is_long)
    with tempfile.TemporaryDirectory() as room:
        subprocess.run([os.path.join(harness.EXAMPLES, "embed/build"), room], check=True)
        return test(room, is_long)


if __name__ == "__main__":
    sys.exit(main(sys.argv[1:]))
