"""A store that runs on: now and then an image of it is kept and its log is cut there, it forgets its entries, or it is closed
and begins again in the last image, with the entries behind it. The book of the library is compared with the model."""
from tests import harness
from tests.library.comparing import STRIPES, Differs, compare, expect, make
from tests.library.library import lrc_embed
from tests.model import draws, rules

TWENTY = harness.nodes_in_order(20, 16)


class Running:
    """A book and a model that make the same calls, and what the store keeps of them: an image, and each call behind it with
    the bytes of its entry. With a kind of model, the model begins again with the book, and is of that kind then."""

    def __init__(self, shared, nodes, kind=None):
        self.shared, self.nodes, self.kind = shared, nodes, kind
        self.store, self.count, self.restarts = rules.Store(nodes), 0, 0
        self.book = lrc_embed.Book(shared, harness.topology_of(nodes))
        self.keep(self.store.image(0))

    def call(self, session, line):
        make(self.book, self.store, session, line, self.count)
        self.count += 1
        self.calls.append((session, line))
        self.entries.append(bytes(self.book.entry(self.book.count() - 1)))

    def keep(self, image):
        self.image, self.calls, self.entries = image, [], []

    def compare(self):
        compare(self.book, self.store, self.count)

    def keep_image(self):
        """Keeps an image, and cuts the log there."""
        self.keep(self.book.image())
        expect("the image that is kept", self.image, self.store.image(self.count))

    def forget(self):
        self.book.forget()
        expect("entries that are left", self.book.count(), 0)

    def begin_again(self):
        """Closes the book, begins in the last image, and repeats the calls behind it."""
        self.restarts += 1
        self.book.close()
        self.book = lrc_embed.Book(self.shared, harness.topology_of(self.nodes), image=self.image)
        expect("the image in which the book began", self.book.image(), self.image)
        self.book.replay(self.entries)
        if self.kind:
            self.store, _ = self.kind.begin(self.nodes, self.image)
            for session, line in self.calls:
                self.store.call(session, line)
        self.compare()


def step(running, row, within, every):
    """Makes a call that is drawn. An image is kept after each `every` of them. On average, in as many, the book forgets once,
    begins again four times, and is compared in all that it reports fifty times, or after each twentieth call."""
    running.call(*draws.drawn_call(running.store, row, within))
    if running.count % every == 0:
        running.keep_image()
    drawn = next(row) % every
    if drawn == 0:
        running.forget()
    elif drawn <= 4:
        running.begin_again()
    elif drawn <= 4 + min(50, every // 20):
        running.compare()


def run(shared, seed, calls, every, kind=None):
    """Runs a store, and returns how often it began again."""
    running, row = Running(shared, TWENTY, kind), draws.numbers(seed)
    within = draws.Range(STRIPES, [*TWENTY, 65535], range(12))
    try:
        while running.count < calls:
            step(running, row, within, every)
        running.compare()
    except Differs as differs:
        raise Differs(f"after {running.count} calls: {differs}") from None
    running.book.close()
    return running.restarts


# Models that lose something where they begin.


class Loses(rules.Store):
    """Loses something of each image in which it begins."""

    @classmethod
    def begin(cls, nodes, text):
        store, before = super().begin(nodes, text)
        store.lose()
        return store, before


class CountsAreLost(Loses):
    def lose(self):
        self.grants.clear()


class DownIsLost(Loses):
    def lose(self):
        self.down.clear()


class UpgradingIsLost(Loses):
    def lose(self):
        self.upgrading = None


class ClockIsLost(Loses):
    def lose(self):
        self.clock = 0


class CodesAreLost(Loses):
    def lose(self):
        self.stripes = dict.fromkeys(self.stripes, rules.WIDE)


class LeasesAreLost(Loses):
    def lose(self):
        self.leases.clear()


class TargetsAreNoSeats(Loses):
    """The targets of the leases with which it begins are free."""

    begun = {}

    def lose(self):
        self.begun = dict(self.leases)

    def held(self):
        yield from self.homes.items()
        for key, lease in self.leases.items():
            if self.begun.get(key) is not lease:
                yield key, lease.target


class HomesMove(Loses):
    """A home moves to the next slot of its node."""

    def lose(self):
        for key, (node, slot) in self.homes.items():
            self.homes[key] = node, slot + 1
            return


WRONG = (CountsAreLost, DownIsLost, UpgradingIsLost, ClockIsLost, CodesAreLost, LeasesAreLost, TargetsAreNoSeats, HomesMove)


# The test.


def check_run(count, shared, name, *given):
    """A run has no difference, and begins again at least ten times."""
    try:
        restarts = run(shared, *given)
    except Differs as differs:
        count.check(f"{name}: {differs}", False)
        return
    count.check(f"{name}: it began again {restarts} times", restarts >= 10)


def check_wrong(count, shared, wrong):
    """A model that loses something is found out."""
    try:
        run(shared, 7, 3000, 100, wrong)
        count.check(f"{wrong.__name__} is not found out", False)
    except Differs:
        count.passed += 1


def test(count, shared, is_long):
    calls, every = (3_000_000, 100_000) if is_long else (30_000, 1000)
    check_run(count, shared, "a store that runs on", 5, calls, every)
    check_run(count, shared, "a store that runs on, beside a model that begins with it", 6, 3000, 100, rules.Store)
    for wrong in WRONG:
        check_wrong(count, shared, wrong)
