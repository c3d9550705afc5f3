"""Books, clients that work on them over a group, and what their answers have to be."""
import time

from tests.service.clients import Caller, Entry, Looker, Reader
from tests.service.judge import image_of, judge
from tests.service.unkeyed import Unkeyed, unkeyed_faults

BOOKS = ["p0", "p1", "p2"]
LEAST = 50  # so many calls are told in a run, on a slow machine too


class Run:
    """What came of a run: the faults, and what happened in it."""

    def __init__(self):
        self.faults, self.acts, self.told, self.looks, self.again, self.longest, self.entries = [], {}, 0, 0, 0, 0.0, 0

    def count(self, word):
        self.acts[word] = self.acts.get(word, 0) + 1

    def __str__(self):
        acts = ", ".join(f"{count} {word}" for word, count in sorted(self.acts.items()))
        asked = f"{self.told} told ({self.again} again), {self.looks} looks, {self.entries} entries"
        return f"{asked}; {acts or 'quiet'}; longest silence {self.longest:.1f} s"


def make_books(group, topology):
    group.leader()
    for book in BOOKS:
        status, _ = asked_for(lambda: group.asker.ask(group.members[1].client, "PUT", f"/books/{book}", topology)[:2], [200])
        if status != 200:
            raise RuntimeError(f"the book {book} is not made: status {status}")


def asked_for(ask, statuses, limit=60):
    """What is answered when the status is one of these, or time is up."""
    end = time.monotonic() + limit
    answer = ask()
    while answer[0] not in statuses and time.monotonic() < end:
        time.sleep(0.05)
        answer = ask()
    return answer


class Work:
    """Callers with keys and without, lookers and a reader of each book, and others who work beside them, from `begin` to `end`.
    With ticks the leader ticks by itself."""

    def __init__(self, group, nodes, callers=8, lookers=2, pace=0.004, beside=(), ticks=False):
        self.group, self.nodes, self.beside, self.ticks = group, nodes, list(beside), ticks
        self.plain = [Unkeyed(group, number, BOOKS, 0.02) for number in (1, 2)]
        self.calls = [Caller(group, number, BOOKS, pace) for number in range(1, callers + 1)]
        self.looks = [Looker(group, number, BOOKS) for number in range(lookers)]
        self.reads = [Reader(group, book) for book in BOOKS]
        self.more = []  # what others were told, as the callers have it

    def clients(self):
        return [*self.calls, *self.plain, *self.looks, *self.beside, *self.reads]

    def begin(self):
        for client in self.clients():
            client.start()

    def told(self):
        return [*(it for one in [*self.calls, *self.plain] for it in one.told), *self.more]

    def count_told(self):
        return sum(len(one.told) for one in self.calls)

    def goes_on(self, end):
        """Until a time, and on a slow machine until enough was told."""
        now = time.monotonic()
        return now < end or now < end + 60 and self.count_told() < LEAST and not self.faults_so_far()

    def wait_for_a_call(self, is_over, limit=60):
        """Waits until another call is told, or there is nothing to wait for."""
        before, end = self.count_told(), time.monotonic() + limit
        while self.count_told() == before and time.monotonic() < end and not is_over() and not self.faults_so_far():
            time.sleep(0.01)

    def faults_so_far(self):
        return [f"{type(it).__name__}: {it.fault}" for it in self.clients() if it.fault]

    def give_up(self, run):
        """Ends without a judgement, after a fault."""
        run.faults += self.faults_so_far()
        for client in self.clients():
            client.give_up()

    def end(self, run):
        """Lets the clients end, when all members are up, and judges."""
        run.faults += finish(self.group, [*self.calls, *self.plain, *self.looks, *self.beside], self.reads)
        told, seen = self.told(), [it for one in self.looks for it in one.looks]
        logs = {one.book: filled(one.entries, [it for it in told if it.book == one.book]) for one in self.reads}
        run.faults += judge(self.nodes, logs, told, seen, self.ticks)
        run.faults += unkeyed_faults(logs, [it for one in self.plain for it in one.asked])
        run.faults += image_faults(self.group, self.nodes, logs, self.ticks)
        run.told, run.looks, run.entries = len(told), len(seen), sum(map(len, logs.values()))
        run.again = sum(one.again for one in self.calls)
        times = sorted(it.told for it in told)
        run.longest = max((b - a for a, b in zip(times, times[1:])), default=0.0)


def filled(log, told):
    """A log with each entry that no member has any more as it was told to its caller."""
    by_number = {it.n: Entry(it.session, it.command, it.reply) for it in told}
    return [entry or by_number.get(number) for number, entry in enumerate(log, 1)]


def finish(group, clients, reads):
    """Lets the clients end: those who ask are told, and those who read have all. Returns what went wrong."""
    faults = []
    for client in clients:
        client.is_over.set()
    for client in clients:
        client.join(70)
        if client.is_alive() or client.fault:
            faults.append(f"{type(client).__name__}: {client.fault or 'it does not end'}")
    leader = group.members[group.leader()]
    for reader in reads:
        status, reader.until = entries_of(group, leader, reader.book)
        if status != 200:
            faults.append(f"member {leader.number} does not tell the entries of {reader.book}: status {status}")
    end = time.monotonic() + 60
    for reader in reads:
        reader.join(max(end - time.monotonic(), 0.1))
        reader.is_over.set()
        if not reader.is_done() or reader.fault:
            read = f"{len(reader.entries)} of {reader.until}"
            faults.append(f"the log of {reader.book} was read up to {read}: {reader.fault}")
    return faults


def entries_of(group, member, book):
    """The number of entries of a book as of now, and the status of the answer."""
    status, told = asked_for(lambda: group.asker.json(member.client, "GET", f"/books/{book}?now=1"), [200, 404])
    return status, told.get("n", 0)


def image_faults(group, nodes, logs, ticks=False):
    """All members have the image that the rules have after the log. Where an entry was forgotten by all, and told to nobody, they
    have one image. With ticks the leader may have ticked since the log was read."""
    for book, log in logs.items():
        seen = {}
        for member in group.members.values():
            path = f"/books/{book}/image?now=1"
            status, headers, text = asked_for(lambda: group.asker.ask(member.client, "GET", path), [200])
            more = int(headers.get("Lrcmand-Entries", 0)) - len(log)
            later = [Entry(1, "tick", "")] * (more if ticks else 0)
            if more not in seen:
                seen[more] = image_of(nodes, [*log, *later]).encode() if all(log) else text
            if status != 200 or text != seen[more]:
                yield f"{book}: member {member.number} has another image, status {status}, {more} entries more"
