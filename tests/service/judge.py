"""What the answers of a run have to be: held against the committed log of each book, and the log against tests/model/rules.py."""
from bisect import bisect_left
from collections import defaultdict

from tests.model import rules
from tests.service.unkeyed import is_unkeyed


def judge(nodes, logs, told, looks, ticks=False):
    """The faults of a run, as lines, and how many things were asked. `logs` are the entries of each book, from its first on. With
    ticks the leader ticks by itself."""
    faults = []
    for book, log in logs.items():
        faults += model_faults(nodes, book, log)
        faults += told_faults(book, log, [it for it in told if it.book == book], ticks)
    faults += [*order_faults(told), *look_faults(told, looks), *holder_faults(told)]
    return faults


def model_faults(nodes, book, log):
    """The log is a history of the rules."""
    store = rules.Store(nodes)
    for number, entry in enumerate(log, 1):
        if entry is None:
            return [f"{book} {number}: no member has it, and nobody was told of it"]
        right = store.call(entry.session, entry.command)
        if right != entry.reply:
            return [f"{book} {number}: session {entry.session}, {entry.command}: {entry.reply}, and not {right}"]
    return []


def told_faults(book, log, told, ticks):
    """Each told reply stands in the log, none twice, and nothing else stands there but ticks of the leader and calls without keys,
    which unkeyed_faults looks at."""
    taken = {}
    for it in told:
        if it.n == 0:
            continue  # (the service's own refusal, which is no entry)
        if it.n > len(log) or log[it.n - 1] != (it.session, it.command, it.reply):
            there = log[it.n - 1] if it.n <= len(log) else "no such entry"
            yield f"{book} {it.n}: told {it.command}: {it.reply}, and the log has {there}"
        elif it.n in taken:
            yield f"{book} {it.n}: told to {taken[it.n]} and to {it.key}"
        taken[it.n] = it.key
    for number in range(1, len(log) + 1):
        entry = log[number - 1]
        if number not in taken and not (ticks and entry.command == "tick") and not is_unkeyed(entry.command):
            yield f"{book} {number}: {log[number - 1]} was told to nobody"


def order_faults(told):
    """The calls of a client stand in the log in the order in which it made them."""
    last = {}
    for it in sorted(told, key=lambda it: it.begun):
        if it.n:
            if it.n <= last.get((it.client, it.book), 0):
                yield f"{it.book} {it.n}: {it.key} stands before the call that was told before"
            last[it.client, it.book] = it.n


def look_faults(told, looks):
    """No look is older than it says: all that was told so long before it is in it."""
    by_book = defaultdict(list)
    for it in told:
        by_book[it.book].append((it.told, it.n))
    times, most = {}, {}
    for book, pairs in by_book.items():
        pairs.sort()
        times[book], most[book], greatest = [at for at, _ in pairs], [], 0
        for _, n in pairs:
            greatest = max(greatest, n)
            most[book].append(greatest)
    for look in looks:
        before = bisect_left(times.get(look.book, []), look.asked - (look.age or 0))
        if before and most[look.book][before - 1] > look.n:
            age = "as of now" if look.age is None else f"of age {look.age}"
            yield f"{look.book}: a look {age} has {look.n} entries, after {most[look.book][before - 1]} was told"


def holder_faults(told):
    """The service refuses a report by itself only if another worker was granted that lease."""
    granted = {}
    for it in told:
        if it.reply.startswith("granted"):
            _, stripe, fragment, _, _, epoch, *_ = it.reply.split(" ")
            granted[it.book, stripe, fragment, epoch] = it
    for it in told:
        if it.n == 0:
            lease = granted.get((it.book, *it.command.split(" ")[1:]))
            right = lease and (lease.worker, f"refused 114 {lease.session}")
            if lease is None or lease.worker == it.worker or (it.holder, it.reply) != right:
                yield f"{it.book}: {it.command} of {it.worker!r} was {it.reply} by {it.holder!r}, and the lease is {lease}"


def image_of(nodes, log):
    """The image of a book after its log."""
    store = rules.Store(nodes)
    for entry in log:
        store.call(entry.session, entry.command)
    return store.image(len(log))
