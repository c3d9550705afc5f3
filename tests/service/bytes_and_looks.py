"""What stays in memory of a log of large entries, and what looks cost those who call."""
import concurrent.futures
import http.client
import multiprocessing
import statistics
import time

from tests import harness
from tests.model.rules import Node
from tests.service.cluster import Asker, Group
from tests.service.etcds import resident
from tests.service.work import make_books

MEBIBYTE = 1 << 20
MOST_RESIDENT = 300


def padded(nodes, number):
    """The text of the nodes with a remark behind it that makes it a mebibyte, unlike any other number's."""
    text = harness.topology_of(nodes)
    line = f"# change {number} "
    return text + line + "x" * (MEBIBYTE - len(text) - len(line) - 1) + "\n"


def change_nodes(group, asker, number, text, limit=60):
    """Goes on over other nodes; asked again until it is told."""
    end = time.monotonic() + limit
    while time.monotonic() < end:
        port = group.members[group.leader()].client
        status, _, told = asker.ask(port, "PUT", f"/books/p0/nodes?key=n{number}", text)
        if status == 200:
            return
        if status not in (0, 429, 503, 504):
            raise RuntimeError(f"change {number}: status {status}: {told[:200]}")
        time.sleep(0.05)
    raise RuntimeError(f"change {number} is not told: status {status}: {told[:200]}")


def test_bytes(count, program, room, nodes, changes):
    """Many changes of nodes with a large text: the log is cut by its bytes, so each of three members stays small."""
    with Group(program, f"{room}/bytes", 3, ["--tick", "0"]) as group:
        make_books(group, harness.topology_of(nodes))
        asker, most, begun = Asker(20), dict.fromkeys(group.members, 0), time.monotonic()
        for number in range(changes):
            change_nodes(group, asker, number, padded(nodes, number))
            if number % 5 == 0:
                most = {it: max(most[it], resident(group.members[it].process)) for it in most}
        took = time.monotonic() - begun
        snapshots = {it: group.status(member).get("snapshot", 0) for it, member in group.members.items()}
        print(f"{changes} changes of nodes of 1 MiB in {took:.1f} s: {max(most.values()):.0f} MB resident at most", flush=True)
        count.check(f"snapshots were made by bytes: {snapshots}", all(it > 0 for it in snapshots.values()))
        count.check(f"members stay under {MOST_RESIDENT} MB: {most}", max(most.values()) < MOST_RESIDENT)


# A book whose tables take long: so many stripes over so many nodes.
STRIPES, PLACERS = 3000, 8
NODES = harness.topology_of({number: Node(number % 32, (number + number // 32) % 16, 192) for number in range(512)})

ROUNDS, LOOKS = 8, 10
SLOW = 0.4  # of a look: a call that waits for all of one waits longer
MOST_SLOW = 0.6  # slow calls for each look: where looks hold up calls, each of them holds up one


def look_from(port, path, is_over, made, told):
    """What a process does that looks at a book without a pause. At the end it tells the milliseconds of its looks."""
    connection, took = http.client.HTTPConnection("127.0.0.1", port, timeout=60), []
    while not is_over.is_set():
        begun = time.monotonic()
        try:
            connection.request("GET", path)
            answer = connection.getresponse()
            answer.read()
            if answer.status == 200:
                took.append((time.monotonic() - begun) * 1000)
                made.value += 1
        except (OSError, http.client.HTTPException):
            connection.close()
    connection.close()
    told.put(took)


class Looker:
    """One of them: each of its looks is taken for it alone."""

    def __init__(self, port, path):
        self.is_over, self.made, self.told = multiprocessing.Event(), multiprocessing.Value("q", 0), multiprocessing.Queue()
        self.took = []
        args = port, path, self.is_over, self.made, self.told
        self.process = multiprocessing.Process(target=look_from, args=args)

    def __enter__(self):
        self.process.start()
        return self

    def __exit__(self, *_):
        self.is_over.set()
        self.took = sorted(self.told.get(timeout=120))
        self.process.join()


def call(asker, port, book, command, key):
    """The milliseconds of a call."""
    begun = time.monotonic()
    status, told = asker.json(port, "POST", f"/books/{book}/call", {"command": command, "key": key})
    if status != 200:
        raise RuntimeError(f"{command} in {book}: status {status}: {told}")
    return (time.monotonic() - begun) * 1000


def place_stripes(port):
    def place(first):
        asker = Asker(60)
        for stripe in range(first, STRIPES, PLACERS):
            call(asker, port, "p0", f"place {stripe}", f"s{stripe}")
    with concurrent.futures.ThreadPoolExecutor(PLACERS) as placers:
        list(placers.map(place, range(PLACERS)))


def slow_beside(port, looked_at, book, path, key):
    """How many calls of a book at one member are slow for each look at a member that is taken beside them."""
    asker, took, end = Asker(60), [], time.monotonic() + 60
    with Looker(looked_at, path) as looker:
        while looker.made.value < LOOKS and time.monotonic() < end:
            took.append(call(asker, port, book, "tick", f"{key}-{len(took)}"))
    if len(looker.took) < LOOKS:
        raise RuntimeError(f"{len(looker.took)} looks at {path} in a minute")
    look = looker.took[len(looker.took) // 4]  # (others waited for room)
    slow = sum(it > look * SLOW for it in took) / len(looker.took)
    print(f"{len(took)} calls of {book} beside {len(looker.took)} looks of {look:.1f} ms: median {statistics.median(took):.1f} ms, "
          f"{slow:.2f} slow ones for each look", flush=True)
    return slow


def more_slow_beside(port, other, book, path):
    """How many more calls are slow for each look at their own member than for each at another one, which takes as much of the
    machine and holds up nobody here. A machine that others use may spoil any round, and a lock all: the first good round is
    enough."""
    for number in range(ROUNDS):
        elsewhere = slow_beside(port, other, book, path, f"{book}-{path}-{number}-elsewhere")
        more = slow_beside(port, port, book, path, f"{book}-{path}-{number}") - elsewhere
        if more < MOST_SLOW:
            break
    return more


def test_calls_beside_looks(count, program, room, nodes):
    """Calls of a book, and of another one, beside a client that looks at the first without a pause. The rows of a table are
    written beside calls of its book; and no look holds up another book, however long it has its own."""
    with Group(program, f"{room}/looks", 3, ["--tick", "0", "--election", "3s"]) as group:
        make_books(group, NODES)
        leader = group.leader()
        port, other = (group.members[it].client for it in (leader, leader % len(group.members) + 1))
        group.asker.ask(port, "PUT", "/books/other", harness.topology_of(nodes))
        place_stripes(port)
        for book, path in (("p0", "/books/p0/show/stripes"), ("p0", "/books/p0/show/health"), ("other", "/books/p0/show/stripes"),
                           ("other", "/books/p0/image")):
            more = more_slow_beside(port, other, book, path)
            count.check(f"{more:.2f} more calls of {book} wait for each look at {path}", more < MOST_SLOW)
