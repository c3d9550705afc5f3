"""What the service tells of a call is so: 200 once, 503 and 429 never, 504 at most once. Ticks come no faster than they may, and a
member that differs from the others is not ready."""
import json
import threading
import time

from tests import harness
from tests.model.rules import Node
from tests.service.cluster import Asker, Group, Member, place
from tests.service.network import Network
from tests.service.one_member import wait_ready
from tests.service.work import asked_for

BOOK, ELECTION = "p0", 0.5
WORDS = ["--election", f"{ELECTION}s", "--tick", "0", "--compare", "1", "--timeout", "20s"]
KEYS = 4096  # that a book keeps
MADE, NEVER = (200,), (429, 503)


class Calls:
    """Calls of commands that are unlike any other: each is refused by the rules, and an entry. So the log tells how often each was
    made. Each is asked for once, whatever is told."""

    def __init__(self):
        self.lock, self.asked, self.told = threading.Lock(), 0, []

    def command(self):
        with self.lock:
            self.asked += 1
            return f"done {self.asked % 40} {self.asked // 40 % 16} {100 + self.asked}"

    def call(self, asker, port, body=None):
        """Makes one call, and returns its status, its answer and the seconds until then."""
        command, begun = self.command(), time.monotonic()
        status, told = asker.json(port, "POST", f"/books/{BOOK}/call", {"command": command, **(body or {})})
        with self.lock:
            self.told.append((command, status, told))
        return status, told, time.monotonic() - begun

    def faults(self, log):
        """What the log has otherwise than it was told."""
        counts = {}
        for entry in log:
            counts[entry["command"]] = counts.get(entry["command"], 0) + 1
        for command, status, told in self.told:
            count = counts.get(command, 0)
            if status in MADE and (count != 1 or log[told["n"] - 1]["command"] != command):
                yield f"{command} was told to be entry {told['n']}, and is made {count} times"
            elif status in NEVER and count or count > 1:
                yield f"{command} was answered {status} {told.get('error', '')}, and is made {count} times"

    def count(self, *statuses):
        return sum(status in statuses for _, status, _ in self.told)


class Callers:
    """Threads that make one call after the other, without keys, at one port."""

    def __init__(self, calls, port, count):
        self.calls, self.port, self.is_over, self.times = calls, port, threading.Event(), []
        self.threads = [threading.Thread(target=self.work, daemon=True) for _ in range(count)]
        for thread in self.threads:
            thread.start()

    def work(self):
        asker = Asker(30)
        while not self.is_over.is_set():
            status, _, took = self.calls.call(asker, self.port)
            self.times.append((time.monotonic(), status, took))
            time.sleep(0.002 if status == 200 else 0.02)

    def end(self):
        self.is_over.set()
        for thread in self.threads:
            thread.join(60)


def log_of(group, number):
    """All entries of the book, as a member has them that was asked for all that was told."""
    asker, port = Asker(10), group.members[number].client
    asked_for(lambda: asker.ask(port, "GET", f"/books/{BOOK}?now=1")[:2], [200])
    log = []
    while True:
        text = asker.ask(port, "GET", f"/books/{BOOK}/log?from={len(log)}")[2]
        rows = [json.loads(line) for line in text.splitlines()]
        if not rows:
            return log
        log += rows


def make(group, topology):
    leader = group.leader()
    asked_for(lambda: group.asker.ask(group.members[leader].client, "PUT", f"/books/{BOOK}", topology)[:2], [200])
    return leader


def deafen(group, network, leader):
    """Holds up what a follower is sent; it is still heard. Returns its number, and the ways to be opened again."""
    deaf = next(number for number in group.members if number != leader)
    asked_for(lambda: group.asker.ask(group.members[deaf].client, "GET", f"/books/{BOOK}?now=1")[:2], [200])
    ways = [(number, deaf) for number in group.members if number != deaf]
    network.block(*ways)
    return deaf, ways


class Asked(threading.Thread):
    """A request that may take long."""

    def __init__(self, port, *words):
        super().__init__(daemon=True)
        self.port, self.words, self.status, self.told = port, words, None, None
        self.start()

    def run(self):
        self.status, self.told = Asker(30).json(self.port, *self.words)


def fill_keys(calls, port):
    """So many calls with keys that all of before are forgotten."""
    def work(part):
        asker = Asker(10)
        for i in range(part, KEYS + 64, 32):
            asked_for(lambda: calls.call(asker, port, {"key": f"fill{i}"})[:2], [200, 400, 404, 409])
    threads = [threading.Thread(target=work, args=(part,), daemon=True) for part in range(32)]
    for thread in threads:
        thread.start()
    for thread in threads:
        thread.join(60)


def test_forgotten_key(count, program, folder, topology):
    """A request with a key whose word is lost, and whose key is forgotten before its member asks again."""
    group, calls = Group(program, folder, 3, WORDS), Calls()
    with Network(group, 1) as network, group:
        leader = make(group, topology)
        deaf, ways = deafen(group, network, leader)
        body = {"command": "done 39 15 99", "key": "once"}
        port = group.members[deaf].client
        asked = Asked(port, "POST", f"/books/{BOOK}/call", body)
        end = time.monotonic() + 10
        while not log_of(group, leader) and time.monotonic() < end:
            time.sleep(0.02)
        fill_keys(calls, group.members[leader].client)
        network.open(*ways)
        asked.join(60)
        is_unknown = asked.status == 504 and asked.told["maybe"] and asked.told["code"] == "outcome_unknown"
        count.check(f"nobody knows: {asked.status} {asked.told}", is_unknown)
        body["since"] = asked.told.get("since", 0)
        again = asked_for(lambda: Asker(30).json(port, "POST", f"/books/{BOOK}/call", body), [200, 409])
        count.check(f"its key may be forgotten: {again}", again[0] == 409 and again[1]["code"] == "key_forgotten")
        log = log_of(group, deaf)
        commands = [entry["command"] for entry in log]
        count.check("a call with a key is made once", commands.count(body["command"]) == 1)
        faults = list(calls.faults(log))
        count.check(f"calls that fill the keys: {faults[:3]}", not faults and len(log) == KEYS + 65)


def test_creation_around_removal(count, program, folder, topology):
    """A book is made, seen by others and removed before the one who makes it hears of it."""
    group = Group(program, folder, 3, WORDS)
    with Network(group, 2) as network, group:
        leader = make(group, topology)
        deaf, ways = deafen(group, network, leader)
        asker, ports = Asker(10), {number: it.client for number, it in group.members.items()}
        made = [Creation(ports[deaf], path, topology) for path in ("/books/q0", "/books/q1?key=k")]
        for name in ("q0", "q1"):
            status, told = asked_for(lambda: asker.json(ports[leader], "GET", f"/books/{name}?now=1"), [200], 10)
            if count.check(f"{name} comes: {status} {told}", status == 200):
                gone = asker.json(ports[leader], "DELETE", f"/books/{name}", {"at": told["n"], "opens": told["opens"]})
                count.check(f"{name} is removed: {gone}", gone[0] == 200)
        time.sleep(3 * ELECTION)  # (so that the one who made them has lost its leader)
        network.open(*ways)
        for it in made:
            it.join(30)
        count.check(f"nobody knows of the one without a key: {made[0].told}", made[0].told[0] == 504)
        count.check(f"the one with a key was made: {made[1].told}", made[1].told[0] in (200, 504))
        for name in ("q0", "q1"):
            found = asked_for(lambda: asker.json(ports[deaf], "GET", f"/books/{name}?now=1"), [200, 404], 20)
            count.check(f"a removed book is gone: {name} {found}", found[0] == 404)


class Creation(threading.Thread):
    """Makes a book."""

    def __init__(self, port, path, topology):
        super().__init__(daemon=True)
        self.port, self.path, self.topology, self.told = port, path, topology, None
        self.start()

    def run(self):
        self.told = Asker(30).ask(self.port, "PUT", self.path, self.topology)


def test_lost_words(count, program, folder, topology, rounds=3):
    """A member loses its leader, who goes on making what it passed on: whoever called there hears that nobody knows."""
    group, calls = Group(program, folder, 3, WORDS), Calls()
    with Network(group, 3) as network, group:
        make(group, topology)
        for _ in range(rounds):
            deaf, ways = deafen(group, network, group.leader())
            callers = Callers(calls, group.members[deaf].client, 8)
            is_told, before = (lambda: (calls.count(504, 503) > before, None)), calls.count(504, 503)
            asked_for(is_told, [True], 10)
            network.open(*ways)
            callers.end()
        faults = list(calls.faults(log_of(group, 1)))
        count.check(f"calls without keys are made as they were told: {faults[:3]}", not faults)
        count.check(f"some are unknown: {calls.count(504)}", calls.count(504) > 0)
        for number in group.members:
            expect_health(count, group, number, 200, None)


def expect_health(count, group, number, status, code):
    asker, port, found, end = Asker(10), group.members[number].client, None, time.monotonic() + 20
    while found != (status, code) and time.monotonic() < end:
        answer = asker.json(port, "GET", "/health")
        found = answer[0], answer[1].get("code")
        time.sleep(0.05)
    count.check(f"the health of member {number}: {found}", found == (status, code))


def test_comparison(count, faulty, folder, topology):
    """One of three members takes other checksums of its books: it is not ready, and shows them to nobody. The others go on."""
    group, asker = Group(faulty, folder, 3, WORDS, {"LRCMAND_FAULT": "none"}), Asker(10)
    with group:
        group.leader()
        group.members[3].kill()
        group.env = {"LRCMAND_FAULT": "differs"}
        group.start(group.members[3])
        make(group, topology)
        expect_health(count, group, 3, 503, "differs")
        for number, right in ((1, (200, None)), (2, (200, None)), (3, (503, "differs"))):
            expect_health(count, group, number, *right)
            status, told = asker.json(group.members[number].client, "GET", f"/books/{BOOK}")
            count.check(f"a look at member {number}: {status} {told}", (status, told.get("code")) == right)
        body = {"command": "next"}
        told = [asker.json(group.members[number].client, "POST", f"/books/{BOOK}/call", body)[0] for number in group.members]
        count.check(f"calls are the group's: {told}", told == [200, 200, 200])


def test_without_quorum(count, program, folder, topology):
    """Two of three members are gone: whoever calls is told so within an election and a bit, and nothing of that is made later."""
    group, calls = Group(program, folder, 3, WORDS), Calls()
    with group:
        leader = make(group, topology)
        for kept in (leader, next(number for number in group.members if number != leader)):
            others = [it for it in group.members.values() if it.number != kept]
            callers = Callers(calls, group.members[kept].client, 8)
            before = calls.count(200)
            asked_for(lambda: (calls.count(200) > before + 50, None), [True], 10)
            for member in others:
                member.kill()
            gone = time.monotonic()
            time.sleep(3 * ELECTION + 3)
            late = [it for it in callers.times if it[0] > gone + 3 * ELECTION + 1.5]
            is_told = late and all(status == 503 and took < ELECTION + 1 for _, status, took in late)
            count.check(f"503 within an election and a bit: {late[:3]}", is_told)
            for member in others:
                group.start(member)
            before = calls.count(200)
            asked_for(lambda: (calls.count(200) > before + 20, None), [True], 30)
            callers.end()
            group.leader()
        faults = list(calls.faults(log_of(group, leader)))
        count.check(f"what was told 503 is not made later: {faults[:3]}", not faults)
        happened = calls.count(200), calls.count(503)
        count.check(f"something happened: {happened}", happened[0] > 70 and happened[1] > 20)


def test_ticks(count, program, folder, _):
    """A member alone is stopped for some ticks: they are not made up for."""
    member, asker = Member(Group(program, folder, 0), 1, ["--tick", "1"]), Asker(10)
    try:
        member.start()
        wait_ready(asker, member)
        nodes = {number: Node(number, number % 10, 8) for number in range(20)}
        asker.ask(member.client, "PUT", f"/books/{BOOK}", harness.topology_of(nodes))
        for command in [f"place {stripe}" for stripe in range(8)] + ["fail 1", "fail 2"]:
            asker.json(member.client, "POST", f"/books/{BOOK}/call", {"command": command})
        lease(asker, member)
        member.stop()
        time.sleep(5)
        member.wake()
        woke, before, took, made = time.monotonic(), ticks(asker, member), 0, 0
        while took < 1.5 or made == 0 and took < 15:
            lease(asker, member)
            time.sleep(0.1)
            made, took = ticks(asker, member) - before, time.monotonic() - woke
        count.check(f"{made} ticks in {took:.1f} s after a stop of 5 s", 0 < made <= took + 1.2)
    finally:
        member.kill()


def lease(asker, member):
    """A live lease, so that the book ticks."""
    asker.json(member.client, "POST", f"/books/{BOOK}/call", {"command": "next"})


def ticks(asker, member):
    text = asker.ask(member.client, "GET", f"/books/{BOOK}/log")[2]
    return sum(json.loads(line)["command"] == "tick" for line in text.splitlines())


def test_once_only(count, program, faulty, room, nodes):
    topology = harness.topology_of(nodes)
    for test in (test_forgotten_key, test_creation_around_removal, test_lost_words, test_without_quorum, test_ticks, test_comparison):
        begun = time.monotonic()
        with place(room) as folder:
            test(count, faulty if test is test_comparison else program, f"{folder}/{test.__name__}", topology)
        print(f"{test.__name__[5:].replace('_', ' ')}: {time.monotonic() - begun:.0f} s", flush=True)
