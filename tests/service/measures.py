"""What service/measure measures: three members of lrcmand beside three of etcd, and one member alone."""
import json
import os
import random
import statistics
import subprocess
import time
from collections import defaultdict, namedtuple

from tests.harness import topology_of
from tests.model.rules import Node
from tests.service.cluster import Group
from tests.service.etcds import Etcds, resident

# 512 nodes in 32 fault domains and 16 upgrade domains, with room for 4,096 wide stripes and half as much again.
NODES = topology_of({number: Node(number % 32, (number + number // 32) % 16, 192) for number in range(512)})
CLIENTS = [1, 8, 64, 256]
BOOKS = 64
CORES = [1, 2, 4]
# Members that make no ticks of their own, and no snapshots by themselves.
WORDS = ["--tick", "0", "--election", "1s", "--snapshot-every", "1000000000"]

# How much is measured: rounds of so many seconds, takeovers of so many seconds, stripes of each of the 64 books, books of a group
# with many, and calls before a restart.
Scale = namedtuple("Scale", "rounds seconds kills watch stripes many calls")
FULL = Scale(8, 1.5, 10, 6, 4096, 1000, 1_000_000)
QUICK = Scale(1, 0.2, 1, 3, 4, 80, 2560)


class Room:
    """Where it is measured: the programs, a folder, the scale, and chance. Keeps what went wrong."""

    def __init__(self, program, loader, folder, scale, seed):
        self.program, self.loader, self.folder, self.scale = program, loader, folder, scale
        self.random, self.seed, self.runs, self.faults = random.Random(seed), seed, 0, []

    def group(self, name, size, env=None):
        return Group(self.program, os.path.join(self.folder, name), size, WORDS, env)

    def words(self, kind, addresses, *words):
        self.runs += 1
        run = f"{self.seed}-{self.runs}"
        return [self.loader, "--kind", kind, "--addresses", ",".join(addresses), "--run", run, *map(str, words)]

    def load(self, kind, addresses, *words):
        """What the load program tells of one run."""
        ran = subprocess.run(self.words(kind, addresses, *words), capture_output=True, text=True, timeout=1800)
        if ran.returncode:
            raise RuntimeError(f"load {kind}: {ran.stderr[-500:]}")
        return json.loads(ran.stdout)

    def call(self, group, kind, *words):
        """The same at the leader of lrcmand. Each reply that is told has to be an entry of its own, and no refusal."""
        before = entries(group)
        told = self.load(kind, [address(group, group.leader())], *words)
        self.faults += told_faults(kind, told, entries(group) - before)
        return told

    def timed(self, clients):
        return "--clients", clients, "--time", f"{self.scale.seconds}s"


def told_faults(kind, told, made):
    """What is wrong if so many entries were made in a run."""
    if told["told"] != made:
        yield f"{kind}: {told['told']} replies were told, and {made} entries made"
    if told["told"] == 0 or told["refused"]:
        yield f"{kind}: {told['told']} replies, of which {told['refused']} are refusals"


def address(group, number):
    return f"127.0.0.1:{group.members[number].client}"


def ask(group, method, path, body=None, limit=120):
    """Asks the leader until it answers with 200."""
    end = time.monotonic() + limit
    while time.monotonic() < end:
        headers = {"Content-Type": "application/json"} if method == "POST" else None
        status, _, text = group.asker.ask(group.members[group.leader(limit)].client, method, path, body, headers)
        if status == 200:
            return text
        time.sleep(0.05)
    raise RuntimeError(f"{method} {path}: status {status}: {text[:200]}")


def entries(group):
    """The entries of all books together, as of now."""
    return sum(it["n"] for it in json.loads(ask(group, "GET", "/books?now=1"))["books"])


def make_books(group, count):
    for number in range(count):
        ask(group, "PUT", f"/books/p{number}", NODES)


def wait_until(what, is_so, limit=120):
    end = time.monotonic() + limit
    while not is_so():
        if time.monotonic() > end:
            raise RuntimeError(f"{what}: not in {limit} seconds")
        time.sleep(0.05)


def settle(group):
    """Waits until all members have applied the same."""
    def is_settled():
        applied = {group.status(it).get("applied") for it in group.members.values()}
        return len(applied) == 1 and None not in applied
    wait_until("the members are alike", is_settled)


def most_resident(group):
    return max(resident(it.process) for it in group.members.values())


def rates(room, has_etcd):
    """Runs by kind and number of clients: `tick` and `turns` of lrcmand, `put` of etcd, in changing order."""
    found, kinds = defaultdict(list), ["tick", "turns"] + ["put"] * has_etcd
    with room.group("rates", 3) as group:
        make_books(group, BOOKS)
        control(room, group)
        if has_etcd:
            with Etcds(os.path.join(room.folder, "rates-etcd")) as etcds:
                rate_rounds(room, group, etcds, kinds, found)
        else:
            rate_rounds(room, group, None, kinds, found)
    return found


def rate_rounds(room, group, etcds, kinds, found):
    for _ in range(room.scale.rounds):
        for clients in CLIENTS:
            for kind in room.random.sample(kinds, len(kinds)):
                if kind == "put":
                    told = room.load(kind, [etcds.address(etcds.leader())], *room.timed(clients))
                else:
                    told = room.call(group, kind, *room.timed(clients))
                found[kind, clients].append(told)


def control(room, group):
    """Replies to keys that were told before are no entries: what counts entries has to find it."""
    words = "--clients", 4, "--each", 4
    room.call(group, "tick", *words)
    room.runs -= 1  # (so the next run has the keys of this one)
    before = entries(group)
    told = room.load("tick", [address(group, group.leader())], *words)
    if not list(told_faults("tick", told, entries(group) - before)):
        room.faults.append("replies that are no entries are not found")


def takeovers(room, has_etcd):
    """The seconds in which no client of any member is told anything after the leader is killed, by system."""
    found = defaultdict(list)
    with room.group("takeover", 3) as group:
        make_books(group, 1)
        settle(group)  # (a member that lacks the book tells clients an index from before its keys)
        for _ in range(room.scale.kills):
            number, told = silence(room, "tick", [address(group, it) for it in group.members], group.leader, kill_of(group))
            found["lrcmand"].append(told)
            group.start(group.members[number])
            settle(group)
    if has_etcd:
        with Etcds(os.path.join(room.folder, "takeover-etcd")) as etcds:
            etcds.leader()
            for _ in range(room.scale.kills):
                number, told = silence(room, "put", etcds.addresses(), etcds.leader, etcds.kill)
                found["etcd"].append(told)
                etcds.start(number)
                time.sleep(1.5)  # (it has to follow before the next one is killed)
    return found


def kill_of(group):
    return lambda number: group.members[number].kill()


def silence(room, kind, addresses, leader, kill):
    """Kills the leader beside clients; returns its number, and the longest silence."""
    words = room.words(kind, addresses, "--clients", 6, "--books", 1, "--limit", "500ms",
                       "--time", f"{room.scale.watch}s")
    with subprocess.Popen(words, stdout=subprocess.PIPE, text=True) as load:
        time.sleep(room.random.uniform(0.8, 1.2))
        number = leader()
        kill(number)
        told = load.communicate(timeout=120)[0]
    if load.returncode:
        raise RuntimeError(f"load {kind} ended with {load.returncode}")
    return number, json.loads(told)["silence_ms"] / 1000


def memory(room):
    """The megabytes of the greatest of three members, by what they have."""
    found = {}
    with room.group("memory", 3) as group:
        group.leader()
        found["no book"] = most_resident(group)
        make_books(group, BOOKS)
        settle(group)
        found[f"{BOOKS} books without stripes"] = most_resident(group)
        room.call(group, "fill", "--clients", BOOKS, "--each", room.scale.stripes, "--books", BOOKS)
        settle(group)
        found[f"{BOOKS} books of {room.scale.stripes:,} stripes"] = most_resident(group)
    with room.group("many", 3) as group:
        make_books(group, room.scale.many)
        settle(group)
        found[f"{room.scale.many:,} books without stripes"] = most_resident(group)
    return found


def restarts(room):
    """A member alone is killed and started: with all its calls in the log, and with a snapshot in their place. Rows of what it
    goes on with, the seconds until it answers a call, and megabytes in its folder and in memory."""
    with room.group("restart", 1) as group:
        member = group.members[1]
        make_books(group, BOOKS)
        clients = 256
        told = room.call(group, "tick", "--clients", clients, "--each", room.scale.calls // clients)
        index = group.status(member)["applied"]
        yield (f"{told['told']:,} calls in {index:,} entries of the log", *restart(room, group))
        ask(group, "POST", "/snapshot")
        wait_until("a snapshot", lambda: group.status(member).get("snapshot", 0) >= index)
        yield ("a snapshot in their place", *restart(room, group))


def restart(room, group):
    member = group.members[1]
    member.kill()
    folder = sum(os.path.getsize(os.path.join(path, name)) for path, _, names in os.walk(member.folder) for name in names) / 2**20
    begun = time.monotonic()
    group.start(member)
    room.runs += 1
    body = json.dumps({"command": "tick", "key": f"restart-{room.runs}"})
    while group.asker.ask(member.client, "POST", "/books/p0/call", body, {"Content-Type": "application/json"})[0] != 200:
        if time.monotonic() - begun > 300:
            raise RuntimeError(f"it does not answer: {member.said()[-500:]}")
        time.sleep(0.01)
    return time.monotonic() - begun, folder, resident(member.process)


def cores(room):
    """Runs of a member alone with many books, by the cores that it may use."""
    found, groups = defaultdict(list), {}
    for count in CORES:
        groups[count] = room.group(f"cores{count}", 1, {"GOMAXPROCS": str(count)})
    with groups[1], groups[2], groups[4]:
        for group in groups.values():
            make_books(group, room.scale.many)
        for _ in range(room.scale.rounds):
            for count in room.random.sample(CORES, len(CORES)):
                found[count].append(room.call(groups[count], "tick", *room.timed(256), "--books", room.scale.many))
    return found


def median(runs, field):
    return statistics.median(it[field] for it in runs)
