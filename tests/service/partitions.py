"""Members and clients over a network that fails, and a leader that is cut off from the others while clients reach it."""
import random
import time

from tests import harness
from tests.service.clients import Told
from tests.service.cluster import Asker, Group, place
from tests.service.network import CLIENT, Network, ways_between
from tests.service.work import BOOKS, LEAST, Run, Work, make_books

WORDS = ["--election", "500ms", "--snapshot-every", "150", "--trailing", "20", "--tick", "0", "--timeout"]


class Trouble:
    """What happens to the links. Each trouble is over after a while, and some links are reset then."""

    def __init__(self, group, network, seed, run):
        self.group, self.network, self.run, self.random = group, network, run, random.Random(seed)
        self.blocked = {}  # ways, as a tuple, and when they are open again

    def act(self, now):
        self.end_old(now)
        members = list(self.group.members)
        number, other = self.random.sample(members, 2)
        what = self.random.choice(["reset", "late", "one way", "hung", "apart", "hung client"])
        if what == "reset":
            self.network.reset(lambda link: {link.source, link.target} == {number, other})
        elif what == "late":
            self.network.delays = {(number, other): self.random.uniform(0, 0.1), (other, number): self.random.uniform(0, 0.1)}
        else:
            ways = {"one way": [(number, other)], "hung": ways_between(number, [other]),
                    "apart": ways_between(number, members), "hung client": [(number, CLIENT)]}[what]
            self.network.block(*ways)
            self.blocked[tuple(ways)] = now + self.random.uniform(0.3, 2)
        self.run.count(what)

    def end_old(self, now):
        for ways, until in list(self.blocked.items()):
            if now >= until:
                del self.blocked[ways]
                if self.random.random() < 0.5:
                    self.network.reset(lambda link: (link.source, link.target) in ways or (link.target, link.source) in ways)
                self.network.open(*ways)


def ended(group):
    return [f"member {it.number} ended by itself: {it.said()[-400:]}" for it in group.members.values() if not it.runs()]


def bad_network(program, folder, nodes, seconds, seed):
    """One run of three members over links in trouble, and clients whose answers break off."""
    run = Run()
    group = Group(program, folder, 3, [*WORDS, "2s"])
    with Network(group, seed) as network, group:
        make_books(group, harness.topology_of(nodes))
        work = Work(group, nodes)
        work.begin()
        trouble, end = Trouble(group, network, seed, run), time.monotonic() + seconds
        network.break_rate = 0.02
        while work.goes_on(end) and not run.faults:
            time.sleep(trouble.random.uniform(0.1, 0.6))
            run.faults += ended(group)
            trouble.act(time.monotonic())
        network.calm()
        network.reset(lambda link: True)
        work.end(run)
    return run


class Cut:
    """A leader that is cut off, and what is asked meanwhile."""

    def __init__(self, group, network, run):
        self.group, self.network, self.run, self.asker = group, network, run, Asker(12)
        self.leader, self.asked = group.leader(), []
        self.others = [number for number in group.members if number != self.leader]

    def ask_both(self, until):
        """Asks the one that is cut off: nothing may be told, and no look be as of now."""
        port = self.group.members[self.leader].client
        while (time.monotonic() < until or len(self.asked) < 2) and not self.run.faults:
            begun, key = time.monotonic(), f"cut-{len(self.asked)}"
            status, told = self.asker.json(port, "POST", f"/books/{BOOKS[0]}/call", {"command": "tick", "key": key})
            self.asked.append((key, begun))
            self.expect(status != 200, f"a leader that is cut off tells {told}")
            status, told = self.asker.json(port, "GET", f"/books/{BOOKS[0]}?now=1")
            self.expect(status != 200, f"a leader that is cut off has a look as of now: {told}")
            time.sleep(0.1)

    def expect(self, is_right, fault):
        self.run.count("asked")
        if not is_right:
            self.run.faults.append(fault)

    def call(self, number, key, begun, limit=60):
        """A call that is made again until it is told, as a caller of its own; it returns None after a while."""
        end = time.monotonic() + limit
        while time.monotonic() < end:
            body = {"command": "tick", "key": key}
            status, told = self.asker.json(self.group.members[number].client, "POST", f"/books/{BOOKS[0]}/call", body)
            if status == 200:
                return Told(key, BOOKS[0], key, 1, "", "tick", told["n"], told["reply"], "", begun, time.monotonic())
            time.sleep(0.05)
        self.run.faults.append(f"member {number} does not tell {key}")
        return None


def leader_cut_off(program, folder, nodes, seed, env=None):
    """The leader hears clients and no member. The others go on without it, and it follows them in the end."""
    run = Run()
    group = Group(program, folder, 3, [*WORDS, "1s"], env)
    with Network(group, seed) as network, group:
        make_books(group, harness.topology_of(nodes))
        work = Work(group, nodes, callers=4)
        work.begin()
        time.sleep(0.5)
        cut = Cut(group, network, run)
        network.block(*ways_between(cut.leader, group.members))
        cut.ask_both(time.monotonic() + 3)
        if run.faults:
            work.give_up(run)
            return run
        more = [cut.call(cut.others[0], "apart", time.monotonic())]
        network.calm()
        network.reset(lambda link: link.source != CLIENT)
        more += [cut.call(cut.leader, *it) for it in cut.asked]
        work.more = [it for it in more if it]
        work.end(run)
        run.faults += ended(group)
    return run


# Programs that do what they must never do, and by which words it is found.
FAULTS = {"early": "tells", "stale": "has a look as of now"}


def test_network(count, program, faulty, room, nodes, seconds):
    seed = int(time.time())
    run = bad_network(program, f"{room}/network", nodes, seconds, seed)
    print(f"a bad network, seed {seed}: {run}", flush=True)
    count.add(max(run.told + run.looks + run.entries - len(run.faults), 0), run.faults)
    count.check(f"something happened: {run}", run.told >= LEAST and sum(run.acts.values()) > 0)
    run = leader_cut_off(program, f"{room}/apart", nodes, seed)
    print(f"a leader that is cut off, seed {seed}: {run}", flush=True)
    count.add(max(run.told + run.looks + run.entries + run.acts["asked"] - len(run.faults), 0), run.faults)
    for fault, words in FAULTS.items():
        with place(room) as folder:
            run = leader_cut_off(faulty, f"{folder}/apart-{fault}", nodes, seed, {"LRCMAND_FAULT": fault})
        count.check(f"a program that is {fault} is found: {run.faults[:3]}", any(words in it for it in run.faults))
