"""Cuts the power of members while clients work, and judges what they were told."""
import random
import time
from collections import Counter

from tests import harness
from tests.service.cluster import Group
from tests.service.disks import Disks, NoDisk
from tests.service.work import LEAST, Run, Work, make_books

WORDS = ["--election", "400ms", "--snapshot-every", "60", "--trailing", "10", "--tick", "0"]


class Cuts:
    """Cuts power at random: of one member, or of all at once. They start again after a while."""

    def __init__(self, group, disks, seed, run):
        self.group, self.disks, self.seed, self.run = group, disks, seed, run
        self.random, self.lost = random.Random(seed), Counter()

    def cut(self):
        members = list(self.group.members)
        is_all = len(members) == 1 or self.random.random() < 0.3
        numbers = members if is_all else [self.random.choice(members)]
        self.seed += 1000
        for text in self.disks.cut(numbers, self.seed):
            for part in text.split(", "):
                count, what = part.split(" ", 1)
                self.lost[what] += int(count)
        self.run.count("cuts of all" if is_all else "cuts of one")
        time.sleep(self.random.choice([0, 0.2, 0.8]))
        for number in numbers:
            self.group.start(self.group.members[number])

    def ended(self):
        gone = [it for it in self.group.members.values() if not it.runs()]
        return [f"member {it.number} ended after a cut: {it.said()[-400:]}" for it in gone]


def power_cuts(program, powercut, folder, nodes, size, seconds, seed, env=None):
    """One run over so many members. Raises NoDisk where there can be no such disks."""
    run, topology = Run(), harness.topology_of(nodes)
    group = Group(program, folder, size, WORDS, env)
    with Disks(powercut, group) as disks, group:
        make_books(group, topology)
        work = Work(group, nodes, callers=6)
        work.begin()
        cuts, end = Cuts(group, disks, seed, run), time.monotonic() + seconds
        while work.goes_on(end) and not run.faults and not work.faults_so_far():
            if cuts.random.random() < 0.7:  # (else perhaps before it has begun again)
                work.wait_for_a_call(cuts.ended)
            time.sleep(cuts.random.uniform(0.1, 0.9))
            run.faults += cuts.ended()
            if not run.faults:
                cuts.cut()
        if run.faults or work.faults_so_far():
            work.give_up(run)
        else:
            work.end(run)
            run.faults += cuts.ended()
        run.acts = {**run.acts, **cuts.lost}
    return run


# Files of the log that are small, so that there are many of them.
SMALL = {"LRCMAND_LOG_FILE": "32768"}
# What a program leaves out that must be found, in one run of several: a cut spares much by chance.
FAULTS, MOST_RUNS = ["nosync", "nonames"], 8


def find_fault(faulty, powercut, room, nodes, fault):
    """The last run of those that are made until a fault is found, and the number of runs."""
    for seed in range(1, MOST_RUNS + 1):
        run = power_cuts(faulty, powercut, f"{room}/{fault}{seed}", nodes, 1, 2, seed, {"LRCMAND_FAULT": fault})
        if run.faults:
            break
    return run, seed


def test_power_cuts(count, program, faulty, powercut, room, nodes, seconds, is_long):
    """One member and three, with the files of the log as they are and small; and programs that don't sync are found."""
    runs = [("one member", program, 1, None), ("three members, small files", faulty, 3, SMALL)]
    if is_long:
        runs += [("one member, small files", faulty, 1, SMALL), ("three members", program, 3, None)]
    try:
        for name, which, size, env in runs:
            seed = int(time.time())
            run = power_cuts(which, powercut, f"{room}/cuts{size}{bool(env)}", nodes, size, seconds, seed, env)
            print(f"power cuts, {name}, seed {seed}: {run}", flush=True)
            count.add(max(run.told + run.looks + run.entries - len(run.faults), 0), run.faults)
            count.check(f"something happened: {run}", run.told >= LEAST and sum(run.acts.values()) > 0)
        for fault in FAULTS:
            run, seed = find_fault(faulty, powercut, room, nodes, fault)
            print(f"power cuts, {fault}: found in run {seed}: {run.faults[:1]}"[:200], flush=True)
            count.check(f"a program that is {fault} is found in {MOST_RUNS} runs: {run}", run.faults)
    except NoDisk as why:
        print(f"left out: power cuts: {why}", flush=True)
