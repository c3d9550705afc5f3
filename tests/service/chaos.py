"""Runs clients over a group whose members are killed, stopped, woken, added and removed, and judges what they were told."""
import os
import random
import time

from tests.service.certificates import Authority, NoOpenssl
from tests.service.cluster import Group
from tests.service.makers import Maker
from tests.service.work import Run, Work, make_books


class Chaos:
    """What happens to the members. At most a minority of those that vote is away at once."""

    def __init__(self, group, seed):
        self.group, self.random, self.next_number = group, random.Random(seed), len(group.members) + 1
        self.away, self.acts = {}, {}

    def count(self, word):
        self.acts[word] = self.acts.get(word, 0) + 1

    def come_back(self, now):
        for number, until in list(self.away.items()):
            if now >= until:
                self.back(number)

    def back(self, number):
        member = self.group.members[number]
        if member.is_stopped:
            member.wake()
        else:
            self.group.start(member)
        del self.away[number]

    def dice(self):
        """What happens next, from 0 to 1: at first one is killed and one is stopped, and then chance decides."""
        return {0: 0.2, 1: 0.5}.get(sum(self.acts.values()), self.random.random())

    def act(self, now):
        group = self.group
        self.come_back(now)
        if len(self.away) >= (len(group.members) - len(group.learners) - 1) // 2:
            return
        number, dice = self.random.choice([it for it in group.members if it not in self.away]), self.dice()
        if dice < 0.1:  # (a learner does not come to lead, and nobody minds)
            group.lead(number)
            self.count("made leader")
        elif dice < 0.45:
            group.members[number].kill()
            self.away[number] = now + self.random.uniform(0, 1.5)
            self.count("killed")
        elif dice < 0.8:
            group.members[number].stop()
            self.away[number] = now + self.random.uniform(0.3, 2)
            self.count("stopped")
        elif not self.away and len(group.members) < 5:
            self.add()
        elif not self.away and number in group.learners and dice < 0.9:
            group.promote(number)
            self.count("promoted")
        elif not self.away:
            group.remove(number)
            self.count("removed")

    def add(self):
        """Adds a member. One of those that are there may only learn."""
        learns = not self.group.learners and self.random.random() < 0.5
        self.group.add(self.next_number, learns)
        self.next_number += 1
        self.count("added to learn" if learns else "added")

    def end(self):
        for number in list(self.away):
            self.back(number)


TOKEN = "a-token-of-the-tests"


def guarded(folder):
    """The words of members whom clients show a token, and who show each other certificates where there is openssl."""
    os.makedirs(folder, exist_ok=True)
    tokens = os.path.join(folder, "tokens")
    with open(os.open(tokens, os.O_WRONLY | os.O_CREAT, 0o600), "w", encoding="utf-8") as file:
        file.write(f"operate {TOKEN}\n")
    words = ["--token-file", tokens]
    try:
        authority = Authority(os.path.join(folder, "certificates"))
    except NoOpenssl as why:
        print(f"left out: certificates of members: {why}", flush=True)
        return [*words, "--trust-network"]
    certificate, key = authority.sign("member")
    return [*words, "--peer-cert", certificate, "--peer-key", key, "--peer-ca", authority.ca]


def other_nodes(topology):
    """The nodes with one slot more of each."""
    return topology.replace("slots = ", "slots = 1")


def chaos(program, folder, nodes, topology, seconds, seed, env=None, is_quiet=False, callers=8, lookers=8):
    """One run. With is_quiet nothing happens to the members."""
    run = Run()
    words = ["--election", "400ms", "--snapshot-every", "150", "--trailing", "20", "--tick", "2", *guarded(f"{folder}-secrets")]
    with Group(program, folder, 3, words, env, TOKEN) as group:
        make_books(group, topology)
        makers = [] if is_quiet else [Maker(group, number, [topology, other_nodes(topology)]) for number in (1, 2)]
        work = Work(group, nodes, callers, lookers, beside=makers, ticks=True)
        work.begin()
        acts, end = Chaos(group, seed), time.monotonic() + seconds
        while work.goes_on(end):
            time.sleep(acts.random.uniform(0.1, 0.7))
            run.faults += [f"member {it.number} ended by itself: {it.said()[-300:]}" for it in group.members.values()
                           if it.number not in acts.away and not it.runs()]
            if run.faults or is_quiet:
                break
            acts.act(time.monotonic())
        time.sleep(seconds if is_quiet else 0)
        acts.end()
        run.acts = acts.acts
        work.end(run)
        run.faults += [f"member {number} was removed, and ended with {it.process.poll()}" for number, it in group.gone.items()
                       if it.process.poll() not in (3, None)]
    return run
