"""The history of a demo in which racks come: whether targets were limited, and whether moves evened out the shares."""
import os
import re
from collections import Counter

from tests.cluster import history
from tests.program.balance import distances, helping_move, ranks

LOOKED = re.compile(r"stripe (\d+) fragment (\d+) epoch (\d+): (\d+) of (\d+) targets on node (\d+) after entry (\d+)")
LEAST_REPAIRS, LEAST_MOVES = 10, 10
OUTAGES = "down", "fail", "upgrade"


class Run(history.Run):
    """What a demo with the phases `targets` and `share` left."""

    def __init__(self, folder, report=None):
        super().__init__(folder, report)
        self.targets, self.reports, self.begun = {}, {}, {}
        self.sunk, self.risky, self.crowded, self.moved, self.ranks = [], [], [], 0, None

    def is_in(self, phase, entry):
        found = self.report.get(phase)
        return found is not None and found["from"] < entry <= found["to"]

    def note(self, command, reply, before):
        super().note(command, reply, before)
        if self.is_in("targets", self.entry):
            self.targets[self.entry] = Counter(lease.target[0] for lease in self.store.leases.values())
            self.note_repair(command, reply)
        if self.is_in("share", self.entry):
            self.note_move(command, reply)

    def note_repair(self, command, reply):
        """The entry of each grant, and those of grant and report of what was reported."""
        if reply[0] == "granted":
            self.begun[int(reply[1]), int(reply[2]), int(reply[5])] = self.entry
        elif command[0] == "done" and reply == ["ended"]:
            key = tuple(map(int, command[1:]))
            self.reports[key] = self.begun[key], self.entry

    def note_move(self, command, reply):
        """What a command of a round must not have done."""
        if command[0] == "drain" and not self.ranks:
            self.ranks, self.before = ranks(self.store), distances(self.store)
        now = ranks(self.store)
        if self.ranks and command[0] not in OUTAGES and any(now[stripe] < rank for stripe, rank in self.ranks.items()):
            self.sunk.append(self.entry)
        self.ranks = self.ranks and now
        if reply[0] == "granted" and reply[6] == "move" and self.store.missing(int(reply[1])):
            self.risky.append(self.entry)
        key = tuple(map(int, command[1:]))
        self.moved += command[0] == "done" and reply == ["ended"] and self.repairs.get(key, ("", 0))[0] == "move"
        moves = Counter()
        for key, lease in self.store.leases.items():
            if key in self.store.homes and not self.store.missing(key[0]):
                moves.update((lease.target[0], self.store.homes[key][0]))
        if moves and max(moves.values()) > self.report["share"]["at_once"]:
            self.crowded.append(self.entry)
        if self.entry == self.report["share"]["to"]:
            self.after, self.left = distances(self.store), helping_move(self.store, self.report["share"]["within"])
            self.draining = self.store.nodes_in("draining")

    def judge_counts(self):
        super().judge_counts()
        if "targets" in self.report:
            self.judge_targets()
        if "share" in self.report:
            self.judge_shares()

    def said(self):
        """What the workers said."""
        names = [it for it in os.listdir(self.folder) if it.startswith("worker-") and it.endswith(".log")]
        return "".join(history.bytes_of(f"{self.folder}/{name}").decode() for name in names)

    def looks(self):
        """What workers said of the targets of a node, before they wrote to it."""
        numbers = [tuple(map(int, words)) for words in LOOKED.findall(self.said())]
        return {it[:3]: it[3:] for it in numbers}

    def judge_targets(self):
        looks, limit = self.looks(), self.report["targets"]["limit"]
        for key, (granted, reported) in self.reports.items():
            told, of, node, entry = looks.get(key, (0, 0, 0, 0))
            is_target = self.granted[key][0].split(":")[0] == str(node)
            self.check(f"{key}: a look at entry {entry}, and not within {granted} and {reported}", granted <= entry < reported)
            self.check(f"{key}: a look at node {node}, and not {self.granted[key][0]}", is_target and of == limit)
            there = self.targets.get(entry, {}).get(node, 0)
            self.check(f"{key}: {there} targets on node {node} after entry {entry}, and {told} were told", there == told)
            self.check(f"{key}: {there} targets on node {node} after entry {entry}, above {limit}", there <= limit)
        self.check(f"{len(self.reports)} repairs with few targets on a node", len(self.reports) >= LEAST_REPAIRS)
        moves = re.findall(".* move reads .*", self.said())
        self.check(f"workers that leave moves to others say {moves[:3]}", not moves)

    def judge_shares(self):
        report = self.report["share"]
        self.check(f"a stripe is at a lower level after the entries {self.sunk}", not self.sunk)
        self.check(f"a fragment of a stripe at risk is moved by the entries {self.risky}", not self.risky)
        self.check(f"a node has too many moves after the entries {self.crowded}", not self.crowded)
        self.check(f"{self.moved} moves, and {report['moves']} were told", self.moved == report["moves"] >= LEAST_MOVES)
        self.check(f"the move {self.left} would help", self.left is None)
        self.check(f"the nodes {self.draining} are draining", not self.draining)
        widest = [max(map(abs, far.values())) for far in (self.before, self.after)]
        self.check(f"nodes were up to {widest[0]:.1f} points from the mean, and are {widest[1]:.1f}", widest[1] < widest[0] / 2)
