"""The history of a demo of examples/cluster, made on the model: the log of the book, what the demo counted, and the disks."""
import json
import os
import zlib

from tests import harness
from tests.model import field, recipe_rules
from tests.model.rules import WIDE, Store

FRAGMENT = 65536
HARMS = "damage", "cut"  # what a scrub found


def bytes_of(path):
    with open(path, "rb") as file:
        return file.read()


class Run:
    """What a demo left: the state of the model after each entry of the book's log, and what the demo counted."""

    def __init__(self, folder, report=None):
        self.folder = folder
        self.report = report or json.loads(bytes_of(f"{folder}/report.json"))
        self.entries = [json.loads(line) for line in bytes_of(f"{folder}/log.jsonl").splitlines()]
        self.nodes = harness.nodes_of(bytes_of(f"{folder}/nodes.toml"))
        self.repairs, self.rebuilt = {tuple(it[:3]): tuple(it[3:]) for it in self.report["repairs"]}, None
        self.faults, self.passed, self.granted, self.done = [], 0, {}, {}
        self.harms = [self.report[name] for name in HARMS if name in self.report]
        self.harmed_at = {(it["stripe"], it["fragment"]): it["entries"] for it in self.harms}  # the entries before it

    def check(self, name, is_right):
        self.passed += is_right
        if not is_right:
            self.faults.append(name)

    def judge(self):
        """Makes each command of the log on the model."""
        self.store = Store(self.nodes)
        for entry in self.entries:
            self.entry = entry["n"]
            if entry["n"] - 1 == self.report.get("rack", {}).get("entries"):
                self.rebuilt = self.data_on(self.report["rack"]["nodes"])
            before = self.reads_of_report(entry["command"])
            reply = self.store.call(entry["session"], entry["command"])
            self.check(f"entry {entry['n']}, {entry['command']}: {entry['reply']}, and not {reply}", reply == entry["reply"])
            self.note(entry["command"].split(), reply.split(), before)
        self.judge_repairs()
        self.judge_counts()

    def data_on(self, nodes):
        """How many data fragments are on nodes."""
        return sum(home[0] in nodes and fragment < 12 for (_, fragment), home in self.store.homes.items())

    def reads(self, stripe, fragment):
        """How many fragments a repair reads, by the rules, as the store is now: that of a harmed one does without it."""
        missing = self.store.missing(stripe)
        if self.entry > self.harmed_at.get((stripe, fragment), self.entry):
            missing |= 1 << fragment
        if not missing >> fragment & 1:
            return 1
        group = recipe_rules.group_of(WIDE, fragment)
        return 6 if group is not None and not group & missing else 12

    def reads_of_report(self, command):
        words = command.split()
        return self.reads(int(words[1]), int(words[2])) if words[0] == "done" and int(words[1]) in self.store.stripes else None

    def note(self, command, reply, before):
        if reply[0] == "granted":
            stripe, fragment, epoch = int(reply[1]), int(reply[2]), int(reply[5])
            self.granted[stripe, fragment, epoch] = reply[3], reply[6], self.reads(stripe, fragment)
        elif command[0] == "done" and reply == ["ended"]:
            self.done[tuple(map(int, command[1:]))] = before

    def judge_repairs(self):
        """Each report that was accepted is one of a worker, which read what the rules say, at the grant or at the report."""
        mended = {key for key in self.done if key[:2] in self.harmed_at and key not in self.repairs}
        self.check(f"reports {sorted(self.done)} and not {sorted(self.repairs)}", set(self.done) - mended == set(self.repairs))
        for key, (kind, reads) in self.repairs.items():
            _, wanted, at_grant = self.granted.get(key, (None, None, None))
            self.check(f"{key}: {kind}, and not {wanted}", kind == wanted)
            self.check(f"{key}: read {reads}, and not {at_grant}", reads in (at_grant, self.done.get(key)))

    def judge_counts(self):
        report = self.report
        if "rack" in report:
            told = report["rack"]["rebuilt"]
            self.check(f"rebuilt {told} while the rack was gone, and not {self.rebuilt}", told == self.rebuilt)
            kinds = {repair for repair in self.repairs.values()}
            self.check(f"repairs from 6 and from 12: {kinds}", {("local", 6), ("global", 12)} <= kinds)
        if "late" in report:
            self.judge_late(report["late"])
        if "upgrade" in report:
            self.check(f"reads beside the upgrade: {report['upgrade']}", report["upgrade"]["rebuilt"] > 0)
        for harm in self.harms:
            self.check(f"rebuilt for what was harmed: {harm}", harm["rebuilt"] == 1)
            self.check(f"read for what was harmed: {harm}", harm["reads"] == 6)

    def judge_late(self, late):
        """The late worker is refused, by the node too if a later lease had the same target."""
        words = late["lease"].split()
        key = int(words[1]), int(words[2]), int(words[5])
        later = [it for it in self.done if it[:2] == key[:2] and it[2] > key[2]]
        target = self.granted[key][0].split(":")[0]
        is_fenced = any(self.granted[it][0].split(":")[0] == target for it in later)
        self.check(f"the late worker: {late}", late["status"] == (409 if is_fenced else 200) and late["reply"] == "refused 113")
        self.check(f"another worker: {late}", late["other"] == "refused 114 1")

    def file_of(self, stripe, fragment):
        """The file of the newest epoch of a fragment at its home."""
        folder = f"{self.folder}/node-{self.store.homes[stripe, fragment][0]}"
        names = [name for name in os.listdir(folder) if name.startswith(f"{stripe}.{fragment}.epoch")]
        return f"{folder}/{max(names, key=lambda name: int(name.rsplit('epoch')[1]))}" if names else None

    def judge_disks(self):
        """What stands at the homes of each stripe is a stripe."""
        rows = field.generator(WIDE)
        for stripe in self.store.stripes:
            files = [self.file_of(stripe, fragment) for fragment in WIDE.fragments]
            texts = [bytes_of(file) if file else b"" for file in files]
            sums = [int.from_bytes(text[:4]) == zlib.crc32(text[4:]) and len(text) == 4 + FRAGMENT for text in texts]
            data = [text[4:] for text in texts[:12]]
            right = all(sums) and all(
                recipe_rules.sum_of(data, dict(enumerate(rows[parity])), FRAGMENT) == texts[parity][4:] for parity in range(12, 16))
            self.check(f"the bytes of stripe {stripe}: {sums}", right)


def judged(folder, kind=Run):
    run = kind(folder)
    run.judge()
    run.judge_disks()
    return run
