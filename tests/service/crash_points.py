"""Members end at each step of a snapshot that is written, that is received, and of a log that is cut, in order: by a kill, and by a
power cut. Each start after it works, and has all that was told."""
import contextlib
import glob
import os
import re
import time

from tests import harness
from tests.model import rules
from tests.service.clients import Caller
from tests.service.cluster import Asker, Group
from tests.service.damaged import change_byte
from tests.service.disks import Disks, NoDisk

BOOK = "p0"
ROUNDS, CALLS = 4, 25  # of a run: calls, and then a snapshot
WORDS = ["--election", "400ms", "--snapshot-every", "1000000", "--trailing", "3", "--tick", "0"]
SMALL = {"LRCMAND_LOG_FILE": "2048"}  # so that each snapshot cuts files of the log
STEP = re.compile(r"step (\d+): (.*)")
UNREADABLE = re.compile(r"the (snapshot at \d+|log) can't be read")


def state_of(member):
    """How the system has the process: T if it is stopped."""
    with open(f"/proc/{member.process.pid}/stat", encoding="ascii") as file:
        return file.read().rsplit(")", 1)[1].split()[0]


def steps_of(member):
    return [what for _, what in STEP.findall(member.said())]


class Never(Exception):
    """What was waited for does not come, with what it was."""


def wait_for(what, is_so, member=None, limit=60):
    """Waits for what must come, and gives up at once if the member ends that it must come from."""
    end = time.monotonic() + limit
    while not is_so():
        if member and not member.runs():
            raise Never(f"{what}: member {member.number} ended: {member.said()[-300:]}")
        if time.monotonic() > end:
            raise Never(f"{what}: not in {limit} seconds")
        time.sleep(0.01)


def begun(group, nodes):
    """Makes the book, and returns the model of it."""
    text = harness.topology_of(nodes)
    wait_for("the book is made", lambda: group.asker.ask(group.members[1].client, "PUT", f"/books/{BOOK}", text)[0] == 200)
    return rules.Store(nodes)


class Calls:
    """Calls at one member, one after the other, with the replies that the model has."""

    def __init__(self, group, nodes):
        self.group, self.store, self.asker = group, begun(group, nodes), Asker(2)
        self.draws, self.made, self.pending = Caller(group, 1, [BOOK], 0), 0, None

    def one(self, member):
        """Makes the call that waits, or the next one. Returns whether it was told."""
        self.pending = self.pending or self.draws.command(BOOK)
        body = {"command": self.pending, "key": f"k{self.made}"}
        status, told = self.asker.json(member.client, "POST", f"/books/{BOOK}/call", body)
        if status != 200:
            return False
        right = self.store.call(1, self.pending)
        if told["reply"] != right:
            raise Never(f"{self.pending}: {told}, and not {right}")
        self.made, self.pending = self.made + 1, None
        return True

    def are_there(self, member):
        """Waits until a member is asked as of now, and tells whether it has the image of the model."""
        wait_for("the call of before the end", lambda: self.pending is None or self.one(member), member)
        found = []

        def is_told():
            status, _, text = self.asker.ask(member.client, "GET", f"/books/{BOOK}/image?now=1")
            found[:] = [text.decode()]
            return status == 200
        wait_for("a look as of now", is_told, member)
        return found == [self.store.image(self.made)]


def snapshot(group, member):
    """Makes a snapshot, unless the member is stopped meanwhile. It is asked for again where nothing comes of it."""
    before, asked = group.status(member).get("snapshot", 0), 0

    def is_there():
        nonlocal asked
        if state_of(member) == "T" or group.status(member).get("snapshot", 0) > before:
            return True
        if time.monotonic() > asked + 5:
            asked = time.monotonic()
            group.asker.ask(member.client, "POST", "/snapshot", "{}", {"Content-Type": "application/json"})
        return False
    wait_for("a snapshot", is_there, member)


def are_alike(group, member, other):
    """Whether two members have applied as many entries."""
    applied = group.status(member).get("applied", 0)
    return applied > 0 and applied == group.status(other).get("applied")


def end(member, disks, seed):
    """Kills a member, or cuts its power."""
    if disks:
        disks.cut([member.number], seed)
    else:
        member.kill()


def disks_of(powercut, group):
    """Disks that can lose power; nothing where members are killed."""
    return Disks(powercut, group) if powercut else contextlib.nullcontext()


def judged(member, calls):
    """What is wrong with a member that was started again."""
    try:
        faults = [] if calls.are_there(member) else ["another image"]
    except Never as why:
        faults = [str(why)]
    if UNREADABLE.search(member.said()):
        faults.append(f"a snapshot or the log can't be read: {member.said()[-300:]}")
    return faults


def written(faulty, folder, nodes, at, powercut, seed):
    """One member alone ends at a step of its snapshots. Returns its steps until then, and what is wrong after the next start."""
    group = Group(faulty, folder, 1, WORDS, {**SMALL, "LRCMAND_STOP_AT": str(at)})
    with disks_of(powercut, group) as disks, group:
        member, calls = group.members[1], Calls(group, nodes)
        for number in range(ROUNDS * CALLS):
            if state_of(member) == "T":
                break
            wait_for("a call is told", lambda: calls.one(member) or state_of(member) == "T")
            if number % CALLS == CALLS - 1:
                snapshot(group, member)
        steps = steps_of(member)
        end(member, disks, seed)
        group.env = SMALL
        group.start(member)
        faults = judged(member, calls)
        if at == 0 and not faults:
            faults = without_newest(group, member, calls)
        return steps, faults


def without_newest(group, member, calls):
    """What is wrong with a member that starts where its newest snapshot is damaged: the log has to reach back to the one before."""
    member.kill()
    newest = sorted(glob.glob(f"{member.folder}/snap/*.snap.db"))[-1]
    change_byte(newest, os.path.getsize(newest) // 2, 1)
    group.start(member)
    try:
        return [] if calls.are_there(member) else ["another image, without the newest snapshot"]
    except Never as why:
        return [f"without the newest snapshot: {why}"]


def received(faulty, folder, nodes, points, powercut, seed):
    """A member of three that was away ends at a step of the snapshot that it gets, at one of these after the other. Returns the
    steps at which it did, and what is wrong."""
    group, steps = Group(faulty, folder, 3, WORDS, SMALL), []
    with disks_of(powercut, group) as disks, group:
        calls, late = Calls(group, nodes), group.members[3]
        for at in points:
            late.kill()
            leader = group.members[group.leader()]
            for _ in range(CALLS):
                wait_for("a call is told", lambda: calls.one(group.members[group.leader()]))
            for member in (group.members[1], group.members[2]):
                wait_for("it keeps up", lambda: are_alike(group, member, leader))
                snapshot(group, member)
            said = len(late.said())
            group.env = {**SMALL, "LRCMAND_STOP_AT": str(at)}
            group.start(late)
            wait_for("it stops, or keeps up", lambda: state_of(late) == "T" or are_alike(group, late, leader))
            if state_of(late) == "T":
                steps.append(STEP.findall(late.said()[said:])[-1][1])
            seed += 1
            end(late, disks, seed)
            group.env = SMALL
            group.start(late)
            if faults := judged(late, calls):
                return steps, faults
    return steps, []


# Steps that a run of the first kind has at least, and of the second kind.
OF_WRITTEN = {"sync of a snapshot", "rename of a snapshot", "metadata of a snapshot", "names of a snapshot", "record of a snapshot",
              "removal of a snapshot", "removal of a file of the log", "sync of a removal"}
OF_RECEIVED = {"metadata of a snapshot", "names of a snapshot", "record of a snapshot", "hard state behind a snapshot",
               "sync behind a snapshot", "end of a snapshot that was received"}
LAST_STEP = "answer to a snapshot"  # by now all has to be synced


def tried(run, *words):
    """The steps of a run, and what is wrong."""
    try:
        return run(*words)
    except Never as why:
        return [], [str(why)]


def test_crash_points(count, faulty, powercut, room, nodes, is_long):
    """Kills at every step, and power cuts at every step where there can be such disks."""
    seed = int(time.time())
    steps, faults = tried(written, faulty, f"{room}/points0", nodes, 0, None, seed)
    count.check(f"the steps of a member alone: {steps} {faults}", set(steps) >= OF_WRITTEN and not faults)
    every = 1 if is_long else 4
    for name, disk in (("kills", None), ("power cuts", powercut)):
        try:
            points = range(seed % every + 1, len(steps) + 1, every)
            for at in points:
                _, faults = tried(written, faulty, f"{room}/points-{name[0]}{at}", nodes, at, disk, seed + at)
                count.check(f"{name}, seed {seed}, before step {at}, {steps[at - 1]}: {faults}", not faults)
            points_of_received = [*range(1, 8), *[LAST_STEP] * (12 if is_long else 3)]
            found, faults = tried(received, faulty, f"{room}/received-{name[0]}", nodes, points_of_received, disk, seed)
            count.check(f"{name}, seed {seed}, of a snapshot that comes: {found} {faults}", set(found) >= OF_RECEIVED and not faults)
            print(f"{name} at steps of snapshots, seed {seed}: {len(points)} that are written, {len(found)} that come", flush=True)
        except NoDisk as why:
            print(f"left out: {name} at steps of snapshots: {why}", flush=True)
