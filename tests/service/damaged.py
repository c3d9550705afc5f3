"""One byte of a member's folder is another one: it exits and says why, or continues and shows what the model shows."""
import glob
import os
import random
import shutil
import subprocess
import time

from tests import harness
from tests.model import rules
from tests.service.clients import Caller
from tests.service.cluster import Asker, Group, Member
from tests.service.one_member import wait_ready

BOOK = "p0"
CALLS = 130
WORDS = ["--snapshot-every", "50", "--trailing", "5", "--tick", "0"]


class Folder:
    """The folder of a member alone that was killed, and the image that its book has."""

    def __init__(self, program, room, nodes):
        self.program, self.room, self.random = program, room, random.Random(1)
        self.group = Group(program, f"{room}/whole", 0)
        self.member, self.asker, self.store = Member(self.group, 1, WORDS), Asker(20), rules.Store(nodes)
        self.member.start()
        try:
            wait_ready(self.asker, self.member, 60)
            self.fill(nodes)
        finally:
            self.member.kill()
        self.image = self.store.image(CALLS).encode()

    def fill(self, nodes):
        self.asker.ask(self.member.client, "PUT", f"/books/{BOOK}", harness.topology_of(nodes))
        draws = Caller(self.group, 1, [BOOK], 0)
        for number in range(CALLS):
            command = draws.command(BOOK)
            body = {"command": command, "key": f"k{number}"}
            status, told = self.asker.json(self.member.client, "POST", f"/books/{BOOK}/call", body)
            right = self.store.call(1, command)
            if (status, told.get("reply")) != (200, right):
                raise RuntimeError(f"{command}: status {status}, {told}, and not {right}")
        self.wait_for_snapshots()

    def wait_for_snapshots(self, limit=60):
        end = time.monotonic() + limit
        while len(self.files("snap/*.snap")) < 2:
            if time.monotonic() > end:
                raise RuntimeError("there are not two snapshots")
            time.sleep(0.05)

    def files(self, pattern):
        return sorted(glob.glob(os.path.join(self.member.folder, pattern)))

    def copy(self, name):
        """A member with a copy of the folder."""
        group = Group(self.program, f"{self.room}/{name}", 0)
        member = Member(group, 1, WORDS)
        # (a log has sixteen megabytes, and most of it is zeros)
        subprocess.run(["cp", "-r", "--sparse=always", self.member.folder, member.folder], check=True)
        return member


def length_of(path):
    """The bytes of a file up to the last one that is not 0: a log is longer than what was written."""
    return len(harness.read(path).rstrip(b"\0"))


def change_byte(path, place, by):
    """Changes a byte, or writes one into an empty file."""
    with open(path, "r+b") as file:
        file.seek(place)
        old = file.read(1) or b"\0"
        file.seek(place)
        file.write(bytes([old[0] ^ by]))


def outcome(asker, member, image):
    """What becomes of a member that starts: how it ended, whether its book is right, or a fault."""
    member.start()
    end = time.monotonic() + 60
    while member.runs() and asker.ask(member.client, "GET", "/health")[0] != 200:
        if time.monotonic() > end:
            return "neither ready nor ended"
        time.sleep(0.01)
    if not member.runs():
        return "ended" if "Remove this member, and add one with an empty folder" in member.said() else "ended without a word"
    status, _, text = asker.ask(member.client, "GET", f"/books/{BOOK}/image?now=1")
    return "right" if (status, text) == (200, image) else f"another image, status {status}"


# What may become of a member by the kind of the file, and what it has to say if it goes on.
KINDS = {
    "wal/*.wal": ({"ended", "right"}, ""),
    "snap/*.snap": ({"right"}, "can't be read: this member begins in the one at"),
    "snap/*.snap.db": ({"right"}, "can't be read: this member begins in the one at"),
    "mark": ({"right"}, "the file mark can't be read"),
    "identity": ({"right"}, "the file identity can't be read"),
    "lock": ({"right"}, ""),
}


def test_kind(count, folder, pattern, times, ended):
    """Changes the newest file of a kind, at so many places, one after the other."""
    allowed, words = KINDS[pattern]
    asker = Asker(20)
    for number in range(times):
        member = folder.copy(f"damaged-{os.path.basename(pattern).strip('*.')}{number}")
        path = sorted(glob.glob(os.path.join(member.folder, pattern)))[-1]
        place, by = folder.random.randrange(max(length_of(path), 1)), folder.random.randrange(1, 256)
        change_byte(path, place, by)
        try:
            found = outcome(asker, member, folder.image)
            said = member.said()
        finally:
            member.kill()
        shutil.rmtree(member.group.folder)
        ended[found] = ended.get(found, 0) + 1
        is_said = found != "right" or words in said
        count.check(f"{pattern}: byte {place} changed by {by}: {found}: {said[-600:]}", found in allowed and is_said)


def test_damage(count, program, room, nodes, times):
    folder, seed = Folder(program, f"{room}/damage", nodes), int(time.time())
    folder.random = random.Random(seed)
    for pattern in KINDS:
        ended = {}
        test_kind(count, folder, pattern, {"wal/*.wal": 5 * times, "lock": 1}.get(pattern, times), ended)
        print(f"one byte of {pattern} changed, seed {seed}: {ended}", flush=True)


def test_other_folders(count, program, room, nodes):
    """A folder of another number, or of another group, is refused and left as it is."""
    folder, asker = Folder(program, f"{room}/other", nodes), Asker(20)
    for what, number, words in (("number", 2, []), ("group", 1, ["--group", "other"])):
        member = folder.copy(f"other-{what}")
        member.number = number
        member.start(*words)
        is_refused = member.ended(60) == 1 and "the folder is that of another member, or of another group" in member.said()
        count.check(f"a folder of another {what} is refused: {member.said()[-300:]}", is_refused)
        member.number = 1
        try:
            found = outcome(asker, member, folder.image)
        finally:
            member.kill()
        count.check(f"the folder is as it was: {found}: {member.said()[-300:]}", found == "right")
