"""A member whose disk is nearly full takes no changes; one whose disk is full exits and says why, and continues when there is room.
Nothing that was told is lost."""
import os
import shutil
import subprocess
import time

from tests import harness
from tests.service.cluster import Asker, Group
from tests.service.one_member import wait_ready
from tests.service.work import Run, Work, asked_for, make_books

# Small files of the log: two are made in advance, and a member does not ask for room before they are full.
MEGABYTES, FILE, RESERVE = 16, {"LRCMAND_LOG_FILE": "16384"}, 4 << 20
WORDS = ["--election", "400ms", "--snapshot-every", "100", "--trailing", "10", "--tick", "0"]


class NoMount(Exception):
    """No file system can be mounted here, with the reason."""


class SmallDisk:
    """A file system in memory of so many megabytes, mounted at a folder."""

    def __init__(self, folder, megabytes):
        self.folder = folder
        os.makedirs(folder, exist_ok=True)
        if not shutil.which("mount"):
            raise NoMount("there is no mount")
        words = ["mount", "-t", "tmpfs", "-o", f"size={megabytes}m", "tmpfs", folder]
        ran = subprocess.run(words, capture_output=True, text=True)
        if ran.returncode:
            raise NoMount(ran.stderr.strip().split("\n")[0])

    def fill(self, free=0):
        """Takes all the room that is left, but for so many bytes."""
        with open(os.path.join(self.folder, "filling"), "wb", buffering=0) as file:
            try:
                while shutil.disk_usage(self.folder).free > free and file.write(bytes(4096)):
                    pass
            except OSError:
                pass  # (it is full)

    def make_room(self):
        os.remove(os.path.join(self.folder, "filling"))

    def close(self):
        subprocess.run(["umount", "-l", self.folder], check=True, capture_output=True)


def fill_until_it_ends(disk, member, run, limit=120):
    """Fills the disk again and again, as the member frees room where it can, until it ends."""
    disk.fill()
    end = time.monotonic() + limit
    while member.runs() and time.monotonic() < end:
        time.sleep(0.05)
        disk.fill()
    if member.runs():
        run.faults.append("the member goes on with a full disk")
    elif "no space left on device" not in member.said():
        run.faults.append(f"the member ended without a word of its disk: {member.said()[-400:]}")
    run.count("full")


def expect(run, words, is_right):
    if not is_right:
        run.faults.append(words)


class Asked:
    """One member whose disk is nearly full, as its clients see it."""

    def __init__(self, member, run):
        self.member, self.run, self.asker = member, run, Asker(5)

    def ask(self, method, path, value=None):
        return self.asker.json(self.member.client, method, path, value)

    def make(self, book, topology):
        path = f"/books/{book}"
        status, _ = asked_for(lambda: self.asker.ask(self.member.client, "PUT", path, topology)[:2], [200], 30)
        expect(self.run, f"the book {book} is not made: {status}", status == 200)

    def until(self, method, path, value, status):
        return asked_for(lambda: self.ask(method, path, value), [status], 30)

    def call(self, status):
        """Makes one call until it has the status."""
        return self.until("POST", "/books/kept/call", {"command": "tick", "key": "refused"}, status)

    def expect(self, words, method, path, value=None, status=200):
        found, told = self.until(method, path, value, status)
        expect(self.run, f"a member below its reserve {words}: {found} {told}", found == status)
        return told


def refuse(group, disk, member, run, topology):
    """Below its reserve the member refuses changes by name, but for what makes room; it does not lead, and looks go on."""
    asked = Asked(member, run)
    asked.make("spare", topology)
    asked.make("kept", topology)
    disk.fill(RESERVE // 2)
    status, told = asked.call(507)
    expect(run, f"below its reserve a member takes changes: {status} {told}", told.get("code") == "disk_full")
    reasons = asked.expect("says so to /readyz", "GET", "/readyz", None, 503).get("reasons", ())
    expect(run, f"its reasons are not that of the disk: {reasons}", "disk" in reasons)
    asked.expect("gives looks as of now", "GET", "/books/p0?now=1")
    place = asked.expect("gives looks", "GET", "/books/spare?now=1")
    asked.expect("removes a book", "DELETE", "/books/spare", {"at": place.get("n"), "opens": place.get("opens")})
    asked.expect("writes a snapshot", "POST", "/snapshot")
    if len(group.members) > 1:
        others = asked_for(lambda: (int(group.leader() != member.number),), [1], 20)
        expect(run, "a member that takes no changes leads", others[0] == 1)
    run.count("refused")


def goes_on_full(disk, member, run):
    """One that takes no changes writes nothing: so it goes on, however full the disk is, and takes changes again above its reserve."""
    disk.fill()
    time.sleep(2)
    expect(run, f"a member alone that takes no changes ends: {member.said()[-400:]}", member.runs())
    disk.make_room()
    status, told = Asked(member, run).call(200)
    expect(run, f"above its reserve a member takes no changes: {status} {told}", status == 200)


def full_disk(faulty, folder, nodes, size, reserve):
    """A run over so many members, of which the first one's disk is full for a while."""
    run = Run()
    group = Group(faulty, folder, size, [*WORDS, "--disk-reserve", str(reserve)], FILE)
    disk = SmallDisk(os.path.join(folder, "small"), MEGABYTES)
    try:
        member = group.members[1]
        member.folder = os.path.join(disk.folder, "data")
        with group:
            make_books(group, harness.topology_of(nodes))
            work = Work(group, nodes, callers=4, lookers=1)
            work.begin()
            time.sleep(0.5)
            if reserve:
                refuse(group, disk, member, run, harness.topology_of(nodes))
            if reserve and size == 1:
                goes_on_full(disk, member, run)
            else:
                fill_until_it_ends(disk, member, run)
                disk.make_room()
                group.start(member)
                wait_ready(group.asker, member, 60)
            end = time.monotonic() + 0.5
            while work.goes_on(end):
                time.sleep(0.05)
            work.end(run)
    finally:
        disk.close()
    return run


def test_full_disk(count, faulty, room, nodes):
    for size, reserve in ((1, RESERVE), (1, 0), (3, RESERVE)):
        try:
            run = full_disk(faulty, f"{room}/full{size}-{reserve}", nodes, size, reserve)
        except NoMount as why:
            print(f"left out: a full disk: {why}", flush=True)
            return
        print(f"a full disk, one of {size}, with a reserve of {reserve}: {run}", flush=True)
        count.add(max(run.told + run.looks + run.entries - len(run.faults), 1), run.faults)
