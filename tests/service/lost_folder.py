"""A member starts with a folder that is not the one it had, and a web server answers at the address of one that is down."""
import http.server
import os
import shutil
import threading
import time

from tests import harness
from tests.service.cluster import Asker, Group
from tests.service.work import asked_for, make_books

BOOK, CALLS = "p0", 20
WORDS = ["--election", "500ms", "--tick", "0"]
AGAIN = "emove the number and add another"


class Told:
    """A group of three, and the calls that it told."""

    def __init__(self, program, folder, nodes):
        self.group, self.nodes, self.asker, self.told = Group(program, folder, 3, WORDS), nodes, Asker(3), []

    def __enter__(self):
        self.group.__enter__()
        make_books(self.group, harness.topology_of(self.nodes))
        return self

    def __exit__(self, *_):
        self.group.__exit__()

    def call(self, times=CALLS):
        """Makes calls at any member, each until it is told."""
        for _ in range(times):
            number = len(self.told)
            body = {"command": f"done 1 3 {number + 1}", "key": f"k{number}"}
            status, answer = self.group.change("POST", f"/books/{BOOK}/call", body)
            if status != 200:
                raise RuntimeError(f"{body}: {answer}")
            self.told.append((answer["n"], body["command"], answer["reply"]))

    def lead_away(self, *numbers):
        """Lets another member lead than these."""
        for number in set(self.group.members) - {*numbers}:
            self.group.lead(number)
            if self.group.leader() == number:
                return

    def expect(self, count, when):
        """Every call that was told is in the log of each member."""
        for member in self.group.members.values():
            path = f"/books/{BOOK}/show/status?now=1"
            status, answer = asked_for(lambda: self.asker.json(member.client, "GET", path), [200], 30)
            text = self.asker.ask(member.client, "GET", f"/books/{BOOK}/log?from=0")[2].decode()
            is_there = status == 200 and answer["n"] == self.told[-1][0]
            missing = [it for it in self.told if f'"n":{it[0]},' not in text or f'"command":"{it[1]}"' not in text]
            count.check(f"{when}: member {member.number} has {answer.get('n')} of {self.told[-1][0]}", is_there and not missing)


def status_of(words):
    """To start a folder again that the group does not take changes nothing."""
    return 3 if "lost" in words or "older copy" in words or "started again" in words else 1


def refused(count, what, member, words, limit=30):
    """A member that was just started has to end, with words."""
    status = member.ended(limit)
    said = member.said()
    return count.check(f"{what} is refused: status {status}: {said[-500:]}", status == status_of(words) and words in said)


def with_line(group, member, is_new):
    words = ["--new"] if is_new else []
    member.start(*words, "--members", group.first, "--peer", f"127.0.0.1:{member.listen}")


def test_emptied(count, store):
    """One is down; two told calls, and one of these loses its folder. With the one that was down it would be a majority that knows
    of no call."""
    group = store.group
    down, lost, rest = 3, 2, 1
    store.lead_away(down)
    group.members[down].kill()
    store.call()
    group.members[lost].kill()
    group.members[rest].kill()
    kept = f"{group.members[lost].folder}.kept"
    shutil.move(group.members[lost].folder, kept)
    group.start(group.members[down])
    for is_new, words in ((True, "folder is lost"), (False, "With --new this member begins a new group")):
        with_line(group, group.members[lost], is_new)
        refused(count, f"an emptied folder{' with --new' * is_new}", group.members[lost], words)
    group.members[lost].start("--join", "--peer", f"127.0.0.1:{group.members[lost].listen}")
    refused(count, "an emptied folder with --join", group.members[lost], "folder is lost")
    group.start(group.members[rest])
    shutil.rmtree(group.members[lost].folder)
    shutil.move(kept, group.members[lost].folder)  # (the disk is mounted again)
    group.start(group.members[lost])
    store.expect(count, "after a folder was emptied")


def test_of_another(count, store):
    group, member = store.group, store.group.members[2]
    member.kill()
    group.members[3].kill()
    kept = f"{member.folder}.kept"
    shutil.move(member.folder, kept)
    shutil.copytree(group.members[3].folder, member.folder)
    group.start(group.members[3])
    group.start(member)
    refused(count, "the folder of another member", member, "the folder is that of another member, or of another group")
    shutil.rmtree(member.folder)
    shutil.move(kept, member.folder)
    group.start(member)
    store.call(3)
    store.expect(count, "after a folder of another member")


def test_older_copy(count, store):
    """A copy of the folder of a member that runs; then calls are told that the copy does not have."""
    group, member = store.group, store.group.members[2]
    store.lead_away(2)
    copy = f"{member.folder}.copy"
    shutil.copytree(member.folder, copy)
    store.call()
    store.expect(count, "before the copy")
    member.kill()
    kept = f"{member.folder}.kept"
    shutil.move(member.folder, kept)
    shutil.move(copy, member.folder)
    group.start(member)
    if refused(count, "an older copy", member, "this folder is an older copy"):
        group.start(member)
        refused(count, "an older copy again", member, "this folder is not started again")
    count.check(f"and says what to do: {member.said()[-300:]}", AGAIN in member.said())
    shutil.rmtree(member.folder)
    shutil.move(kept, member.folder)
    group.start(member)
    store.call(3)
    store.expect(count, "after an older copy")


class Gone(http.server.BaseHTTPRequestHandler):
    """Answers 410 to everything, and 403 to what is posted: rafthttp takes either for a removal."""

    def do_GET(self):
        self.server.asked += 1
        self.send_response(410)
        self.send_header("Content-Length", "0")
        self.end_headers()

    def do_POST(self):
        self.rfile.read(int(self.headers.get("Content-Length", 0)))
        self.send_response(403)
        self.send_header("Content-Length", "0")
        self.end_headers()

    def log_message(self, *_):
        pass


def test_web_server(count, store):
    """After a member is down, any web server may have its address."""
    group, member = store.group, store.group.members[3]
    store.lead_away(3)
    member.kill()
    server = http.server.ThreadingHTTPServer(("127.0.0.1", member.peer), Gone)
    server.asked = 0
    threading.Thread(target=server.serve_forever, daemon=True).start()
    end = time.monotonic() + 30
    while server.asked < 20 and time.monotonic() < end:
        time.sleep(0.05)
    store.call(5)
    server.shutdown()
    server.server_close()
    ended = [it.said()[-300:] for it in group.members.values() if it is not member and not it.runs()]
    count.check(f"a web server answers {server.asked} times at the address of a member, and ends nobody: {ended}",
                server.asked >= 20 and not ended)
    group.start(member)
    store.expect(count, "after a web server")


def test_lost_folders(count, program, room, nodes):
    begun = time.monotonic()
    with Told(program, f"{room}/lost", nodes) as store:
        store.call(3)
        for test in (test_emptied, test_of_another, test_older_copy, test_web_server):
            test(count, store)
    print(f"folders that are lost, of another member, or older copies: {time.monotonic() - begun:.1f} s", flush=True)
    test_alone(count, program, f"{room}/alone")


def test_alone(count, program, folder):
    """A member alone says in its first line that it begins a new group; later it does not."""
    group = Group(program, folder, 1)
    member, asker = group.members[1], Asker(3)
    for is_first in (True, False):
        before = len(member.said()) if os.path.exists(member.log) else 0
        member.start()
        try:
            asked_for(lambda: asker.ask(member.client, "GET", "/health"), [200], 30)
        finally:
            member.kill()
        line = member.said()[before:].partition("\n")[0]
        count.check(f"the first line of start {'1' if is_first else '2'}: {line}", ("begins a new group" in line) == is_first)
