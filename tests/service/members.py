"""Members come and go and none of it strands the group; a backup is restored; and one goes on alone when the others are lost."""
import os
import re
import shlex
import shutil
import subprocess
import time

from tests import harness
from tests.service.cluster import Asker, Group, Member, place
from tests.service.judge import image_of
from tests.service.one_member import wait_ready
from tests.service.work import Run, Work, asked_for, entries_of, filled, make_books

WORDS = ["--election", "400ms", "--snapshot-every", "150", "--trailing", "20", "--tick", "0", "--timeout", "5s"]
LAG = 1000  # so many entries a member may lack that comes to vote
PAGE = os.path.join(harness.TOP, "docs", "SERVICE.md")


def put(group, at, member, learns=False, path=""):
    body = {"peer": f"127.0.0.1:{member.peer}", "client": f"127.0.0.1:{member.client}", "learner": learns}
    return group.asker.json(at.client, "PUT", f"/members/{member.number}{path}", body)


def call(group, member, command, key, book="p0", worker=""):
    body = {"command": command, "key": key, "worker": worker}
    ask = lambda: group.asker.json(member.client, "POST", f"/books/{book}/call", body)
    return asked_for(ask, [200, 400, 404, 409])


def call_in_time(count, group, member, key):
    """The group makes a call without a wait for an election."""
    begun = time.monotonic()
    status, _ = call(group, member, "tick", key)
    took = time.monotonic() - begun
    count.check(f"a call is made at once: status {status}, {took:.1f} s", status == 200 and took < 5)


def row_of(group, member, number):
    return next((it for it in group.status(member).get("members", ()) if it["id"] == number), None)


def await_row(count, what, group, member, number, is_right):
    """Waits until a member sees one as it should be."""
    end = time.monotonic() + 20
    while not is_right(row_of(group, member, number)) and time.monotonic() < end:
        time.sleep(0.02)
    row = row_of(group, member, number)
    return count.check(f"{what}: {row}", is_right(row))


def votes(row):
    return row is not None and not row.get("learner")


def test_alone(count, program, room, topology):
    """A mistyped address: the member alone goes on, also after a restart, and the learner can be removed."""
    with Group(program, f"{room}/alone", 1, WORDS) as group:
        one, wrong = group.members[1], Member(group, 2, [])
        make_one(group, topology)
        status, told = put(group, one, wrong)
        row = next((it for it in told.get("members", ()) if it["id"] == 2), {})
        count.check(f"it learns, and is to vote: {status} {told}", status == 200 and row.get("learner") and row.get("promote"))
        call_in_time(count, group, one, "a")
        one.kill()
        group.start(one)
        group.leader()
        call_in_time(count, group, one, "b")
        status, told = put(group, one, wrong)
        count.check(f"it is there already: {status} {told}", status == 200 and told.get("again") is True)
        for is_again in (None, True):
            status, told = group.asker.json(one.client, "DELETE", "/members/2")
            count.check(f"it is removed: {status} {told}", status == 200 and told.get("again") is is_again)
        status, told = put(group, one, wrong)
        count.check(f"its number is not used again: {status} {told}", (status, told.get("code")) == (409, "refused_change"))
        status, told = group.asker.json(one.client, "DELETE", "/members/1?force=1")
        is_right = status == 409 and "only member that votes" in told.get("error", "")
        count.check(f"the last one that votes stays: {status} {told}", is_right)
        group.add(3)
        call_in_time(count, group, group.members[3], "c")


def make_one(group, topology):
    """Makes a book at the leader, of a group that may have just begun."""
    leader = group.members[group.leader()]
    status, _ = asked_for(lambda: group.asker.ask(leader.client, "PUT", "/books/p0", topology)[:2], [200])
    if status != 200:
        raise RuntimeError(f"the book is not made: status {status}")


def test_nowhere(count, program, room, topology):
    """Three members, and three more at addresses where nobody listens. One of these comes later, and votes by itself."""
    with Group(program, f"{room}/nowhere", 3, WORDS) as group:
        make_one(group, topology)
        late = {number: Member(group, number, WORDS) for number in (5, 6, 7)}
        for number, member in late.items():
            leader = group.members[group.leader()]
            status, told = put(group, leader, member, number == 7)
            count.check(f"member {number} is added: {status} {told}", status == 200)
            call_in_time(count, group, leader, f"n{number}")
        for number in range(LAG + 10):
            call(group, leader, "tick", f"t{number}")
        status, told = put(group, leader, late[7])
        is_right = (status, told.get("code")) == (409, "refused_change") and re.search(r"lacks \d+ entries", told["error"])
        count.check(f"one that has nothing does not come to vote: {status} {told}", is_right)
        follower = next(it for it in group.members.values() if it is not leader)
        status, told = put(group, follower, late[7])
        right = (503, "not_leader", f"127.0.0.1:{leader.client}")
        is_right = (status, told.get("code"), told.get("leader")) == right
        count.check(f"members are changed at the leader: {status} {told}", is_right)
        group.members[5] = late[5]
        group.start(late[5])
        await_row(count, "it votes once it has all", group, leader, 5, votes)
        group.members[7] = late[7]
        group.start(late[7])
        group.learners.add(7)
        await_row(count, "a learner learns on", group, late[7], 7, lambda row: row is not None and row.get("learner"))
        group.promote(7)
        await_row(count, "it votes where that is asked", group, leader, 7, votes)
        group.change("DELETE", "/members/6", statuses=(200,))
        call_in_time(count, group, group.members[group.leader()], "end")


def test_stranding(count, program, room, topology):
    """A removal that would leave no majority that was heard of is refused, and is made by force."""
    with Group(program, f"{room}/strands", 3, WORDS) as group:
        make_one(group, topology)
        leader = group.leader()
        away, other = [number for number in group.members if number != leader]
        group.members[away].kill()
        one = group.members[leader]
        status, told = asked_for(lambda: group.asker.json(one.client, "DELETE", f"/members/{other}"), [409, 200], 20)
        is_right = status == 409 and "were heard of" in told.get("error", "")
        count.check(f"it would strand the group: {status} {told}", is_right)
        call_in_time(count, group, one, "a")
        status, told = asked_for(lambda: group.asker.json(one.client, "DELETE", f"/members/{away}"), [200], 20)
        count.check(f"one that is away is removed: {status} {told}", status == 200)
        call_in_time(count, group, one, "b")


def lease(group, topology):
    """A book with a lease of the worker w7: its stripe, fragment and epoch."""
    member = group.members[group.leader()]
    group.asker.ask(member.client, "PUT", "/books/held", topology)
    _, told = call(group, member, "place6 0", "h1", "held")
    node = re.match(r"placed (\d+):", told["reply"]).group(1)
    call(group, member, f"fail {node}", "h2", "held")
    _, told = call(group, member, "next", "h3", "held", "w7")
    return told["stripe"], told["fragment"], told["epoch"]


class Taken:
    """A backup that was taken under load, what was told around it, and the logs of the books in the end."""

    def __init__(self, program, room, nodes, topology):
        self.nodes, self.file = nodes, f"{room}/books.backup"
        run = Run()
        with Group(program, f"{room}/taken", 3, WORDS) as group:
            make_books(group, topology)
            self.lease = lease(group, topology)
            work = Work(group, nodes, 6, 1)
            work.begin()
            self.wait_for(work, 150)
            self.asked = time.monotonic()
            port = group.members[group.leader() % 3 + 1].client
            self.status, self.headers, text = Asker(20).ask(port, "GET", "/backup")
            with open(self.file, "wb") as file:
                file.write(text)
            self.wait_for(work, len(work.told()) + 100)
            work.end(run)
            self.told, self.faults = [it for it in work.told() if it.n], run.faults
            self.logs = {it.book: filled(it.entries, [told for told in self.told if told.book == it.book]) for it in work.reads}

    @staticmethod
    def wait_for(work, told):
        end = time.monotonic() + 30
        while work.count_told() < told and time.monotonic() < end and not work.faults_so_far():
            time.sleep(0.01)


def check_calls(count, taken, group, member):
    """What was told before is there, and the books are of one place: no call without one that was told before it began."""
    made = {book: entries_of(group, member, book)[1] for book in taken.logs}
    lost = [it for it in taken.told if it.n > made[it.book]]
    early = [it for it in lost if it.told < taken.asked]
    count.check(f"what was told before the backup was asked is in it: {early[:3]}", not early)
    first = min((it.told for it in lost), default=float("inf"))
    late = [it for it in taken.told if it.n <= made[it.book] and it.begun > first]
    count.check(f"the books are of one place of the log: {late[:3]}, {len(lost)} of {len(taken.told)} are not in it", not late)
    for book, log in taken.logs.items():
        text = group.asker.ask(member.client, "GET", f"/books/{book}/image?now=1")[2]
        right = image_of(taken.nodes, log[:made[book]]).encode()
        count.check(f"{book} has the image of its first {made[book]} entries", text == right)
    keyed = [it for it in taken.told if isinstance(it.client, int)]  # (others make calls without keys)
    kept = [it for it in keyed if it.n <= made[it.book]][-40:]
    for it in kept:
        body = {"session": it.session, "command": it.command, "key": it.key, "worker": it.worker}
        status, told = group.asker.json(member.client, "POST", f"/books/{it.book}/call", body)
        right = (200, True, it.n, it.reply)
        is_right = (status, told.get("again"), told.get("n"), told.get("reply")) == right
        count.check(f"the key of {it} answers again: {status} {told}", is_right)
    count.check("there are keys", len(kept) == 40)


def check_lease(count, group, member, stripe, fragment, epoch):
    _, told = group.asker.json(member.client, "GET", "/books/held/workers?now=1")
    rows = [(it["stripe"], it["fragment"], it["epoch"], it["worker"]) for it in told.get("rows", ())]
    count.check(f"the lease is held: {told}", rows == [(stripe, fragment, epoch, "w7")])
    _, told = call(group, member, f"done {stripe} {fragment} {epoch}", "h4", "held", "w8")
    count.check(f"another worker does not report it: {told}", told.get("holder") == "w7")
    _, told = call(group, member, f"done {stripe} {fragment} {epoch}", "h5", "held", "w7")
    count.check(f"its worker does: {told}", told.get("kind") not in (None, "refused"))


def test_backup(count, program, room, nodes, topology):
    taken = Taken(program, room, nodes, topology)
    count.check(f"a backup is sent: status {taken.status}", taken.status == 200 and int(taken.headers["Lrcmand-Index"]) > 150)
    count.check(f"the group goes on beside it: {taken.faults[:3]}", not taken.faults)
    group = Group(program, f"{room}/restored", 0, WORDS)
    member = Member(group, 4, WORDS)
    words = [program, "restore", "--data", member.folder, "--from", taken.file, "--id", "4",
             "--listen", f"127.0.0.1:{member.client}", "--peer", f"127.0.0.1:{member.peer}"]
    with open(taken.file, "rb") as file:
        text = bytearray(file.read())
    text[len(text) // 2] ^= 1
    with open(f"{room}/damaged.backup", "wb") as file:
        file.write(text)
    damaged = [f"{room}/damaged.backup" if it == taken.file else it for it in words]
    ran = subprocess.run(damaged, capture_output=True, text=True, timeout=60)
    count.check(f"a damaged one is refused: {ran}", ran.returncode == 1 and "damaged" in ran.stderr)
    said = count.run("restore", *words, timeout=60)
    right = f"up to entry {taken.headers['Lrcmand-Index']} of its group, whose members were 1, 2, 3"
    count.check(f"it says what it is: {said}", said and right in said)
    group.members[4] = member
    with group:
        wait_ready(group.asker, member, 60)
        check_calls(count, taken, group, member)
        check_lease(count, group, member, *taken.lease)
        group.add(5)
        call_in_time(count, group, group.members[5], "z")
    ran = subprocess.run(words, capture_output=True, text=True, timeout=60)
    is_right = ran.returncode == 1 and "has something in it" in ran.stderr
    count.check(f"a folder that has something in it is left as it is: {ran}", is_right)


def lose_two(count, program, room, nodes, topology):
    """A group of three under load, all of it killed. The group, the member that led, and what was told."""
    run = Run()
    group = Group(program, f"{room}/lost", 3, WORDS)
    with group:
        make_books(group, topology)
        work = Work(group, nodes, 6, 0)
        work.begin()
        Taken.wait_for(work, 200)
        left = group.members[group.leader()]
        for member in group.members.values():
            member.kill()
        work.give_up(run)
        for client in work.clients():
            client.join(20)
    count.check(f"the load was well: {run.faults[:3]}", not run.faults)
    return group, left, [it for it in work.told() if it.n]


def test_recover(count, program, room, nodes, topology):
    group, left, told = lose_two(count, program, room, nodes, topology)
    others = [it for it in group.members.values() if it is not left]
    shutil.rmtree(others[0].folder)  # (the other one comes back with its old folder, later)
    group.start(left)
    code = asked_for(lambda: (Asker(20).json(left.client, "GET", "/backup")[1].get("code"),), ["no_leader"], 20)[0]
    count.check(f"alone it is none of a majority: {code}", code == "no_leader")
    status, _, text = Asker(20).ask(left.client, "GET", "/backup?now=0")
    count.check(f"it sends a backup all the same: {status} {text[:200]}", status == 200 and text.startswith(b"lrcmand backup"))
    ran = subprocess.run([program, "recover", "--data", left.folder], capture_output=True, text=True, timeout=60)
    count.check(f"not while it runs: {ran}", ran.returncode == 1 and "another process has the folder" in ran.stderr)
    left.kill()
    names = set(os.listdir(left.folder)) - {"lock"}
    said = count.run("recover", program, "recover", "--data", left.folder, timeout=60) or ""
    is_told = "is perhaps not the last that was told" in said and "nobody knows how many more" in said
    count.check(f"it says what may be lacking: {said}", is_told)
    beside = re.search(r"names that end with (\S+)\. ", said)
    kept = {name.removesuffix(beside.group(1)) for name in os.listdir(left.folder) if name.endswith(beside.group(1))}
    count.check(f"what was there is kept: {names - kept}", names <= kept)
    group.members = {left.number: left}
    with group:
        wait_ready(group.asker, left, 60)
        made = {book: entries_of(group, left, book)[1] for book in {it.book for it in told}}
        lost = [it for it in told if it.n > made[it.book]]
        count.check(f"what the leader had told is there: {lost[:3]}", not lost and len(told) >= 200)
        old = others[1]
        group.start(old)
        status, answer = put(group, left, old)
        count.check(f"the number of a lost one is not used again: {status} {answer}", status == 409)
        call_in_time(count, group, left, "a")
        count.check("a member of the old group hears nothing", not group.status(old).get("leader"))
        old.kill()
        group.add(4)
        group.add(5)
        call_in_time(count, group, group.members[5], "b")


class Recipe:
    """Lines of shell of docs/SERVICE.md, with folders and addresses of a test in them."""

    def __init__(self, begin, end, program, room):
        with open(PAGE, encoding="utf-8") as file:
            part = file.read().split(begin)[1].split(end)[0]
        self.blocks = [block.split("\n```")[0].splitlines() for block in part.split("```sh\n")[1:]]
        self.program, self.room, self.running = program, room, []
        self.group, self.hosts, self.asker = Group(program, room, 0), {}, Asker(5)

    def __enter__(self):
        return self

    def __exit__(self, *_):
        for process in self.running:
            process.kill()
            process.wait()

    def host(self, number):
        return self.hosts.setdefault(number, Member(self.group, number, []))

    def line(self, text):
        text = re.sub(r"\bh(\d):7421", lambda it: f"127.0.0.1:{self.host(int(it.group(1))).client}", text)
        text = re.sub(r"\bh(\d):7422", lambda it: f"127.0.0.1:{self.host(int(it.group(1))).peer}", text)
        text = text.replace("/var/lib/lrcmand", self.room).replace("--data DIR", f"--data {self.room}/4")
        return re.sub(r"^lrcmand", self.program, text.replace(" ...", " --election 400ms --tick 0 --disk-reserve 0"))

    def run(self, count, text):
        if text.startswith("systemctl stop"):
            self.__exit__()
        elif not text.startswith("lrcmand --data"):
            return count.run(text, "bash", "-c", self.line(text), cwd=self.room, timeout=60)
        else:
            with open(f"{self.room}/said", "ab") as said:
                self.running.append(subprocess.Popen(shlex.split(self.line(text)), stdout=said, stderr=said))
        return None

    def run_block(self, count, number):
        for text in self.blocks[number]:
            self.run(count, text)

    def has_book(self, count, number):
        status = asked_for(lambda: self.asker.ask(self.host(number).client, "GET", "/books/p0?now=1")[:2], [200], 20)[0]
        count.check(f"the book is there at host {number}: {status}", status == 200)

    def begin_alone(self, count, topology):
        self.run(count, "lrcmand --data /var/lib/lrcmand/1 --id 1 --listen h1:7421 --peer h1:7422 ...")
        asked_for(lambda: self.asker.ask(self.host(1).client, "PUT", "/books/p0", topology)[:2], [200], 20)
        self.has_book(count, 1)


def test_recipes(count, program, room, topology):
    """The recipes of the page, word for word: a member is added and removed, a backup restored, and a lone member recovered."""
    if not shutil.which("curl"):
        print("left out: recipes of the page: there is no curl", flush=True)
        return
    with Recipe("\n## Members\n", "\n## ", program, f"{room}/members") as recipe:
        recipe.begin_alone(count, topology)
        recipe.run_block(count, 0)
        await_row(count, "it votes", recipe.group, recipe.host(1), 4, votes)
        recipe.has_book(count, 4)
        recipe.run_block(count, 1)
        count.check("it ends", recipe.running[-1].wait(20) == 3)
    with Recipe("\n## Backup, restore, and a lost majority\n", "\n## ", program, f"{room}/recipes") as recipe:
        recipe.begin_alone(count, topology)
        recipe.run_block(count, 0)
        recipe.run_block(count, 1)
        recipe.has_book(count, 5)
        recipe.run_block(count, 2)
        recipe.has_book(count, 1)


def test_members(count, program, room, nodes):
    topology = harness.topology_of(nodes)
    for test in (test_alone, test_nowhere, test_stranding, test_recipes):
        with place(room) as folder:
            test(count, program, folder, topology)
    for test in (test_backup, test_recover):
        with place(room) as folder:
            test(count, program, folder, nodes, topology)
