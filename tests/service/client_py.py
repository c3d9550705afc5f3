"""The clients of Go and of Python: over a fake group that does what goes wrong, and over three members that are killed and cut
off."""
import json
import os
import random
import re
import subprocess
import sys
import threading
import time
from collections import Counter
from concurrent.futures import ThreadPoolExecutor

from tests.harness import TOP, example, loaded, parts_of, split, topology_of
from tests.model import rules
from tests.service.certificates import Authority, NoOpenssl
from tests.service.cluster import Asker, Group, Member
from tests.service.fake_group import FAULTS, NOTHING, FakeGroup
from tests.service.network import Network, ways_between
from tests.service.one_member import wait_ready
from tests.service.work import asked_for

SERVICE = os.path.join(TOP, "service")
lrcmand_client = loaded(f"{SERVICE}/client/lrcmand_client.py")
Client, KeyForgotten, LrcmandError = lrcmand_client.Client, lrcmand_client.KeyForgotten, lrcmand_client.LrcmandError
OutcomeUnknown, StatusError = lrcmand_client.OutcomeUnknown, lrcmand_client.StatusError


def outcome_of(client, command="tick", **how):
    """What came of a call: a word, and the reply or the error."""
    try:
        return "told", client.call("p0", command, **how)
    except OutcomeUnknown as why:
        return "unknown", why
    except KeyForgotten as why:
        return "forgotten", why
    except LrcmandError as why:
        return "nothing made", why


# How often a call may have been made, by what its caller was told.
RIGHT = {"told": {1}, "unknown": {0, 1}, "forgotten": {0, 1}, "nothing made": {0}}


def expect(count, name, group, word, told):
    """One call was made as often as its caller may believe, and with one key."""
    with group.book.lock:
        group.book.make_late()
        keys = {key for key, _ in group.book.tries}
        made = sum(group.book.made.get(key, 0) for key in keys)
        tries = list(group.book.tries)
        group.book.tries.clear()
    is_right = made in RIGHT[word] and len(keys) <= 1 and not group.book.ahead
    count.check(f"{name}: {word} {told}, made {made} times in {tries}, ahead {group.book.ahead}", is_right)


def test_chances(count, turns=60):
    """By faults in each order, beside calls of others of which the group forgets all but the last few."""
    dice, words = random.Random(71), set()
    for turn in range(turns):
        with FakeGroup(dice.randint(1, 3), 8) as group:
            for member in group.members:
                member.faults, member.others = dice.choices(FAULTS, k=dice.randrange(4)), dice.randrange(8)
            client = Client(group.servers(), timeout=0.5, attempt=0.05, pause=0.001)
            for _ in range(2):
                word, told = outcome_of(client)
                words.add(word)
                expect(count, f"turn {turn}", group, word, told)
    count.check(f"calls are told, and keys forgotten: {words}", {"told", "forgotten"} <= words)


def test_each_fault(count):
    """Another member is asked behind each fault; and where there is none, it is told as what it is and goes on by its key."""
    for fault in FAULTS:
        with FakeGroup(2, 100) as group:
            group.members[0].faults = [fault]
            attempt = 0.1 if fault == "hang" else 5
            word, told = outcome_of(Client(group.servers(), timeout=10, attempt=attempt, pause=0.001))
            count.check(f"{fault}: {word} {told}", word == "told" and set(group.book.made.values()) == {1})
        with FakeGroup(1, 100) as group:
            member, client = group.members[0], Client(group.servers(), timeout=10, attempt=attempt, pause=0.001)
            client.index()
            member.faults, client.timeout = [fault] * 1000, 0.1
            word, why = outcome_of(client)
            count.check(f"{fault} alone: {word} {why}", word == ("nothing made" if fault in NOTHING else "unknown"))
            if word == "unknown":
                member.faults = []
                client.timeout = client.attempt = 10
                word, told = outcome_of(client, key=why.key, since=why.since)
                made = group.book.made
                count.check(f"{fault}, later again: {word} {told}", (word, made, told["n"]) == ("told", {why.key: 1}, 1))


def test_forgotten_keys(count):
    """A since that is too old is renewed where no try may have been made, and else nobody can know."""
    cases = [([], {}, "told"), (["503", "429"], {}, "told"), (["504 never"], {}, "forgotten"), (["cut before"], {}, "forgotten"),
             ([], {"key": "mine"}, "told"), ([], {"key": "mine", "since": 6}, "forgotten")]
    for faults, how, right in cases:
        with FakeGroup(1, 4) as group:
            client = Client(group.servers(), timeout=10, pause=0.001)
            client.index()
            group.members[0].faults = list(faults)
            group.book.others(20)
            word, told = outcome_of(client, **how)
            count.check(f"{faults} {how}: {word} {told}", word == right)
            expect(count, f"{faults} {how}", group, word, told)


def test_rests(count):
    """A member is left alone as long as it wants."""
    with FakeGroup(1, 100) as group:
        group.members[0].faults, group.members[0].head = ["429"], [("Retry-After", "1")]
        begun = time.monotonic()
        word, _ = outcome_of(Client(group.servers(), timeout=10, pause=0.001))
        count.check("a member is left alone for a second", word == "told" and time.monotonic() - begun >= 1)
        client = Client(group.servers(), timeout=0.05, pause=0.01)
        client.index()
        client.close()
    count.check("a member that ends", outcome_of(client)[0] == "nothing made")
    nobody = Client(["127.0.0.1:9"], timeout=0.05, pause=0.01)
    count.check("nobody listens", outcome_of(nobody)[0] == "nothing made")
    count.check("nobody listens, and it was sent before", outcome_of(nobody, key="mine", since=6)[0] == "unknown")
    for text in ("", "ftp://h1", "http://h1/books", "http://u@h1"):
        try:
            Client([text])
        except ValueError:
            continue
        count.check(f"{text!r} is taken for a server", False)


def test_threads(count, threads=8, each=10):
    """Threads share a client: each of their calls is made once."""
    with FakeGroup(3, 1000) as group:
        dice = random.Random(7)
        for member in group.members:
            member.faults = [it for it in dice.choices(FAULTS, k=20) if it != "hang"]
        client = Client(group.servers(), timeout=20, pause=0.001)
        with ThreadPoolExecutor(threads) as pool:
            words = Counter(word for word, _ in pool.map(lambda _: outcome_of(client), range(threads * each)))
        made = Counter(group.book.made.values())
        count.check(f"threads share a client: {words}, made {made}", words == {"told": threads * each} == {"told": made[1]})


def test_python_client(count):
    test_each_fault(count)
    test_forgotten_keys(count)
    test_rests(count)
    test_threads(count)
    test_chances(count)


# Over three members.

WORDS = ["--election", "500ms", "--snapshot-every", "3000", "--trailing", "500", "--tick", "0", "--timeout", "2s"]
KEYS = 4096  # that a book keeps
BOOK = "p0"
# A wide stripe finds its sixteen racks.
ROOMY = {number: rules.Node(number % 18, number % 12, 6) for number in range(36)}


class GoCaller:
    """A process of service/internal/caller."""

    def __init__(self, program, ports, *words):
        servers = ",".join(f"127.0.0.1:{port}" for port in ports)
        words = [program, "--servers", servers, "--book", BOOK, *map(str, words)]
        self.process = subprocess.Popen(words, stdin=subprocess.PIPE, stdout=subprocess.PIPE, stderr=subprocess.PIPE, text=True)

    def end(self):
        """What its calls came to, once all are over."""
        out, err = self.process.communicate(timeout=90)
        if self.process.returncode:
            raise RuntimeError(f"caller ended with {self.process.returncode}: {err}")
        return [json.loads(line) for line in out.splitlines()]


class PythonCaller(threading.Thread):
    """Makes one call after the other by the client of Python, and asks again by its key until it is told."""

    def __init__(self, ports, first):
        super().__init__(daemon=True)
        self.client = Client([f"127.0.0.1:{port}" for port in ports], attempt=1, pause=0.02)
        self.first, self.is_over, self.told = first, threading.Event(), []

    def run(self):
        number = self.first
        while not self.is_over.is_set():
            number += 1
            self.told.append(call_until_told(self.client, f"done {number % 4096} 3 {number}"))


def call_until_told(client, command, **how):
    found = {"command": command, "outcome": "told", "n": 0, "again": False}
    while True:
        try:
            told = client.call(BOOK, command, **how)
            return {**found, "n": told["n"], "again": told.get("again", False)}
        except OutcomeUnknown as why:
            how = {"key": why.key, "since": why.since}
        except KeyForgotten as why:
            return {**found, "outcome": "forgotten", "error": str(why)}
        except LrcmandError as why:
            return {**found, "outcome": "nothing made", "error": str(why)}


class Follower(threading.Thread):
    """Follows the log of the book by the client of Python, from its first entry on."""

    def __init__(self, ports):
        super().__init__(daemon=True)
        self.client = Client([f"127.0.0.1:{port}" for port in ports], timeout=60, pause=0.02)
        self.entries, self.until, self.fault = [], None, None

    def run(self):
        try:
            for entry in self.client.follow(BOOK):
                self.entries.append(entry["command"])
                if entry["command"] == self.until:
                    return
        except LrcmandError as why:
            self.fault = why


def judge_calls(count, told, log):
    """Each call that was told is an entry once, at its number, and what was told to be nothing is none."""
    times, taken = Counter(log), Counter(it["n"] for it in told if it["outcome"] == "told")
    ticks = {word: sum(it["command"] == "tick" and it["outcome"] == word for it in told) for word in ("told", "forgotten")}
    wrong = [f"{times['tick']} ticks, and {ticks}"] if not 0 <= times["tick"] - ticks["told"] <= ticks["forgotten"] else []
    for it in told:
        is_entry = it["outcome"] != "told" or log[it["n"] - 1] == it["command"] and taken[it["n"]] == 1
        if not is_entry or it["command"] != "tick" and times[it["command"]] not in RIGHT[it["outcome"]]:
            wrong.append(f"{it}, and it stands {times[it['command']]} times in the log")
    count.add(len(told) - len(wrong), wrong)


class Clients:
    """Callers of both languages over a group, and what they were told."""

    def __init__(self, group, caller):
        self.group, self.caller, ports = group, caller, group.ports()
        self.follower = Follower(ports)
        self.follower.start()
        self.of_go = GoCaller(caller, ports, "--callers", 4, "--first", 10**6)
        self.of_python = [PythonCaller(ports[it:] + ports[:it], (it + 2) * 10**6) for it in range(3)]
        self.told = []
        for it in self.of_python:
            it.start()

    def fill(self, numbers):
        """So many further calls with keys, that a book forgets all that were made before, by the members of these numbers."""
        ports = [self.group.members[number].front for number in numbers]
        self.told += GoCaller(self.caller, ports, "--callers", 32, "--ticks", "--calls", KEYS + 200, "--attempt", "3s").end()

    def end(self):
        for it in self.of_python:
            it.is_over.set()
        self.of_go.process.stdin.close()
        self.of_go.process.stdin = None
        self.told += self.of_go.end()
        for it in self.of_python:
            it.join(90)
            self.told += it.told
        self.follower.until = "done 1 1 1"
        self.told.append(call_until_told(self.of_python[0].client, self.follower.until))
        self.follower.join(90)


def cut_off(count, clients, network):
    """A member is cut off while it is asked, and all keys of that time are forgotten. Then its links go on with what it had
    sent."""
    group = clients.group
    leader = group.leader()
    alone, other = (number for number in group.members if number != leader)
    client = Client([f"127.0.0.1:{group.members[alone].client}"], timeout=1, attempt=1, pause=0.02)
    client.index()
    network.block(*ways_between(alone, group.members))
    command = f"done {alone} 2 1"
    word, why = outcome_of(client, command)
    count.check(f"a member that is cut off: {word} {why}", word == "unknown")
    clients.fill([leader, other])
    network.calm()
    further = Client([f"127.0.0.1:{port}" for port in group.ports()], attempt=3, pause=0.02)
    if word == "unknown":
        told = call_until_told(further, command, key=why.key, since=why.since)
        count.check(f"its key is forgotten: {told}", told["outcome"] == "forgotten")
        clients.told.append(told)


def kill_leader(count, clients):
    """The leader is killed, and a bookful of keys later it comes back."""
    group = clients.group
    number = group.leader()
    group.members[number].kill()
    clients.fill([it for it in group.members if it != number])
    group.start(group.members[number])


def change_members(count, group):
    """One who is asked and does not lead names the leader, which is asked then; each change may be asked for again."""
    number = next(it for it in group.members if it != group.leader())
    client, peer = Client([f"127.0.0.1:{group.members[number].client}"]), "127.0.0.1:9"
    for rows in (client.add_member(9, peer, peer, learner=True), client.add_member(9, peer, peer, learner=True)):
        count.check(f"a member is added: {rows}", [it["id"] for it in rows] == [1, 2, 3, 9])
    for rows in (client.remove_member(9), client.remove_member(9)):
        count.check(f"a member is removed: {rows}", [it["id"] for it in rows] == [1, 2, 3])
    client.sync()
    servers = {f"http://127.0.0.1:{it.client}" for it in group.members.values()}
    count.check(f"the others are found: {client._order()}", set(client._order()) == servers)
    led = ([it["id"] for it in client.lead(number) if it["leader"]] for _ in range(5))  # (on a busy machine it may lose it again)
    count.check(f"member {number} leads", [number] in led)


def break_answers(clients, network):
    """Answers break off, until a call is told by a later try than the one that made it."""
    end = time.monotonic() + 20
    before = [len(it.told) for it in clients.of_python]
    network.break_rate = 0.05
    while time.monotonic() < end and not any(it["again"] for one, at in zip(clients.of_python, before) for it in one.told[at:]):
        time.sleep(0.05)
    network.calm()


def await_book(group):
    """Waits until each member has the book, so that none that is behind tells a client that there is none."""
    for member in group.members.values():
        asked_for(lambda: group.asker.ask(member.client, "GET", f"/books/{BOOK}/show/status?format=csv")[:2], [200])


def test_clients(count, program, caller, room, nodes):
    group = Group(program, f"{room}/clients", 3, WORDS)
    with Network(group, 7) as network, group:
        group.leader()
        Client([f"127.0.0.1:{port}" for port in group.ports()]).create(BOOK, topology_of(nodes))
        await_book(group)
        clients = Clients(group, caller)
        cut_off(count, clients, network)
        kill_leader(count, clients)
        break_answers(clients, network)
        change_members(count, group)
        clients.end()
        log, fault = clients.follower.entries, clients.follower.fault
        if count.check(f"the log is followed to its end: {fault}", fault is None and not clients.follower.is_alive()):
            judge_calls(count, clients.told, log)
        words, again = Counter(it["outcome"] for it in clients.told), sum(it["again"] for it in clients.told)
        print(f"clients: {dict(words)}, {again} of them by a later try, {len(log)} entries", flush=True)
        count.check(f"calls are told, some by a later try: {words}, {again}", words["told"] > 2 * KEYS and again > 0)


# Over one member.


def compare_example(count, client, name):
    """The script of an example, and then each look: all as the model has it."""
    topology, _ = split(example(name))
    nodes, scripts = parts_of(example(name))
    store, book, topology = rules.Store(nodes), name.replace("_", "-"), topology.decode()
    told = client.create(book, topology)
    is_new = told["n"] == 0 and not told.get("again")
    count.check(f"{name}: it is made: {told}", is_new and client.create(book, topology)["again"])
    for number, command in enumerate(scripts[0], 1):
        peeked, told, right = client.peek(book, command), client.call(book, command, worker="w7"), store.call(1, command)
        is_right = (told["n"], told["reply"], peeked["reply"]) == (number, right, right)
        count.check(f"{name} {number}: {told}, and not {right}", is_right)
    image, lines = client.image(book, now=True), [(it["n"], it["command"]) for it in client.log(book)]
    count.check(f"{name}: image: {image}", (image.text.decode(), image.n) == (store.image(len(lines)), len(lines)))
    count.check(f"{name}: log: {lines}", lines == list(enumerate(scripts[0], 1)))
    for row in client.show(book, "stripes", now=True):
        homes = [store.homes.get((row["stripe"], fragment)) for fragment in store.stripes[row["stripe"]].fragments]
        is_right = row["homes"] == homes and client.stripe(book, row["stripe"])["homes"] == homes
        count.check(f"{name}: homes of stripe {row['stripe']}: {row['homes']}, and not {homes}", is_right)
    leases = {(it["stripe"], it["fragment"]) for it in client.show(book, "leases")}
    workers = {(it["stripe"], it["fragment"]) for it in client.workers(book)}
    count.check(f"{name}: leases {leases}, workers {workers}", leases == set(store.leases) == workers)
    return book, topology, image


def compare_changes(count, client, book, topology, image):
    """Nodes, images and removals, each with its key once more."""
    since = client.index()
    for is_again in (False, True):
        told = client.create("moved", topology, image.text.decode(), key="moved", since=since)
        count.check(f"an image is taken once: {told}", told.get("again", False) == is_again and told["n"] == image.n)
    at = client.nodes("moved", now=True)
    told = client.reopen("moved", topology, at=at.n, opens=at.opens)
    count.check(f"the same nodes are nothing new: {told}", told["again"] and told["n"] == at.n)
    try:
        client.remove("moved", at.n + 1, at.opens)
        count.check("a book is removed that stands elsewhere", False)
    except StatusError as why:
        count.check(f"a book that stands elsewhere: {why}", (why.status, why.code) == (409, "moved"))
    for _ in (False, True):
        client.remove("moved", at.n, at.opens, key="removed", since=since)
    count.check("a book is removed", "moved" not in [it["name"] for it in client.books(now=True)])
    node = client.show(book, "nodes")[0]["node"]
    outlooks = client.may_stop(book, nodes=[node]), client.may_lose(book, nodes=[node])
    count.check(f"outlooks: {outlooks}", all(isinstance(it["safe"], bool) for it in outlooks))


def compare_group(count, client, member):
    client.snapshot()
    client.sync()
    status, rows, led = client.status(), client.members(), client.lead(1)
    count.check(f"members: {status} {rows} {led}", status["leader"] == rows[0]["id"] == led[0]["id"] == 1 and rows[0]["leader"])
    count.check(f"rules: {client.rules()}", client.rules()["group"] == client.rules()["program"])
    matrix = client.matrix("narrow")
    count.check(f"matrix: {matrix}", [len(row) for row in matrix] == [6] * 10)
    with open(f"{member.folder}.backup", "wb") as file:
        place = client.backup(file)
    count.check(f"a backup of place {place}", place >= status["applied"] and os.path.getsize(file.name) > 1000)


def test_looks(count, program, room):
    member = Member(Group(program, f"{room}/looks", 0), 1, [])
    try:
        member.start()
        wait_ready(Asker(5), member)
        client = Client([f"127.0.0.1:{member.client}"])
        for name in ("every_reply", "narrow_stripe_placed_anew", "lease_ends", "worker_dead"):
            found = compare_example(count, client, name)
        compare_changes(count, client, *found)
        compare_group(count, client, member)
    finally:
        member.kill()


TOKENS = {"look": "lookslookslookslooks", "operate": "operatesoperatesoperates"}


def test_tls(count, program, room):
    """A token is shown, over TLS, to a member whose certificate is signed by who is named."""
    folder = f"{room}/tls"
    try:
        authority, other = Authority(f"{folder}/ca"), Authority(f"{folder}/other")
    except NoOpenssl as why:
        print(f"left out: TLS of the client of Python: {why}", flush=True)
        return
    certificate, key = authority.sign("member")
    with open(os.open(f"{folder}/tokens", os.O_WRONLY | os.O_CREAT, 0o600), "w", encoding="utf-8") as file:
        file.write("".join(f"{role} {token}\n" for role, token in TOKENS.items()))
    words = ["--cert", certificate, "--key", key, "--token-file", f"{folder}/tokens"]
    member = Member(Group(program, f"{folder}/group", 0), 1, words)
    try:
        member.start()
        compare_rights(count, [f"https://127.0.0.1:{member.client}"], authority.ca, other.ca)
    finally:
        member.kill()


def compare_rights(count, servers, ca, other_ca):
    client = Client(servers, token=TOKENS["operate"], ca=ca)
    client.create(BOOK, topology_of(ROOMY))
    word, told = outcome_of(client)
    count.check(f"over TLS: {word} {told}", word == "told" and told["n"] == 1)
    first = next(iter(client.follow(BOOK)))
    count.check(f"a log over TLS: {first}", first["n"] == 1)
    for token, code in ((TOKENS["look"], "forbidden"), ("no such token at all", "unauthorized"), (None, "unauthorized")):
        word, why = outcome_of(Client(servers, token=token, ca=ca))
        count.check(f"token {token}: {word} {why}", word == "nothing made" and why.code == code)
    word, why = outcome_of(Client(servers, token=TOKENS["operate"], ca=other_ca, timeout=0.5))
    count.check(f"signed by another: {word} {why}", word == "nothing made" and "certificate" in str(why))


# The examples of docs/SERVICE.md.


def examples():
    """The examples of the section of clients, by language."""
    with open(os.path.join(TOP, "docs/SERVICE.md"), encoding="utf-8") as file:
        part = file.read().split("\n## Clients\n")[1].split("\n## ")[0]
    return dict(re.findall(r"^```(\w+)\n(.*?)^```$", part, re.DOTALL | re.MULTILINE))


def run_example(count, library, room, language, text, env):
    """Runs an example as it stands; returns its lines."""
    folder = f"{room}/example-{language}"
    os.makedirs(folder)
    for name, content in (("nodes.toml", env.pop("NODES")), (f"main.{language[:2]}", text)):
        with open(f"{folder}/{name}", "w", encoding="utf-8") as file:
            file.write(content)
    program = f"{folder}/example"
    if language == "go":
        count.run("the example of Go", os.path.join(SERVICE, "go"), "--library", library, "build", "-o", program,
                  f"{folder}/main.go")
    words = [program] if language == "go" else [sys.executable, "main.py"]
    env = {**os.environ, **env, "PYTHONPATH": os.path.join(SERVICE, "client"), "PYTHONDONTWRITEBYTECODE": "1"}
    return (count.run(f"the example of {language}", *words, cwd=folder, env=env) or "").splitlines()


def test_examples(count, program, library, room):
    """Each prints what the model replies."""
    group = Group(program, f"{room}/examples", 0)
    member = Member(group, 1, [])
    try:
        member.start()
        wait_ready(Asker(5), member)
        found = examples()
        count.check(f"there is an example of each language: {list(found)}", set(found) == {"go", "python"})
        right = rules.Store(ROOMY).call(1, "place 17")
        for language, text in found.items():
            env = {"LRCMAND_SERVER": f"http://127.0.0.1:{member.client}", "NODES": topology_of(ROOMY)}
            lines = run_example(count, library, room, language, text, env)
            seats = [tuple(map(int, it.split(":"))) for it in right.split()[1:]]
            homes = str(seats) if language == "python" else "[" + " ".join(f"{node}:{slot}" for node, slot in seats) + "]"
            count.check(f"{language}: {lines}", lines == [f"1 placed {homes}", f"1 place 17 {right}"])
    finally:
        member.kill()
