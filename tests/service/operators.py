"""What an operator sees of lrcmand: its versions and options, its start, its end under load, and what systemd is told."""
import http.client
import json
import os
import signal
import socket
import subprocess
import threading
import time

from tests import harness
from tests.service.cluster import Asker, Group, Member
from tests.service.one_member import wait_ready

ELECTION, BOOK = 1.0, "p0"
WORDS = ["--election", f"{ELECTION}s", "--tick", "0"]
JSON = {"Content-Type": "application/json"}


def said_by(program, *words, **env):
    ran = subprocess.run([program, *words], capture_output=True, text=True, timeout=60, env={**os.environ, **env})
    return ran.returncode, ran.stdout, ran.stderr


def test_words(count, program, room):
    """What the command line tells, and what it refuses."""
    status, out, err = said_by(program, "--version")
    names = [line.split(" ")[0] for line in out.splitlines()[:-1]]
    is_right = (status, err) == (0, "") and names == ["lrcmand", "commit", "interface", "rules", "form"]
    count.check(f"--version: {status} {out} {err}", is_right)
    for words in (["-h"], ["--help"], ["ctl", "-h"]):
        status, out, err = said_by(program, *words)
        is_right = (status, err) == (0, "") and out.startswith("usage: lrcmand") and len(out.splitlines()) > 10
        count.check(f"{words}: {status} {out} {err}", is_right)
    folder = os.path.join(room, "checked")
    status, _, err = said_by(program, "--data", folder, "--snapshotevery", "7")
    count.check(f"an unknown option: {status} {err}", status == 2 and "there is --snapshot-every" in err)
    status, out, _ = said_by(program, "check", "--data", folder, LRCMAND_TICK="60")
    count.check(f"check: {status} {out}", status == 0 and not os.path.exists(folder))
    status, _, err = said_by(program, "check", "--data", folder, LRCMAND_TICK="soon")
    count.check(f"check of the environment: {status} {err}", status == 2 and "LRCMAND_TICK" in err)


class Notified:
    """A socket as systemd gives one to a service of Type=notify."""

    def __init__(self, folder):
        self.path = os.path.join(folder, "notify")
        self.socket = socket.socket(socket.AF_UNIX, socket.SOCK_DGRAM)
        self.socket.bind(self.path)
        self.socket.settimeout(30)

    def next(self):
        try:
            return self.socket.recv(100).decode()
        except OSError:
            return "nothing"


def test_start(count, faulty, room):
    """A member that reads its log says so, and tells systemd when it serves and when it ends."""
    group = Group(faulty, f"{room}/starts", 0, (), {"LRCMAND_SLOW_START": "1500ms"})
    member, asker = Member(group, 1, ["--log-format", "json"]), Asker(5)
    notified = Notified(group.folder)
    group.env["NOTIFY_SOCKET"] = notified.path
    try:
        member.start()
        seen, end = {}, time.monotonic() + 60
        while (status := asker.json(member.client, "GET", "/health"))[0] != 200 and time.monotonic() < end:
            if status[0]:
                seen[status[1].get("code")] = asker.json(member.client, "GET", "/livez")[0]
            time.sleep(0.02)
        count.check(f"while it starts it says so, and lives: {seen}", seen.get("starting") == 200)
        count.check("systemd is told that it serves", notified.next() == "READY=1")
        member.process.send_signal(signal.SIGTERM)
        count.check("systemd is told that it ends", notified.next() == "STOPPING=1")
        count.check(f"it ends: {member.said()}", member.ended(30) == 0)
        lines = [json.loads(line) for line in member.said().splitlines()]
        is_right = all({"time", "level", "msg"} <= {*line} for line in lines) and any(line["msg"] == "member serves" for line in lines)
        count.check(f"each line is an object: {lines}", is_right)
    finally:
        member.kill()


class Steady(threading.Thread):
    """A client that makes one call after the other, by a connection of its own each. It goes to the next member where one refuses it."""

    def __init__(self, group, number, keyed, at=None):
        super().__init__(daemon=True)
        self.ports, self.number, self.keyed, self.at = group.ports(), number, keyed, at
        self.is_over, self.told, self.cut, self.wrong, self.asked, self.codes = threading.Event(), [], 0, [], 0, set()

    def run(self):
        port = self.at or self.ports[self.number % len(self.ports)]
        while not self.is_over.is_set():
            status, told = self.call(port)
            if status == 200:
                self.told.append((time.monotonic(), told["n"]))
                self.asked += 1
                continue
            self.codes.add(told["code"] if told else "refused")
            if status not in (0, 503):
                self.wrong.append((status, told))
            elif self.at:
                return  # (its member is gone)
            else:
                port = self.ports[(self.ports.index(port) + 1) % len(self.ports)]

    def call(self, port):
        """The status and the object of an answer; status 0: the member refuses connections, or cuts one."""
        body = {"command": "tick", **({"key": f"{self.number}-{self.asked}"} if self.keyed else {})}
        connection = http.client.HTTPConnection("127.0.0.1", port, timeout=20)
        try:
            connection.request("POST", f"/books/{BOOK}/call", json.dumps(body), JSON)
            answer = connection.getresponse()
            return answer.status, json.loads(answer.read())
        except ConnectionRefusedError:
            return 0, None
        except (OSError, http.client.HTTPException):
            self.cut += 1
            return 0, None
        finally:
            connection.close()


def wait_told(clients, more, limit=30):
    """Waits until each of the clients that go on is told so many more."""
    goal, end = {it: len(it.told) + more for it in clients}, time.monotonic() + limit
    while time.monotonic() < end and any(it.is_alive() and len(it.told) < goal[it] for it in clients):
        time.sleep(0.01)


def test_end_under_load(count, program, room, nodes):
    """A leader that gets SIGTERM while clients call: no call is told that nobody knows, and the others go on without an election."""
    with Group(program, f"{room}/ends", 3, WORDS) as group:
        leader = group.members[group.leader()]
        for member in group.members.values():
            wait_ready(group.asker, member, 60)
        group.asker.ask(leader.client, "PUT", f"/books/{BOOK}", harness.topology_of(nodes))
        clients = [Steady(group, number, True) for number in range(6)]
        clients += [Steady(group, number, False, leader.client) for number in (6, 7)]
        for client in clients:
            client.start()
        wait_told(clients, 30)
        sent = time.monotonic()
        leader.process.send_signal(signal.SIGTERM)
        status, took = leader.ended(30), time.monotonic() - sent
        wait_told([it for it in clients if not it.at], 30)
        for client in clients:
            client.is_over.set()
        for client in clients:
            client.join(30)
        judge_end(count, group, clients, leader, sent)
        count.check(f"the leader ends well: {status}, {leader.said()[-500:]}", status == 0 and "another member leads" in leader.said())
        count.check(f"it ends soon: {took:.1f} s", took < 10)


def judge_end(count, group, clients, leader, sent):
    times = sorted(at for it in clients for at, _ in it.told)
    silence = max((b - a for a, b in zip(times, times[1:]) if b > sent), default=ELECTION)
    wrong = [it.wrong[:2] for it in clients if it.wrong]
    numbers, cut = [n for it in clients for _, n in it.told], sum(it.cut for it in clients)
    print(f"a leader ends under load: {len(numbers)} told, {cut} cut, longest silence {silence * 1000:.0f} ms", flush=True)
    count.check(f"calls are told 200 or 503 and nothing else: {wrong}", not wrong)
    codes = {code for it in clients for code in it.codes}
    count.check(f"whoever asks a member that ends is told so: {codes}", "ended" in codes)
    count.check(f"the silence of {silence:.2f} s is shorter than an election", silence < ELECTION)
    count.check(f"a connection may be cut as the port is closed, and no client sees two: {cut}", all(it.cut <= 1 for it in clients))
    at = next(it for it in group.members.values() if it is not leader)
    made = group.asker.json(at.client, "GET", f"/books/{BOOK}?now=1")[1].get("n", 0)
    is_once = len({*numbers}) == len(numbers) and len(numbers) <= made <= len(numbers) + cut
    count.check(f"{len(numbers)} calls were told, {cut} cut, and {made} made", is_once)


def test_second_signal(count, program, room):
    """A member that waits for a request under way ends at once when it is told so again."""
    group = Group(program, f"{room}/twice", 0)
    member, asker = Member(group, 1, []), Asker(5)
    try:
        member.start()
        wait_ready(asker, member, 60)
        with socket.create_connection(("127.0.0.1", member.client)) as slow:
            slow.sendall(b"PUT /books/p0 HTTP/1.1\r\nHost: localhost\r\nContent-Type: application/toml\r\nContent-Length: 9\r\n\r\n[[")
            time.sleep(0.3)  # (until it waits for the rest)
            member.process.send_signal(signal.SIGTERM)
            while not member.said().count("member ends"):
                time.sleep(0.01)
            sent = time.monotonic()
            member.process.send_signal(signal.SIGTERM)
            status, took = member.ended(30), time.monotonic() - sent
        count.check(f"a second signal ends it at once: {status} after {took:.1f} s", status == 1 and took < 3)
        count.check(f"it says so: {member.said()}", "second signal" in member.said())
    finally:
        member.kill()


def test_operators(count, program, faulty, room, nodes):
    test_words(count, program, room)
    test_start(count, faulty, room)
    test_end_under_load(count, program, room, nodes)
    test_second_signal(count, program, room)
