"""A strange hand at the port of members: it sends what no member sends, and in the name of members what is not theirs."""
import glob
import json
import os
import random
import socket
import struct
import threading
import time

from tests import harness
from tests.service.cluster import Group
from tests.service.work import Run, Work, make_books

REQUESTS, HANDS, CONNECTIONS = 2400, 12, 1200
MOST_TERMS = 4  # that a group may need for itself on a busy machine
MOST_MEMORY, MOST_FILES = 150 << 20, 1150  # more than before; at all: 1,024 connections and some files
# The kinds of raft's messages.
PROP, APP, VOTE, SNAP, HEARTBEAT, MOVE, NOW, READ, READ_ANSWER = 2, 3, 5, 7, 8, 13, 14, 15, 16
GARBAGE = [b"", b"x", b"\x07x", b"\xff" * 9, b"\x00" * 40, b"GET / HTTP/1.1\r\n\r\n", b"\x08\x02\x1a\xff\xff\xff\xff\x0f"]


def varint(number):
    text = bytearray()
    while number > 127:
        text.append(number & 127 | 128)
        number >>= 7
    return bytes([*text, number])


def field(number, value):
    """A field of a message as raft writes it: a number, or bytes."""
    if isinstance(value, int):
        return varint(number << 3) + varint(value)
    return varint(number << 3 | 2) + varint(len(value)) + value


def message(kind, sender, to, term, entries=(), index=0, context=b"", snapshot=b""):
    text = field(1, kind) + field(2, to) + field(3, sender) + field(4, term) + field(6, index)
    text += b"".join(field(7, field(1, kind_of) + field(4, data)) for kind_of, data in entries)
    text += field(9, snapshot) if snapshot else b""
    return text + (field(12, context) if context else b"")


def kept(member, name):
    """What a member keeps in a small file: a line of JSON, and one with its checksum. It may not have it yet."""
    end = time.monotonic() + 30
    while not os.path.exists(os.path.join(member.folder, name)) and time.monotonic() < end:
        time.sleep(0.05)
    with open(os.path.join(member.folder, name), encoding="utf-8") as file:
        return json.loads(file.readline())


class Hand(threading.Thread):
    """Sends its share of requests, each drawn by a seed. It knows what stands in the folders of the members."""

    def __init__(self, group, seed):
        super().__init__(daemon=True)
        self.group, self.random, self.statuses = group, random.Random(seed), {}
        self.identities = {number: kept(it, "identity") for number, it in group.members.items()}
        starts = [it for member in group.members.values() for it in kept(member, "starts")]
        self.starts = {it["member"]: it for it in starts}
        self.fault = None

    def run(self):
        try:
            for _ in range(REQUESTS // HANDS):
                status = self.send(*self.draw())
                self.statuses[status] = self.statuses.get(status, 0) + 1
        except Exception as why:  # (the test reports it)
            self.fault = why

    def words(self, who, to):
        """Who the hand says to be: a stranger, or a member that lacks one of the numbers that members know of each other."""
        chance, target = self.random, self.identities[to]
        group, spoken_to = target["group"], self.starts[to]["number"]
        if who == "stranger":
            number = chance.choice([99, 4, 0, 65535, 1 << 40])
            it = {"member": number, "folder": chance.getrandbits(64), "starts": chance.randrange(9),
                  "number": chance.getrandbits(64), "term": 1, "last": 1}
            return it, group, spoken_to
        it = dict(self.starts[chance.choice([number for number in self.starts if number != to])])
        if who == "other group":
            group = chance.choice([0x73c8e39ec8374cc8, 0, chance.getrandbits(64)])
        elif who == "other folder":
            it["folder"] = chance.getrandbits(64)
        elif who == "old start":
            it["starts"], it["number"] = 0, chance.getrandbits(64)
        return it, group, spoken_to

    def draw(self):
        """A port, and a request to it."""
        chance, to = self.random, self.random.choice(list(self.group.members))
        who = chance.choice(["stranger", "other group", "other folder", "old start", "member"])
        it, group, spoken_to = self.words(who, to)
        query = (f"member={it['member']}&folder={it['folder']:016x}&starts={it['starts']}&number={it['number']:016x}"
                 f"&term={it['term']}&last={it['last']}&to={spoken_to:016x}&probe=")
        path, body = self.body(who, it["member"], to)
        method = "GET" if "stream" in path or not body and chance.random() < 0.5 else "POST"
        if chance.random() < 0.03:
            query = chance.choice(["", "member=1", query.replace("&", ";")])
        length = chance.choice([1 << 30, 1 << 62, len(body) + 1000]) if chance.random() < 0.1 else len(body)
        address = chance.choice(["http://127.0.0.1:9", "nonsense", "http://[::1", "unix://h:1"])
        heads = [f"{method} {path}?{query} HTTP/1.1", "Host: h", f"X-Server-From: {it['member']:x}",
                 f"X-Etcd-Cluster-ID: {group:x}", "X-Server-Version: 3.4.23", "X-Min-Cluster-Version: 3.0.0",
                 f"X-Raft-To: {to:x}", f"X-PeerURLs: {address}", f"Content-Length: {length}"]
        return self.group.members[to].peer, "\r\n".join(heads).encode() + b"\r\n\r\n" + body

    def body(self, who, sender, to):
        """A path and a body. In the name of a member, as members speak, it sends only what none of them would."""
        chance, term = self.random, self.random.choice([0, 1, 1000, 1 << 40, (1 << 64) - 1])
        garbage = chance.choice(GARBAGE) * chance.choice([1, 1, 100])
        if who == "member":
            kinds = [message(PROP, sender, to, 0, [(0, b"12345678" + garbage)]), message(PROP, sender, to, 0),
                     message(PROP, sender, to, 0, [(1, garbage)]), message(PROP, sender, to, 0, [(2, garbage)]),
                     message(READ, sender, to, 0), message(READ_ANSWER, sender, to, 0, [(0, b"1")]),
                     message(VOTE, sender, to, 1 << 60), message(SNAP, sender, to, 1),
                     message(PROP, 99, to, 0, [(0, b"12345678x")]), b"\xff" + garbage]
        else:
            kinds = [message(PROP, sender, to, 0, [(0, b"12345678" + garbage)]),
                     message(VOTE, sender, to, term, context=b"CampaignTransfer"), message(HEARTBEAT, sender, to, term),
                     message(APP, sender, to, term, [(0, garbage)], index=chance.randrange(9)),
                     message(MOVE, sender, to, 0), message(NOW, sender, to, term),
                     message(READ, sender, to, 0, [(0, b"12345678")]), garbage]
        text = chance.choice(kinds)
        if chance.random() < 0.2:
            snapshot = field(2, field(2, 10**6) + field(3, 10**6)) if who != "member" else b""
            text = message(SNAP if who != "member" else PROP, sender, to, 10**6, snapshot=snapshot)
            length = chance.choice([len(text), 1 << 60, (1 << 64) - 1])
            return "/raft/snapshot", struct.pack(">Q", length) + text + garbage
        others = ["/", "/raft/", "/raft/probing", "/raft/stream/msgapp/1", "/raft/stream/message/63", "/lrcmand/known",
                  "/lrcmand/meet", "/metrics", "/raft/stream/x/%2e%2e"]
        if who != "member" and chance.random() < 0.2:
            return chance.choice(others), b""
        return "/raft", text

    def send(self, port, text):
        """Sends a request, and returns its status, or what else comes of it. Sometimes a part is sent, and nothing waited for."""
        with socket.create_connection(("127.0.0.1", port), 10) as link:
            try:
                if self.random.random() < 0.1:
                    link.sendall(text[:self.random.randrange(len(text) + 1)])
                    return "cut"
                link.sendall(text)
                link.settimeout(1)
                line = link.recv(64).split(b" ", 2)
                return int(line[1]) if len(line) == 3 else "closed"
            except socket.timeout:
                return "silent"
            except OSError:
                return "closed"


def memory_of(member):
    with open(f"/proc/{member.process.pid}/status", encoding="ascii") as file:
        return next(int(line.split()[1]) << 10 for line in file if line.startswith("VmRSS"))


def files_of(member):
    return len(glob.glob(f"/proc/{member.process.pid}/fd/*"))


def crowd(port):
    """Connections that say nothing, or half of something; how many are open after the port had time to close some."""
    halves = [b"", b"POST /raft HTTP/1.1\r\n", b"POST /raft HTTP/1.1\r\nHost: h\r\nContent-Length: 1000\r\n\r\n"]
    links = []
    for number in range(CONNECTIONS):
        link = socket.create_connection(("127.0.0.1", port), 10)
        try:
            link.sendall(halves[number % len(halves)])
        except OSError:
            pass  # (it was closed already)
        links.append(link)
    return links


def expect_bounds(count, group, before, terms):
    for number, member in group.members.items():
        memory, now = memory_of(member), group.status(member).get("term", 0)
        had = before[number]
        count.check(f"member {number} has {memory >> 20} MB, and had {had >> 20}", memory < had + MOST_MEMORY)
        count.check(f"member {number} went from term {terms} to {now}", now <= terms + MOST_TERMS)


def test_strangers(count, program, room, nodes):
    """What a strange hand sends has no effect, and the group serves calls meanwhile."""
    seed = int(time.time())
    with Group(program, f"{room}/strangers", 3, ["--election", "1s", "--tick", "0"]) as group:
        make_books(group, harness.topology_of(nodes))
        work, run = Work(group, nodes, callers=4, lookers=1), Run()
        work.begin()
        work.wait_for_a_call(lambda: False)
        before, terms = {number: memory_of(it) for number, it in group.members.items()}, group.status(group.members[1])["term"]
        hands = [Hand(group, f"{seed} {number}") for number in range(HANDS)]
        for hand in hands:
            hand.start()
        for hand in hands:
            hand.join(60)
        statuses = {status: sum(it.statuses.get(status, 0) for it in hands) for it in hands for status in it.statuses}
        print(f"a strange hand at the port of members, seed {seed}: {statuses}", flush=True)
        faults = [str(it.fault) for it in hands if it.fault or it.is_alive()]
        count.check(f"the hands are done: {faults}", not faults and sum(statuses.values()) >= 2000)
        expect_bounds(count, group, before, terms)
        expect_crowd(count, group, work)
        told = work.count_told()
        work.wait_for_a_call(lambda: False)
        count.check("calls are told afterwards", work.count_told() > told)
        work.end(run)
        books = group.asker.json(group.members[1].client, "GET", "/books?now=1")[1].get("books", [])
        count.add(run.told + run.entries - min(len(run.faults), run.told), run.faults)
        count.check(f"there are no other books: {books}", len(books) == 3)
        made = sum(it.n > 0 for it in work.told())
        count.check(f"there are no other entries: {run.entries} for {made} calls", run.entries == made)
        members = list(group.members.values())
        count.check(f"all go on: {[it.said()[-300:] for it in members]}", all(it.runs() for it in members))


def expect_crowd(count, group, work):
    """So many connections that say nothing at one member: it closes some, and calls are told meanwhile."""
    member, told = group.members[1], work.count_told()
    links = crowd(member.peer)
    work.wait_for_a_call(lambda: False)
    count.check("calls are told beside a crowd of connections", work.count_told() > told)
    count.check(f"{files_of(member)} files are open", files_of(member) <= MOST_FILES)
    for link in links:
        link.close()
