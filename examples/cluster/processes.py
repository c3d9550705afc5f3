"""The processes of a small store on this machine: lrcmand, nodes, a gateway, workers and a monitor, on ports of loopback."""
import http.client
import json
import os
import random
import shutil
import signal
import socket
import subprocess
import sys
import time

HERE = os.path.dirname(os.path.abspath(__file__))
sys.path.append(os.path.join(os.path.dirname(os.path.dirname(HERE)), "service/client"))
from lrcmand_client import Client  # noqa: E402

# A wide stripe takes 16 racks, and one more for each that is lost. With 18, and 12 upgrade domains, each stripe finds its seats
# also while a rack is gone or a domain is upgrading.
RACKS, DOMAINS, SLOTS = 18, 12, 64
NODES_OF_RACK = 2
WORKERS, BOOK, TICK = 4, "p0", 5
LIMIT = 120  # seconds, for whatever has to happen at some time


class Wrong(Exception):
    """What was seen is not what has to be."""


def until(what, is_so, limit=LIMIT):
    end = time.monotonic() + limit
    while not is_so():
        if time.monotonic() > end:
            raise Wrong(f"{what}: not within {limit} s")
        time.sleep(0.05)


def free_ports(count):
    """Ports below those that systems give to clients, which nobody has now."""
    ports = []
    for port in random.sample(range(15000, 30000), 4 * count):
        with socket.socket() as one:
            if len(ports) < count and one.connect_ex(("127.0.0.1", port)):
                ports.append(port)
    return ports


def ask(port, method, path, body=None, headers=None):
    """The status, the headers and the bytes of an answer. Status 0: there is none."""
    connection = http.client.HTTPConnection("127.0.0.1", port, timeout=30)
    try:
        connection.request(method, path, body, headers or {})
        answer = connection.getresponse()
        return answer.status, answer.headers, answer.read()
    except (OSError, http.client.HTTPException):
        return 0, {}, b""
    finally:
        connection.close()


class Node:
    """Where a node stands, how many slots it has, and its port and folder."""

    def __init__(self, number, racks, slots, port, folder):
        self.number, self.slots, self.port, self.folder = number, slots, port, os.path.join(folder, f"node-{number}")
        self.rack, self.domain = number % racks, number % DOMAINS


class Store:
    """All processes, by name. What each of them says is in FOLDER/NAME.log. Racks that come later are the last ones. With a
    reserve members refuse changes where fewer bytes are free than that, and not where fewer are than by default."""

    def __init__(self, folder, lrcmand, program, members, racks=RACKS, later=0, slots=(SLOTS,), reserve=None):
        self.folder, self.lrcmand, self.program = folder, lrcmand, program
        self.options = [] if reserve is None else ["--disk-reserve", str(reserve)]
        count = NODES_OF_RACK * racks
        ports = free_ports(count + 2 * members + 1)
        self.nodes = [Node(number, racks, slots[number % len(slots)], ports.pop(), folder) for number in range(count)]
        self.later = [node for node in self.nodes if node.rack >= racks - later]
        self.members = {number: (ports.pop(), ports.pop()) for number in range(1, members + 1)}
        self.gateway, self.processes = ports.pop(), {}
        self.client = Client([f"127.0.0.1:{client}" for _, client in self.members.values()], timeout=LIMIT)

    def __enter__(self):
        return self

    def __exit__(self, *_):
        for name in self.processes:
            self.end(name, signal.SIGKILL)

    def start(self, name, *words):
        with open(f"{self.folder}/{name}.log", "ab") as said:
            self.processes[name] = subprocess.Popen(words, stdout=said, stderr=said)

    def start_own(self, name, command, *words):
        self.start(name, self.program, command, "--cluster", f"{self.folder}/cluster.json", *words)

    def end(self, name, how=signal.SIGTERM):
        if self.processes[name].poll() is None:
            self.processes[name].send_signal(how)
        self.processes[name].wait()

    def start_node(self, node):
        self.start_own(f"node-{node.number}", "node", "--number", str(node.number), "--folder", node.folder)

    def start_workers(self, *words):
        for number in range(1, WORKERS + 1):
            self.start_own(f"worker-{number}", "worker", "--number", str(number), *words)

    def end_workers(self):
        for number in range(1, WORKERS + 1):
            self.end(f"worker-{number}")

    def lose_node(self, node):
        """Its process is killed, and its disk is gone."""
        self.end(f"node-{node.number}", signal.SIGKILL)
        shutil.rmtree(node.folder)

    def is_up(self, port, path="/"):
        return ask(port, "GET", path)[0] == 200

    def start_members(self):
        """Starts lrcmand, and makes the book."""
        group = ",".join(f"{number}=127.0.0.1:{peer}/127.0.0.1:{client}" for number, (peer, client) in self.members.items())
        words = self.options + (["--new", "--members", group] if len(self.members) > 1 else [])
        for number, (_, client) in self.members.items():
            place = ["--data", f"{self.folder}/member-{number}", "--id", str(number), "--listen", f"127.0.0.1:{client}"]
            self.start(f"lrcmand-{number}", self.lrcmand, *place, "--tick", str(TICK), *words)
        for _, client in self.members.values():
            until("lrcmand is ready", lambda port=client: self.is_up(port, "/health"))
        self.client.create(BOOK, self.topology())
        for node in self.later:
            self.change(f"fail {node.number}")  # (there is nothing on it, and the monitor joins it once it answers)

    def topology(self):
        rows = [f"number = {it.number}\nfault = {it.rack}\nupgrade = {it.domain}\nslots = {it.slots}\n" for it in self.nodes]
        return "".join(f"[[node]]\n{row}" for row in rows)

    def start_all(self):
        """Starts all but the workers."""
        self.start_members()
        value = {
            "Book": BOOK, "Gateway": f"127.0.0.1:{self.gateway}",
            "Servers": [f"127.0.0.1:{client}" for _, client in self.members.values()],
            "Nodes": [{"Number": it.number, "Address": f"127.0.0.1:{it.port}"} for it in self.nodes],
        }
        with open(f"{self.folder}/cluster.json", "w", encoding="utf-8") as file:
            json.dump(value, file)
        there = [node for node in self.nodes if node not in self.later]
        for node in there:
            self.start_node(node)
        for node in there:
            until(f"node {node.number} answers", lambda port=node.port: self.is_up(port))
        self.start_gateway()
        self.start_own("monitor", "monitor")

    def start_gateway(self):
        self.start_own("gateway", "gateway", "--folder", f"{self.folder}/gateway")
        until("the gateway answers", lambda: self.is_up(self.gateway))

    # The book.

    def rows(self, path):
        return self.client.get(f"/books/{BOOK}{path}", now=True).json()["rows"]

    def call(self, command, worker=""):
        return self.client.call(BOOK, command, worker=worker)

    def change(self, command):
        reply = self.call(command)["reply"]
        if reply != "changed":
            raise Wrong(f"{command}: {reply}")

    def join(self, nodes):
        """Nodes come with empty disks, and the monitor joins them."""
        for node in nodes:
            self.start_node(node)
        until("nodes join", lambda: all(self.node_row(node.number)["mode"] == "active" for node in nodes))

    def lose_rack(self, rack):
        """The processes of a rack are killed, and their disks are gone; returns its nodes."""
        lost = [node for node in self.nodes if node.rack == rack]
        for node in lost:
            self.lose_node(node)
        return lost

    def node_row(self, number):
        return next(row for row in self.rows("/show/nodes") if row["node"] == number)

    def is_whole(self):
        """Every fragment has a home that is online, and no lease lives."""
        values = {row["name"]: row["value"] for row in self.rows("")}
        return values["whole"] == values["stripes"] and not values["leases"]

    def home(self, stripe, fragment):
        """The node that a fragment is on."""
        return self.nodes[int(self.rows(f"/stripes/{stripe}")[0][f"home_{fragment}"].split(":")[0])]
