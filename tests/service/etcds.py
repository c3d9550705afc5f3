"""Three processes of etcd on loopback, to be measured beside lrcmand. They are those of Debian's etcd-server."""
import os
import shutil
import subprocess
import time

from tests.service.cluster import Asker, free_port


class Etcds:
    """The members of a group of etcd, by number."""

    def __init__(self, folder, size=3):
        self.folder = folder
        shutil.rmtree(folder, ignore_errors=True)
        os.makedirs(folder)
        self.clients = {number: free_port() for number in range(1, size + 1)}
        self.peers = {number: free_port() for number in self.clients}
        self.processes, self.asker = {}, Asker(3)

    def __enter__(self):
        for number in self.clients:
            self.start(number)
        return self

    def __exit__(self, *_):
        for number in self.processes:
            self.kill(number)

    def start(self, number):
        client, peer = (f"http://127.0.0.1:{ports[number]}" for ports in (self.clients, self.peers))
        first = ",".join(f"e{it}=http://127.0.0.1:{port}" for it, port in self.peers.items())
        words = ["etcd", "--name", f"e{number}", "--data-dir", f"{self.folder}/{number}", "--initial-cluster", first,
                 "--listen-client-urls", client, "--advertise-client-urls", client, "--log-level", "error",
                 "--listen-peer-urls", peer, "--initial-advertise-peer-urls", peer]
        with open(f"{self.folder}/{number}.log", "ab") as said:
            self.processes[number] = subprocess.Popen(words, stdout=said, stderr=said)

    def kill(self, number):
        self.processes[number].kill()
        self.processes[number].wait()

    def leader(self, limit=120):
        end = time.monotonic() + limit
        while time.monotonic() < end:
            for number, port in self.clients.items():
                status, told = self.asker.json(port, "POST", "/v3/maintenance/status", {})
                if status == 200 and told.get("leader") == told["header"]["member_id"]:
                    return number
            time.sleep(0.05)
        raise RuntimeError(f"there is no leader in {self.folder}")

    def address(self, number):
        return f"127.0.0.1:{self.clients[number]}"

    def addresses(self):
        return [self.address(number) for number in self.clients]

    def resident(self, number):
        return resident(self.processes[number])


def resident(process):
    """The megabytes that a process has in memory."""
    with open(f"/proc/{process.pid}/status", encoding="ascii") as file:
        return next(int(line.split()[1]) for line in file if line.startswith("VmRSS")) / 1024
