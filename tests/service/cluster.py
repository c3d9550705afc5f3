"""Processes of lrcmand on loopback: started, killed, stopped, woken, and asked over HTTP."""
import http.client
import json
import os
import random
import shutil
import signal
import socket
import subprocess
import tempfile
import time


# Members take changes however full the machine's disk is, unless a test gives them a reserve of its own.
NO_RESERVE = ["--disk-reserve", "0"]

# The system gives clients ports from 32768 on, so none of them takes the port of a member that is away.
PORTS = iter(random.sample(range(10000, 20000), 10000))


def place(room):
    """A folder for one test, which goes when the test ends: the log of each member takes 64 MB and more of the disk."""
    return tempfile.TemporaryDirectory(dir=room)


def free_port():
    """A port that nobody listens at, and that was not given before."""
    for port in PORTS:
        with socket.socket() as one:
            one.setsockopt(socket.SOL_SOCKET, socket.SO_REUSEADDR, 1)
            try:
                one.bind(("127.0.0.1", port))
                return port
            except OSError:
                pass  # (somebody has it)
    raise RuntimeError("there is no free port")


class Asker:
    """A client with one connection, which is made anew after a fault and for another member. `index` is the last entry of the
    log that it has heard of."""

    def __init__(self, limit, token=None):
        self.limit, self.port, self.connection, self.index = limit, None, None, 0
        self.headers = {"Authorization": f"Bearer {token}"} if token else {}

    def ask(self, port, method, path, body=None, headers=None):
        """The status, the headers and the text of an answer. Status 0: there is none."""
        if port != self.port:
            self.close()
        try:
            if self.connection is None:
                self.connection, self.port = http.client.HTTPConnection("127.0.0.1", port, timeout=self.limit), port
            self.connection.request(method, path, body, {**self.headers, **(headers or {})})
            answer = self.connection.getresponse()
            if answer.length is None and not answer.chunked:
                raise http.client.IncompleteRead(b"")  # (it broke off within its head)
            text = answer.read()  # (which fails where its head broke off behind the length: a number there may be cut)
            self.index = max(self.index, int(answer.headers.get("Lrcmand-Index", 0)))
            return answer.status, answer.headers, text
        except (OSError, http.client.HTTPException):
            self.close()
            return 0, {}, b""

    def close(self):
        if self.connection is not None:
            self.connection.close()
        self.connection = None

    def json(self, port, method, path, value=None):
        """The status and the object of an answer."""
        return self.send(port, method, path, value)

    def send(self, port, method, path, value=None, headers=None):
        """The same for a body that may be a text of another type."""
        text = json.dumps(value) if isinstance(value, dict) else value
        headers = headers or ({} if method == "GET" else {"Content-Type": "application/json"})
        status, _, text = self.ask(port, method, path, text, headers)
        return status, json.loads(text) if text and status else {}


class Member:
    """One process, with its folder, its ports and what it said."""

    def __init__(self, group, number, words):
        self.group, self.number, self.words = group, number, words
        self.client, self.peer = free_port(), free_port()
        self.front, self.listen = self.client, self.peer  # where clients ask, and where it listens for other members
        self.folder = os.path.join(group.folder, f"member{number}")
        self.log = f"{self.folder}.log"
        self.process, self.is_stopped, self.is_first = None, False, False

    def start(self, *more):
        with open(self.log, "ab") as said:
            address = f"127.0.0.1:{self.client}"
            words = [*NO_RESERVE, *self.words, "--data", self.folder, "--id", str(self.number), "--listen", address, *more]
            env = {**os.environ, **self.group.env}
            self.process = subprocess.Popen([self.group.program, *words], stdout=said, stderr=said, env=env)
        self.is_stopped = False

    def runs(self):
        return self.process is not None and self.process.poll() is None

    def kill(self):
        if self.process is not None:
            self.process.kill()
            self.process.wait()

    def ended(self, limit):
        """The status with which it ends; None if it goes on for so many seconds, and then it is killed."""
        try:
            return self.process.wait(limit)
        except subprocess.TimeoutExpired:
            self.kill()
            return None

    def stop(self):
        self.process.send_signal(signal.SIGSTOP)
        self.is_stopped = True

    def wake(self):
        self.process.send_signal(signal.SIGCONT)
        self.is_stopped = False

    def said(self):
        with open(self.log, encoding="utf-8", errors="replace") as file:
            return file.read()


class Group:
    """The members of a group. Members by number; one that was removed is in `gone`. With a token, each request shows it."""

    def __init__(self, program, folder, size, words=(), env=None, token=None):
        self.program, self.folder, self.env, self.token = program, folder, env or {}, token
        shutil.rmtree(folder, ignore_errors=True)
        os.makedirs(folder)
        self.members, self.gone, self.learners, self.words = {}, {}, set(), list(words)
        for number in range(1, size + 1):
            self.members[number] = Member(self, number, self.words)
            self.members[number].is_first = True
        self.renew_first()
        self.asker = Asker(3, token)

    def renew_first(self):
        """The list of the first members, with the addresses at which they are reached."""
        self.first = ",".join(f"{it.number}=127.0.0.1:{it.peer}/127.0.0.1:{it.client}" for it in self.members.values())

    def __enter__(self):
        for member in self.members.values():
            self.start(member)
        return self

    def __exit__(self, *_):
        for member in [*self.members.values(), *self.gone.values()]:
            if member.runs():
                member.kill()

    def start(self, member):
        if member.is_first:
            member.start("--new", "--members", self.first, "--peer", f"127.0.0.1:{member.listen}")
        else:
            member.start("--join", "--peer", f"127.0.0.1:{member.peer}")

    def ports(self):
        return [member.front for member in list(self.members.values())]

    def status(self, member):
        return self.asker.json(member.client, "GET", "/status")[1]

    def leader(self, limit=60):
        """The number of the leader; the one of the highest term, if two think that they are."""
        end = time.monotonic() + limit
        while time.monotonic() < end:
            told = [self.status(it) for it in list(self.members.values()) if it.runs() and not it.is_stopped]
            leads = [(it["term"], it["id"]) for it in told if "term" in it and it["leader"] == it["id"]]
            if leads:
                return max(leads)[1]
            time.sleep(0.02)
        raise RuntimeError(f"there is no leader in {self.folder}")

    def change(self, method, path, value=None, limit=60, statuses=(200, 409)):
        """Asks one member after the other until one answers with one of these statuses."""
        end, status, told = time.monotonic() + limit, 0, {}
        while time.monotonic() < end:
            for member in list(self.members.values()):
                if member.runs() and not member.is_stopped:
                    status, told = self.asker.json(member.client, method, path, value)
                    if status in statuses:
                        return status, told
            time.sleep(0.1)
        raise RuntimeError(f"{method} {path} is not made: {status} {told}")

    def lead(self, number):
        """Asks for another leader. Whether it comes to lead in time is nobody's fault."""
        self.asker.json(self.members[number].client, "POST", f"/leader/{number}")

    def add(self, number, learns=False):
        """Adds a member, starts it, and waits until it votes, unless it only learns."""
        member = Member(self, number, self.words)
        self.put(member, learns)
        self.members[number] = member
        self.start(member)
        if learns:
            self.learners.add(number)
        else:
            self.wait_for_vote(number)

    def put(self, member, learns=False):
        """Asks for a member, or that one votes that learned, until it is made."""
        body = {"peer": f"127.0.0.1:{member.peer}", "client": f"127.0.0.1:{member.client}", "learner": learns}
        self.change("PUT", f"/members/{member.number}", body, statuses=(200,))

    def promote(self, number):
        """Lets one vote that learns, once it has what the leader has."""
        self.put(self.members[number])
        self.wait_for_vote(number)
        self.learners.remove(number)

    def wait_for_vote(self, number, limit=60):
        end = time.monotonic() + limit
        while time.monotonic() < end:
            rows = self.status(self.members[self.leader()]).get("members", ())
            if any(row["id"] == number and not row.get("learner") for row in rows):
                return
            time.sleep(0.02)
        raise RuntimeError(f"member {number} does not come to vote")

    def remove(self, number):
        self.change("DELETE", f"/members/{number}", statuses=(200,))
        self.gone[number] = self.members.pop(number)
        self.learners.discard(number)
