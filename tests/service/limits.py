"""What clients may do to a member, whether they mean it or not: thousands of connections that say nothing, bodies without end,
requests by chance, pages of elsewhere that command it, and tokens and certificates that ask for more than they may."""
import http.client
import json
import os
import random
import re
import resource
import socket
import ssl
import statistics
import subprocess
import threading
import time

from tests import harness
from tests.service.cluster import Asker, Group, Member, free_port, place
from tests.service.one_member import wait_ready

CONNECTIONS = 5000
JSON = {"Content-Type": "application/json"}
TICK = json.dumps({"command": "tick"})
CALL_HEAD = "POST /books/p0/call HTTP/1.1\r\nHost: localhost\r\nContent-Type: application/json\r\nContent-Length: 4000\r\n\r\n{"
HELD = {  # what a connection sends, and then nothing more
    "idle": "",
    "half a head": "GET /health HTTP/1.1\r\nHost: local",
    "a slow body": CALL_HEAD,
    "a body that nobody reads": "GET /version HTTP/1.1\r\nHost: localhost\r\nContent-Length: 1000\r\n\r\n",
}


class Alone:
    """A member alone with a book, which is killed in the end."""

    def __init__(self, program, folder, nodes, *words):
        self.group = Group(program, folder, 0)
        self.member, self.nodes, self.asker = Member(self.group, 1, list(words)), nodes, Asker(20)

    def __enter__(self):
        self.member.start()
        wait_ready(self.asker, self.member)
        topology = harness.topology_of(self.nodes)
        if self.asker.ask(self.member.client, "PUT", "/books/p0", topology)[0] != 200:
            raise RuntimeError(f"the book is not made: {self.member.said()[-500:]}")
        return self

    def __exit__(self, *_):
        self.member.kill()

    def status_file(self, word):
        """A number of /proc/ID/status, as VmHWM in kB."""
        with open(f"/proc/{self.member.process.pid}/status", encoding="ascii") as file:
            return int(re.search(rf"^{word}:\s+(\d+)", file.read(), re.M)[1])

    def descriptors(self):
        return len(os.listdir(f"/proc/{self.member.process.pid}/fd"))


class Caller(threading.Thread):
    """Calls by a connection of its own, made anew when it is closed, until it is told to stop."""

    def __init__(self, port):
        super().__init__(daemon=True)
        self.port, self.asker, self.told, self.other, self.is_over = port, Asker(20), 0, [], threading.Event()

    def run(self):
        while not self.is_over.is_set():
            status, _, text = self.asker.ask(self.port, "POST", "/books/p0/call", TICK, JSON)
            if status == 200:
                self.told += 1
            elif status:  # (0: the connection was closed between two calls)
                self.other.append((status, text[:200]))

    def __enter__(self):
        self.start()
        return self

    def __exit__(self, *_):
        self.is_over.set()
        self.join(30)


def may_open(count):
    """Lets this process have so many files open, or as many as it may, and returns the number."""
    soft, hard = resource.getrlimit(resource.RLIMIT_NOFILE)
    if soft < count + 500:
        resource.setrlimit(resource.RLIMIT_NOFILE, (min(hard, count + 500), hard))
    return min(count, resource.getrlimit(resource.RLIMIT_NOFILE)[0] - 500)


def hold(port, text, count, source="127.0.0.1"):
    """Connections that have sent a text and wait."""
    held = []
    for _ in range(count):
        try:
            one = socket.create_connection(("127.0.0.1", port), 20, (source, 0))
            held.append(one)
            one.sendall(text.encode())
        except OSError:
            pass  # (it was closed for another one already)
    return held


def healthy(ask, times=40):
    """The seconds that it takes to be told that a member is well, again and again."""
    took = []
    for _ in range(times):
        begun = time.monotonic()
        took.append(time.monotonic() - begun if ask() == 200 else 60.0)
    return took


def asked_once(port, context=None):
    """The status of /health, by a connection of its own."""
    try:
        if context is None:
            connection = http.client.HTTPConnection("127.0.0.1", port, timeout=20)
        else:
            connection = http.client.HTTPSConnection("127.0.0.1", port, timeout=20, context=context)
        connection.request("GET", "/health")
        status = connection.getresponse().status
        connection.close()
        return status
    except (OSError, http.client.HTTPException):
        return 0


def wait_well(port, limit=30):
    end = time.monotonic() + limit
    while asked_once(port) != 200 and time.monotonic() < end:
        time.sleep(0.02)


def is_soon(took, quiet):
    """Being told takes a tenth of a second, and never more than one, unless the machine is so slow by itself."""
    return statistics.median(took) < max(0.1, 3 * statistics.median(quiet)) and max(took) < max(1, 3 * max(quiet))


def check_times(count, what, took, quiet):
    middle, most = statistics.median(took), max(took)
    words = f"/health beside {what}: median {middle:.3f} s, most {most:.3f} s"
    print(f"{words}; with nobody {statistics.median(quiet):.3f} and {max(quiet):.3f}", flush=True)
    count.check(words, is_soon(took, quiet))


def test_connections(count, program, room, nodes):
    """5,000 connections of each kind at once: health is told as ever, and calls go on."""
    most = may_open(CONNECTIONS)
    with Alone(program, f"{room}/connections", nodes) as alone:
        port = alone.member.client
        quiet = healthy(lambda: asked_once(port))
        for what, text in HELD.items():
            took = held_against(count, alone, what, text, most)
            if not is_soon(took, quiet):  # (once more, where the machine has much else to do)
                took = held_against(count, alone, what, text, most)
            check_times(count, f"{most} with {what}", took, quiet)
        check_neighbours(count, alone, most)
        alone.asker.close()
        metrics = alone.asker.ask(port, "GET", "/metrics")[2].decode()
        closed = re.search(r"^lrcmand_http_connections_closed_total (\S+)", metrics, re.M)
        count.check(f"metrics tell what was closed: {closed}", closed and float(closed[1]) > most)


def held_against(count, alone, what, text, most):
    """The seconds that /health takes while connections are held. Calls go on meanwhile."""
    port = alone.member.client
    with Caller(port) as caller:
        held = hold(port, text, most)
        told = caller.told
        took = healthy(lambda: asked_once(port))
        count.check(f"descriptors: {alone.descriptors()}", alone.descriptors() < 1024 + 200)
        end = time.monotonic() + 10
        while caller.told == told and time.monotonic() < end:
            time.sleep(0.02)
        calls = caller.told - told
        for one in held:
            one.close()
    is_right = calls > 0 and not caller.other and len(held) > most * 0.9
    count.check(f"calls go on beside {what}: {calls} of {caller.told}, {caller.other[:3]}, {len(held)} held", is_right)
    return took


def check_neighbours(count, alone, most):
    """An address that takes all it can leaves others theirs: a connection that waits is kept."""
    port, quiet = alone.member.client, Asker(20)
    quiet.ask(port, "GET", "/health")
    before = quiet.connection.sock
    held = hold(port, "", most, "127.0.0.2")
    status = quiet.ask(port, "GET", "/health")[0]
    kept = quiet.connection is not None and quiet.connection.sock is before
    count.check(f"the connection of another address is kept: {status}", status == 200 and kept)
    for one in held:
        one.close()


def test_silent_handshakes(count, program, room, nodes):
    """The same over TLS with connections that don't begin to speak it, and with a port of its own for those who watch."""
    keys, watch = Keys(room), free_port()
    words = [*keys.words("server"), "--listen-metrics", f"127.0.0.1:{watch}"]
    group = Group(program, f"{room}/handshakes", 0)
    member = Member(group, 1, words)
    try:
        member.start()
        wait_well(watch)
        context = keys.context()
        quiet = healthy(lambda: asked_once(member.client, context))
        held = hold(member.client, "", may_open(CONNECTIONS))
        check_times(count, f"{len(held)} silent handshakes", healthy(lambda: asked_once(member.client, context)), quiet)
        check_times(count, "them, at its own port", healthy(lambda: asked_once(watch)), quiet)
        for one in held:
            one.close()
    finally:
        member.kill()


IMAGE = 8 << 20
BODIES = 100
MOST_RESIDENT = 600_000  # kB


def run_all(threads, limit=90):
    for thread in threads:
        thread.start()
    for thread in threads:
        thread.join(limit)


def send_image(port, number, text, together, answers):
    """Sends a body with an image when all others do, and notes what is told; a status of 0 is no answer."""
    head = f"PUT /books/i{number} HTTP/1.1\r\nHost: localhost\r\nContent-Type: application/json\r\n"
    head += f"Content-Length: {len(text)}\r\n\r\n"
    with socket.create_connection(("127.0.0.1", port), 60) as one:
        together.wait()
        try:
            one.sendall(head.encode())
            one.sendall(text)
        except OSError:
            pass  # (it may be refused before it is sent)
        answer = http.client.HTTPResponse(one)
        try:
            answer.begin()
            answers.append((answer.status, json.loads(answer.read()), answer.headers))
        except (OSError, http.client.HTTPException):
            answers.append((0, {}, {}))


def test_bodies(count, program, room, nodes):
    """100 bodies of 8 MiB at once: each is told what becomes of it, and memory is bounded. Calls go on."""
    with Alone(program, f"{room}/bodies", nodes) as alone, Caller(alone.member.client) as caller:
        answers, begun = [], time.monotonic()
        told, text = caller.told, json.dumps({"nodes": "x", "image": "y" * (IMAGE - 40)}).encode()
        how = text, threading.Barrier(BODIES, timeout=60), answers
        run_all([threading.Thread(target=send_image, args=(alone.member.client, number, *how)) for number in range(BODIES)])
        took, calls, most = time.monotonic() - begun, caller.told - told, alone.status_file("VmHWM")
        busy = [it for it in answers if it[0] == 503]
        taken = [it for it in answers if it[0] == 422]
        words = f"{BODIES} bodies of 8 MiB: {len(taken)} judged, {len(busy)} refused in {took:.1f} s, {calls} calls, {most} kB"
        print(words, flush=True)
        other = [it for it in answers if it[0] not in (422, 503)]
        count.check(f"each is told: {words} {other[:3]}", len(answers) == BODIES and not other and taken and busy)
        is_named = all(told["code"] == "busy" and headers["Retry-After"] for _, told, headers in busy)
        count.check(f"those that are refused are told so: {busy[:2]}", is_named)
        count.check(f"memory: {most} kB", most < MOST_RESIDENT)
        count.check(f"calls go on: {calls}, {caller.other[:3]}", calls > 0 and not caller.other)


# Requests by chance.

WORDS = ["books", "p0", "b1", "b2", "%2e%2e", "..", "a%00b", "x" * 70, "call", "nodes", "image", "log", "peek", "show", "status",
         "stripes", "leases", "fragments", "domains-fault", "domains-upgrade", "capacity", "1", "4096", "workers", "may-stop", "may-lose", "recipe", "health", "metrics", "version", "members",
         "leader", "0", "snapshot", "matrix", "events", "\xe9", "", "%", "*"]
QUERIES = ["now=1", "now=2", "format=csv", "from=0", "follow=0", "session=9", "command=tick", "node=1", "fault=0", "code=wide",
           "stripe=1", "fragment=3", "missing=2", "%zz", "a=b&a=c", "key=k", "since=1"]
BODY_TEXTS = [TICK, "{}", "[]", '{"command":"place 1"}', '{"command":"next","worker":"w"}', '{"command":1}', '{"command":"tick"',
              "\xff\xfe", '{"nodes":"x","image":"y"}', "[[node]]\nnumber = 1\n", '{"at":0,"opens":1}', "x" * 5000,
              '{"command":"lease 1 1","key":"k"}']
METHODS = ["GET", "GET", "POST", "POST", "PUT", "DELETE", "HEAD", "OPTIONS", "PATCH", "TRACE", "CONNECT", "get", "G T", ""]
HEADERS = ["Host: localhost", "Host: evil.example", "Host:", "Content-Type: application/json", "Content-Type: text/plain",
           "Connection: close", "Expect: 100-continue", "Expect: x", "Transfer-Encoding: chunked", "Transfer-Encoding: x",
           "Content-Length: -1", "Content-Length: 5", "Authorization: Bearer x", "Origin: null", "Sec-Fetch-Site: cross-site",
           "X: " + "y" * 20000, "a b: c", ": x", "Upgrade: h2c"]


def request_by_chance(chance):
    """The bytes of one request, which may be none."""
    path = "/" + "/".join(chance.choice(WORDS) for _ in range(chance.randrange(1, 5)))
    if chance.random() < 0.4:
        path = chance.choice(["/books/p0/call", "/books/p0/show/stripes", "/books/p0/show/health", "/books/p0/show/domains-fault",
                              "/books/p0/show/fragments", "/books/p0", "/books/b1", "/books/p0/log"])
    if chance.random() < 0.3:
        path += "?" + chance.choice(QUERIES)
    method = chance.choice(METHODS)
    if re.match(r"/(leader|snapshot|members)", path) and method not in ("GET", "HEAD"):
        path = "/books"  # (what changes the group is not asked for by chance)
    lines = [f"{method} {path} HTTP/1.{chance.choice('111110')}"]
    if chance.random() < 0.9:
        lines.append("Host: localhost")
    body = chance.choice(BODY_TEXTS).encode("latin1") if method in ("POST", "PUT", "DELETE") or chance.random() < 0.1 else b""
    if chance.random() < 0.8:
        lines += ["Content-Type: application/json", f"Content-Length: {len(body)}"]
    lines += chance.sample(HEADERS, chance.choice([0, 0, 0, 1, 2]))
    text = "\r\n".join(lines).encode("latin1", "replace") + b"\r\n\r\n" + body
    if chance.random() < 0.05:
        place = chance.randrange(len(text))
        text = text[:place] + bytes([chance.randrange(256)]) + text[place + chance.randrange(2):]
    return text[:chance.randrange(len(text))] if chance.random() < 0.03 else text


class Fuzzer(threading.Thread):
    """Sends requests by chance, each by a connection of its own, and counts the statuses of the answers."""

    def __init__(self, port, seed, requests, end):
        super().__init__(daemon=True)
        self.port, self.chance, self.left, self.end = port, random.Random(seed), requests, end
        self.statuses, self.bad, self.sent = {}, [], 0

    def run(self):
        while self.left > 0 and time.monotonic() < self.end:
            self.left -= 1
            self.sent += 1
            text = request_by_chance(self.chance)
            found = re.match(rb"HTTP/1.[01] (\d+)", self.answer(text))
            status = int(found[1]) if found else 0
            self.statuses[status] = self.statuses.get(status, 0) + 1
            if status == 500:
                self.bad.append((text[:300], found.string[-200:]))

    def answer(self, text):
        try:
            with socket.create_connection(("127.0.0.1", self.port), 5) as one:
                one.sendall(text)
                one.shutdown(socket.SHUT_WR)  # (so nothing is waited for that does not come)
                one.settimeout(2)
                return one.recv(2000)
        except OSError:
            return b""


def test_fuzz(count, program, room, nodes, requests=20000, limit=25):
    """20,000 requests by chance: no fault, and afterwards the member is as it was."""
    seed = int(time.time())
    with Alone(program, f"{room}/fuzz", nodes) as alone:
        port = alone.member.client
        run_fuzzers(port, f"{seed} warm", 400, 5)  # (what is made once is made)
        before, memory = alone.descriptors(), alone.status_file("VmRSS")
        with Caller(port) as caller:
            fuzzers = run_fuzzers(port, seed, requests, limit)
            told = caller.told
        check_answers(count, alone, fuzzers, f"requests by chance, seed {seed}, beside {told} calls")
        count.check(f"calls go on: {told}", told > 0)
        end = time.monotonic() + 30
        while alone.descriptors() > before + 5 and time.monotonic() < end:
            time.sleep(0.1)
        count.check(f"descriptors: {before}, and then {alone.descriptors()}", alone.descriptors() <= before + 5)
        grown = alone.status_file("VmRSS") - memory
        count.check(f"memory grew by {grown} kB", grown < 100_000)
        alone.asker.close()  # (the member may have closed a connection that was idle for so long)
        status, _, text = alone.asker.ask(port, "GET", "/books?now=1")
        count.check(f"a look after all: {status} {text[:200]}", status == 200)


def check_answers(count, alone, fuzzers, what):
    """No request by chance was answered by a fault, and enough of them came to something."""
    statuses, bad = {}, [it for fuzzer in fuzzers for it in fuzzer.bad]
    for fuzzer in fuzzers:
        for status, number in fuzzer.statuses.items():
            statuses[status] = statuses.get(status, 0) + number
    print(f"{sum(statuses.values())} {what}: {dict(sorted(statuses.items()))}", flush=True)
    count.check(f"no fault: {bad[:3]} {alone.member.said()[-500:]}", not bad and alone.member.runs())
    count.check(f"most of them come to something: {statuses}", sum(statuses.values()) >= 1000 and len(statuses) > 5)


def run_fuzzers(port, seed, requests, limit, threads=8):
    end = time.monotonic() + limit
    fuzzers = [Fuzzer(port, f"{seed} {number}", requests // threads, end) for number in range(threads)]
    run_all(fuzzers, limit + 30)
    return fuzzers


# Pages of elsewhere.

CHROME = "User-Agent: Mozilla/5.0 (X11; Linux x86_64) Chrome/120.0.0.0\r\nAccept: */*\r\nAccept-Encoding: gzip, deflate, br\r\n"


def as_browser(port, method, path, host, headers=(), body=""):
    """The status, the headers and the text of an answer to what a browser sends."""
    length = [f"Content-Length: {len(body)}"] if body or method != "GET" else []
    text = "\r\n".join([f"{method} {path} HTTP/1.1", f"Host: {host}", *headers, *length]) + "\r\n" + CHROME + "\r\n" + body
    with socket.create_connection(("127.0.0.1", port), 20) as one:
        one.sendall(text.encode())
        answer = http.client.HTTPResponse(one, method=method)
        answer.begin()
        return answer.status, answer.headers, answer.read().decode()


def fetched(site, mode, origin=None):
    """The headers by which a browser says for whom it asks."""
    target = "document" if mode == "navigate" else "empty"
    headers = [f"Sec-Fetch-Site: {site}", f"Sec-Fetch-Mode: {mode}", f"Sec-Fetch-Dest: {target}"]
    return headers + ([f"Origin: {origin}"] if origin else [])


def of_elsewhere(port, topology):
    """What browsers send for pages of elsewhere, and for a page whose own name was made to lead here."""
    here, evil, rebound = f"127.0.0.1:{port}", "http://evil.example", f"rebind.evil.example:{port}"
    own, cross = fetched("same-origin", "cors", f"http://{rebound}"), fetched("cross-site", "cors", evil)
    kinds = "text/plain", "application/json", "application/x-www-form-urlencoded"
    plain, ours, form = (f"Content-Type: {kind}" for kind in kinds)
    return [
        ("PUT", "/books/e1", rebound, own, topology), ("GET", "/books", rebound, fetched("same-origin", "cors"), ""),
        ("GET", "/", rebound, fetched("none", "navigate"), ""), ("POST", "/books/p0/call", rebound, [*own, ours], TICK),
        ("POST", "/snapshot", here, [*fetched("cross-site", "no-cors", evil), plain], "x"),
        ("POST", "/snapshot", here, fetched("cross-site", "no-cors", evil), ""),
        ("POST", "/leader/1", here, [*fetched("cross-site", "navigate", evil), form], "a=b"),
        ("POST", "/leader/1", here, [*fetched("same-site", "navigate", "http://127.0.0.1:1"), plain], ""),
        ("POST", "/books/p0/call", here, [f"Origin: {evil}", plain], TICK),  # (a browser that says nothing else)
        ("POST", "/books/p0/call", here, ["Origin: null", ours], TICK), ("PUT", "/books/e1", here, cross, topology),
        ("DELETE", "/books/p0", here, [*cross, ours], '{"at":0,"opens":1}'),
        ("OPTIONS", "/books/e1", here, [*cross, "Access-Control-Request-Method: PUT"], ""),
        ("GET", "/books/p0/image", here, fetched("cross-site", "no-cors"), ""), ("GET", "/events", here, cross, ""),
    ]


def test_browser(count, program, room, nodes):
    """A page whose name came to lead here, and pages of elsewhere, command nothing; the page itself can be visited."""
    with Alone(program, f"{room}/browser", nodes, "--host", "store.example") as alone:
        port = alone.member.client
        here = f"127.0.0.1:{port}"
        for request in of_elsewhere(port, harness.topology_of(nodes)):
            status, answer, text = as_browser(port, *request)
            is_refused = status == 403 and json.loads(text)["code"] == "forbidden_origin"
            is_silent = not any(name.lower().startswith("access-control") for name in answer)
            count.check(f"{request[:4]}: {status} {text} {answer}", is_refused and is_silent)
        for host, headers in ((here, fetched("cross-site", "navigate")), (f"store.example:{port}", fetched("none", "navigate"))):
            status, answer, _ = as_browser(port, "GET", "/", host, headers)
            is_kept = answer["X-Frame-Options"] == "DENY" and "frame-ancestors 'none'" in answer["Content-Security-Policy"]
            count.check(f"the page for {host} {headers}: {status} {answer}", status == 200 and is_kept)
        status = as_browser(port, "OPTIONS", "/books/e1", here, ["Access-Control-Request-Method: PUT"])[0]
        count.check(f"OPTIONS: {status}", status == 405)
        status, _, text = as_browser(port, "GET", "/books?now=1", here, fetched("same-origin", "cors"))
        names = [(it["name"], it["n"]) for it in json.loads(text)["books"]]
        count.check(f"nothing was made: {status} {names}", (status, names) == (200, [("p0", 0)]))


# Rights.


class Keys:
    """An authority of certificates in a folder, and what it has signed."""

    NEW = ["-newkey", "ec", "-pkeyopt", "ec_paramgen_curve:P-256", "-nodes"]

    def __init__(self, room):
        self.folder = os.path.join(room, f"keys{time.monotonic_ns()}")
        os.makedirs(self.folder)
        self.run("req", "-x509", *self.NEW, "-subj", "/CN=authority", "-days", "1", "-keyout", self.file("ca.key"), "-out",
                 self.file("ca.pem"))

    def file(self, name):
        return os.path.join(self.folder, name)

    def run(self, *words):
        subprocess.run(["openssl", *words], check=True, capture_output=True, timeout=60)

    def sign(self, name):
        """The files of a certificate for 127.0.0.1."""
        key, request, certificate = (self.file(f"{name}.{kind}") for kind in ("key", "csr", "pem"))
        if not os.path.exists(certificate):
            with open(self.file("names"), "w", encoding="ascii") as file:
                file.write("subjectAltName=IP:127.0.0.1\n")
            self.run("req", *self.NEW, "-subj", f"/CN={name}", "-keyout", key, "-out", request)
            self.run("x509", "-req", "-in", request, "-CA", self.file("ca.pem"), "-CAkey", self.file("ca.key"), "-CAcreateserial",
                     "-days", "1", "-extfile", self.file("names"), "-out", certificate)
        return certificate, key

    def words(self, name):
        certificate, key = self.sign(name)
        return ["--cert", certificate, "--key", key]

    def context(self, name=None):
        """What a client takes, which shows a certificate if it has a name."""
        context = ssl.create_default_context(cafile=self.file("ca.pem"))
        if name:
            context.load_cert_chain(*self.sign(name))
        return context


class Caretaker:
    """Somebody who asks over TLS with a token, or by a certificate, or with both."""

    def __init__(self, port, context, token=None):
        self.connection = http.client.HTTPSConnection("127.0.0.1", port, timeout=20, context=context)
        self.headers = {**JSON, **({"Authorization": f"Bearer {token}"} if token else {})}

    def ask(self, method, path, value=None):
        is_text = isinstance(value, str)
        body = value if is_text or value is None else json.dumps(value)
        headers = {**self.headers, "Content-Type": "application/toml"} if is_text else self.headers
        try:
            self.connection.request(method, path, body, headers)
            answer = self.connection.getresponse()
            text = answer.read()
            return answer.status, json.loads(text) if answer.headers["Content-Type"] == "application/json" else {}
        except (OSError, http.client.HTTPException):
            self.connection.close()
            return 0, {}


TOKENS = """look {0} books=p0
work {1} name=w1
place {2}
operate {3} name=ops
operate cert=boss
look,place cert=gate books=p*
"""


def call(command, worker=""):
    return {"command": command, **({"worker": worker} if worker else {})}


def rights_cases(topology):
    """What is asked, and by whom it may be."""
    path = "/books/p0/call"
    return [
        (("PUT", "/books/p0", topology), "ops boss"), (("PUT", "/books/q", topology), "ops boss"),
        (("POST", path, call("place 1")), "place gate ops boss"), (("POST", path, call("drop 9")), "place gate ops boss"),
        (("POST", "/books/q/call", call("place 1")), "place ops boss"), (("POST", path, call("next")), "work ops boss"),
        (("POST", path, call("next", "w1")), "work ops boss"), (("POST", path, call("next", "w1/3")), "work ops boss"),
        (("POST", path, call("next", "w2")), "ops boss"), (("POST", path, call("fail 1")), "ops boss"),
        (("POST", path, call("tick")), "ops boss"), (("GET", "/books/p0", None), "look work place gate ops boss"),
        (("GET", "/books/q", None), "work place ops boss"), (("GET", "/metrics", None), "work place ops boss"),
        (("GET", "/members", None), "look work place gate ops boss"), (("PUT", "/books/p1", topology), "ops boss"),
    ]


WORDS_OF_TOKENS = [f"{name}-token-of-sixteen" for name in ("look", "work", "place", "operate")]


def callers(port, keys):
    """Those who ask: by their tokens, by their certificates, and two who have no rights."""
    plain = keys.context("plain")
    who = {name: Caretaker(port, plain, token) for name, token in zip(("look", "work", "place", "ops"), WORDS_OF_TOKENS)}
    who |= {name: Caretaker(port, keys.context(name)) for name in ("boss", "gate")}
    return who | {"plain": Caretaker(port, plain), "stranger": Caretaker(port, plain, "stranger-of-sixteen")}


def test_rights(count, program, room, nodes):
    """Each may do what its line says, and nothing else, over TLS; the audit has each deed of an operator, and each refusal."""
    keys, watch, tokens, audit = Keys(room), free_port(), os.path.join(room, "tokens"), os.path.join(room, "audit")
    with open(tokens, "w", encoding="ascii") as file:
        file.write(TOKENS.format(*WORDS_OF_TOKENS))
    os.chmod(tokens, 0o600)
    options = [*keys.words("server"), "--client-ca", keys.file("ca.pem"), "--token-file", tokens, "--audit-file", audit]
    member = Member(Group(program, f"{room}/rights", 0), 1, [*options, "--listen-metrics", f"127.0.0.1:{watch}"])
    try:
        member.start()
        wait_well(watch)
        who = callers(member.client, keys)
        for request, may in rights_cases(harness.topology_of(nodes)):
            for name, asker in who.items():
                status, told = asker.ask(*request)
                wanted = {200, 409} if name in may.split() else {401} if name in ("plain", "stranger") else {403}
                words = f"{request[:2]} {str(request[2])[:60]} by {name}: {status} {told}, and not {wanted}"
                count.check(words, status in wanted)
        books = [[it["name"] for it in who[name].ask("GET", "/books")[1]["books"]] for name in ("look", "gate", "ops")]
        count.check(f"books that are listed: {books}", books == [["p0"], ["p0", "p1"], ["p0", "p1", "q"]])
        status = Caretaker(member.client, keys.context()).ask("GET", "/health")[0]
        count.check(f"without a certificate: {status}", status == 0)
        check_audit(count, audit)
    finally:
        member.kill()


def check_audit(count, audit):
    with open(audit, encoding="ascii") as file:
        lines = file.read().splitlines()
    form = r"time=\S+Z name=\S+ address=127\.0\.0\.1:\d+ method=[A-Z]+ path=\S+ status=\d+ index=\S+( left_out=\d+)?"
    count.check(f"each line of the audit: {lines[:3]}", lines and all(re.fullmatch(form, line) for line in lines))
    for words in ("name=boss address=", "name=ops address="):
        found = [line for line in lines if words in line and "method=PUT path=/books/p1 status=200" in line]
        count.check(f"the audit has {words}: {lines[-3:]}", len(found) == 1)
    for status in (401, 403):
        count.check(f"the audit has refusals by {status}", any(f" status={status} " in line for line in lines))


def test_limits(count, program, room, nodes):
    for test in (test_connections, test_silent_handshakes, test_bodies, test_fuzz, test_browser, test_rights):
        with place(room) as folder:
            test(count, program, folder, nodes)
