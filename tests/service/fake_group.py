"""A group of lrcmand as docs/SERVICE.md has it, of one book and few keys, whose members do and say what goes wrong."""
import json
import socket
import struct
import threading
from http.server import BaseHTTPRequestHandler, ThreadingHTTPServer

# What a member does with a call, and how it answers.
MADE = ["504 made", "cut after", "cut within", "cut within the head", "hang", "502 of another", "503 of another", "500"]
NOT_MADE = ["504 never", "504 later", "cut before"]
NOTHING = ["503", "429", "507"]
FAULTS = [*MADE, *NOT_MADE, *NOTHING]


class Book:
    """The book of a fake group: it knows the last few keys, and which of them were made how often."""

    def __init__(self, window):
        self.lock, self.window = threading.Lock(), window
        self.index, self.forgot, self.entries = 10, 5, 0
        self.made, self.known, self.late, self.tries = {}, {}, [], []
        self.ahead = []  # tries with a since that is not reached yet: their keys would never be forgotten

    def apply(self, key, since):
        """Makes a call at most once; returns its status, its number, and whether it was made before."""
        self.index += 1
        if key in self.known:
            return 200, self.known[key], True
        if since < self.forgot:
            return 409, 0, False
        self.entries += 1
        self.made[key] = self.made.get(key, 0) + 1
        self.known[key] = self.entries
        if len(self.known) > self.window:
            del self.known[next(iter(self.known))]
            self.forgot = self.index - self.window
        return 200, self.entries, False

    def others(self, count):
        """Makes calls of other clients."""
        for _ in range(count):
            self.apply(f"other{self.index}", self.index)

    def make_late(self):
        late, self.late = self.late, []
        for it in late:
            self.apply(*it)


class Handler(BaseHTTPRequestHandler):
    protocol_version = "HTTP/1.1"

    def log_message(self, *_):
        pass

    def say(self, status, value, head=()):
        text = json.dumps(value).encode() + b"\n" if isinstance(value, dict) else value
        self.send_response(status)
        self.send_header("Content-Length", str(len(text)))
        self.send_header("Lrcmand-Index", str(self.server.book.index))
        for name, word in head:
            self.send_header(name, word)
        self.end_headers()
        self.wfile.write(text)

    def fail(self, status, code, **more):
        self.say(status, {"status": status, "error": "words", "code": code, **more}, self.server.head)

    def cut(self, text):
        """Writes a text, and resets the connection behind it."""
        self.wfile.write(text)
        self.wfile.flush()
        if not text:
            self.connection.setsockopt(socket.SOL_SOCKET, socket.SO_LINGER, struct.pack("ii", 1, 0))
        self.connection.close()
        self.close_connection = True

    def do_GET(self):
        with self.server.book.lock:
            self.say(200, {"id": 1, "leader": 1, "applied": self.server.book.index, "members": []})

    def do_POST(self):
        body = json.loads(self.rfile.read(int(self.headers["Content-Length"])))
        server, book = self.server, self.server.book
        with book.lock:
            book.tries.append((body["key"], body["since"]))
            if not 0 < body["since"] <= book.index:
                book.ahead.append(body)
            book.make_late()
            book.others(server.others)
            fault = server.faults.pop(0) if server.faults else None
            if fault in MADE:
                book.apply(body["key"], body["since"])
            elif fault == "504 later":
                book.late.append((body["key"], body["since"]))
        if fault == "hang":
            server.end.wait(30)
        with book.lock:
            self.answer(fault, body)

    def answer(self, fault, body):
        words = (fault or "").split(" ")
        if fault is None:
            status, n, is_again = self.server.book.apply(body["key"], body["since"])
            if status != 200:
                self.fail(status, "key_forgotten")
            else:
                self.say(200, {"n": n, "opens": 7, "reply": "ticked 1 0", "kind": "ticked", "again": is_again})
        elif words[0] in ("cut", "hang"):
            head = f"HTTP/1.1 200 OK\r\nContent-Type: application/json\r\nLrcmand-Index: {self.server.book.index}".encode()
            whole = head + b"\r\nContent-Length: 300\r\n\r\n{\"n\":1,"
            self.cut({"cut within": whole, "cut within the head": head}.get(fault, b""))
        elif words[-1] == "another":
            self.say(int(words[0]), b"<html>bad gateway</html>")
        else:
            self.fail(int(words[0]), "words")


class Quiet(ThreadingHTTPServer):
    daemon_threads = True
    request_queue_size = 64

    def handle_error(self, *_):
        pass  # (a client that has gone)


class FakeGroup:
    """Some members over one book."""

    def __init__(self, members, window):
        self.book, self.members = Book(window), []
        for _ in range(members):
            server = Quiet(("127.0.0.1", 0), Handler)
            server.book, server.faults, server.others, server.head, server.end = self.book, [], 0, [], threading.Event()
            self.members.append(server)

    def servers(self):
        return [f"127.0.0.1:{it.server_address[1]}" for it in self.members]

    def __enter__(self):
        for it in self.members:
            threading.Thread(target=it.serve_forever, args=(0.01,), daemon=True).start()
        return self

    def __exit__(self, *_):
        for it in self.members:
            it.end.set()
            it.shutdown()
            it.server_close()
