"""The tables of a book that tools/balance reads over HTTP, of members that a test plays."""
import contextlib
import http.server
import os
import subprocess
import threading
from urllib.parse import parse_qs, urlsplit

from tests.harness import TOP

TOOL, BOOK, TOKEN = f"{TOP}/tools/balance", "p 0", "a-token-of-24-letters-abc"


class Served(http.server.BaseHTTPRequestHandler):
    """Answers of a member: `answers` has, by table, those to come, of which the last stays: status, text, entries and opening."""

    def do_GET(self):  # noqa: N802 (the name is that of the base)
        parts = urlsplit(self.path)
        self.server.asked.append((parts.path, parse_qs(parts.query), self.headers.get("Authorization")))
        answers = self.server.answers[parts.path.rpartition("/")[2]]
        status, text, *position = answers.pop(0) if len(answers) > 1 else answers[0]
        self.send_response(status)
        for name, value in zip(("Lrcmand-Entries", "Lrcmand-Opens"), position):
            self.send_header(name, str(value))
        if 300 <= status < 400:
            self.send_header("Location", text)
        self.send_header("Content-Length", str(len(text.encode())))
        self.end_headers()
        self.wfile.write(text.encode())

    def log_message(self, *_):
        pass


@contextlib.contextmanager
def member(tables, **answers):
    """A member that serves these tables at entry 7 of opening 3, but for what it answers else."""
    server = http.server.ThreadingHTTPServer(("127.0.0.1", 0), Served)
    server.answers = {name: [(200, text, 7, 3)] for name, text in tables.items()} | answers
    server.asked = []
    thread = threading.Thread(target=server.serve_forever)
    thread.start()
    try:
        yield server
    finally:
        server.shutdown()
        thread.join()
        server.server_close()


def url(server):
    return f"http://127.0.0.1:{server.server_port}"


def asked(servers, *words, env=None):
    """What the tool says of a book of these members."""
    env = {**os.environ, **(env or {})}
    ran = subprocess.run([TOOL, "--server", ",".join(servers), *words, BOOK], capture_output=True, text=True, env=env)
    return ran.returncode, ran.stdout, ran.stderr.replace(servers[-1], "SERVER")


def ask_others(count, tables, right):
    """A member that is busy is passed over, and no other one; and no proxy is asked."""
    for status, is_next in ((503, True), (429, True), (404, False), (401, False), (500, False)):
        with member(tables, nodes=[(status, "why")]) as one, member(tables) as other:
            told = asked([url(one), url(other)])
            is_right = told == right if is_next else told[0] == 2 and not other.asked
            count.check(f"a member that answers {status}, and another one: {told}", is_right and len(one.asked) == 1)
    with member(tables) as one:
        told = asked([url(one)], env={"http_proxy": "http://127.0.0.1:1", "no_proxy": ""})
        count.check(f"a proxy that others are asked by: {told}", told == right)


def test_books(count, folder, tables, script):
    """A book with these tables has this script; members that are away, busy or wrong are passed over or told."""
    right = (0, f"# at 7 opens 3\n{script}", "")
    with open(f"{folder}/tokens", "w", encoding="utf-8") as file:
        file.write(f"# tokens\noperate cert=x\n\nlook {TOKEN} books=*\n")
    with member(tables) as one:
        told = asked([url(one)], "--token-file", f"{folder}/tokens")
        count.check(f"a book: {told}", told == right)
        names = [path for path, _, _ in one.asked]
        count.check(f"it asks for {names}", names == [f"/books/p%200/show/{name}" for name in ("nodes", "stripes", "leases")])
        is_right = all(query == {"format": ["csv"], "now": ["1"]} and token == f"Bearer {TOKEN}" for _, query, token in one.asked)
        count.check(f"it asks {one.asked}", is_right)
        told = asked(["http://127.0.0.1:1", url(one)])
        count.check(f"a member that is away: {told}", told == right and one.asked[-1][2] is None)
    nodes, stripes = tables["nodes"], tables["stripes"]
    with member(tables, stripes=[(200, stripes, 6, 3), (200, stripes, 7, 2), (200, stripes, 7, 3)]) as one:
        told = asked([url(one)])
        count.check(f"a book that changes meanwhile: {told}, asked {len(one.asked)}", told == right and len(one.asked) == 9)
    ask_others(count, tables, right)
    for name, answers, why in (
        ("no right", [(401, '{"code":"unauthorized"}')], 'book p 0: SERVER answers nodes: 401 {"code":"unauthorized"}'),
        ("no book", [(404, '{"code":"no_book"}')], 'book p 0: SERVER answers nodes: 404 {"code":"no_book"}'),
        ("a busy one", [(503, "later")], "book p 0: SERVER answers nodes: 503 later"),
        ("another place", [(302, "http://127.0.0.1:1/")], "book p 0: SERVER answers nodes: 302 http://127.0.0.1:1/"),
        ("no position", [(200, nodes)], "book p 0: SERVER answers nodes: no answer of lrcmand: int() argument must be"),
        ("another table", [(200, "a,b\n", 7, 3)], f"p 0/nodes: line 1: the header is not {nodes.splitlines()[0]}"),
        ("no node in use", [(200, nodes.splitlines()[0] + "\n", 7, 3)], "p 0/nodes: the table has no nodes"),
    ):
        with member(tables, nodes=answers) as one:
            status, out, err = asked([url(one)])
            is_told = status == 2 and not out and err.startswith(f"tools/balance: {why}") and err.count("\n") == 1
            count.check(f"{name}: {status} {out} {err}", is_told)
    for words, why in ((["h1:7421"], "--server: a member is http://HOST:PORT"),
                       (["http://h1/x"], "--server: a member is http://HOST:PORT"),
                       (["http://127.0.0.1:1", "--token-file", f"{folder}/none"], f"{folder}/none: No such file or directory"),
                       (["https://127.0.0.1:1", "--ca", f"{folder}/none"], f"--ca: {folder}/none: No such file or directory")):
        status, out, err = asked(words[:1], *words[1:])
        count.check(f"{words}: {status} {out} {err}", status == 2 and not out and err.startswith(f"tools/balance: {why}"))
