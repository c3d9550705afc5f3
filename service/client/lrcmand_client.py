"""Asks a group of lrcmand, as docs/SERVICE.md has it, and commands it. One file, which needs Python 3.11 and nothing else.

    from lrcmand_client import Client, OutcomeUnknown

    client = Client(["h1:7421", "h2:7421", "h3:7421"])
    reply = client.call("p0", "next", worker="w7")
    if reply["kind"] == "granted":
        ...
        client.call("p0", f"done {reply['stripe']} {reply['fragment']} {reply['epoch']}", worker="w7")

A client asks one member after the other until one answers, or `timeout` seconds are over. A member that sends Retry-After is left
alone so long. Threads may share it: each of them has connections of its own.

Each request is made at most once. Every one that changes a book or makes one has a random key, and a `since`: an index of the log
that was heard before its first try. Both are the same in each try. These errors say more than that it failed:

- OutcomeUnknown: it was sent, and its outcome is unknown. It may have been made, or still be made. Retry with its `key` and
  `since`, now or in another process: then it is made once all the same.
- KeyForgotten: it may have been made, and the group has forgotten its key since. To ask again does not help: look at the book.

Any other error of such a request says that nothing was made. A StatusError is the answer of a member, with its status and its
code. A refusal by the rules is no error: it is a reply of the kind "refused", and an entry of the book."""
from __future__ import annotations

import http.client
import json
import secrets
import socket
import ssl
import threading
import time
from collections.abc import Callable, Iterator, Sequence
from dataclasses import dataclass
from typing import Any, BinaryIO
from urllib.parse import quote, urlencode, urlsplit

__all__ = ["Answer", "Client", "Forgotten", "KeyForgotten", "LrcmandError", "NoAnswer", "OutcomeUnknown", "StatusError"]

DIAL = 3  # seconds in which a member has to be reached
LEAST_ATTEMPT = 1  # seconds that the last try has, also where it goes on beyond the timeout
SILENCE = 45  # seconds that a log may be silent; a member sends a line each 15
FRESH = 2  # seconds for which an index that was heard is the since of new requests
PASSING = 408, 429, 503, 507  # statuses that say: nothing was made, and it may be made elsewhere or later
FRAGMENTS = {"wide": 16, "narrow": 10}
JSON, TOML = "application/json", "application/toml"


class LrcmandError(Exception):
    """What a client raises."""


class NoAnswer(LrcmandError):
    """No member has answered, and nothing was made."""


class StatusError(LrcmandError):
    """An answer of a member other than 200."""

    def __init__(self, status: int, code: str, words: str, server: str, told: dict[str, Any] | None = None):
        super().__init__(f"{words} ({status} from {server})")
        self.status, self.code, self.words, self.server, self.told = status, code, words, server, told or {}


class OutcomeUnknown(LrcmandError):
    """The outcome of a request is unknown: it may have been made, or still be made. Retried with `key` and `since`, it is made
    once all the same. Where `key` is None, asking again changes nothing that was made."""

    def __init__(self, key: str | None, since: int, why: object):
        super().__init__(f"outcome unknown: {why}")
        self.key, self.since, self.why = key, since, why


class KeyForgotten(LrcmandError):
    """A request may have been made, and the group has forgotten its key since. To ask again does not help."""

    def __init__(self, key: str, since: int, why: object):
        super().__init__(f"outcome unknown, and the key is forgotten: {why}")
        self.key, self.since, self.why = key, since, why


class Forgotten(LrcmandError):
    """No member has these entries of a log. `first` is the first place that one has: ask behind it."""

    def __init__(self, first: int):
        super().__init__(f"the entries up to {first} are forgotten")
        self.first = first


@dataclass(frozen=True)
class Answer:
    """The body of a look, and how new it is: `n`, `opens`, `index` and `age_ms` are those of docs/SERVICE.md."""

    text: bytes
    server: str
    n: int
    opens: int
    index: int
    age_ms: int

    def json(self) -> Any:
        """The object of the answer."""
        return json.loads(self.text)


@dataclass
class _Keyed:
    """The key of a request and its since, which make it once however often it is sent."""

    key: str
    since: int
    is_old: bool  # it may have been sent before


class _Failure(Exception):
    """Why a try came to nothing."""

    def __init__(self, why: LrcmandError, maybe: bool = False, is_final: bool = False, rest: float = 0.0,
                 first: int | None = None):
        super().__init__(str(why))
        self.why, self.maybe, self.is_final, self.rest, self.first = why, maybe, is_final, rest, first


@dataclass
class _Query:
    """One request, and what came of its tries so far."""

    method: str
    path: str
    values: Sequence[tuple[str, object]] = ()
    body: bytes | dict[str, Any] | None = None
    kind: str = ""  # the Content-Type
    is_change: bool = False  # to send it may change something
    is_stream: bool = False  # its answer takes as long as it likes
    keyed: _Keyed | None = None

    maybe: bool = False  # a try may have taken effect, and nobody told
    last: LrcmandError | None = None
    leader: str = ""

    def __post_init__(self) -> None:
        self.rests: dict[str, float] = {}  # until when servers are left alone
        self.forgotten: dict[str, int] = {}  # servers that have forgotten what is asked for, with their first places

    def target(self) -> str:
        values = list(self.values)
        if self.keyed and not isinstance(self.body, dict):
            values += [("key", self.keyed.key), ("since", self.keyed.since)]
        return self.path + ("?" + urlencode(values) if values else "")

    def text(self) -> bytes | None:
        if not isinstance(self.body, dict):
            return self.body
        more = {"key": self.keyed.key, "since": self.keyed.since} if self.keyed else {}
        return json.dumps({**self.body, **more}).encode()

    def may_be_made(self) -> bool:
        return self.maybe or self.keyed is not None and self.keyed.is_old

    def unknown(self, why: object) -> OutcomeUnknown:
        return OutcomeUnknown(self.keyed.key, self.keyed.since, why) if self.keyed else OutcomeUnknown(None, 0, why)

    def refusal(self, fail: _Failure) -> LrcmandError:
        """What a caller is told of an answer that another member would give too. Where an earlier try may have been made, or may
        still be, only some answers rule that out."""
        why = fail.why
        rules_out = isinstance(why, StatusError) and (why.status in (400, 413) or why.code in ("moved", "bad_text"))
        return why if not self.may_be_made() or rules_out else self.unknown(why)

    def given_up(self) -> LrcmandError:
        """What a caller is told when time is up."""
        if self.forgotten:
            return Forgotten(min(self.forgotten.values()))
        why = self.last or NoAnswer("time is up")
        return self.unknown(why) if self.may_be_made() else why


def _server_of(text: str) -> str:
    full = text.strip() if "://" in text else f"http://{text.strip()}"
    found = urlsplit(full)
    if found.scheme not in ("http", "https") or not found.netloc or found.path.strip("/") or found.query or "@" in found.netloc:
        raise ValueError(f"a server is http://HOST:PORT or https://HOST:PORT, and not {text!r}")
    return f"{found.scheme}://{found.netloc}"


class _Connections:
    """Connections to members, each used by one thread at a time."""

    def __init__(self, tls: ssl.SSLContext | None):
        self._tls, self._open = tls, {}

    def to(self, server: str, limit: float) -> http.client.HTTPConnection:
        """A connection that is open, in which a member has so many seconds to send what it sends next."""
        found = self._open.get(server)
        if found is None or _is_closed(found):
            self.drop(server)
            parts = urlsplit(server)
            if parts.scheme == "https":
                found = http.client.HTTPSConnection(parts.netloc, timeout=min(limit, DIAL), context=self._tls)
            else:
                found = http.client.HTTPConnection(parts.netloc, timeout=min(limit, DIAL))
            found.connect()
            found.sock.setsockopt(socket.IPPROTO_TCP, socket.TCP_NODELAY, 1)
            self._open[server] = found
        found.sock.settimeout(limit)
        return found

    def drop(self, server: str) -> None:
        found = self._open.pop(server, None)
        if found is not None:
            found.close()

    def close(self) -> None:
        for server in list(self._open):
            self.drop(server)


class Client:
    """Asks the members of a group, one after the other, until one answers."""

    def __init__(self, servers: Sequence[str], token: str | None = None, ca: str | None = None, cert: str | None = None,
                 key: str | None = None, timeout: float = 20.0, attempt: float = 11.0, pause: float = 0.2):
        """`servers` are http://HOST:PORT, https://HOST:PORT or HOST:PORT; `ca`, `cert` and `key` are files; `timeout` is how many
        seconds members are tried, `attempt` how many one may take, and `pause` how many one that failed is left alone."""
        if isinstance(servers, str) or not servers:
            raise ValueError("servers is a list of members")
        self.timeout, self.attempt, self.pause, self._token = timeout, attempt, pause, token
        self._servers, self._lock, self._own = [_server_of(it) for it in servers], threading.Lock(), threading.local()
        self._heard, self._heard_at = 0, 0.0
        self._tls: ssl.SSLContext | None = None
        if any(it.startswith("https") for it in self._servers):
            self._tls = ssl.create_default_context(cafile=ca)
            self._tls.minimum_version = ssl.TLSVersion.TLSv1_2
            if cert:
                self._tls.load_cert_chain(cert, key)

    # Changes.

    def call(self, book: str, command: str, *, session: int = 1, worker: str = "", at: int | None = None,
             opens: int | None = None, key: str | None = None, since: int | None = None) -> dict[str, Any]:
        """Makes a command, a line of a script, and returns the reply as docs/SERVICE.md has it. `at` and `opens` make it only if
        the book stands there. A `key` that was sent before comes with the `since` of its first try."""
        body: dict[str, Any] = {"command": command, "session": session}
        if worker:
            body["worker"] = worker
        if at is not None:
            body |= {"at": at, "opens": opens}
        return self._change(_Query("POST", _of(book, "/call"), body=body, kind=JSON), key, since)

    def create(self, book: str, nodes: str, image: str | None = None, *, key: str | None = None,
               since: int | None = None) -> dict[str, Any]:
        """Makes a book over nodes, in TOML, which may begin in an image."""
        if image is None:
            query = _Query("PUT", _of(book), body=nodes.encode(), kind=TOML)
        else:
            query = _Query("PUT", _of(book), body=json.dumps({"nodes": nodes, "image": image}).encode(), kind=JSON)
        return self._change(query, key, since)

    def reopen(self, book: str, nodes: str, *, at: int | None = None, opens: int | None = None, key: str | None = None,
               since: int | None = None) -> dict[str, Any]:
        """Has a book go on over other nodes."""
        values = [] if at is None else [("at", at), ("opens", opens)]
        return self._change(_Query("PUT", _of(book, "/nodes"), values, nodes.encode(), TOML), key, since)

    def remove(self, book: str, at: int, opens: int, *, key: str | None = None, since: int | None = None) -> dict[str, Any]:
        """Removes a book that stands there: `at` is its number of entries."""
        body = json.dumps({"at": at, "opens": opens}).encode()
        return self._change(_Query("DELETE", _of(book), body=body, kind=JSON), key, since)

    def change_rules(self, rules: int, form: int = 0, *, key: str | None = None, since: int | None = None) -> dict[str, Any]:
        """Makes the group go to other rules."""
        body = {"rules": rules, **({"form": form} if form else {})}
        return self._change(_Query("PUT", "/rules", body=json.dumps(body).encode(), kind=JSON), key, since)

    def add_member(self, number: int, peer: str, client: str, learner: bool = False,
                   force: bool = False) -> list[dict[str, Any]]:
        """Adds a member, or makes one vote that only learned; with `force` also where too few are heard of. To do so again changes
        nothing."""
        body = {"peer": peer, "client": client, **({"learner": True} if learner else {})}
        return self._change_members("PUT", f"/members/{number}", json.dumps(body).encode(), force)

    def remove_member(self, number: int, force: bool = False) -> list[dict[str, Any]]:
        """Removes a member; with `force` also where too few are heard of. To do so again changes nothing."""
        return self._change_members("DELETE", f"/members/{number}", force=force)

    def lead(self, number: int) -> list[dict[str, Any]]:
        """Makes a member the leader, and returns once it leads."""
        return self._change_members("POST", f"/leader/{number}")

    def snapshot(self) -> None:
        """Has the member that answers write a snapshot."""
        self._changed(_Query("POST", "/snapshot", kind=JSON, is_change=True))

    # Looks.

    def get(self, path: str, values: Sequence[tuple[str, object]] = (), now: bool = False) -> Answer:
        """What is at a path, as it is. With `now` all that was told before is in it."""
        return self._ask(_Query("GET", path, [*values, *([("now", 1)] if now else [])]))

    def _look(self, path: str, values: Sequence[tuple[str, object]] = (), now: bool = False) -> Any:
        return _object(self.get(path, values, now), path)

    def books(self, now: bool = False) -> list[dict[str, Any]]:
        """The books: name, n and opens of each."""
        return self._look("/books", now=now)["books"]

    def nodes(self, book: str, now: bool = False) -> Answer:
        """The text of a book's nodes."""
        return self.get(_of(book, "/nodes"), now=now)

    def image(self, book: str, now: bool = False) -> Answer:
        """The image of a book."""
        return self.get(_of(book, "/image"), now=now)

    def show(self, book: str, view: str, now: bool = False) -> list[dict[str, Any]]:
        """The rows of a table of `show`, as stripes or capacity. Stripes have `homes`, too: a list of (node, slot) or None."""
        rows = self._look(_of(book, f"/show/{quote(view, safe='')}"), now=now)["rows"]
        return [_with_homes(row) for row in rows] if view == "stripes" else rows

    def stripe(self, book: str, number: int, now: bool = False) -> dict[str, Any]:
        """One row of the table of stripes."""
        return _with_homes(self._look(_of(book, f"/stripes/{number}"), now=now)["rows"][0])

    def workers(self, book: str, now: bool = False) -> list[dict[str, Any]]:
        """The live leases that were granted to workers by name."""
        return self._look(_of(book, "/workers"), now=now)["rows"]

    def recipe(self, book: str, stripe: int, fragment: int, missing: Sequence[int] = (), now: bool = True) -> dict[str, Any]:
        """How a fragment with a live lease is rebuilt; or any, with some that are missing too."""
        values = [("stripe", stripe), ("fragment", fragment), *(("missing", it) for it in missing)]
        return self._look(_of(book, "/recipe"), values, now)

    def matrix(self, code: str) -> list[list[int]]:
        """The generator matrix of a code, "wide" or "narrow"."""
        return self._look("/matrix", [("code", code)])["rows"]

    def peek(self, book: str, command: str, session: int = 1, now: bool = False) -> dict[str, Any]:
        """The reply that a command would get."""
        return self._look(_of(book, "/peek"), [("command", command), ("session", session)], now)

    def may_stop(self, book: str, nodes: Sequence[int] = (), faults: Sequence[int] = (), upgrades: Sequence[int] = (),
                 now: bool = True) -> dict[str, Any]:
        """What would become of the stripes if these stopped: `safe`, and `rows`."""
        return self._look(_of(book, "/may-stop"), _outage(nodes, faults, upgrades), now)

    def may_lose(self, book: str, nodes: Sequence[int] = (), faults: Sequence[int] = (), upgrades: Sequence[int] = (),
                 now: bool = True) -> dict[str, Any]:
        """What would become of the stripes if these were lost: `safe`, and `rows`."""
        return self._look(_of(book, "/may-lose"), _outage(nodes, faults, upgrades), now)

    def status(self) -> dict[str, Any]:
        """How the member that answers sees the group."""
        told = self._look("/status")
        self._hear(told["applied"])
        return told

    def members(self) -> list[dict[str, Any]]:
        """The members, of which one has `leader`."""
        return self._look("/members")["members"]

    def sync(self) -> None:
        """Asks members that GET /members names too from now on, the leader first. Their addresses for clients have to be
        reachable."""
        answer = self.get("/members")
        scheme, rows = urlsplit(answer.server).scheme, _object(answer, "/members")["members"]
        found = [f"{scheme}://{it['client']}" for it in sorted(rows, key=lambda it: not it.get("leader"))]
        with self._lock:
            self._servers = found + [it for it in self._servers if it not in found]

    def rules(self) -> dict[str, Any]:
        """The rules of the member that answers, and of the group."""
        return self._look("/rules")

    def index(self) -> int:
        """An index of the log that the group has reached: the since of a request that is made from now on."""
        with self._lock:
            if self._heard and time.monotonic() - self._heard_at < FRESH:
                return self._heard
        self.status()
        return max(self._heard, 1)  # (no request is proposed before index 1)

    def follow(self, book: str, start: int = 0) -> Iterator[dict[str, Any]]:
        """The entries of a book behind number `start`, in order and once each, and those to come. Where a member breaks off, it
        goes on at another one. It raises Forgotten if no member has those entries, and StatusError if the book is gone."""
        return self._read(book, start, [("follow", 1)])

    def log(self, book: str, start: int = 0) -> Iterator[dict[str, Any]]:
        """The entries of a book behind number `start` that are there."""
        return self._read(book, start, [])

    def backup(self, to: BinaryIO, now: bool = True) -> int:
        """Writes all that the group has at one place of its log, for `lrcmand restore`, and returns that place. All that was told
        before is in it; without `now` it is what the member that answers has. After an error it is not whole."""
        connections, query = _Connections(self._tls), _Query("GET", "/backup", [] if now else [("now", 0)], is_stream=True)
        try:
            answer, server = self._send(query, connections, lambda answer, server: (answer, server))
            while text := answer.read(1 << 16):
                to.write(text)
            return _number(answer, "Index") or 0
        except (OSError, http.client.HTTPException) as why:
            raise NoAnswer(f"the backup of {server} breaks off: {why or type(why).__name__}") from why
        finally:
            connections.close()

    # How it is done.

    def _change(self, query: _Query, key: str | None, since: int | None) -> dict[str, Any]:
        query.is_change = True
        try:
            since_now = since or self.index()
        except LrcmandError as why:
            raise OutcomeUnknown(key, since, why) if since else why
        query.keyed = _Keyed(key or secrets.token_hex(16), since_now, bool(since))
        return self._changed(query)

    def _change_members(self, method: str, path: str, body: bytes | None = None, force: bool = False) -> list[dict[str, Any]]:
        values = [("force", 1)] if force else []
        return self._changed(_Query(method, path, values, body, JSON, is_change=True))["members"]

    def _changed(self, query: _Query) -> dict[str, Any]:
        answer = self._ask(query)
        try:
            return _object(answer, query.path)
        except LrcmandError as why:  # (it may have been made: who answers is not known)
            raise query.unknown(why) from why

    def _ask(self, query: _Query) -> Answer:
        if not hasattr(self._own, "connections"):
            self._own.connections = _Connections(self._tls)
        return self._send(query, self._own.connections, self._take)

    def _send(self, query: _Query, connections: _Connections, take: Callable[[http.client.HTTPResponse, str], Any]) -> Any:
        """Tries one member after the other until one answers, or time is up."""
        end = time.monotonic() + self.timeout
        while (server := self._next(query, end)) is not None:
            try:
                found = self._try(server, query, connections, take, end)
            except _Failure as fail:
                self._judge(server, query, fail)
                continue
            self._prefer(server)
            return found
        raise query.given_up()

    def _judge(self, server: str, query: _Query, fail: _Failure) -> None:
        """Raises what the caller is told if a request is not to be tried again."""
        query.last, query.maybe = fail.why, query.maybe or fail.maybe
        code, told = getattr(fail.why, "code", ""), getattr(fail.why, "told", {})
        if query.keyed and code == "key_forgotten":
            if query.may_be_made():
                raise KeyForgotten(query.keyed.key, query.keyed.since, fail.why)
            self._renew(query.keyed)
        elif fail.first is not None:
            query.forgotten[server] = fail.first
            if all(it in query.forgotten for it in self._servers):
                raise query.given_up()
        elif fail.is_final:
            raise query.refusal(fail)
        else:
            self._pass_over(server)
            rest = max(self.pause * (1 + secrets.randbelow(250) / 1000), fail.rest)  # (so that clients do not keep in step)
            query.rests[server] = time.monotonic() + rest
            if leader := told.get("leader"):
                query.leader = f"{urlsplit(server).scheme}://{leader}"

    def _renew(self, keyed: _Keyed) -> None:
        """Gives a request another since. Nothing was made of it so far."""
        if self._heard <= keyed.since:
            self.status()
        if self._heard > keyed.since:
            keyed.since = self._heard
        else:
            time.sleep(self.pause)  # (the member that is asked is behind)

    def _next(self, query: _Query, end: float) -> str | None:
        """The server that is asked next. It waits for one that is not to be left alone."""
        while True:
            now, servers = time.monotonic(), self._order()
            if query.leader:
                servers.insert(0, query.leader)
            servers = [it for it in servers if it not in query.forgotten]
            soonest = min((query.rests.get(it, 0) for it in servers), default=end)
            if now >= end or soonest >= end:
                return None
            for server in servers:
                if query.rests.get(server, 0) <= now:
                    return server
            time.sleep(soonest - now)

    def _try(self, server: str, query: _Query, connections: _Connections, take: Callable[[http.client.HTTPResponse, str], Any],
             end: float) -> Any:
        limit, is_sent = min(max(end - time.monotonic(), LEAST_ATTEMPT), self.attempt), False
        try:
            connection = connections.to(server, limit)
            is_sent = True
            answer = self._exchange(connection, query)
            if answer.status != 200:
                raise self._failure_of(server, query, answer)
            if query.is_stream and connection.sock is not None:
                connection.sock.settimeout(SILENCE)
            return take(answer, server)
        except (OSError, http.client.HTTPException) as why:
            connections.drop(server)
            why_words = f"{server} does not answer: {why or type(why).__name__}"
            raise _Failure(NoAnswer(why_words), query.is_change and is_sent) from why
        except _Failure:
            raise
        except BaseException:
            connections.drop(server)
            raise

    def _exchange(self, connection: http.client.HTTPConnection, query: _Query) -> http.client.HTTPResponse:
        headers = {"Content-Type": query.kind} if query.kind else {}
        if self._token:
            headers["Authorization"] = f"Bearer {self._token}"
        connection.request(query.method, query.target(), query.text(), headers)
        answer = connection.getresponse()
        if answer.length is None and not answer.chunked:
            raise http.client.IncompleteRead(b"")  # (it broke off within its head, which http.client takes for a whole one)
        return answer

    def _failure_of(self, server: str, query: _Query, answer: http.client.HTTPResponse) -> _Failure:
        """Reads an answer other than 200. What is not an object as lrcmand writes it comes from somebody between, who may have
        passed the request on."""
        told, status = _dict_of(answer.read()), answer.status
        is_own = told.get("status") == status and bool(told.get("error"))
        if is_own:
            self._hear(_number(answer, "Index"))
        why = StatusError(status, str(told.get("code", "")), str(told.get("error") or answer.reason), server, told)
        rest = answer.headers.get("Retry-After", "")
        rest = float(rest) if rest.isascii() and rest.isdigit() and len(rest) < 6 else 0.0
        if is_own and status in PASSING:
            return _Failure(why, rest=rest)
        if status >= 500 or status in PASSING:
            return _Failure(why, maybe=query.is_change, rest=rest)
        if status == 410 and "before" in told:
            return _Failure(why, first=told["before"])
        return _Failure(why, is_final=True)

    def _take(self, answer: http.client.HTTPResponse, server: str) -> Answer:
        text = answer.read()
        self._hear(_number(answer, "Index"))
        n, opens, index = (_number(answer, name) or 0 for name in ("Entries", "Opens", "Index"))
        age = _number(answer, "Age-Ms")
        return Answer(text, server, n, opens, index, -1 if age is None else age)

    def close(self) -> None:
        """Closes the connections of this thread."""
        if hasattr(self._own, "connections"):
            self._own.connections.close()

    def _order(self) -> list[str]:
        with self._lock:
            return list(self._servers)

    def _prefer(self, server: str) -> None:
        """A server that answered is asked first. One that is not of the list changes nothing."""
        with self._lock:
            if server in self._servers:
                at = self._servers.index(server)
                self._servers = self._servers[at:] + self._servers[:at]

    def _pass_over(self, server: str) -> None:
        with self._lock:
            if self._servers[0] == server:
                self._servers = self._servers[1:] + self._servers[:1]

    def _hear(self, index: int | None) -> None:
        with self._lock:
            if index and index >= self._heard:
                self._heard, self._heard_at = index, time.monotonic()

    def _read(self, book: str, last: int, values: Sequence[tuple[str, object]]) -> Iterator[dict[str, Any]]:
        while True:
            connections = _Connections(self._tls)  # (of its own: the caller may ask meanwhile)
            query = _Query("GET", _of(book, "/log"), [*values, ("from", last)], is_stream=True)
            try:
                answer, server = self._send(query, connections, lambda answer, server: (answer, server))
                for entry in _entries(answer, server, last, bool(values)):
                    last = entry["n"]
                    yield entry
                return
            except _BrokeOff:
                self._pass_over(server)
                time.sleep(self.pause)
            finally:
                connections.close()


class _BrokeOff(Exception):
    """A log is over which another member may go on with."""


def _entries(answer: http.client.HTTPResponse, server: str, last: int, is_followed: bool) -> Iterator[dict[str, Any]]:
    """The entries of one answer. The last line of a log may be an error."""
    while True:
        try:
            line = answer.readline()
        except (OSError, http.client.HTTPException, ValueError) as why:
            raise _BrokeOff from why
        if not line and not is_followed and answer.isclosed():
            return
        if not line.endswith(b"\n"):
            raise _BrokeOff
        if not line.strip():
            continue
        told = _dict_of(line)
        if told.get("status") == 404:
            raise StatusError(404, str(told.get("code", "")), str(told.get("error")), server, told)
        if "status" in told:
            raise _BrokeOff
        if not isinstance(told.get("n"), int):
            raise LrcmandError(f"a line of the log is not what lrcmand writes: {line[:80]!r}")
        if told["n"] <= last:
            continue
        if told["n"] != last + 1:
            raise LrcmandError(f"entry {told['n']} of the log comes after entry {last}")
        last = told["n"]
        yield told


def _of(book: str, rest: str = "") -> str:
    return f"/books/{quote(book, safe='')}{rest}"


def _dict_of(text: bytes) -> dict[str, Any]:
    try:
        told = json.loads(text)
    except ValueError:
        return {}
    return told if isinstance(told, dict) else {}


def _object(answer: Answer, path: str) -> dict[str, Any]:
    told = _dict_of(answer.text)
    if not told:
        raise LrcmandError(f"the answer to {path} is not what lrcmand answers: {answer.text[:80]!r}")
    return told


def _number(answer: http.client.HTTPResponse, name: str) -> int | None:
    try:
        return int(answer.headers.get(f"Lrcmand-{name}", ""))
    except ValueError:
        return None


def _is_closed(connection: http.client.HTTPConnection) -> bool:
    """Whether the member has closed a connection that nobody used: what is sent over it would be unknown for nothing."""
    if connection.sock is None:  # (http.client closes it where the member wants that)
        return True
    try:
        connection.sock.settimeout(0)
        connection.sock.recv(1)
    except (BlockingIOError, ssl.SSLWantReadError):
        return False
    except OSError:
        pass
    return True  # (also where something came: nobody asked for it)


def _with_homes(row: dict[str, Any]) -> dict[str, Any]:
    seats = [row.get(f"home_{it}") for it in range(FRAGMENTS.get(row["code"], 0))]
    return {**row, "homes": [tuple(int(part) for part in it.split(":")) if it else None for it in seats]}


def _outage(nodes: Sequence[int], faults: Sequence[int], upgrades: Sequence[int]) -> list[tuple[str, object]]:
    named = ("node", nodes), ("fault", faults), ("upgrade", upgrades)
    return [(name, number) for name, numbers in named for number in numbers]
