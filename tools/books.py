"""Reads tables of a book that `lrcmand` serves, by HTTP, for the tools beside this file.

docs/SERVICE.md (Requests, Reads and staleness) has the routes. This file runs without the rest of the repository."""
import http.client
import os
import ssl
import sys
import time
from urllib.error import HTTPError, URLError
from urllib.parse import quote, urlsplit
from urllib.request import HTTPRedirectHandler, HTTPSHandler, ProxyHandler, Request, build_opener

sys.dont_write_bytecode = True
from tables import Refused, Text

SERVER, TRIES = "http://127.0.0.1:7421", 20
LIMIT, PAUSE = 30, 0.2  # seconds: that a member may take; before tables are read again


class Stay(HTTPRedirectHandler):
    """No member sends one elsewhere, and no token is to go there."""

    def redirect_request(self, *_):
        return None


class Book:
    """A book of the service, of which members are asked one after the other."""

    def __init__(self, name, servers, token="", ca=None):
        self.name, self.servers, self.headers = name, servers, {"Authorization": f"Bearer {token}"} if token else {}
        is_tls = any(server.startswith("https:") for server in servers)
        tls = [HTTPSHandler(context=ssl.create_default_context(cafile=ca))] if is_tls else []
        self.opener = build_opener(ProxyHandler({}), Stay, *tls)  # (members are not asked by a proxy)

    def table(self, what):
        """One table, with all that was acknowledged before, and where the book stood. Only this knows the route."""
        path, failed = f"/books/{quote(self.name, safe='')}/show/{what}?format=csv&now=1", None
        for server in list(self.servers):
            try:
                with self.opener.open(Request(server + path, headers=self.headers), timeout=LIMIT) as answer:
                    told, text = answer.headers, answer.read().decode()
                return Text(f"{self.name}/{what}", text), (int(told["Lrcmand-Entries"]), int(told["Lrcmand-Opens"]))
            except HTTPError as error:
                failed = f"{error.code} {error.read(2000).decode(errors='replace').strip()}"
                if error.code not in (429, 503):
                    break
            except URLError as error:
                failed = error.reason
            except (OSError, http.client.HTTPException, ValueError, TypeError) as error:
                failed = f"no answer of lrcmand: {error}"
            self.servers.append(self.servers.pop(0))  # (the next one is asked first from here on)
        raise Refused(f"book {self.name}: {server} answers {what}: {failed}")

    def tables(self, *names):
        """Tables of one state, and where the book stood: its entries and its opening."""
        for attempt in range(TRIES):
            time.sleep(PAUSE if attempt else 0)
            found, positions = zip(*map(self.table, names))
            if len(set(positions)) == 1:
                return found, positions[0]
        raise Refused(f"book {self.name}: it changes faster than its tables are read")


def add_options(parser):
    """The options that name a service, as those of `lrcmand ctl`."""
    parser.add_argument("--server", default=os.environ.get("LRCMAND_SERVER") or SERVER, metavar="URL",
                        help="a member, or several with commas between; also LRCMAND_SERVER")
    parser.add_argument("--token-file", default=os.environ.get("LRCMAND_TOKEN_FILE"), metavar="FILE",
                        help="a file with the token, alone or as ROLE TOKEN; also LRCMAND_TOKEN_FILE")
    parser.add_argument("--ca", metavar="FILE", help="the CA of members with TLS; by default those of the system")


def book_of(name, given):
    """The book of this name, of the service that the options name."""
    servers = [it.strip().rstrip("/") for it in given.server.split(",")]
    for server in servers:
        parts = urlsplit(server)
        if parts.scheme not in ("http", "https") or not parts.netloc or parts.path or parts.query:
            raise Refused(f"--server: a member is http://HOST:PORT or https://HOST:PORT, and not {server!r}")
    try:
        return Book(name, servers, token_of(given.token_file) if given.token_file else "", given.ca)
    except (OSError, ssl.SSLError) as error:
        raise Refused(f"--ca: {given.ca}: {error.strerror}")


def token_of(path):
    """The first token of a file: a line TOKEN, or ROLE TOKEN and more."""
    try:
        with open(path, encoding="utf-8") as file:
            lines = [line.split()[:2] for line in file if line.strip() and not line.lstrip().startswith("#")]
        for *_, word in lines:
            if not word.startswith("cert="):
                return word
    except OSError as error:
        raise Refused(f"{path}: {error.strerror}")
    except UnicodeDecodeError:
        raise Refused(f"{path}: the text is not UTF-8")
    raise Refused(f"{path} has no token")
