"""A client that makes a book of its own, looks at it, goes on over other nodes and removes it, again and again.

Nobody else touches its book. So each look as of now is just what it was told before, whatever happens to the members."""
from tests.service.clients import Client
from tests.service.cluster import Asker


class Maker(Client):
    """Each change has a key, and is asked for until it is told."""

    def __init__(self, group, number, topologies):
        super().__init__(group, f"maker {number}")
        self.book, self.topologies, self.changes, self.opened = f"own{number}", topologies, 0, 0
        self.asker = None

    def work(self):
        self.asker = Asker(12, self.group.token)
        while not self.is_over.is_set():
            self.make()
            self.expect("after it was made", 0)
            made = self.call()
            self.expect("after a call", made)
            self.reopen()
            self.expect("over other nodes", made)
            self.remove(made)
            self.expect_gone()

    def change(self, method, path, body=None, kind=None):
        """Asks any member until it is told, with one key and the place from which it may stand in the log."""
        self.changes += 1
        key, since, end = f"{self.book}-{self.changes}", self.since(), self.now() + 60
        while True:
            asked = f"{path}?key={key}&since={since}" if kind != "call" else path
            text = {**body, "key": key, "since": since} if kind == "call" else body
            how = {"Content-Type": "application/toml"} if kind == "toml" else None
            status, told = self.asker.send(self.port(), method, asked, text, how)
            if status == 200:
                return told
            if 400 <= status < 500 and status != 429:
                raise RuntimeError(f"{method} {asked}: {status} {told}")
            if self.now() > end or self.gives_up:
                raise RuntimeError(f"{method} {asked} is not told in a minute: {status} {told}")
            self.is_over.wait(0.02)

    def since(self):
        while not self.asker.index:
            status, told = self.asker.json(self.port(), "GET", "/status")
            self.asker.index = told["applied"] if status == 200 else 0
        return self.asker.index

    def make(self):
        told = self.change("PUT", f"/books/{self.book}", self.topologies[0], "toml")
        if told["n"] != 0 or told["opens"] <= self.opened:
            raise RuntimeError(f"{self.book} was made at {told}, after it was opened {self.opened}")
        self.opened = told["opens"]

    def call(self):
        told = self.change("POST", f"/books/{self.book}/call", {"command": "place 1"}, "call")
        if told["n"] != 1 or told["opens"] != self.opened:
            raise RuntimeError(f"the first call in {self.book} was told {told}")
        return told["n"]

    def reopen(self):
        told = self.change("PUT", f"/books/{self.book}/nodes", self.topologies[1], "toml")
        if told["opens"] <= self.opened:
            raise RuntimeError(f"{self.book} went on at {told}, after it was opened {self.opened}")
        self.opened = told["opens"]

    def remove(self, made):
        self.change("DELETE", f"/books/{self.book}", {"at": made, "opens": self.opened})

    def look(self):
        """A look as of now; None if the book is not there."""
        end = self.now() + 60
        while self.now() < end and not self.gives_up:
            status, told = self.asker.json(self.port(), "GET", f"/books/{self.book}?now=1")
            if status in (200, 404):
                return (told["n"], told["opens"]) if status == 200 else None
            self.is_over.wait(0.02)
        raise RuntimeError(f"nobody has a look at {self.book} as of now")

    def expect(self, when, made):
        seen = self.look()
        if seen != (made, self.opened):
            raise RuntimeError(f"{when} {self.book} stands at {seen}, and not at {(made, self.opened)}")

    def expect_gone(self):
        if seen := self.look():
            raise RuntimeError(f"{self.book} was removed, and stands at {seen}")
