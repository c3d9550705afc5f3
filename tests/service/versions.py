"""A group goes from one version of the rules to the next, by members that are restarted with another program."""
from tests import harness
from tests.model import rules
from tests.service.cluster import Group
from tests.service.work import asked_for, make_books

# The program with the tag `faulty` takes its library for one of the rules that this names.
OLD, NEW = {"LRCMAND_RULES": "1"}, {"LRCMAND_RULES": "2"}
SCRIPT = ["place 1", "place6 2", "fail 3", "next", "down 4", "tick"]


class Book:
    """One book of a group, beside the model."""

    def __init__(self, count, group, nodes):
        self.count, self.group, self.store, self.made = count, group, rules.Store(nodes), 0
        make_books(group, harness.topology_of(nodes))

    def image(self):
        return self.store.image(self.made)

    def call(self, command):
        self.made += 1
        body = {"command": command, "key": f"k{self.made}"}
        status, told = self.group.change("POST", "/books/p0/call", body, 60)
        right = self.store.call(1, command)
        self.count.check(f"{command}: {status} {told}, and not {right}", (status, told.get("reply")) == (200, right))

    def compare(self, when):
        for member in self.group.members.values():
            status, text = asked_for(lambda: self.group.asker.ask(member.client, "GET", "/books/p0/image?now=1")[::2], [200])
            is_right = status == 200 and text.decode() == self.image()
            self.count.check(f"{when}: the image of member {member.number}: status {status}", is_right)


def is_saved(group, member):
    status, told = group.asker.json(member.client, "GET", "/rules")
    return (200 if status == 200 and told.get("next") == 2 and told["saved"] else 0, told)


def test_versions(count, faulty, room, nodes):
    with Group(faulty, f"{room}/versions", 3, ["--election", "400ms", "--tick", "0"], OLD) as group:
        book = Book(count, group, nodes)
        for command in SCRIPT:
            book.call(command)
        status, told = group.change("PUT", "/rules", {"rules": 2}, 60)
        count.check(f"the change is taken: {status} {told}", (status, told.get("group"), told.get("next")) == (200, 1, 2))
        for member in group.members.values():
            status, told = asked_for(lambda: is_saved(group, member), [200])
            count.check(f"member {member.number} has a snapshot of the change: {told}", status == 200)
            refused = group.asker.json(member.client, "POST", "/books/p0/call", {"command": "tick"})
            words = "the group goes from rules 1 to rules 2"
            count.check(f"no call is made until then: {refused}", refused[0] == 503 and words in refused[1]["error"])
        book.compare("before the members are restarted")
        restart(group, NEW)
        for command in ("tick", "up 4", "next"):
            book.call(command)
        book.compare("after the members were restarted")
        one = group.members[1]
        one.kill()
        group.env = OLD
        group.start(one)
        is_named = one.ended(60) == 1 and "is of rules 2" in one.said()
        count.check(f"the program of before ends: {one.said()[-300:]}", is_named)


def restart(group, env):
    for member in group.members.values():
        member.kill()
    group.env = env
    for member in group.members.values():
        group.start(member)
