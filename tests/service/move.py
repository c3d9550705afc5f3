"""A book moves from one member alone to another, by the steps of docs/SERVICE.md, and goes on there as it was."""
from tests import harness
from tests.model import rules
from tests.service.cluster import Asker, Group, Member
from tests.service.one_member import wait_ready

EXAMPLES = ["every_reply", "lease_ends", "rolling_upgrade", "narrow_stripe_placed_anew"]


def call(count, asker, member, book, store, number, command):
    status, told = asker.json(member.client, "POST", f"/books/{book}/call", {"command": command})
    right = store.call(1, command)
    is_right = (status, told.get("n"), told.get("reply")) == (200, number, right)
    count.check(f"{book} {number}: {status} {told}, and not {right}", is_right)


def take(asker, member, book):
    """The nodes and the image of a book, and where it stands in the image."""
    nodes = asker.ask(member.client, "GET", f"/books/{book}/nodes?now=1")[2].decode()
    _, headers, image = asker.ask(member.client, "GET", f"/books/{book}/image?now=1")
    stand = {"at": int(headers["Lrcmand-Entries"]), "opens": int(headers["Lrcmand-Opens"])}
    return {"nodes": nodes, "image": image.decode()}, stand


def move(count, asker, old, new, book, late):
    """Moves a book. `late` is a call that comes after the image was taken: it must not be lost."""
    _, stand = take(asker, old, book)
    late()
    status = asker.json(old.client, "DELETE", f"/books/{book}", stand)[0]
    count.check(f"{book}: a book that has moved on is not removed: {status}", status == 409)
    taken, stand = take(asker, old, book)
    status = asker.json(old.client, "DELETE", f"/books/{book}", stand)[0]
    count.check(f"{book}: it is removed: {status}", status == 200)
    status = asker.ask(old.client, "GET", f"/books/{book}?now=1")[0]
    count.check(f"{book}: nobody serves it: {status}", status == 404)
    for is_again in (False, True):
        status, told = asker.json(new.client, "PUT", f"/books/{book}", taken)
        count.check(f"{book}: it is made: {status} {told}", status == 200 and told.get("again", False) == is_again)


def move_example(count, asker, old, new, name):
    topology, _ = harness.split(harness.example(name))
    nodes, scripts = harness.parts_of(harness.example(name))
    store, book, commands = rules.Store(nodes), name.replace("_", "-"), list(enumerate(scripts[0], 1))
    asker.ask(old.client, "PUT", f"/books/{book}", topology)
    half = len(commands) // 2
    for number, command in commands[:half]:
        call(count, asker, old, book, store, number, command)
    number, command = commands[half]
    move(count, asker, old, new, book, lambda: call(count, asker, old, book, store, number, command))
    for number, command in commands[half + 1:]:
        call(count, asker, new, book, store, number, command)
    text = asker.ask(new.client, "GET", f"/books/{book}/image?now=1")[2].decode()
    count.check(f"{name}: image: {text}", text == store.image(len(commands)))


def test_move(count, program, room):
    asker, members = Asker(5), [Member(Group(program, f"{room}/move{it}", 0), 1, []) for it in (1, 2)]
    try:
        for member in members:
            member.start()
            wait_ready(asker, member)
        for name in EXAMPLES:
            move_example(count, asker, *members, name)
    finally:
        for member in members:
            member.kill()
