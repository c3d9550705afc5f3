"""One member alone: it starts, is killed, goes on, and shows what tests/model/shown.py shows."""
import os
import subprocess
import time

from tests import harness
from tests.model import recipe_rules, rules, shown
from tests.service.cluster import Asker, Group, Member


def wait_ready(asker, member, limit=10):
    """The seconds until a member that was just started answers that it is well."""
    begun = time.monotonic()
    while asker.ask(member.client, "GET", "/health")[0] != 200:
        if time.monotonic() - begun > limit:
            raise RuntimeError(f"it is not ready: {member.said()[-500:]}")
        time.sleep(0.005)
    return time.monotonic() - begun


# The columns that are lists of numbers.
LISTS = ("missing_fragments", "homeless_fragments", "sources", "first")


def value_of(column, cell):
    """A cell of a table as JSON has it."""
    if column in LISTS:
        return [int(it) for it in cell.split()]
    if cell.isdecimal():
        return int(cell)
    return {"yes": True, "no": False, "-": None, "": None}.get(cell, cell)


def json_of(text):
    """The rows of a table as JSON has them."""
    head, *rows = [line.split(",") for line in text.splitlines()]
    return [{column: value_of(column, cell) for column, cell in zip(head, row)} for row in rows]


def run_example(count, asker, member, name):
    """The script of an example, call by call, and then each table: all as the model has it."""
    topology, _ = harness.split(harness.example(name))
    nodes, scripts = harness.parts_of(harness.example(name))
    store, book = rules.Store(nodes), name.replace("_", "-")
    asker.ask(member.client, "PUT", f"/books/{book}", topology)
    for number, command in enumerate(scripts[0], 1):
        status, told = asker.json(member.client, "POST", f"/books/{book}/call", {"command": command})
        right = store.call(1, command)
        is_right = (status, told.get("n"), told.get("reply")) == (200, number, right)
        count.check(f"{name} {number}: {told}, and not {right}", is_right)
    for view in shown.VIEWS:
        path = f"/books/{book}/show/{view.replace(' ', '-')}"
        text, right = asker.ask(member.client, "GET", f"{path}?format=csv")[2].decode(), shown.shown(view, store, len(scripts[0]))
        count.check(f"{name}: show {view}: {text}", text == right)
        rows = asker.json(member.client, "GET", path)[1].get("rows")
        count.check(f"{name}: show {view} in JSON: {rows}", rows == json_of(right))
    for row in shown.shown("stripes", store, 0).splitlines()[1:]:
        text = asker.ask(member.client, "GET", f"/books/{book}/stripes/{row.split(',')[0]}?format=csv")[2].decode()
        count.check(f"{name}: one stripe: {text}", text.splitlines()[1:] == [row])
    text = asker.ask(member.client, "GET", f"/books/{book}/image")[2].decode()
    count.check(f"{name}: image: {text}", text == store.image(len(scripts[0])))
    compare_recipes(count, asker, member, book, store)


def recipe_of(asker, member, book, query):
    """The status of a recipe, and the coefficient and the home of each fragment that it reads."""
    status, told = asker.json(member.client, "GET", f"/books/{book}/recipe?now=1&{query}")
    rows = told.get("rows", ())
    return status, {row["fragment"]: row["coefficient"] for row in rows}, {row["fragment"]: row["home"] for row in rows}


def compare_recipe(count, asker, member, book, store, key, further):
    """One recipe: that of a live lease, or with further missing fragments that of any."""
    stripe, fragment = key
    code, missing = store.stripes[stripe], store.missing(stripe) | rules.set_of({*further})
    query = "".join(f"&missing={it}" for it in further)
    status, sources, homes = recipe_of(asker, member, book, f"stripe={stripe}&fragment={fragment}{query}")
    if not recipe_rules.is_known(code, missing, fragment):
        return count.check(f"{book} {key} without {further}: {status}", status == 409)
    right = {source: shown.home_of(store, stripe, source) for source in sources}
    is_right = status == 200 and recipe_rules.fault_of(code, missing, fragment, sources) is None and homes == right
    return count.check(f"{book} {key} without {further}: {status} {sources} {homes}", is_right)


def compare_recipes(count, asker, member, book, store):
    """The recipe of each lease, and of each fragment where it and others are missing."""
    for stripe, code in store.stripes.items():
        for fragment in code.fragments:
            if (stripe, fragment) in store.leases:
                compare_recipe(count, asker, member, book, store, (stripe, fragment), ())
            for further in ((fragment,), (fragment, 0, 1), (fragment, 2, 3, 6)):
                compare_recipe(count, asker, member, book, store, (stripe, fragment), further)


EXAMPLES = ["every_reply", "each_mode_and_level", "narrow_stripe_placed_anew", "rolling_upgrade", "nodes_fail_under_both_codes",
            "lease_ends", "next_looks_further", "worker_dead"]


def test_one_member(count, program, room):
    group = Group(program, f"{room}/one", 0)
    member, asker = Member(group, 1, []), Asker(5)
    times = []
    try:
        for _ in range(3):  # (the first start makes the folder; the others go on with it)
            member.start()
            times.append(wait_ready(asker, member))
            member.kill()
        print(f"one member is ready after {', '.join(f'{it:.2f}' for it in times)} s", flush=True)
        count.check(f"it is ready within a second: {times}", min(times) < 1)
        member.start()
        wait_ready(asker, member)
        for name in EXAMPLES:
            run_example(count, asker, member, name)
        images = [asker.ask(member.client, "GET", f"/books/{name.replace('_', '-')}/image")[2] for name in EXAMPLES]
        second = Member(group, 1, [])
        second.start()
        is_refused = second.ended(60) == 1 and "another process has the folder" in second.said()
        count.check(f"a second process on the folder ends: {second.said()}", is_refused)
        member.kill()
        member.start()
        wait_ready(asker, member)
        again = [asker.ask(member.client, "GET", f"/books/{name.replace('_', '-')}/image?now=1")[2] for name in EXAMPLES]
        count.check("after a kill all books are as they were", again == images)
    finally:
        member.kill()
    words = [program, "--data", os.path.join(room, "far"), "--listen", "0.0.0.0:1"]
    ran = subprocess.run(words, capture_output=True, text=True, timeout=60)
    count.check(f"a port beyond loopback: {ran.stderr}", ran.returncode == 2 and "--listen beyond loopback takes" in ran.stderr)
