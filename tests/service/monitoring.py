"""What Prometheus makes of the metrics: service/alerts.yml and its tests by promtool, and service/console.html by itself."""
import html
import json
import os
import re
import shutil
import subprocess
import time
from collections import Counter

from tests import harness
from tests.harness import TOP
from tests.model import shown
from tests.model.rules import Store
from tests.service.cluster import Asker, Group, free_port
from tests.service.one_member import wait_ready

SERVICE, BOOK, LIMIT = f"{TOP}/service", "p0", 120  # seconds, for whatever has to happen at some time
CONFIG = """global: {{scrape_interval: 1s, evaluation_interval: 1s}}
rule_files: [{alerts}]
scrape_configs:
  - job_name: the-group
    static_configs: [{{targets: ['127.0.0.1:{port}', 'localhost:{port}', '127.0.0.1:{nobody}']}}]
"""
# The commands that lead to each state of the store in turn: healthy, moving, degraded, critical, unavailable, lost.
STATES = (
    ["place 1", "place6 2", "place 3"],
    ["drain 5", "next"],
    ["fail 5"],
    ["fail 0", "fail 1", "next", "tick", "next"],
    ["down 2", "down 6"],
    ["fail 2", "fail 6"],
)


def test_rules(count):
    """promtool takes the rules, and their tests pass; a rule that fires too early is found by these."""
    for name, *words in (("check", "check", "rules", "alerts.yml"), ("test", "test", "rules", "alerts_test.yml")):
        count.run(f"promtool {name}", "promtool", *words, cwd=SERVICE)


def test_wrong_rules(count, room):
    """Rules that were changed are found by the tests of the rules."""
    text, tests = (harness.read(f"{SERVICE}/{name}").decode() for name in ("alerts.yml", "alerts_test.yml"))
    for name, old, new in (("earlier", "for: 15m", "for: 14m"), ("fewer", "> 1000\n", "> 1001\n"),
                           ("a level", 'level="lost"', 'level="risk"'), ("a reason", 'reason="fault_domains"', 'reason="margin_0"'),
                           ("no slots", ">= 0\n", "> 0\n"),
                           ("a sum", "max by (job, book) (lrcmand_stripes", "sum by (job, book) (lrcmand_stripes"),
                           ("no hour", ">= max by (job, book) (sum", "<= max by (job, book) (sum")):
        count.check(f"the rules have no {old!r}", old in text)
        folder = f"{room}/{name.replace(' ', '-')}"
        os.mkdir(folder)
        for file, written in (("alerts.yml", text.replace(old, new, 1)), ("alerts_test.yml", tests)):
            with open(f"{folder}/{file}", "w", encoding="utf-8") as out:
                out.write(written)
        count.run(f"promtool finds {name}", "promtool", "test", "rules", "alerts_test.yml", cwd=folder, status=1)


class Prometheus:
    """Prometheus over a member with two names, as two members that report the same of a book, and one that does not answer."""

    def __init__(self, room, port):
        self.folder, self.port, self.asker = f"{room}/prometheus", free_port(), Asker(30)
        os.makedirs(f"{self.folder}/consoles")
        shutil.copy(f"{SERVICE}/console.html", f"{self.folder}/consoles/lrcmand.html")
        with open(f"{self.folder}/prometheus.yml", "w", encoding="utf-8") as out:
            out.write(CONFIG.format(alerts=f"{SERVICE}/alerts.yml", port=port, nobody=free_port()))

    def __enter__(self):
        words = ["prometheus", f"--config.file={self.folder}/prometheus.yml", f"--storage.tsdb.path={self.folder}/data",
                 f"--web.listen-address=127.0.0.1:{self.port}", f"--web.console.templates={self.folder}/consoles",
                 f"--web.console.libraries={self.folder}/none"]
        with open(f"{self.folder}/log", "ab") as said:
            self.process = subprocess.Popen(words, stdout=said, stderr=said)
        return self

    def __exit__(self, *_):
        self.process.kill()
        self.process.wait()

    def console(self):
        """The reasons of health, and the cells of each row by the first words of its table; nothing, if there is no page."""
        self.asker.close()
        status, _, text = self.asker.ask(self.port, "GET", "/consoles/lrcmand.html")
        if status != 200:
            return text.decode(), {}
        page = text.decode()
        word = re.search(r'<p id="health">(.*?)</p>', page, re.DOTALL)
        tables = {}
        for table in re.findall(r"<table>(.*?)</table>", page, re.DOTALL):
            head, *rows = re.findall(r"<tr>(.*?)</tr>", table, re.DOTALL)
            cells = [[words_of(cell) for cell in re.findall(r"<t[dh][^>]*>(.*?)</t[dh]>", row, re.DOTALL)] for row in (head, *rows)]
            tables[cells[0][0].split()[0]] = cells[1:]
        return words_of(word[1]) if word else page, tables

    def rules(self):
        """The rules that are not well, once all were evaluated; and how many there are."""
        found = json.loads(self.asker.ask(self.port, "GET", "/api/v1/rules")[2] or "{}").get("data", {}).get("groups", ())
        rules = [rule for group in found for rule in group["rules"]]
        return [(rule["name"], rule.get("lastError", rule["health"])) for rule in rules if rule["health"] != "ok"], len(rules)


def words_of(cell):
    return " ".join(html.unescape(re.sub("<[^>]*>", " ", cell)).split())


def fullest(store):
    """The share of each domain, as the console writes it, the fullest first; and how many there are."""
    loads, slots = Counter(), Counter()
    for number, node in store.nodes.items():
        for domain in (("fault", node.fault), ("upgrade", node.upgrade)):
            loads[domain] += store.load(number)
            slots[domain] += node.slots
    return sorted((100 * loads[it] / slots[it] for it in slots), reverse=True)[:20]


def wanted(store):
    """The rows of the console's tables, by the model: stripes, the book, leases, and the first column of shares."""
    value = dict(shown.status_rows(store, 0))
    work = Counter(row[5] for row in shown.work_rows(store))
    stripes = [["lost", "-", value["lost"]], ["unavailable", "-", value["unavailable"]],
               *(["risk", str(margin), value[f"at_risk_margin_{margin}"]] for margin in range(3)), ["whole", "3", value["whole"]]]
    row = [BOOK, value["missing_fragments"], value["homeless_fragments"], work["open"] + work["leased"], work["no_node"]]
    ages = Counter(store.clock - (lease.expiry - 3) for lease in store.leases.values())
    return {
        "Stripes": sorted([level, margin, str(number)] for level, margin, number in stripes),
        "Books": [[str(it) for it in row]] if value["missing_fragments"] or work else [],
        "Live": [[str(age), str(ages[age])] for age in range(3)],
        "The": [f"{share:.4g}%" for share in fullest(store)],
    }


def seen(tables):
    """What the console shows of that."""
    return {
        "Stripes": sorted(tables.get("Stripes", ())), "Books": tables.get("Books"),
        "Live": [it for it in tables.get("Live", ()) if len(it[0]) == 1],
        "The": [it[3] for it in tables.get("The", ())],
    }


def awaited(prometheus, is_right):
    """What the console comes to show, and whether that is right: on a busy machine a member may not answer in time."""
    end = time.monotonic() + LIMIT
    while not (is_well := is_right(*(found := prometheus.console()))) and time.monotonic() < end:
        time.sleep(0.2)
    return is_well, *found


def check_state(count, prometheus, store):
    """The console comes to show what the model has."""
    right, health = wanted(store), " ".join(sorted(row[0] for row in shown.health_rows(store)))
    is_well, word, tables = awaited(prometheus, lambda word, tables: word == health and seen(tables) == right)
    count.check(f"the console shows {word} {seen(tables)}, and not {health} {right}", is_well)


def check_members(count, prometheus):
    """The member with two names answers, leads, is not behind, has room and takes changes; nothing is told of the other one."""
    def is_right(_, tables):
        rows = {answers: row for _, answers, *row in tables.get("Member", ())}
        there, away = rows.get("yes", [""] * 5), rows.get("no", [])
        is_there = there[:2] + there[3:] == ["yes", "0", "1MiB", "yes"] and re.fullmatch(r"[0-9.]+[KMGTP]iB", there[2])
        return is_there and away == [""] * 5 and len(tables["Member"]) == 3

    is_well, _, tables = awaited(prometheus, is_right)
    count.check(f"the members {tables.get('Member')}", is_well)


def test_console(count, program, room):
    nodes = harness.nodes_in_order(20, 4)
    store, asker = Store(nodes), Asker(30)
    with Group(program, f"{room}/monitored", 1, ["--tick", "0", "--disk-reserve", "1048576"]) as group:
        member = group.members[1]
        wait_ready(asker, member, LIMIT)
        asker.ask(member.client, "PUT", f"/books/{BOOK}", harness.topology_of(nodes))
        with Prometheus(room, member.client) as prometheus:
            for commands in STATES:
                asker.close()  # (a connection that waited may be closed within a call)
                for command in commands:
                    told = asker.json(member.client, "POST", f"/books/{BOOK}/call", {"command": command})[1]
                    right = store.call(1, command)
                    count.check(f"{command}: {told}, and not {right}", told.get("reply") == right)
                check_state(count, prometheus, store)
            check_members(count, prometheus)
            end = time.monotonic() + LIMIT
            while (told := prometheus.rules())[0] and time.monotonic() < end:
                time.sleep(0.2)
            number = harness.read(f"{SERVICE}/alerts.yml").count(b"- alert: ")
            count.check(f"the rules of Prometheus: {told}", told == ([], number))


def test_monitoring(count, program, room, left_out):
    if not shutil.which("promtool"):
        left_out("alerts by promtool", "there is none: Debian's prometheus has it")
    else:
        test_rules(count)
        test_wrong_rules(count, room)
    if not shutil.which("prometheus"):
        left_out("the console by Prometheus", "there is none: Debian's prometheus has it")
    else:
        test_console(count, program, room)
