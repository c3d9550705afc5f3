"""Runs the shell recipes of docs/OPERATING.md as they stand on the page.

Usage: tests/program/recipes [PROGRAM], by default the program that `rt ci` or `rt run` has built in crates/lrcman.

- The recipe that makes a file shorter is run three days in a row. After each day the topology is the one of the first day,
  each table of `show` is that of the whole history, and `resume` of the day's file prints the replies and tables that `run`
  of the whole history prints for the day's commands. A file that is refused is left as it was. The old files stay, and `counts`
  tells the replies of all. What `moved` writes into the homes of a store is taken over; `forget` leaves out the nodes that are gone.
- The functions of "A month" are each run on three days in a row, on a store on which things go wrong, of which no two mornings are
  the same: they print what the model of tests/model has, and leave the store as the model is after the same commands. Rounds of
  `even` end when no lawful move helps, by the model. Each day's backup has the store as it was then.
- The table of "How much fits" is that of thirty drawn topologies, by the model, and the program refuses the same stripe of each.
- So many racks as the page says take stripes where they are upgrade domains, and so many repair what a lost one held.
- The hours that all rounds of `even` take are those of the formula.
- What `docs/lrcman.bash` completes are the words of the usage, tables that the program shows, and the words for domains. The
  manual page has the words of docs/FORMATS.md for each line of refused input.
- Each other recipe has to end well on the file of a small store, and to print what is said of it below.
The last line is 'N passed, M failed'."""
import copy
import os
import random
import re
import statistics
import subprocess
import sys
import tempfile
from collections import Counter

from tests import harness
from tests.harness import TOP, example, read
from tests.model import shown
from tests.model.rules import Node
from tests.model.shown import VIEWS
from tests.model.store import Store
from tests.program.balance import distances, helping_move, spread

RENEWAL = "renew() {"
FUNCTIONS = ["renew", "begin", "counts", "moved", "forget", "plan", "tell", "show", "health", "forecast", "come", "fits", "backup", "morning", "safe", "leave", "night",
             "members", "each", "stop", "start", "lose", "empty", "even"]
RACKS, MOST_ROUNDS = 20, 20
KINDS = "24", "12 to 36", "6 to 48"  # of topologies, by the slots of their nodes
DAYS = (
    ["place 1", "place6 2", "fail 3", "lease 1 3", "tick"],
    ["done 1 3 1", "next", "down 5", "tick", "place 3"],
    ["up 5", "upgrade 4", "fail 7", "next", "tick"],
    ["upgraded 4", "next", "drop 2", "tick"],
)


def first_capacity():
    """How many stripes fit on its nodes, by the model, behind the count of what `check` has checked."""
    nodes = harness.nodes_of(harness.split(example("node_unreachable"))[0])
    return f"ok nodes {len(nodes)} scripts 1 commands 0\n{shown.shown('capacity', Store(nodes), 0)}"


# The first line of a recipe, and what it prints of the store of `node_unreachable`, in which node 3 is down and all else is
# well: no stripe has margin 0, and no node is full. None stands for something.
PRINTS = {
    "lrcman may-stop 2 3 < store.bundle > forecast.csv": "nodes 2 and 3 may be stopped\n",
    "{ cat nodes.toml; echo '%%'; } > store.sequel": first_capacity,
    "{ cat store.bundle; echo 'upgrade 0'; } | lrcman resume > answer.out || { cat answer.out >&2; exit 1; }": "",
    "lrcman show stripes < store.bundle > before.csv && { cat store.bundle; echo 'fail 3'; } | lrcman show stripes > after.csv || exit 1": None,
    "for table in nodes stripes status leases; do lrcman show $table < store.bundle > $table.csv || exit 1; done": "",
    "lrcman show stripes < store.bundle > stripes.csv || exit 1": "",
    "lrcman show nodes < nodes.toml > nodes.csv || exit 1": "",
}
# A store that is taken over, by tools/takeover: one stripe, of whose fragments 12 is in the upgrade domain of 5.
TAKEN_OVER = [0, 1, 2, 3, 4, 5, 6, 7, 8, 9, 10, 11, 15, 12, 13, 14]


def recipes(of_service=False):
    """The blocks of shell on the page; those that are of the service stand below their own head."""
    page = read(f"{TOP}/docs/OPERATING.md").decode()
    before, _, rest = page.partition("\n### A month of the service\n")
    own, _, after = rest.partition("\n## ")
    return re.findall(r"^```sh\n(.*?)^```$", own if of_service else f"{before}\n{after}", re.MULTILINE | re.DOTALL)


class Shell:
    """A folder in which recipes run, with the program and the tools at hand."""

    def __init__(self, program, folder):
        self.folder = folder
        os.mkdir(f"{folder}/bin")
        os.symlink(program, f"{folder}/bin/lrcman")
        os.symlink(f"{TOP}/tools", f"{folder}/tools")
        self.environment = {**os.environ, "PATH": f"{folder}/bin:{os.environ['PATH']}"}

    def run(self, script):
        how = {"cwd": self.folder, "env": self.environment, "capture_output": True, "text": True, "timeout": 600}
        return subprocess.run(["bash", "-o", "pipefail", "-c", script], **how)

    def lrcman(self, words, given):
        return subprocess.run([f"{self.folder}/bin/lrcman", *words.split()], input=given, capture_output=True, timeout=60)

    def write(self, name, data):
        with open(f"{self.folder}/{name}", "wb") as file:
            file.write(data)

    def read(self, name):
        return read(f"{self.folder}/{name}")


def lines_of(output):
    """The replies of a run, without the line of the script, and the tables."""
    replies, mark, tables = output.decode().partition("risk\n")
    return replies.split("\n")[1:-1], mark + tables


def counted(commands, replies):
    """The lines that `counts` prints, in any order."""
    kinds, ended = Counter(), 0
    for command, reply in zip(commands, replies):
        _, word, *given = reply.split(" ")
        kinds[" ".join([command.split(" ")[0], word, *(given[5:6] if word == "granted" else given[:1] if word == "refused" else [])])] += 1
        ended += int(given[1]) if word == "ticked" else 0
    return sorted([*(f"{kind} {number}" for kind, number in kinds.items()), f"leases ended by ticks {ended}"])


def renew(count, shell, recipe, counts):
    """Runs the recipe on three days in a row, and compares each day's file with the whole history."""
    topology = harness.topology_of(harness.nodes_in_order(20, 4)).encode()
    whole = topology + b"%%\n"
    shell.write("store.sequel", whole)
    for day, commands in enumerate(DAYS, 1):
        added = "".join(f"{command}\n" for command in commands).encode()
        whole += added
        shell.write("store.sequel", shell.read("store.sequel") + added)
        file = shell.read("store.sequel")
        replies, tables = lines_of(shell.lrcman("run", whole).stdout)
        resumed = lines_of(shell.lrcman("resume", file).stdout)
        count.check(f"day {day}: `resume` prints {resumed[0]}", resumed == (replies[-len(commands):], tables))
        for view in VIEWS:
            tables = [shell.lrcman(f"show {view}", given) for given in (whole, file)]
            count.check(f"day {day}: `show {view}` is not that of the whole history", tables[0].stdout and tables[0].stdout == tables[1].stdout)
        ran = shell.run(f"{recipe}renew")
        count.check(f"day {day}: the recipe ends with {ran.returncode}: {ran.stderr}", ran.returncode == 0)
        count.check(f"day {day}: the nodes are others", shell.read("nodes.toml") == topology)
        count.check(f"day {day}: the old file is gone", shell.read(f"until.{len(replies)}") == file)
        shell.run(f"{recipe}renew")  # (nothing was told since, and the old file stays)
        count.check(f"day {day}: the old file is another", shell.read(f"until.{len(replies)}") == file)
        ran = shell.run(f"{counts}counts until.*")
        wanted = counted([command for commands in DAYS[:day] for command in commands], replies)
        count.check(f"day {day}: {ran.stdout!r} {ran.stderr}, and not {wanted}", sorted(ran.stdout.splitlines()) == wanted)
    kept = shell.read("store.sequel") + b"place x\n"
    shell.write("store.sequel", kept)
    ran = shell.run(f"{recipe}renew")
    count.check("a refused file is renewed", ran.returncode == 1 and shell.read("store.sequel") == kept)
    count.check(f"a refused file is told as {ran.stderr!r}", re.fullmatch(r"lrcman: .*: line [0-9]+ cause 3\n", ran.stderr))


def columns(rows):
    """Rows as `lrcmand ctl` prints them: each column as wide as its longest cell and two letters more."""
    widths = [max(len(str(row[at])) for row in rows) + 2 for at in range(len(rows[0]) - 1)]
    return ["".join(f"{cell:<{width}}" for cell, width in zip(map(str, row), [*widths, 0])).rstrip() for row in rows]


def placed_over(nodes, word):
    """How many stripes of a code the model places over nodes before the first refusal."""
    store, stripe = Store(nodes), 0
    while store.call(1, f"{word} {stripe}").startswith("placed"):
        stripe += 1
    return stripe


class Month:
    """A store with the functions of the page, and the model beside it."""

    refusal = 1  # the status of `come` for nodes that are refused

    def __init__(self, count, program, folder):
        self.count, self.shell, self.made = count, Shell(program, folder), 0
        self.store = Store({2 * rack + at: Node(rack, (rack + 5 * at) % 10, 4) for rack in range(RACKS) for at in (0, 1)})
        self.functions = "".join(recipe for recipe in recipes() if re.match(r"\w+\(\) \{\n", recipe))
        self.mornings, self.backups = [], {}  # what `morning` printed; the name of a backup: the image of the model then
        self.shell.write("bin/date", b"#!/bin/sh\necho $DAY\n")
        os.chmod(f"{folder}/bin/date", 0o755)
        self.begin()

    def begin(self):
        self.shell.write("store.sequel", harness.topology_of(self.store.nodes).encode() + b"%%\n")

    def table(self, view):
        """A table of the store, as the program shows it."""
        return self.shell.lrcman(f"show {view}", self.shell.read("store.sequel")).stdout.decode()

    def refuse(self):
        """A command that can't be read is not made."""
        kept = self.shell.read("store.sequel")
        ran = self.shell.run(f"{self.functions}tell 'place x'")
        self.count.check("a bad command is appended", ran.returncode == 1 and self.shell.read("store.sequel") == kept)
        self.count.check(f"a bad command is told as {ran.stderr}", re.fullmatch("line [0-9]+ cause 3\n", ran.stderr))

    def refuse_nodes(self):
        """A rack of which a node is there already does not come."""
        self.shell.write("rack.toml", harness.topology_of({0: Node(99, 0, 4)}).encode())
        self.run("come rack.toml", [], status=self.refusal)

    def run(self, call, printed, commands=(), status=0):
        """A function prints this, and makes these commands."""
        ran = self.shell.run(f"{self.functions}{call}")
        replies = [self.store.call(1, command) for command in commands]
        wanted = "".join(f"{line}\n" for line in printed)
        self.made += len(commands)
        self.count.check(f"{call}: {ran.returncode} {ran.stdout!r} {ran.stderr}, and not {status} {wanted!r}",
                         (ran.returncode, ran.stdout) == (status, wanted))
        self.compare(f"{call}: another store, after {replies}")

    def compare(self, name, views=("nodes",)):
        for view in views:
            self.count.check(f"{name}: {view}", self.table(view) == shown.shown(view, self.store, self.made))

    def replies_to(self, commands):
        """What is printed of commands, by a copy of the model."""
        copied = copy.deepcopy(self.store)
        return [f"{place} {copied.call(1, command)}" for place, command in enumerate(commands, self.made + 1)]

    def make(self, call, *commands):
        """A function makes commands, and prints their replies."""
        self.run(call, self.replies_to(commands), commands)

    def tell(self, *commands):
        self.make("tell " + " ".join(f"'{command}'" for command in commands), *commands)

    def members(self, kind, *domains):
        """The nodes of domains that are not gone, in the order of the topology."""
        named = {node for domain in domains for node in shown.nodes_of(self.store, [kind, domain])}
        return [node for node in self.store.nodes if node in named and self.store.mode[node] != "gone"]

    def harmed(self, word, kind, domain):
        """The rows of the stripes that an outage of a domain would harm."""
        table, _ = shown.forecast(word, self.store, shown.nodes_of(self.store, [kind, domain]))
        return [line for line in table.splitlines() if line.endswith(",yes")]

    def unsafe(self, word, kind):
        """A domain that may not go, with the stripes that this would harm."""
        for domain in sorted({getattr(node, kind) for node in self.store.nodes.values()}):
            if rows := self.harmed(word, kind, domain):
                return domain, rows
        raise RuntimeError(f"each {kind} domain may go")

    # What the page has, beside what the model says.

    def health(self):
        """The reasons why not all is well, as they are printed."""
        return shown.shown("health", self.store, self.made).splitlines()

    def morning(self):
        down, is_danger = len(self.store.down), shown.is_in_danger(self.store)
        printed = [f"{down} nodes are down"] * bool(down) + self.health()
        self.run("morning", printed, status=4 if is_danger else 0)
        self.mornings.append(printed)
        return [row[0] for row in shown.health_rows(self.store)]

    def night(self, domain):
        self.run(f"night {domain}", self.replies_to([f"upgrade {domain}"]), [f"upgrade {domain}"])
        rows = self.harmed("may-stop", "upgrade", domain + 1)
        self.run(f"night {domain + 1}", rows, [] if rows else [f"upgrade {domain + 1}"], status=1)  # (one upgrades already)
        self.tell(f"upgraded {domain}")

    def work_on(self, kind, *domains):
        """Domains stop, which the morning shows, and are back."""
        nodes, named = self.members(kind, *domains), " ".join([kind, *map(str, domains)])
        self.run(f"show domains {kind}", shown.shown(f"domains {kind}", self.store, self.made).splitlines())
        self.make(f"stop {named}", *(f"down {node}" for node in nodes))
        self.run(f"stop {named}", [])  # (their nodes are down)
        self.morning()
        self.make(f"start {named}", *(f"up {node}" for node in nodes))
        self.run(f"start {named}", [])

    def lose(self, kind, domain):
        """Gives up a domain, and repairs."""
        self.make(f"lose {kind} {domain}", *(f"fail {node}" for node in self.members(kind, domain)))
        self.run(f"lose {kind} {domain}", [])
        self.repair()

    def repair(self):
        """Workers ask and report until nothing is left."""
        while self.replies_to(["next"])[0].split()[1] == "granted":
            self.tell(*["next"] * 4)
            self.report()

    def at_once(self, count):
        """Workers tick at once, and none of these calls is lost."""
        ran = self.shell.run(f"{self.functions}for worker in $(seq {count}); do tell tick & done; wait")
        replies = sorted(self.replies_to(["tick"] * count))
        self.count.check(f"at once: {ran.stdout!r} {ran.stderr}, and not {replies}", sorted(ran.stdout.splitlines()) == replies)
        for _ in range(count):
            self.store.call(1, "tick")
        self.made += count
        self.compare("after calls at once", ["status"])

    def report(self):
        """Workers report what was leased."""
        leases = sorted(self.store.leases.items())
        self.tell(*(f"done {stripe} {fragment} {lease.epoch}" for (stripe, fragment), lease in leases))

    def empty(self, kind, domain):
        """A day of a domain that is to leave."""
        printed, commands = [], []
        for node in self.members(kind, domain):
            if self.store.mode[node] == "draining" and self.store.load(node):
                printed.append("not yet empty")
            else:
                commands.append(f"{'retire' if self.store.mode[node] == 'draining' else 'drain'} {node}")
                printed.append(self.replies_to(commands)[-1])
        self.run(f"empty {kind} {domain}", printed, commands)

    def come(self, nodes):
        """Nodes join."""
        self.shell.write("rack.toml", harness.topology_of(nodes).encode())
        self.store, self.made = Store.begin({**self.store.nodes, **nodes}, self.store.image(self.made))
        self.run("come rack.toml", [])
        self.count.check("nodes.toml lacks those that came", harness.nodes_of(self.shell.read("nodes.toml")) == self.store.nodes)

    def forget(self):
        """Nodes that are gone are left out."""
        nodes = {number: node for number, node in self.store.nodes.items() if self.store.mode[number] != "gone"}
        image = "".join(line for line in self.store.image(self.made).splitlines(True) if not re.fullmatch("node [0-9]+ gone\n", line))
        self.count.check("no node is gone", len(nodes) < len(self.store.nodes))
        kept, (self.store, _) = self.shell.read("store.sequel"), Store.begin(nodes, image)
        self.run("forget", [])
        self.count.check("`forget` keeps no file", self.shell.read(f"until.{self.made}") == kept)
        self.compare("after `forget`", [view for view in VIEWS if view != "capacity"])

    def even(self):
        """Rounds of `even`, until it prints nothing."""
        before, now, rounds = distances(self.store), ["now", "0", "0", *spread(self.store, 5)], 0
        dry = [row.split(",") for row in self.shell.run(f"{self.functions}plan --dry").stdout.splitlines()]
        self.count.check(f"plan --dry: {dry}, and not {now}", dry[1:2] == [now])
        while rounds < MOST_ROUNDS:
            ran = self.shell.run(f"{self.functions}even")
            script = [line for line in self.shell.read("round.script").decode().splitlines() if line[:1] != "#"]
            right = 0, "".join(f"{line}\n" for line in self.replies_to(script))
            self.count.check(f"even: {ran.returncode} {ran.stdout!r} {ran.stderr}, and not {right}", (ran.returncode, ran.stdout) == right)
            if not script:
                break
            rounds, self.made = rounds + 1, self.made + len(script)
            for command in script:
                self.store.call(1, command)
            self.report()
        after, move = distances(self.store), helping_move(self.store, 5)
        is_even = max(map(abs, after.values())) < max(map(abs, before.values()))
        self.count.check(f"{rounds} rounds: {after}; {move} would help", rounds and is_even and move is None)
        self.count.check(f"plan --dry: {dry[-1]}", dry[-1][:2] + dry[-1][3:] == ["end", str(rounds), *spread(self.store, 5)])

    def fits(self, there, bought):
        """Nodes that are to be bought."""
        self.shell.write("bought.toml", harness.topology_of({**there, **bought}).encode())
        wide, narrow = (placed_over({**there, **bought}, word) for word in ("place", "place6"))
        self.run("fits bought.toml", ["code,stripes", f"wide,{wide}", f"narrow,{narrow}"])
        return wide

    def backup(self, day):
        """A backup of a day takes the place of the one of that name."""
        self.shell.environment["DAY"] = day
        self.run("backup", [])
        self.backups[day] = self.store.image(self.made)
        names = sorted(name for name in os.listdir(self.shell.folder) if name.startswith("backup."))
        self.count.check(f"the backups {names}", names == sorted(f"backup.{it}" for it in self.backups))

    def restore(self):
        """Each backup has the book as it was."""
        for day, image in self.backups.items():
            told = self.shell.lrcman("image", self.shell.read(f"backup.{day}")).stdout.decode()
            self.count.check(f"the backup of {day} has {told}", told == image)


def begin_day(it, day):
    """What is done on each of three days, whatever happened before; returns the reasons that the morning tells."""
    it.backup(day)
    reasons = it.morning()
    there = {number: Node(number % 16, number % 8, 4) for number in range(32)}
    at = len(it.mornings)
    it.at_once(3)
    in_racks = it.fits(there, {32 + number: Node(16 + number // 2, 8 + number % 4, 2 + at) for number in range(8)})
    in_rows = it.fits(there, {32 + number: Node(number % 16, number % 8, 2 + at) for number in range(8)})
    it.count.check(f"{day}: domains before nodes: {in_racks}, {in_rows}", in_racks > in_rows)
    return reasons


def end_day(it, rack, slots):
    """A rack comes, of other slots each day, and is filled by shares; all tables are those of the model."""
    it.come({2 * rack + at: Node(rack, (rack + 5 * at) % 10, slots) for at in (0, 1)})
    it.even()
    it.compare(f"the day of rack {rack}", [view for view in VIEWS if view != "capacity"])


def first_day(it):
    it.tell("place 1", "place6 2", "place 3", "place 4")
    reasons = begin_day(it, "Mon")
    it.count.check(f"Monday: {reasons}", reasons == ["ok"])
    it.night(3)
    it.work_on("fault", 7)
    it.work_on("fault", 10, 6)
    it.lose("fault", 8)
    end_day(it, RACKS, 6)
    it.make("leave 5", "drain 5")
    it.empty("fault", 9)
    it.tell("fail 0", "down 22")


def second_day(it):
    reasons = begin_day(it, "Tue")
    it.count.check(f"Tuesday: {reasons}", {"margin_2", "waiting"} <= set(reasons))
    it.run("leave 5", ["not yet empty"])
    it.empty("fault", 9)
    it.tell("up 22")
    it.repair()
    it.make("leave 5", "retire 5")
    it.empty("fault", 9)
    it.night(4)
    it.work_on("upgrade", 2)
    it.lose("upgrade", 8)
    end_day(it, RACKS + 1, 8)
    homes = [it.store.homes[1, fragment][0] for fragment in range(3)]
    it.tell(f"fail {homes[0]}", f"fail {homes[1]}", f"down {homes[2]}", "next")


def third_day(it):
    reasons = begin_day(it, "Wed")
    it.count.check(f"Wednesday: {reasons}", {"margin_0", "waiting"} <= set(reasons))
    it.run("leave 5", [], status=1)  # (it is gone)
    it.empty("fault", 9)  # (it prints nothing)
    for call, *asked in (("night", "may-stop", "upgrade"), ("stop fault", "may-stop", "fault"), ("stop upgrade", "may-stop", "upgrade"),
                         ("lose fault", "may-lose", "fault"), ("empty fault", "may-lose", "fault"), ("safe may-lose upgrade", "may-lose", "upgrade")):
        domain, rows = it.unsafe(*asked)
        it.run(f"{call} {domain}", rows, status=1)
        it.run(f"{call} 99", [], status=2)  # (there is no such domain)
    it.report()  # (no lease is left, and nothing is told)
    it.repair()
    it.night(6)
    it.work_on("fault", 11)
    it.lose("fault", 13)
    end_day(it, RACKS + 2, 8)
    places = [f"place {stripe}" for stripe in range(5, 20)]
    it.tell(*places[:[reply.split()[1] for reply in it.replies_to(places)].index("refused") + 1])
    it.tell(*(f"fail {it.store.homes[3, fragment][0]}" for fragment in range(3)))
    it.tell(*(f"drain {node}" for node in sorted(it.store.nodes_in("active")) if it.store.load(node) < it.store.nodes[node].slots))
    reasons = it.morning()
    it.count.check(f"Wednesday evening: {reasons}", {"margin_0", "no_node", "fault_domains", "slots"} <= set(reasons))
    node = it.store.homes[3, 3][0]
    it.tell(f"down {node}")
    reasons, rack = it.morning(), it.store.nodes[node].fault
    rows, others = it.harmed("may-lose", "fault", rack), it.harmed("may-stop", "fault", rack)
    it.count.check(f"a stripe is unavailable, which a loss would harm more than a stop: {reasons}", "unavailable" in reasons and rows != others)
    it.run(f"lose fault {rack}", rows, status=1)
    it.refuse()
    it.refuse_nodes()
    it.backup("Mon")
    it.restore()


def three_days(it):
    """Three days of a store on which nodes and racks are lost, stop, leave and come, and domains are upgraded."""
    for day in (first_day, second_day, third_day):
        day(it)
    it.count.check(f"two mornings are the same: {it.mornings}", len(set(map(tuple, it.mornings))) == len(it.mornings))


def month(count, program):
    with tempfile.TemporaryDirectory(prefix="lrcman-recipes-") as folder:
        it = Month(count, program, folder)
        names = re.findall(r"^(\w+)\(\)", it.functions, re.MULTILINE)
        count.check(f"the functions of the month are {names}", names == FUNCTIONS)
        three_days(it)
        it.forget()


def drawn_topology(seed):
    """The kind of a topology, how many fault and upgrade domains it has, and its nodes."""
    draw, kind = random.Random(seed), KINDS[seed % 3]
    faults, upgrades, nodes = draw.choice([16, 17, 18, 20, 24, 30]), draw.choice([7, 8, 10, 12, 16]), {}
    for at in range(draw.randrange(max(faults, upgrades, 40), 161)):
        fault = at % faults if draw.random() < 0.8 or at < faults else draw.randrange(faults)
        upgrade = (at // faults + at) % upgrades if seed % 2 else at % upgrades
        sizes = [12, 24, 24, 36] if kind == "12 to 36" else [6, 12, 24, 48]
        nodes[at] = Node(fault, upgrade, 24 if kind == "24" else draw.choice(sizes))
    return kind, faults, upgrades, nodes


def capacity(count, program):
    """How much is held when the first wide stripe is refused, of thirty topologies."""
    used, wide, narrow = {kind: [] for kind in KINDS}, [], []
    for seed in range(30):
        kind, faults, upgrades, nodes = drawn_topology(seed)
        store, commands, replies = Store(nodes), [], ["placed"]
        while replies[-1].startswith("placed"):
            commands.append(f"place {len(commands)}")
            replies.append(store.call(1, commands[-1]))
        told = lines_of(harness.run_bundle(program, harness.bundle_of(nodes, [commands]).encode()).stdout)[0]
        count.check(f"topology {seed}: {told[-1:]}, and not {replies[-1]}", [line.split(" ", 1)[1] for line in told] == replies[1:])
        share = 100 * 16 * (len(commands) - 1) / sum(node.slots for node in nodes.values())
        used[kind].append(share)
        wide += [share] * (faults >= 20 and upgrades >= 12)
        narrow += [share] * (faults < 20 and upgrades < 12)
    page = read(f"{TOP}/docs/OPERATING.md").decode()
    for kind, shares in used.items():
        row = f"| {kind} | {min(shares):.0f} % | {statistics.median(shares):.0f} % | {max(shares):.0f} % |"
        count.check(f"the page has not: {row}", f"\n{row}\n" in page)
    words = f"the first refusal came at {min(wide):.0f} % at the earliest; with fewer of both it came at {min(narrow):.0f} %"
    count.check(f"the page has not: {words}", words in " ".join(page.split()))


def few_racks(count, program):
    """Where racks are upgrade domains and each node a fault domain: how many take stripes, and repair what a lost one held."""
    page = " ".join(read(f"{TOP}/docs/OPERATING.md").decode().split())
    count.check("the page has other numbers of racks", "Then seven racks take wide stripes, four take narrow ones" in page)
    for word, racks in (("place", 6), ("place", 7), ("place", 8), ("place6", 3), ("place6", 4), ("place6", 5)):
        least = {"place": 7, "place6": 4}[word]
        nodes = {10 * rack + at: Node(10 * rack + at, rack, 4) for rack in range(racks) for at in range(5)}
        store, commands = Store(nodes), [f"{word} {stripe}" for stripe in range(3)]
        replies = [store.call(1, command) for command in commands]
        is_taken = all(reply.startswith("placed") for reply in replies)
        count.check(f"{racks} racks, {word}: {replies}", is_taken == (racks >= least))
        if is_taken:
            for command in [f"fail {node}" for node in nodes if nodes[node].upgrade == 0]:
                commands.append(command)
                replies.append(store.call(1, command))
            margins = [store.margin(stripe) for stripe in store.stripes]
            count.check(f"{racks} racks, {word}: margins {margins} without one", min(margins) >= 1)
            while replies[-1] != "idle":
                leased = [f"done {stripe} {fragment} {lease.epoch}" for (stripe, fragment), lease in store.leases.items()]
                for command in [*leased, "next"]:
                    commands.append(command)
                    replies.append(store.call(1, command))
            missing = [store.missing(stripe) for stripe in store.stripes]
            count.check(f"{racks} racks, {word}: {missing} are missing after repairs", any(missing) == (racks == least))
        told = lines_of(harness.run_bundle(program, harness.bundle_of(nodes, [commands]).encode()).stdout)[0]
        count.check(f"{racks} racks, {word}: {told}, and not {replies}", [line.split(" ", 1)[1] for line in told] == replies)


def hours(count):
    """The page has how long all rounds take, by the numbers of its own tables."""
    page = read(f"{TOP}/docs/OPERATING.md").decode()
    (rounds,) = re.findall(r"^    end,([0-9]+),", page, re.MULTILINE)
    (at_once,) = re.findall(r"No node has more than (\w+) leases at a time", page)
    at_once = ("one", "two", "three", "four").index(at_once) + 1
    ((megabytes, rate, told),) = re.findall(r"^\| ([0-9,]+) MB \| ([0-9]+) MB/s \| (.*) \|$", page, re.MULTILINE)
    size, rate = int(megabytes.replace(",", "")), int(rate)
    seconds = int(rounds) * at_once * size / rate
    right = (f"{rounds} * {at_once} * {megabytes} / {rate} = {seconds:,.0f} s, {seconds / 3600:.1f} hours | "
             f"{at_once} * {megabytes} / {rate} / 2 = {at_once * size / rate / 2:,.0f} s")
    count.check(f"the page has {told}, and not {right}", told == right)


def completed(words):
    """What bash offers for the last of these words."""
    script = (f". {TOP}/docs/lrcman.bash; COMP_WORDS=({' '.join(words)} ''); COMP_CWORD={len(words)}; _lrcman; "
              "printf '%s\\n' \"${COMPREPLY[@]}\"")
    return subprocess.run(["bash", "-c", script], capture_output=True, text=True, check=True).stdout.split()


def completion(count, program):
    usage = subprocess.run([program], capture_output=True, text=True).stderr
    words = re.findall("^  lrcman ([a-z0-9-]+) ", usage, re.MULTILINE)
    count.check(f"bash completes {completed(['lrcman'])}, and not {words}", words and completed(["lrcman"]) == words)
    views = completed(["lrcman", "show"])
    count.check(f"bash completes the tables {views}", views == [*dict.fromkeys(view.split()[0] for view in VIEWS)])
    for view in VIEWS:
        ran = subprocess.run([program, "show", *view.split()], input=example("node_unreachable"), capture_output=True)
        count.check(f"the program shows no {view}", ran.returncode == 0)
    count.check("bash completes the kinds of domains", completed(["lrcman", "show", "domains"]) == ["fault", "upgrade"])
    for word in ("may-stop", "may-lose"):
        offered = completed(["lrcman", word, "3"])
        count.check(f"bash completes {offered} behind {word}", offered == ["fault", "upgrade"])
    count.check("bash completes behind run", completed(["lrcman", "run"]) == completed(["lrcman", "show", "status"]) == [])


def manual(count):
    """The manual page has a line for each cause of an image, with its words."""
    page = read(f"{TOP}/docs/lrcman.1").decode()
    rows = re.findall(r"^\| `image N cause ([0-9]+)` \| (.*) \|$", read(f"{TOP}/docs/FORMATS.md").decode(), re.MULTILINE)
    for cause, words in rows:
        count.check(f"lrcman.1 has no cause {cause}: {words}", f"\n  {cause:>2}  {words}\n" in page)
    count.check(f"FORMATS has {len(rows)} causes of an image", len(rows) == 16)


def main(words):
    program, count = harness.program_of(words), harness.Count()
    found = recipes()
    (renewal,) = [recipe for recipe in found if RENEWAL in recipe]
    counts, moved = ([recipe for recipe in found if recipe.startswith(f"{name}() {{")][0] for name in ("counts", "moved"))
    with tempfile.TemporaryDirectory(prefix="lrcman-recipes-") as folder:
        renew(count, Shell(program, folder), renewal, counts)
    others = {recipe.split("\n")[0]: recipe for recipe in found if recipe != renewal and not re.match(r"\w+\(\) \{", recipe)}
    count.check(f"recipes of which nothing is said here, or that are gone: {set(others) ^ set(PRINTS)}", set(others) == set(PRINTS))
    for first, recipe in others.items():
        with tempfile.TemporaryDirectory(prefix="lrcman-recipes-") as folder:
            shell = Shell(program, folder)
            shell.write("store.bundle", example("node_unreachable"))
            shell.write("store.sequel", example("node_unreachable"))
            shell.write("nodes.toml", harness.split(example("node_unreachable"))[0])
            rows = [f"1,wide,{fragment},{node},\n" for fragment, node in enumerate(TAKEN_OVER)]
            shell.write("homes.csv", "".join(["stripe,code,fragment,node,slot\n", *rows]).encode())
            ran, wanted = shell.run(recipe), PRINTS.get(first)
            wanted = wanted() if callable(wanted) else wanted
            is_right = ran.stdout == wanted if wanted is not None else bool(ran.stdout)
            # (`diff` ends with 1 where tables differ, as they do)
            ended = 1 if recipe.rstrip().split("\n")[-1].startswith("diff ") else 0
            count.check(f"{first}: status {ran.returncode}: {ran.stdout!r} {ran.stderr}", is_right and ran.returncode == ended)
            if "tools/takeover" in recipe:
                told = shell.lrcman("show stripes", shell.read("store.sequel")).stdout.decode()
                count.check(f"{first}: the store begins with {told}", ",risk,2,0x1000,12," in told)
                shell.run(f"{moved}moved yes; {recipe}")
                told = shell.lrcman("show stripes", shell.read("store.sequel")).stdout.decode()
                count.check(f"{first}: a move that is not needed is written: {told}", ",risk,2,0x1000,12," in told)
                shell.run(f"{moved}moved; {recipe}")
                told = shell.lrcman("show stripes", shell.read("store.sequel")).stdout.decode()
                count.check(f"{first}: the moves are not written: {told}", ",whole," in told and shell.read("report.csv").count(b"\n") == 1)
    month(count, program)
    capacity(count, program)
    few_racks(count, program)
    hours(count)
    completion(count, program)
    manual(count)
    return count.report()


if __name__ == "__main__":
    sys.exit(main(sys.argv[1:]))
