"""Compares `lrcman show`, `may-stop` and `may-lose` with the model in tests/model/rules.py.

Usage: tests/program/show [--long | --quick] [PROGRAM] [SEED], by default the program that `rt ci` or `rt run` has built in crates/lrcman.
The seed, by default that of the hour, is printed. It is that of some of the stores that returns come to.

- Each bundle of `examples` and `examples/rules`, each sequel of `examples/sequels`, and 300 drawn bundles, or 3,000 with
  --long: each table, and with `health` status 4 where a stripe is in danger. With --quick each fifth bundle, and 20 drawn ones.
- The table of capacity where the numbers of stripes run out, which is reckoned by hand.
- The same input, and what would become of each stripe if drawn nodes, and nodes of drawn domains, were stopped, or lost: the
  table, and status 4 where a stripe is harmed. The model makes the reports and compares. Stripes that are harmed by no
  more than a home have to be among them.
- What a forecast means, by the model: 3,300 drawn states, of which each gets drawn returns with a drawn outage and without. With
  it each `up` of one of its nodes is left out. A stripe that is not harmed has to be recoverable in both or in neither, after each
  return. Of each tenth state the program has to print the forecast, with --quick of none.
- Input that `run` or `resume` refuses is refused with the same status, with nothing on standard output, and on standard error
  with the line that they print, behind the words that docs/FORMATS.md has for it; `image` refuses it so too. Behind an image
  `check` refuses it, with the line on standard output.

The last line is 'N passed, M failed'."""
import copy
import os
import re
import subprocess
import sys
import unittest.mock
from collections import Counter
from concurrent.futures import ThreadPoolExecutor

from tests import harness
from tests.harness import parts_of
from tests.model import causes, draws, returns, rules
from tests.model import shown as model
from tests.model.draws import numbers
from tests.model.shown import FORECAST, HEADS, LEVELS, REPORTS, STRIPES, VIEWS, after_reports, capacity_rows, domains_of, domains_rows
from tests.model.shown import forecast, health_rows, is_in_danger, level_counts, levels_of, nodes_of, shown

DRAWN, LONG, QUICK, COMMANDS = 300, 3_000, 20, 60
EACH = 5  # with --quick, one of so many bundles is taken

# What `show health` can say of a store.
REASONS = ("ok", "lost", "unavailable", "margin_0", "margin_1", "margin_2", "no_node", "waiting", "ending", "upgrading",
           "fault_domains", "slots")

# What names no node of twenty, with the line that refuses it.
UNKNOWN = [("20", "node 20"), ("3 99 98", "node 99"), ("65535", "node 65535"), ("fault 20", "fault 20"), ("upgrade 10", "upgrade 10"),
           ("3 fault 4 20 21", "fault 20"), ("fault 3 upgrade 99 fault 77", "upgrade 99"), ("20 fault 20", "node 20")]


def run(program, words, given):
    return subprocess.run([program, *words], input=given, capture_output=True, timeout=60)


def expect(count, name, program, words, given, wanted, status=0):
    """The words have to print this and end with the status, with nothing on standard error."""
    ran = run(program, words, given)
    is_right = (ran.returncode, ran.stdout, ran.stderr) == (status, wanted.encode(), b"")
    if not is_right and ran.stdout != wanted.encode():
        pairs = zip(ran.stdout.decode(errors="replace").split("\n"), wanted.split("\n"))
        name += next((f": `{line}` and not `{right}`" for line, right in pairs if line != right), ": another number of lines")
    count.check(f"lrcman {' '.join(words)} of {name}: status {ran.returncode} {ran.stderr[:200]}", is_right)


def expect_all(count, name, program, given, store, entries):
    for view in VIEWS:
        status = 4 if view == "health" and is_in_danger(store) else 0
        expect(count, name, program, ["show", *view.split(" ")], given, shown(view, store, entries), status)


def expect_forecast(count, name, program, given, store, word, named):
    table, harms = forecast(word, store, nodes_of(store, named))
    expect(count, name, program, [word, *named], given, table, 4 if harms else 0)
    return harms


def drawn_domains(store, row):
    """The word for a kind of domain, with one or two domains of it."""
    domain, nodes = draws.one_of(row, ("fault", "upgrade")), list(store.nodes.values())
    return [domain, *(str(getattr(draws.one_of(row, nodes), domain)) for _ in range(1 + next(row) % 2))]


def drawn_names(store, row):
    """Words for nodes of a store: up to five nodes, perhaps one of them twice, a domain, or nodes and up to three groups of domains."""
    nodes = list(store.nodes)
    kind = next(row) % 8
    groups = {0: 1, 1: 1, 2: 2, 3: 3}.get(kind, 0)
    named = [str(draws.one_of(row, nodes)) for _ in range(next(row) % 3 if groups else 1 + next(row) % 5)]
    return named + [word for _ in range(groups) for word in drawn_domains(store, row)]


def expect_forecasts(count, name, program, given, store, seed, asked):
    """So many drawn questions of a kind each. Returns how many are safe and not, and of how many stripes what is harm."""
    row, answered = numbers(seed), Counter()
    for _ in range(asked):
        for word in REPORTS:
            harms = expect_forecast(count, name, program, given, store, word, drawn_names(store, row))
            answered["not safe" if harms else "safe"] += 1
            answered.update(" ".join(harm) for harm in harms)
    return answered


def played(bundle):
    """The store after the only script of a bundle, if it has one, and the number of entries. None for several scripts."""
    nodes, scripts = parts_of(bundle)
    if len(scripts) > 1:
        return None
    store = rules.Store(nodes)
    for line in (scripts or [[]])[0]:
        store.call(1, line)
    return store, sum(map(len, scripts))


def drawn_bundle(seed):
    """A topology of 16 to 40 nodes and a script of drawn commands, over few stripes: as text, with its store and entries. Of three
    bundles one ends with nodes that fail or go down, and one has few slots, and stripes for all of them."""
    row, kind = numbers(seed), seed % 3
    count, slots = 16 + next(row) % 25, 1 + next(row) % (2 if kind == 2 else 8)
    nodes = {number: rules.Node(number % (16 + next(row) % 20), number % (7 + next(row) % 6), slots) for number in range(count)}
    store, script = rules.Store(nodes), []
    within = draws.Range(6, range(count + 1), range(13))

    def call(line):
        script.append(line)
        store.call(1, line)

    for stripe in range(100, 110 if kind == 2 else 100):
        call(f"{draws.one_of(row, rules.PLACES)} {stripe}")
    while len(script) < COMMANDS:
        call(draws.drawn_call(store, row, within)[1])  # (all calls of a script are session 1's)
    for _ in range(next(row) % 10 if kind == 1 else 0):
        call(draws.one_of(row, ("fail {0}", "fail {0}", "down {0}", "tick", "next")).format(draws.one_of(row, nodes)))
    return harness.bundle_of(nodes, [script]).encode(), store, len(script)


# Where a stripe that is not recoverable anyway is harmed by no more than a home or a target: its example, the outage, and which.
HARMS = [("four_nodes_down", "may-stop", "0 1 2 6", "home"), ("four_nodes_down", "may-stop", "8", "home"),
         ("stop_keeps_a_stripe_away", "may-stop", "8 9", "home"), ("stop_keeps_a_stripe_away", "may-stop", "0", "home"),
         ("lost_stripe_waits_for_nodes", "may-lose", "3 4", "home"), ("lease_brings_a_stripe_back", "may-stop", "10", "target"),
         ("lease_brings_a_stripe_back", "may-lose", "10", "target")]


def expect_harm_alone(count, program):
    for name, word, named, harm in HARMS:
        bundle = harness.example(name)
        store, _ = played(bundle)
        harms = expect_forecast(count, name, program, bundle, store, word, named.split())
        count.check(f"{name}: a stripe is harmed by {harms}", harms == [[harm]])


def expect_meaning(count, program, seed):
    """What a forecast means; also what the program prints, where there is one, of a store that begins in one of the states."""
    answered = Counter()

    def ask(name, store, entries, word, nodes):
        given = (store.image(entries) + harness.topology_of(store.nodes)).encode()
        harms = expect_forecast(count, name, program, given, store, word, [str(node) for node in nodes])
        answered.update(" ".join(harm) for harm in harms or [["none"]])

    returns.test(count, seed, program and ask)
    if program:
        least = min(answered[harm] for harm in ("none", "recoverable home", "home", "target"))
        count.check(f"what is harm in these states: {answered}", least > 0)


def expect_same_levels(count, name, store):
    """The levels that the model tells of each domain are those of the store after a report of each of its nodes."""
    for kind, word in ("fault", "may-lose"), ("upgrade", "may-stop"):
        for (_, nodes, _), row in zip(domains_of(store, kind), domains_rows(store, kind), strict=True):
            told, wanted = row[-len(LEVELS):], level_counts(levels_of(after_reports(word, store, nodes)))
            count.check(f"{name}: {kind} domain {row[0]} has {told} and not {wanted}", told == wanted)


def expect_capacity(count, name, store):
    """The capacity that the model tells is how often the rules place, and what they refuse then."""
    for row, word in zip(capacity_rows(store), ("place", "place6"), strict=True):
        later, stripes, reply = copy.deepcopy(store), 0, ""
        for stripe in (stripe for stripe in range(STRIPES) if stripe not in store.stripes):
            reply = later.call(1, f"{word} {stripe}")
            if not reply.startswith("placed "):
                break
            stripes += 1
        told = [stripes, reply, sum(later.nodes[node].slots - later.load(node) for node in later.nodes_in("active") if later.is_online(node))]
        count.check(f"{name}: {word} has {row} and not {told}", [row[1], f"refused 103 {row[2]}", row[-1]] == told)
        count.check(f"{name}: conditions for some nodes alone: {row}", sum(row[3:8]) == len(store.nodes))


def expect_drawn(program, seed):
    count = harness.Count()
    bundle, store, entries = drawn_bundle(seed)
    if seed % 10 == 0:
        expect_same_levels(count, f"drawn bundle {seed}", store)
        expect_capacity(count, f"drawn bundle {seed}", store)
    expect_all(count, f"drawn bundle {seed}", program, bundle, store, entries)
    answered = expect_forecasts(count, f"drawn bundle {seed}", program, bundle, store, seed, 1)
    answered.update(row[0] for row in health_rows(store))
    return count.passed, count.failed, answered


def expect_examples(count, program, step):
    for folder in ("", "rules"):
        for name, bundle in list(harness.bundles_in(folder))[::step]:
            after = played(bundle)
            if after:
                expect_all(count, name, program, bundle, *after)
                expect_forecasts(count, name, program, bundle, after[0], len(bundle), 2)
    folder = f"{harness.EXAMPLES}/sequels"
    for name in sorted(os.listdir(folder)):
        if name.endswith(".sequel"):
            expect_sequel(count, program, name, harness.read(f"{folder}/{name}"))


def expect_sequel(count, program, name, sequel):
    """A sequel begins in its image, where it has one."""
    if not re.match(rb"image [0-9]", sequel) or run(program, ["resume"], sequel).returncode:
        return
    end = sequel.index(b"\nend\n") + 5
    nodes, scripts = parts_of(sequel[end:])
    store, before = rules.Store.begin(nodes, sequel[:end].decode())
    for line in (scripts or [[]])[0]:
        store.call(1, line)
    expect_all(count, name, program, sequel, store, before + sum(map(len, scripts)))
    expect_forecasts(count, name, program, sequel, store, len(sequel), 5)


def expect_numbers(count, program, step):
    """Where the numbers of stripes run out, nothing rules out nodes: of the program, and of the model with few numbers, by hand."""
    head = ",".join(HEADS["capacity"]) + "\n"
    nodes = {number: rules.Node(number, number % 256, 256) for number in range(160)}  # (40,960 slots: 2,560 wide or 4,096 narrow stripes)
    for lines, rows in ((["place6 7"], "wide,2559,6,0,0,160,0,0,6\nnarrow,4095,,,,,,,0\n"),
                        ([], "wide,2560,0,0,0,160,0,0,0\nnarrow,4096,,,,,,,0\n"),
                        (["place 7"], "wide,2559,0,0,0,160,0,0,0\nnarrow,4094,4,0,0,160,0,0,4\n"))[::step]:
        given = harness.bundle_of(nodes, [lines]).encode()
        expect(count, f"160 nodes after {lines}", program, ["show", "capacity"], given, head + rows)
    for numbers, rows in ((1, "wide,0,,,,,,,310\nnarrow,0,,,,,,,310\n"), (3, "wide,2,,,,,,,278\nnarrow,2,,,,,,,290\n")):
        store = rules.Store({number: rules.Node(number, number, 16) for number in range(20)})
        store.call(1, "place6 0")
        with unittest.mock.patch.object(model, "STRIPES", numbers):
            told = shown("capacity", store, 1)
        count.check(f"the model with {numbers} numbers has {told}", told == head + rows)


def expect_together(count, program):
    """Nodes that may each be stopped, or lost, and not all of them at once."""
    bundle, heads = harness.example("outages_one_by_one"), ",".join(FORECAST) + "\n"
    for word in REPORTS:
        for node in "2", "3":
            missing = {"2": "0x0007,0 1 2", "3": "0x000b,0 1 3"}[node]
            expect(count, "a node of two", program, [word, node], bundle, f"{heads}1,wide,risk,1,risk,0,{missing},0,no\n")
        for named in ["2", "3"], ["3", "2", "3"]:
            both = f"{heads}1,wide,risk,1,unavailable,-,0x000f,0 1 2 3,0,yes\n"
            expect(count, "both nodes", program, [word, *named], bundle, both, 4)
    lost = f"{heads}1,wide,risk,1,lost,-,0x000f,0 1 2 3,0,yes\n"
    expect(count, "four nodes lost", program, ["may-lose", "0", "1", "2", "3"], bundle, lost, 4)
    expect(count, "nodes without a home", program, ["may-stop", "17", "18", "19"], bundle, f"{heads}1,wide,risk,1,risk,1,0x0003,0 1,0,no\n")
    expect(count, "a node that is down already", program, ["may-stop", "0"], bundle, f"{heads}1,wide,risk,1,risk,1,0x0003,0 1,0,no\n")
    expect(count, "a fault domain", program, ["may-lose", "fault", "2"], bundle, f"{heads}1,wide,risk,1,risk,0,0x0007,0 1 2,0,no\n")
    for word in REPORTS:
        for named, line in UNKNOWN:
            refuse(count, program, "an unknown name", [word, *named.split(" ")], bundle, 2, line)


def words_by_line():
    """The words before the line of a refused input, from docs/FORMATS.md: by a pattern of the line."""
    text = harness.read(f"{harness.TOP}/docs/FORMATS.md").decode()
    table = text[text.index("## Refusals in words"):].split("\n## ")[0]
    rows = re.findall(r"^\| `(.+)` \| (.+) \|$", table, re.MULTILINE)
    return {re.compile(re.sub(r"\b[A-Z]\b", "[0-9]+", line)): words for line, words in rows}


WORDS = words_by_line()


def words_for(line):
    (words,) = (words for pattern, words in WORDS.items() if pattern.fullmatch(line))
    return words


def refuse(count, program, name, words, given, status, line):
    """Refused with words and the line, on standard error alone."""
    ran = run(program, words, given)
    wanted = f"lrcman: {words_for(line)}: {line}\n".encode()
    is_right = (ran.returncode, ran.stdout, ran.stderr) == (status, b"", wanted)
    count.check(f"lrcman {' '.join(words)} of {name}: status {ran.returncode}, {ran.stdout[:80]}, {ran.stderr[:200]}", is_right)


def refused_inputs():
    """The name and the bytes of each input that is refused, with its status and its line."""
    for name, bundle in harness.bundles_in("refused"):
        status = 1 if "/line_" in name else 2
        yield name, bundle, status, harness.read(f"{harness.TOP}/{name[:-7]}.out").decode().rstrip("\n")
    yield "two scripts", harness.example("several/two_idle_scripts"), 2, "bundle 2"
    yield "a long input", b" " * (8 * 2**20 + 1), 2, "bundle 1"
    nodes = harness.topology_of(causes.TWENTY).encode()
    for line, cause, image in causes.WRONG:
        yield f"an image with {image}", causes.text_of(image).encode() + nodes, 2, f"image {line} cause {cause.value}"
    for line, image in causes.BAD:
        text = causes.text_of(image).encode()
        if re.match(rb"image [0-9]", text) and text.find(b"\nend\n") == len(text) - 5:
            yield f"an image with {image}", text + nodes, 2, f"image {line}"


def expect_refusals(count, program):
    met = set()
    for at, (name, given, status, line) in enumerate(refused_inputs()):
        met.add(words_for(line))
        refuse(count, program, name, ["image"], given, status, line)
        asked = [*(["show", *view.split(" ")] for view in VIEWS), *([word, "0"] for word in REPORTS)]
        for words in asked if "image" not in name else asked[at % len(asked):][:1]:
            refuse(count, program, name, words, given, status, line)
        if given.startswith(b"image "):
            expect(count, name, program, ["check"], given, f"{line}\n", status)
    met |= {words_for(line) for _, line in UNKNOWN}
    full = f"image 1\nbefore {2**63}\nclock 0\nend\n".encode() + harness.topology_of(causes.TWENTY).encode() + b"%%\nnext\n"
    refuse(count, program, "a full image", ["image"], full, 2, "image full")
    met.add(words_for("image full"))
    count.check(f"words that no input here is refused with: {set(WORDS.values()) - met}", met == set(WORDS.values()))


def main(words):
    drawn = LONG if "--long" in words else QUICK if "--quick" in words else DRAWN
    program = harness.program_of([word for word in words if word not in ("--long", "--quick") and not word.isdigit()])
    count = harness.Count()
    expect_examples(count, program, EACH if "--quick" in words else 1)
    expect_numbers(count, program, EACH if "--quick" in words else 1)
    expect_together(count, program)
    expect_harm_alone(count, program)
    expect_refusals(count, program)
    expect_meaning(count, None if "--quick" in words else program, next((int(word) for word in words if word.isdigit()), None))
    answers = Counter()
    with ThreadPoolExecutor(os.cpu_count()) as pool:
        for passed, failed, answered in pool.map(lambda seed: expect_drawn(program, seed), range(drawn)):
            count.passed += passed
            count.failed += failed
            answers += answered
    count.check(f"answers of each kind to many questions: {answers}", min(answers["safe"], answers["not safe"]) > drawn // 10)
    if drawn > QUICK:
        count.check(f"stripes that are harmed in each way: {answers}", min(answers["recoverable home"], answers["home"]) > 0)
        count.check(f"stores of each health: {answers}", min(answers[reason] for reason in REASONS) > 0)
    return count.report()


if __name__ == "__main__":
    sys.exit(main(sys.argv[1:]))
