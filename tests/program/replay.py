"""Checks outputs of `lrcman run` for bundles with any number of scripts against the model in tests/model/rules.py, and those of
`lrcman image` and `lrcman resume` for runs that are cut in two.

Usage: tests/program/replay [--quick] [PROGRAM], by default the program that `rt ci` or `rt run` has built in crates/lrcman;
       tests/program/replay --judge BUNDLE OUTPUT checks one output that is there already.

With several scripts an output depends on how the threads ran. It is right exactly where
- each script has a line `script` with its number, and after it a line for each of its commands, with an index;
- the indexes are 1 to the number of all commands, once each, and rise within each script;
- the calls, made in the order of their indexes, each by the session that has the number of its script, give these
  replies;
- both tables are those after the last call.

The test checks every output of `examples` and `examples/rules`, the runs of `examples/several`, and sixteen runs of
eight scripts of mixed commands over one store. From each run it then makes wrong outputs, which have to be refused.

A run of one script is cut in two: `image` of the first part has to be the image of the model after it, and `resume` of
this image and of the rest has to print what the whole run printed: the same replies with the same places, and the same
tables. `image` of it has to be the image after the whole run. Each example is cut at each place, and longer runs of mixed
commands at some. With --quick a fifteenth of the runs is made, and of the cuts.

A run of 2,000 commands over twenty nodes has the replies of the model, which searches all nodes for each seat. And each part of
a bundle, from its first byte on, has its output or its refusal. The last line is 'N passed, M failed'."""
import functools
import os
import re
import subprocess
import sys
import tomllib
from concurrent.futures import ThreadPoolExecutor

from tests import harness
from tests.harness import parts_of, read
from tests.model import rules
from tests.model.draws import numbers
from tests.program.judging import Wrong, index_of, indexes_of, is_right, judge, output_of

RUNS, SCRIPTS, COMMANDS = 16, 8, 40
CUT_RUNS, CUT_COMMANDS, CUTS = 8, 160, 20  # runs of mixed commands that are cut, their commands, and the cuts of each
EACH = 15  # with --quick, one of so many runs and cuts is made
CHOICES = 2_000  # the commands of the run whose seats are searched for


# Wrong outputs, each made from a right one and the positions of its replies. None where there is nothing to change.


def is_reply(line):
    return re.match(r"[1-9][0-9]* [a-z]", line) is not None


def with_lines(lines, changes):
    """The text of the lines with some changed; a line that becomes None is dropped."""
    changed = [changes.get(at, line) for at, line in enumerate(lines)]
    return "\n".join(line for line in changed if line is not None).encode()


def in_order(lines, replies):
    """The replies in the order of their indexes."""
    return sorted(replies, key=lambda at: index_of(lines[at]))


def swapped(lines, replies):
    """Two replies that differ are exchanged."""
    for first, other in zip(replies, reversed(replies)):
        index, reply = lines[first].split(" ", 1)
        other_index, other_reply = lines[other].split(" ", 1)
        if other_reply != reply:
            return with_lines(lines, {first: f"{index} {other_reply}", other: f"{other_index} {reply}"})
    return None


def dropped(lines, replies):
    """The reply with the greatest index is left out, as if its call had not been made."""
    for last in in_order(lines, replies)[-1:]:
        return with_lines(lines, {last: None})
    return None


def shifted(lines, replies):
    """The greatest index is one more."""
    for last in in_order(lines, replies)[-1:]:
        index, reply = lines[last].split(" ", 1)
        return with_lines(lines, {last: f"{int(index) + 1} {reply}"})
    return None


def doubled(lines, replies):
    """One index is there twice, and another is missing."""
    for second in in_order(lines, replies)[1:2]:
        return with_lines(lines, {second: f"1 {lines[second].split(' ', 1)[1]}"})
    return None


def turned(lines, replies):
    """The first two calls of a script are in the other order."""
    for first, second in zip(replies, replies[1:]):
        if second == first + 1:
            return with_lines(lines, {first: lines[second], second: lines[first]})
    return None


def ended(lines, replies):
    """The first tick ends one lease more."""
    for at in replies:
        index, word, *numbers = lines[at].split(" ")
        if word == "ticked":
            return with_lines(lines, {at: f"{index} {word} {numbers[0]} {int(numbers[1]) + 1}"})
    return None


def seated(lines, replies):
    """The first stripe of the narrow code that is placed has a seat more."""
    for at in replies:
        index, word, *seats = lines[at].split(" ")
        if word == "placed" and len(seats) == 10:
            return with_lines(lines, {at: f"{lines[at]} 19:7"})
    return None


def sourced(lines, replies):
    """The first repair from three fragments has one source less."""
    for at in replies:
        words = lines[at].split(" ")
        if words[7:8] == ["local"] and len(words) == 11:
            return with_lines(lines, {at: " ".join(words[:-1])})
    return None


def loaded(lines, replies):
    """The first node has a load of one more."""
    first = lines.index(rules.LOAD_HEADER) + 1
    node, mode, online, load, slots = lines[first].split(",")
    return with_lines(lines, {first: f"{node},{mode},{online},{int(load) + 1},{slots}"})


def without_risk(lines, replies):
    """The first stripe at risk is left out."""
    first = lines.index(rules.RISK_HEADER) + 1
    return None if lines[first] == "load" else with_lines(lines, {first: None})


def without_tables(lines, replies):
    return "\n".join([*lines[:lines.index("risk")], ""]).encode()


def with_more(lines, replies):
    return with_lines(lines, {len(lines) - 1: "idle\n"})


def cut(lines, replies):
    """The last end of line is missing."""
    return "\n".join(lines).encode()[:-1]


EDITS = (swapped, dropped, shifted, doubled, turned, ended, seated, sourced, loaded, without_risk, without_tables, with_more,
         cut)


# The test.


class Count(harness.Count):
    """Counts the edits that were tried, and the runs that were mixed, too."""

    def __init__(self):
        super().__init__()
        self.tried, self.mixed = set(), 0


def judge_named(count, name, bundle, output):
    """Counts whether an output is right, and returns it."""
    try:
        judge(bundle, output)
    except Wrong as wrong:
        return count.check(f"{name}: {wrong}", False)
    return count.check(name, True)


def refuse_edits(count, name, bundle, output):
    """Each wrong output that is made of a right one is refused."""
    lines = output.decode().split("\n")
    replies = [at for at, line in enumerate(lines[:lines.index("risk")]) if is_reply(line)]
    for edit in EDITS:
        wrong = edit(lines, replies)
        if wrong is not None:
            count.tried.add(edit)
            count.check(f"{name}: {edit.__name__} is not refused", not is_right(bundle, wrong))


def is_mixed(bundle, output):
    """Whether a script's call fell between two calls of another."""
    indexes = indexes_of(output.decode().split("\n"), parts_of(bundle)[1])
    return any(of_script[-1] - of_script[0] >= len(of_script) for of_script in indexes if of_script)


def judge_run(count, program, name, bundle):
    """Runs the program on a bundle, and checks its output and its status."""
    ran = harness.run_bundle(program, bundle)
    if ran.returncode != 0 or ran.stderr:
        count.check(f"{name}: status {ran.returncode}, {ran.stderr.decode(errors='replace')}", False)
    elif judge_named(count, name, bundle, ran.stdout):
        count.mixed += is_mixed(bundle, ran.stdout)
        refuse_edits(count, name, bundle, ran.stdout)


def mixed_commands(row):
    """A few commands that belong together, over six stripes and twenty nodes; some name what does not exist."""
    stripe, fragment, epoch = next(row) % 6 + next(row) % 64 // 63, next(row) % 16, 1 + next(row) % 8 // 6
    node, domain = next(row) % 20 + next(row) % 64 // 63, next(row) % 10 + next(row) % 16 // 15
    turns = (
        [f"fail {node}", "next", "next", "next", f"join {node}"],
        [f"fail {node}", f"join {node}", f"lease {stripe} {fragment}", f"done {stripe} {fragment} {epoch}"],
        [f"lease {stripe} {fragment}", f"done {stripe} {fragment} {epoch}"],
        [f"lease {stripe} {fragment}", f"abandon {stripe} {fragment} {epoch}"],
        [f"lease {stripe} {fragment}", "tick", f"done {stripe} {fragment} {epoch}"],
        ["next", "tick", "tick"],
        ["tick"],
        [f"drain {node}", "next", "next", f"undrain {node}"],
        [f"drain {node}", f"retire {node}", "next", f"join {node}"],
        [f"down {node}", "next", f"up {node}"],
        [f"upgrade {domain}", f"done {stripe} {fragment} {epoch}", f"upgraded {domain}"],
        [f"revoke {stripe} {fragment}", f"lease {stripe} {fragment}"],
        [f"drop {stripe}", f"place {stripe}"],
        [f"drop {stripe}", f"place6 {stripe}"],
    )
    return turns[next(row) % len(turns)]


def mixed_script(row, script):
    """A script first places one of the six stripes, of either code in turn, so that there is something to act on."""
    commands = [f"{('place', 'place6')[script % 2]} {script % 6}"]
    while len(commands) < COMMANDS:
        commands += mixed_commands(row)
    return commands


def mixed_bundle(run):
    """Eight scripts over twenty nodes with eight slots each, in ten upgrade domains."""
    row = numbers(run)
    return harness.bundle_of(harness.nodes_in_order(20, 8), [mixed_script(row, script) for script in range(SCRIPTS)]).encode()


def indexes_in_turn(scripts):
    """The indexes of the calls of scripts that take turns."""
    indexes = [[] for _ in scripts]
    for index, (i, _) in enumerate(harness.in_turn(scripts), 1):
        indexes[i].append(index)
    return indexes


def right_output(bundle):
    """What the rules ask for where the scripts of a bundle take turns."""
    nodes, scripts = parts_of(bundle)
    return "\n".join([*output_of(nodes, scripts, indexes_in_turn(scripts)), ""]).encode()


def judge_itself(count):
    """The rules' own output is taken, and what is wrong is refused, exchanged indexes too."""
    for run in range(4):
        bundle = mixed_bundle(run)
        right = right_output(bundle)
        if judge_named(count, f"the rules' own output {run}", bundle, right):
            refuse_edits(count, f"the rules' own output {run}", bundle, right)
    bundle = harness.bundle_of(harness.nodes_in_order(20, 8), [["place 1"], ["place 2"]]).encode()
    right = right_output(bundle)
    exchanged = right.replace(b"\n1 placed", b"\n- placed").replace(b"\n2 placed", b"\n1 placed")
    exchanged = exchanged.replace(b"\n- placed", b"\n2 placed")
    count.check("two scripts that place a stripe each", is_right(bundle, right))
    count.check("two indexes that were exchanged are not refused", not is_right(bundle, exchanged))


def judge_examples(count):
    """The outputs of the examples come from the rules, so they show that the model is right."""
    for folder in ("", "rules"):
        for name, bundle in harness.bundles_in(folder):
            judge_named(count, name, bundle, read(f"{harness.TOP}/{name[:-len('bundle')]}out"))


def judge_runs(count, program, step):
    for name, bundle in harness.bundles_in("several"):
        judge_run(count, program, name, bundle)
    for run in range(0, RUNS, step):
        judge_run(count, program, f"mixed commands, run {run}", mixed_bundle(run))


# Runs that are cut in two.


def answer(program, word, given):
    """What the program writes for a sequel, where it ends well."""
    ran = subprocess.run([program, word], input=given.encode(), capture_output=True)
    return ran.stdout.decode() if (ran.returncode, ran.stderr) == (0, b"") else f"status {ran.returncode}: {ran.stdout[:60]!r}"


def sequel_of(image, nodes, commands):
    """The image, and a bundle of these nodes and commands behind it."""
    return image + harness.bundle_of(nodes, [commands])


def is_cut_right(program, nodes, commands, at):
    """Whether the image of the first commands, and the rest from it on, are what the rules ask for."""
    store = rules.Store(nodes)
    replies = [f"{place} {store.call(1, command)}" for place, command in enumerate(commands[:at], 1)]
    image = answer(program, "image", sequel_of("", nodes, commands[:at]))
    if image != store.image(at):
        return False
    replies = [f"{place} {store.call(1, command)}" for place, command in enumerate(commands[at:], at + 1)]
    rest = sequel_of(image, nodes, commands[at:])
    resumed = "\n".join(["script 1", *replies, *store.tables(), ""])
    return answer(program, "resume", rest) == resumed and answer(program, "image", rest) == store.image(len(commands))


def judge_cuts(count, program, step):
    for folder in ("", "rules"):
        for name, bundle in list(harness.bundles_in(folder))[::step]:
            nodes, scripts = parts_of(bundle)
            commands = scripts[0] if scripts else []
            wrong = [at for at in range(0, len(commands) + 1, step) if not is_cut_right(program, nodes, commands, at)]
            count.check(f"{name} is cut at {wrong}", not wrong)
    for run in range(0, CUT_RUNS, step):
        row, commands = numbers(100 + run), []
        while len(commands) < CUT_COMMANDS:
            commands += mixed_script(row, run)
        for _ in range(CUTS // step):
            at = next(row) % (len(commands) + 1)
            right = is_cut_right(program, harness.nodes_in_order(20, 8), commands, at)
            count.check(f"mixed commands {run} are cut at {at}", right)


# The choice of nodes, beside a search of all nodes.


def lines_that_choose():
    """Commands by a sequence that goes through all numbers below 65,537. Half of them ask for seats; others free some, or change
    which nodes take any."""
    number = 1
    for _ in range(CHOICES):
        number = (75 * number + 74) % 65_537
        stripe, node, kind = number // 16 % 6, number // 16 % 20, number % 16
        if kind < 7:
            yield (f"place {stripe}", f"place {stripe}", f"place {stripe}", f"place6 {stripe}", f"place6 {stripe}", "next", "next")[kind]
        elif kind < 11:
            yield f"drop {stripe}"
        elif kind < 15:
            yield (f"fail {node}", f"join {node}", f"join {(node + 7) % 20}", f"join {(node + 13) % 20}")[kind - 11]
        else:
            yield "tick"


def judge_choices(count, program):
    bundle = harness.bundle_of(harness.nodes_in_order(20, 4), [list(lines_that_choose())]).encode()
    output = harness.run_bundle(program, bundle).stdout
    if judge_named(count, f"{CHOICES} commands by one rule", bundle, output):
        for reply in (b"placed", b"granted 1 ", b"refused 103"):
            count.check(f"{reply} is no reply", len(re.findall(rb"^[0-9]+ %s" % reply, output, re.MULTILINE)) > 9)


# Bundles that end early.


def refusal_of(topology):
    """The line that refuses a part of a topology in plain form, if it is refused."""
    try:
        nodes = tomllib.loads(topology.decode()).get("node", [])
    except tomllib.TOMLDecodeError:
        return "topology 1"
    short = [at for at, node in enumerate(nodes) if len(node) < 4]
    return f"topology 3 {short[0]}" if short else "" if nodes else "topology 2"


def right_for_part(part):
    """The status and output for a part of the bundle that places one stripe, from its first byte on."""
    topology, scripts = harness.split(part)
    if refused := refusal_of(topology):
        return 2, f"{refused}\n"
    lines = [line for script in scripts for line in script if line]
    if lines and lines != [b"place 1"]:
        cause = {b"place": 2, b"place ": 3}.get(lines[0], 1)
        return 1, f"line {topology.count(10) + 2} cause {cause}\n"
    nodes, scripts = parts_of(part)
    return 0, "\n".join([*output_of(nodes, scripts, indexes_in_turn(scripts)), ""])


def judge_parts(count, program, step):
    bundle = harness.bundle_of(harness.nodes_in_order(20, 4), [["place 1"]]).encode()
    parts = [bundle[:end] for end in range(0, len(bundle), step)]
    with ThreadPoolExecutor(os.cpu_count()) as pool:
        for part, ran in zip(parts, pool.map(functools.partial(harness.run_bundle, program), parts)):
            found = ran.returncode, ran.stdout.decode()
            count.check(f"the first {len(part)} bytes: {found}", found == right_for_part(part))


def test(program, step):
    count = Count()
    judge_itself(count)
    judge_examples(count)
    judge_runs(count, program, step)
    judge_cuts(count, program, step)
    judge_choices(count, program)
    judge_parts(count, program, step)
    count.check("each edit was tried", count.tried == set(EDITS))
    print(f"runs in which calls of several scripts were mixed, which nothing promises: {count.mixed}")
    return count.report()


def judge_files(bundle, output):
    try:
        judge(read(bundle), read(output))
    except Wrong as wrong:
        print(f"wrong: {wrong}")
        return 1
    print("right")
    return 0


def main(words):
    if len(words) == 3 and words[0] == "--judge":
        return judge_files(*words[1:])
    named = [it for it in words if it != "--quick"]
    if len(named) > 1:
        harness.stop("usage: tests/program/replay [--quick] [PROGRAM]")
    return test(harness.program_of(named), 1 if named == words else EACH)


if __name__ == "__main__":
    sys.exit(main(sys.argv[1:]))
