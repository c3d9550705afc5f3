"""Bundles of loads as files, and what a program has to print for them."""
import filecmp
import os
from collections import namedtuple

from bench import loads
from bench.common import Wrong
from tests.harness import read
from tests.model.store import Store
from tests.program import judging

Bundle = namedtuple("Bundle", "kind path load lines")


def make_bundle(folder, kind, nodes, stripes, given, commands):
    load = loads.make(kind, nodes, stripes, given.seed, given.bytes, commands)
    name = f"{kind}-{nodes}-{stripes}" if commands != 0 else f"{kind}-{nodes}-{stripes}-filled"
    path = os.path.join(folder, f"{name}.bundle")
    with open(path, "w") as to:
        to.write(load.text())
    return Bundle(kind, path, load, load.lines())


def check_output(bundle, output, is_judged=True):
    """The replies are those of the rules, and are of what the load is about. Those to several scripts are judged by the rules,
    which takes as long as to make them, or only looked at."""
    scripts = bundle.load.scripts
    if len(scripts) == 1:
        check_replies(bundle, output)
        replies = [scripts[0].replies]
    else:
        check_several(bundle, output, is_judged)
        lines = judging.reply_lines(lines_of(output), bundle.load.commands())
        replies = [[line.split(" ", 1)[1] for line in of_script] for of_script in lines]
    lacks = bundle.load.lacks(replies)
    if lacks:
        raise Wrong(f"{bundle.kind}: {lacks}")


def check_replies(bundle, output):
    """Each reply begins as that of the only script, and both tables come after them."""
    with open(output, errors="replace") as lines:
        if next(lines, "") != "script 1\n":
            raise Wrong(f"{bundle.kind}: the output does not begin with `script 1`")
        for index, reply in enumerate(bundle.load.scripts[0].replies, 1):
            line = next(lines, "").rstrip("\n")
            if not f"{line} ".startswith(f"{index} {reply} "):
                raise Wrong(f"{bundle.kind}: the reply to call {index} is {line!r}, and not {reply!r}")
        if next(lines, "") != "risk\n":
            raise Wrong(f"{bundle.kind}: no tables after the replies")


def check_several(bundle, output, is_judged):
    """The replies to several scripts are in places that can be, and with the tables such as the rules allow, if that is judged."""
    try:
        if is_judged:
            judging.judge(read(bundle.path), read(output), Store)
        else:
            judging.indexes_of(lines_of(output), bundle.load.commands())
    except judging.Wrong as wrong:
        raise Wrong(f"{bundle.kind}: {wrong}") from None


def lines_of(output):
    return read(output).decode(errors="replace").split("\n")


def check_again(bundle, program, first, other):
    """A later output is the first one; of several scripts it has all replies, in places that can be."""
    if len(bundle.load.scripts) > 1:
        check_several(bundle, other, False)
    elif not filecmp.cmp(first, other, shallow=False):
        raise Wrong(f"{bundle.kind}: {program} prints something else")
