"""What an output of several scripts has to be: with some order of the calls it is that of the rules. tests/program/replay tells more."""
import re

from tests.harness import parts_of
from tests.model import rules


class Wrong(Exception):
    """An output that the rules do not allow, and why."""


def index_of(line):
    found = re.fullmatch(r"([1-9][0-9]*) .+", line)
    if not found:
        raise Wrong(f"this is no reply: {line}")
    return int(found[1])


def reply_lines(lines, scripts):
    """The lines of the replies to each script, at the beginning of an output."""
    replies, at = [], 0
    for number, script in enumerate(scripts, 1):
        if lines[at:at + 1] != [f"script {number}"]:
            raise Wrong(f"line {at + 1} is not `script {number}`")
        replies.append(lines[at + 1:at + 1 + len(script)])
        at += 1 + len(script)
    return replies


def indexes_of(lines, scripts):
    """The indexes of the calls of each script: as many as calls, from 1, once each, and rising in each script."""
    indexes = [list(map(index_of, replies)) for replies in reply_lines(lines, scripts)]
    if list(map(len, indexes)) != list(map(len, scripts)):
        raise Wrong("there are not as many replies as commands")
    taken = sorted(index for of_script in indexes for index in of_script)
    if taken != list(range(1, len(taken) + 1)):
        raise Wrong("the indexes are not 1 to the number of commands, once each")
    for number, of_script in enumerate(indexes, 1):
        if of_script != sorted(of_script):
            raise Wrong(f"the indexes of script {number} do not rise")
    return indexes


def output_of(nodes, scripts, indexes, new_store=rules.Store):
    """The lines that the rules ask for, where the calls have these indexes."""
    store = new_store(nodes)
    calls = [(index, i, script[n]) for i, script in enumerate(scripts) for n, index in enumerate(indexes[i])]
    replies = [[] for _ in scripts]
    for index, i, command in sorted(calls):
        replies[i].append(f"{index} {store.call(i + 1, command)}")
    return [*(line for i, lines in enumerate(replies, 1) for line in [f"script {i}", *lines]), *store.tables()]


def judge(bundle, output, new_store=rules.Store):
    """Raises Wrong, unless the output is one that the rules allow for the bundle."""
    nodes, scripts = parts_of(bundle)
    try:
        text = output.decode("ascii")
    except UnicodeDecodeError:
        raise Wrong("the output is not ASCII") from None
    lines = text.split("\n")
    wanted = [*output_of(nodes, scripts, indexes_of(lines, scripts), new_store), ""]
    for number, (line, right) in enumerate(zip(lines, wanted), 1):
        if line != right:
            raise Wrong(f"line {number} is `{line}` and not `{right}`")
    if len(lines) != len(wanted):
        raise Wrong(f"there are {len(lines)} lines and not {len(wanted)}")


def is_right(bundle, output):
    try:
        judge(bundle, output)
    except Wrong:
        return False
    return True
