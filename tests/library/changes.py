"""Images with one thing changed, or over nodes with one thing changed, by a fixed rule: the model and the library find the
same fault, or begin in the same state."""
import re
from collections import Counter

from tests import harness
from tests.library.comparing import Differs, begun_in_book, begun_in_model, compare, expect, make
from tests.model import draws, rules
from tests.model.draws import is_seldom, one_of
from tests.model.rules import Cause, Node

TWENTY = harness.nodes_in_order(20, 16)
UNEVEN = {(i * 7) % 23 * 3: Node(i % 17, i % 9, 2 + i % 5) for i in range(22)}
STRIPES = 12
# The numbers at the ends of ranges, and behind them.
BOUNDS = (0, 7, 8, 9, 10, 15, 16, 255, 256, 4095, 4096, 65535, 65536, 4293967291, 4293967292, 4293967294, 4293967295,
          2**32 - 1, 2**32, 2**63, 2**63 + 1, 2**64 - 1, 2**64)
NUMBER, SEAT = re.compile("(?<=[ :])[0-9]+"), re.compile("(?<= )(?:[0-9]+:[0-9]+|-)")


# What is found in the lines of an image.


def places_of(lines, *words):
    """The indexes of the lines that begin with one of these words."""
    return [at for at, line in enumerate(lines) if line.split(" ")[0] in words]


def drawn_place(row, lines, *words):
    """One of these indexes, or None."""
    places = places_of(lines, *words)
    return one_of(row, places) if places else None


def replaced(lines, at, *new):
    return lines[:at] + [*new] + lines[at + 1:]


def with_other(lines, at, found, new):
    """The lines with something else in place of what a pattern found."""
    return replaced(lines, at, lines[at][:found.start()] + str(new) + lines[at][found.end():])


# The changes of lines. Each may leave them as they are.


def other_number(row, number):
    if is_seldom(row):
        return one_of(row, BOUNDS)
    return one_of(row, [number + 1, max(number - 1, 0), next(row) % 24])


def change_number(row, nodes, lines):
    at = next(row) % (len(lines) - 1)
    found = one_of(row, NUMBER.finditer(lines[at]))
    return with_other(lines, at, found, other_number(row, int(found[0])))


def change_line(row, nodes, lines):
    """A line is gone, comes twice, or comes elsewhere."""
    at, to = next(row) % len(lines), next(row) % len(lines)
    without = replaced(lines, at)
    return one_of(row, [without, replaced(lines, at, lines[at], lines[at]), without[:to] + [lines[at]] + without[to:],
                        without[:at + 1] + [lines[at]] + without[at + 1:]])


def change_byte(row, nodes, lines):
    text = "\n".join(lines)
    at = next(row) % len(text)
    return (text[:at] + one_of(row, ["", *" \n\r\t0123456789:-adeg\0"]) + text[at + next(row) % 2:]).split("\n")


def change_head(row, nodes, lines):
    at = drawn_place(row, lines, "before", "clock", "upgrading")
    return replaced(lines, at, f"{lines[at].split(' ')[0]} {one_of(row, BOUNDS)}")


def change_domain(row, nodes, lines):
    """Another upgrade domain is upgrading, or none."""
    without = [line for line in lines if not line.startswith("upgrading")]
    return one_of(row, [without, without[:3] + [f"upgrading {next(row) % 12}"] + without[3:]])


def change_standing(row, nodes, lines):
    """A node stands otherwise. Its line is where it belongs."""
    node = one_of(row, [*nodes, 65535])
    word = one_of(row, ["down", "draining", "draining down", "gone", "gone", "gone down"])
    others = [line for line in lines if line.split(" ")[:2] != ["node", str(node)]]
    earlier = [at for at in places_of(others, "image", "before", "clock", "upgrading", "node")
               if not others[at].startswith("node") or int(others[at].split(" ")[1]) < node]
    return others[:len(earlier)] + [f"node {node} {word}"] + others[len(earlier):]


def change_seat(row, nodes, lines):
    """A home or a target is another seat: one that is held, or any."""
    at = drawn_place(row, lines, "stripe", "stripe6", "lease")
    if at is None:
        return lines
    held = [found[0] for line in lines for found in SEAT.finditer(line)]
    node = one_of(row, nodes)
    new = one_of(row, held) if next(row) % 2 else f"{node}:{next(row) % (nodes[node].slots + 1)}"
    return with_other(lines, at, one_of(row, SEAT.finditer(lines[at])), new)


def change_code(row, nodes, lines):
    """A stripe has the other code, with homes that are cut off or lacking."""
    at = drawn_place(row, lines, "stripe", "stripe6")
    if at is None:
        return lines
    word, stripe, *homes = lines[at].split(" ")
    if word == "stripe":
        return replaced(lines, at, " ".join(["stripe6", stripe, *homes[:10]]))
    return replaced(lines, at, " ".join(["stripe", stripe, *homes, *["-"] * 6]))


def lose_stripe(row, nodes, lines):
    """A stripe is gone, and its leases are not."""
    at = drawn_place(row, lines, "stripe", "stripe6")
    return lines if at is None else replaced(lines, at)


def change_counts(row, nodes, lines):
    """All counts of a stripe number are 0, or one is near the most."""
    at = drawn_place(row, lines, "granted")
    if at is None:
        return lines
    words = lines[at].split(" ")
    words[2 + next(row) % 16] = str(one_of(row, [4293967293, 4293967294, 4293967295]))
    return replaced(lines, at, one_of(row, [" ".join(words), " ".join([*words[:2], *["0"] * 16])]))


def lose_count(row, nodes, lines):
    """A fragment that is leased was never leased."""
    at = drawn_place(row, lines, "lease")
    if at is None:
        return lines
    _, number, fragment, *_ = lines[at].split(" ")
    at = next(at for at in places_of(lines, "granted") if lines[at].split(" ")[1] == number)
    words = lines[at].split(" ")
    words[2 + int(fragment)] = "0"
    return replaced(lines, at, " ".join(words))


def change_lease(row, nodes, lines):
    """A lease is of another fragment that was leased, or ends at another time."""
    at = drawn_place(row, lines, "lease")
    if at is None:
        return lines
    word, number, fragment, holder, target, expiry = lines[at].split(" ")
    granted = next(line for line in lines if line.startswith(f"granted {number} ")).split(" ")[2:]
    other = one_of(row, [at for at, times in enumerate(granted) if times != "0"])
    return replaced(lines, at, one_of(row, [
        f"{word} {number} {other} {holder} {target} {expiry}",
        f"{word} {number} {fragment} {holder} {target} {int(expiry) + next(row) % 7 - 3}"]))


CHANGES = (change_number, change_number, change_line, change_byte, change_head, change_domain, change_standing, change_seat,
           change_seat, change_code, lose_stripe, change_counts, lose_count, change_lease)


# The changes of nodes.


def other_nodes(row, nodes):
    """A node more or less, or one with a number changed."""
    at = one_of(row, nodes)
    node = nodes[at]
    changed = one_of(row, [
        None, node._replace(slots=1 + next(row) % 20), node._replace(fault=next(row) % 24),
        node._replace(upgrade=next(row) % 12)])
    without = {number: node for number, node in nodes.items() if number != at}
    if changed is None:
        return one_of(row, [without, nodes | {max(nodes) + 1: node}])
    return {number: changed if number == at else node for number, node in nodes.items()}


def drawn_change(row, nodes, text):
    """Nodes and a text with one thing changed."""
    if is_seldom(row):
        return other_nodes(row, nodes), text
    lines = text.split("\n")[:-1]
    while True:
        changed = "".join(f"{line}\n" for line in one_of(row, CHANGES)(row, nodes, lines))
        if changed != text:
            return nodes, changed


# The test.


class Source:
    """A store of which images are taken, one after the other."""

    def __init__(self, row, nodes):
        self.store, self.count, self.row = rules.Store(nodes), 0, row
        self.within = draws.Range(STRIPES, [*nodes, 65535], range(12))
        self.go_on(300)

    def go_on(self, calls):
        for _ in range(calls):
            self.store.call(*draws.drawn_call(self.store, self.row, self.within))
            self.count += 1

    def image(self):
        self.go_on(3)
        return self.store.image(self.count)


def go_on(row, book, store, before):
    """Fifty calls of a book and a model that began in an image."""
    within = draws.Range(STRIPES, [*store.nodes, 65535], range(12))
    for count in range(before, before + 50):
        make(book, store, *draws.drawn_call(store, row, within), count)
    compare(book, store, before + 50)


def try_change(shared, row, nodes, text):
    """Begins in an image. Returns its fault: None, "bad line" or a cause."""
    right, store, before = begun_in_model(nodes, text)
    fault, book = begun_in_book(shared, nodes, text)
    expect("the fault of the image", fault, right)
    if book:
        with book:
            expect("the image in which the book began", book.image(), text)
            go_on(row, book, store, before)
        return None
    return "bad line" if isinstance(right, int) else Cause(right[1])


def run(count, shared, seed, images):
    """Tries images that are drawn, and returns how often each fault came."""
    row, met, source = draws.numbers(seed), Counter(), None
    for at in range(images):
        if at % 200 == 0:
            source = Source(row, UNEVEN if at % 800 == 600 else TWENTY)
        nodes, text = drawn_change(row, source.store.nodes, source.image())
        try:
            met[try_change(shared, row, nodes, text)] += 1
            count.passed += 1
        except Differs as differs:
            count.check(f"image {at + 1}: {differs}\n{text}", False)
    return met


def test(count, shared, is_long):
    """Each cause has to come."""
    met = run(count, shared, 8, 100_000 if is_long else 3000)
    names = {None: "begun", "bad line": "bad line"} | {cause: cause.name.lower() for cause in Cause}
    print("images with one change:", ", ".join(f"{times} {names[fault]}" for fault, times in met.most_common()))
    for fault, name in names.items():
        count.check(f"no image had the fault: {name}", met[fault] > 0)
