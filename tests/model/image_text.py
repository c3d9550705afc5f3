"""The text of an image, read once more after docs/FORMATS.md (The image of a state): its lines as rows, or its first bad
line. Rows are not looked at beside each other here: `Store.begin` of tests/model/rules.py does that."""
import re
from collections import namedtuple

Image = namedtuple("Image", "before clock upgrading nodes stripes grants leases")
# The rows, each with the number of its line. Homes and counts stand by fragment; the word of a stripe tells its code.
NodeRow = namedtuple("NodeRow", "line node mode is_down")
StripeRow = namedtuple("StripeRow", "line stripe word homes")
GrantRow = namedtuple("GrantRow", "line stripe counts")
LeaseRow = namedtuple("LeaseRow", "line stripe fragment holder target expiry")

# The kinds of lines in their order, and `OVER` for what may come after the last.
VERSION, BEFORE, CLOCK, UPGRADING, NODE, STRIPE, GRANTS, LEASE, END, OVER = range(10)
ROWS = NODE, STRIPE, GRANTS, LEASE  # of which a text may have many

HOMES = {"stripe": 16, "stripe6": 10}  # how many homes a line has, by its first word
COUNTS = 16
STANDINGS = {"down": ("active", True), "draining": ("draining", False), "draining down": ("draining", True),
             "gone": ("gone", False), "gone down": ("gone", True)}


class BadLine(Exception):
    """The number of the first line, from 1, that may not come where it stands."""


# Words. One that is not as it has to be raises a ValueError.


def number(word, most, least=0):
    """A number in decimal without a leading zero."""
    if not re.fullmatch("0|[1-9][0-9]{0,19}", word) or not least <= int(word) <= most:
        raise ValueError(word)
    return int(word)


def seat(word):
    node, slot = word.split(":")
    return number(node, 2**16 - 1), number(slot, 2**16 - 1)


def home(word):
    return None if word == "-" else seat(word)


def stripe_number(word):
    return number(word, 4095)


# Lines.


def parsed(at, line):
    """The kind of a line, and what it says. A ValueError where it is no line of an image."""
    match line.split(" "):
        case ["image", "1"]:
            return VERSION, 1
        case ["before", count]:
            return BEFORE, number(count, 2**64 - 1)
        case ["clock", clock]:
            return CLOCK, number(clock, 2**32 - 1)
        case ["upgrading", domain]:
            return UPGRADING, number(domain, 255)
        case ["node", node, *words] if " ".join(words) in STANDINGS:
            return NODE, NodeRow(at, number(node, 2**16 - 1), *STANDINGS[" ".join(words)])
        case ["stripe" | "stripe6" as word, stripe, *homes] if len(homes) == HOMES[word]:
            return STRIPE, StripeRow(at, stripe_number(stripe), word, [home(one) for one in homes])
        case ["granted", stripe, *counts] if len(counts) == COUNTS:
            return GRANTS, GrantRow(at, stripe_number(stripe), [number(count, 2**32 - 1) for count in counts])
        case ["lease", stripe, fragment, holder, target, expiry]:
            key = stripe_number(stripe), number(fragment, 15)
            return LEASE, LeaseRow(at, *key, number(holder, 8, least=1), seat(target), number(expiry, 2**32 - 1))
        case ["end"]:
            return END, None
    raise ValueError(line)


def may_come(kind, first):
    """Whether a line of this kind may come, if that kind is the first that may: the first three come once each."""
    return kind == first if first < UPGRADING else kind >= first


def read(text):
    """The rows of the text of an image. Raises BadLine."""
    *lines, rest = text.split("\n")
    said, first = {kind: [] for kind in range(OVER)}, VERSION
    for at, line in enumerate(lines, 1):
        try:
            kind, says = parsed(at, line)
        except ValueError:
            raise BadLine(at) from None
        if not may_come(kind, first):
            raise BadLine(at)
        said[kind].append(says)
        first = kind if kind in ROWS else kind + 1
    if first != OVER or rest:
        raise BadLine(len(lines) + 1)
    upgrading = said[UPGRADING][0] if said[UPGRADING] else None
    return Image(said[BEFORE][0], said[CLOCK][0], upgrading, *(said[kind] for kind in ROWS))
