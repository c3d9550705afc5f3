"""The bytes of a stripe, written once more after docs/RULES.md: a model that knows nothing of the program.

A row is the coefficients of a fragment, one for each data fragment, as bytes. A set of fragments is a whole number with a bit
for each member, as in tests/model/rules.py."""
from functools import cache

from tests.model.rules import members

MODULUS = 0x11D  # x^8 + x^4 + x^3 + x^2 + 1


# The field.


def product(a, b):
    """The product of two polynomials modulo the modulus."""
    total = 0
    for i in range(8):
        if b >> i & 1:
            total ^= a << i
    for i in reversed(range(8, 16)):
        if total >> i & 1:
            total ^= MODULUS << (i - 8)
    return total


TIMES = [bytes(product(a, b) for b in range(256)) for a in range(256)]
INVERSE = [0, *(TIMES[a].index(1) for a in range(1, 256))]


def scaled(factor, row):
    return row.translate(TIMES[factor])


def plus(one, other):
    return (int.from_bytes(one) ^ int.from_bytes(other)).to_bytes(len(one))


# The generator matrices.


def data_of(code):
    """The data fragments of the two local groups: of each group the last member is its parity."""
    return [list(members(of_class))[:-1] for of_class in code.classes[:2]]


@cache
def generator(code):
    """The row of each fragment."""
    groups = data_of(code)
    data = groups[0] + groups[1]
    factors = [*range(1, len(groups[0]) + 1), *range(16, 16 * len(groups[1]) + 1, 16)]
    rows = {fragment: bytes(column == fragment for column in data) for fragment in data}
    for of_class, group in zip(code.classes, groups):
        rows[(of_class & ~sum(1 << member for member in group)).bit_length() - 1] = bytes(column in group for column in data)
    first, second = members(code.classes[2])
    rows[first], rows[second] = bytes(factors), bytes(product(factor, factor) for factor in factors)
    return [rows[fragment] for fragment in code.fragments]


# What rows determine.


class Span:
    """All sums of some rows, each times a coefficient. Places from `width` on are not looked at. Each row that is kept is 1 at a
    place where all later ones are 0."""

    def __init__(self, width, kept=()):
        self.width, self.kept = width, kept

    def left_of(self, row):
        """What is left of a row after the rows that are kept are taken from it: zeros for a row of the span."""
        for place, one in self.kept:
            if row[place]:
                row = plus(row, scaled(row[place], one))
        return row

    def holds(self, row):
        return not any(self.left_of(row)[: self.width])

    def and_row(self, row):
        row = self.left_of(row)
        for place in range(self.width):
            if row[place]:
                return Span(self.width, (*self.kept, (place, scaled(INVERSE[row[place]], row))))
        return self

    def rank(self):
        return len(self.kept)


@cache
def span_of(code, known):
    """The span of the rows of these fragments."""
    rows = generator(code)
    if not known:
        return Span(len(rows[0]))
    last = known.bit_length() - 1
    return span_of(code, known & ~(1 << last)).and_row(rows[last])


def is_decodable(code, missing):
    """What is not missing determines all: its rank is the number of data fragments."""
    return span_of(code, code.all & ~missing).rank() == len(generator(code)[0])


def determines(code, known, fragment):
    """The known fragments determine this one."""
    return span_of(code, known).holds(generator(code)[fragment])


# Recipes.


@cache
def read_for(code, missing, fragment):
    """The fewest fragments that determine this one, none of them missing, in rising order; of several such lists the first. None
    where what is not missing does not determine it."""
    missing |= 1 << fragment
    if not determines(code, code.all & ~missing, fragment):
        return None
    others = [read_for(code, missing | 1 << more, fragment) for more in members(code.all & ~missing)]
    fewer = [sources for sources in others if sources is not None]
    return min(fewer, key=lambda sources: (len(sources), sources), default=list(members(code.all & ~missing)))


def recipe(code, missing, fragment):
    """The coefficient of each fragment that is read to rebuild this one, by fragment number, or None."""
    sources = read_for(code, missing, fragment)
    if sources is None:
        return None
    rows = generator(code)
    width = len(rows[0])
    span = Span(width)
    for source in sources:
        # (behind the row, a place for each fragment tells what the row was made of)
        span = span.and_row(rows[source] + bytes(other == source for other in code.fragments))
    made = span.left_of(rows[fragment] + bytes(len(rows)))[width:]
    return {source: made[source] for source in sources}
