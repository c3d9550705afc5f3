"""How many stripes are lost where fragments fail and are repaired independently, without simulation.

A state is the number of missing fragments of each group and of the global ones. Each fragment that is there fails at the
rate 1 / lifetime, each missing one comes back at the rate 1 / repair, and a stripe that is lost begins anew, whole. So a
stripe is lost once in the mean time from the whole state to a lost one, which linear equations give exactly."""
from fractions import Fraction
from itertools import combinations, product

HOURS_A_YEAR = 8766
# The fragments of group A, of group B, and the global ones.
SIZES = {"wide": (7, 7, 2), "narrow": (4, 4, 2)}


def is_recoverable(missing):
    """Each group rebuilds one of its own fragments, and the two global ones any two more."""
    a, b, other = missing
    return max(a - 1, 0) + max(b - 1, 0) + other <= 2


def lost_fours(code):
    """The number of sets of four missing fragments that are not recoverable."""
    group_of = [group for group, size in enumerate(SIZES[code]) for _ in range(size)]
    return sum(not is_recoverable([four.count(group) for group in range(3)]) for four in combinations(group_of, 4))


def moved(state, group, step):
    return tuple(missing + step * (at == group) for at, missing in enumerate(state))


def hours_to_loss(code, lifetime, repair):
    """The mean time from the whole state to a lost one, in hours, as a fraction."""
    sizes = SIZES[code]
    states = [state for state in product(*(range(size + 1) for size in sizes)) if is_recoverable(state)]
    at = {state: row for row, state in enumerate(states)}
    fails, returns = 1 / Fraction(lifetime), 1 / Fraction(repair)
    # Each row says: the rate of leaving a state, times its mean time, less each next state's share, is 1.
    rows = [[Fraction(0)] * len(states) + [Fraction(1)] for _ in states]
    for state, row in zip(states, rows):
        for group, size in enumerate(sizes):
            for rate, step in ((fails * (size - state[group]), 1), (returns * state[group], -1)):
                row[at[state]] += rate
                after = moved(state, group, step)
                if rate and after in at:
                    row[at[after]] -= rate
    for column, pivot in enumerate(rows):
        rows[column] = pivot = [number / pivot[column] for number in pivot]
        for other in rows[column + 1:]:
            if share := other[column]:
                other[:] = [number - share * above for number, above in zip(other, pivot)]
    times = [Fraction(0)] * len(states)
    for row in reversed(range(len(states))):
        times[row] = rows[row][-1] - sum(rows[row][column] * times[column] for column in range(row + 1, len(states)))
    return times[at[0, 0, 0]]


def by_chain(code, lifetime, repair):
    """The losses a year of one stripe."""
    return float(HOURS_A_YEAR / hours_to_loss(code, lifetime, repair))


def by_first_order(code, lifetime, repair):
    """The same, where a repair is far shorter than a lifetime: three fragments of a lost four are missing, each with the
    probability repair / lifetime, and any one of the four is the last to fail."""
    return HOURS_A_YEAR * lost_fours(code) * 4 / lifetime * (repair / lifetime) ** 3
