"""What a recipe has to be, by docs/RULES.md, over the rows of tests/model/field.py: any program's recipe, whichever it chose."""
from tests.model import field


def sum_of(rows, coefficients, width):
    """The sum of rows of this width, each times its coefficient."""
    total = bytes(width)
    for number, coefficient in coefficients.items():
        total = field.plus(total, field.scaled(coefficient, rows[number]))
    return total


def group_of(code, fragment):
    """The others of the fragment's local group, as a set; None for a global parity."""
    return next((of_class & ~(1 << fragment) for of_class in code.classes[:2] if of_class >> fragment & 1), None)


def is_known(code, missing, fragment):
    """Whether what is not missing determines a fragment of the code."""
    return not missing >> fragment & 1 or field.determines(code, code.all & ~missing, fragment)


def fault_of(code, missing, fragment, sources):
    """What is wrong with a recipe, which is the coefficients of the fragments that it reads; None if nothing is."""
    if not missing >> fragment & 1:
        return None if sources == {fragment: 1} else "what is not missing is copied"
    if any(not code.all >> source & 1 or missing >> source & 1 for source in sources):
        return "it reads what is not there"
    rows = field.generator(code)
    group = group_of(code, fragment)
    if group is not None and not group & missing:
        return None if sources == {source: 1 for source in code.fragments if group >> source & 1} else "it is not its group"
    if len(sources) != len(rows[0]):
        return f"it reads {len(sources)}"
    return None if sum_of(rows, sources, len(rows[0])) == rows[fragment] else "it gives another fragment"
