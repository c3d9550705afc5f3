"""Compares what docs/RULES.md and docs/FORMATS.md show of the bytes of a stripe, and what `lrcman recipe` and `lrcman matrix` print,
with the model in tests/model/field.py.

Usage: tests/program/matrices [PROGRAM], by default the program that `rt ci` or `rt run` has built in crates/lrcman.

- The generator matrices and recipes of RULES, and each output that FORMATS shows.
- Each set of each code can be decoded exactly if tests/model/rules.py calls it recoverable, and what else is determined is told too.
- Both matrices as the program prints them; the recipe of every fragment for some sets; for one of eleven of all recoverable
  sets, the recipe of one of its fragments, in turn; and each refusal.

The last line is 'N passed, M failed'."""
import itertools
import re
import subprocess
import sys
from concurrent.futures import ThreadPoolExecutor

from tests import harness
from tests.model.field import determines, generator, is_decodable, recipe
from tests.model.rules import NARROW, WIDE, is_recoverable, members

SIX = {WIDE: "", NARROW: "6"}  # the end of a word of the command line
NAMED = {code.name: code for code in SIX}
EACH = 11
MASK = re.compile("[0-9a-fA-F]{4}")
NUMBER = re.compile("0|[1-9][0-9]*")

# Sets of a stripe of either code, of which every fragment is asked for.
SETS = {WIDE: "0000 0001 0041 1000 0003 0820 3000 c000 0047 0fc0 4001 c041 d001 000f c003 ffff".split(),
        NARROW: "0001 0009 00c0 0041 0300 0007 0309 0180 0047 03ff".split()}

NO_MASKS = ["", "-", "3", "003", "00003", "0x03", "+003", " 003", "003 ", "000g", "00_3", "003\n", "\u00e903", "x y"]
NO_FRAGMENTS = ["", "-", "16", "17", "99", "100", "00", "01", "+1", " 1", "1 ", "1\n", "0x1", "1.0", "a", "\u0663", "1_0", "18446744073709551616"]


# What is told.


def table_of(coefficients):
    return "".join(f"{source},{coefficient}\n" for source, coefficient in [("source", "coefficient"), *coefficients.items()])


def matrix_of(code):
    return "".join(row.hex(" ") + "\n" for row in generator(code))


def refusal(words, place):
    return 2, "", f"lrcman: {words}: {place}\n"


def answer(code, mask, word):
    """The status, the output and the line of standard error for a word for a set and one for a fragment."""
    if not MASK.fullmatch(mask) or int(mask, 16) & ~code.all:
        return refusal("this is no set of fragments of the code", "mask")
    if not NUMBER.fullmatch(word) or int(word) not in code.fragments:
        return refusal("the code has no such fragment", "fragment")
    missing, fragment = int(mask, 16), int(word)
    if not missing >> fragment & 1:
        return refusal("the fragment is not missing, so it is its own source", f"fragment {fragment}")
    coefficients = recipe(code, missing, fragment)
    if coefficients is None:
        return refusal("what is not missing does not determine the fragment", f"fragment {fragment}")
    return 0, table_of(coefficients), ""


def answer_to(words):
    """The same for a command line, of which the first word is one of the four."""
    code = NARROW if words[0].endswith("6") else WIDE
    return (0, matrix_of(code), "") if words[0].startswith("matrix") else answer(code, *words[1:])


# The pages.

SHOWN = re.compile(r"recipe for a (wide|narrow) stripe that misses ([0-9, and]+): (\d+) = ((?:\d+\*\d+(?: \+ )?)+)")
OUTPUT = re.compile(r"^    lrcman ((?:recipe|matrix).*)\n((?:    .+\n)+)", re.MULTILINE)
REFUSAL = re.compile(r"^\| `(lrcman: .*)` \| `(recipe.*)` \|", re.MULTILINE)


def compare_matrices(count, page):
    """The rows of the parities, each behind the number of its fragment, below the numbers of the data fragments."""
    for code in (WIDE, NARROW):
        rows = generator(code)
        width = len(rows[0])
        table = re.search(rf"^\| {code.name.capitalize()} (\| \d+ )+\|\n\|[-|]+\n((\| \d+ )+\|\n)+", page, re.MULTILINE)
        shown = [re.findall(r"\d+", line) for line in table[0].splitlines() if "-" not in line] if table else []
        wanted = [list(range(width)), *([fragment, *rows[fragment]] for fragment in range(width, len(rows)))]
        count.check(f"the matrix of the {code.name} code is {shown}", shown == [list(map(str, row)) for row in wanted])


def compare_recipes(count, page):
    shown = SHOWN.findall(" ".join(page.split()))
    count.check(f"it shows {len(shown)} recipes", shown)
    for name, missing, fragment, terms in shown:
        lost = sum(1 << int(number) for number in re.findall(r"\d+", missing))
        told = {int(source): int(coefficient) for coefficient, source in re.findall(r"(\d+)\*(\d+)", terms)}
        count.check(f"the recipe for {fragment} is {terms}", told == recipe(NAMED[name], lost, int(fragment)))


def compare_sets(count):
    """Each set can be decoded exactly if it is recoverable. Else a missing fragment is determined exactly if no other member of
    its group is missing."""
    for code in (WIDE, NARROW):
        wrong = []
        for missing in range(code.all + 1):
            is_right = is_decodable(code, missing) == is_recoverable(code, missing)
            if is_right and not is_recoverable(code, missing):
                known = code.all & ~missing
                alone = [lost for lost in (missing & group for group in code.classes[:2]) if lost.bit_count() == 1]
                is_right = all(determines(code, known, lost) == (1 << lost in alone) for lost in members(missing))
            if not is_right:
                wrong.append(f"the {code.name} code with the set {missing:04x}")
        count.add(code.all + 1 - len(wrong), wrong)


def compare_outputs(count, page):
    """Each output that the page shows, and each line of standard error, stands beside its command line."""
    outputs, lines = OUTPUT.findall(page), REFUSAL.findall(page)
    count.check(f"it shows {len(outputs)} outputs and {len(lines)} refusals", outputs and lines)
    for words, shown in outputs:
        count.check(f"the output of {words}", answer_to(words.split())[:2] == (0, re.sub("^    ", "", shown, flags=re.MULTILINE)))
    for line, words in lines:
        count.check(f"the refusal of {words}: {line}", answer_to(words.split()) == (2, "", line + "\n"))


# The program.


def questions():
    """The command lines, without a word of their own for `--`."""
    for code, six in SIX.items():
        yield [f"matrix{six}"]
        for mask in SETS[code]:
            for fragment in [*code.fragments, len(code.fragments)]:
                yield [f"recipe{six}", mask, str(fragment)]
        yield from ([f"recipe{six}", mask, word] for mask in NO_MASKS for word in ("0", "x"))
        yield from ([f"recipe{six}", "0003", word] for word in NO_FRAGMENTS)
    yield from (["recipe6", mask, "0"] for mask in ("0400", "8001", "FFFF"))
    yield ["recipe", "C003", "15"]
    recoverable = [(code, missing) for code in SIX for missing in range(1, code.all + 1) if is_recoverable(code, missing)]
    for turn, (code, missing) in enumerate(itertools.islice(recoverable, 0, None, EACH)):
        lost = list(members(missing))
        yield [f"recipe{SIX[code]}", f"{missing:04x}", str(lost[turn % len(lost)])]


def compare_program(count, program):
    def ran(words):
        done = subprocess.run([program, *words], capture_output=True, timeout=60)
        return done.returncode, done.stdout.decode(), done.stderr.decode()

    asked = list(questions())
    # (behind `--` a word that begins with a hyphen is no option)
    asked += [["recipe", "--", mask, word] for mask, word in (("0003", "0"), ("-001", "0"), ("0003", "-1"))]
    with ThreadPoolExecutor() as pool:
        for words, told in zip(asked, pool.map(ran, asked)):
            count.check(f"lrcman {words}: {told}", told == answer_to([word for word in words if word != "--"]))


def main():
    program = harness.program_of(sys.argv[1:])
    count = harness.Count()
    rules, formats = (harness.read(f"{harness.TOP}/docs/{name}.md").decode() for name in ("RULES", "FORMATS"))
    compare_matrices(count, rules)
    compare_recipes(count, rules)
    compare_outputs(count, formats)
    compare_sets(count)
    compare_program(count, program)
    return count.report()


if __name__ == "__main__":
    sys.exit(main())
