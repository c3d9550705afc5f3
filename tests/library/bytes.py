"""Compares the bytes of stripes that the library of crates/lrc_embed makes with a plain model, and with ISA-L.

Usage: tests/library/bytes [FOLDER] [SEED], where FOLDER has what examples/embed/build makes; by default it is built first. The bytes are
drawn from a seed, which is printed; by default it is that of the hour.

- Beside the model of tests/model/field.py: the generator matrices; for each of the 65,536 and 1,024 sets, and each fragment, whether it
  has a recipe; each recipe of a missing fragment; parities and rebuilt fragments of stripes of several lengths. A recipe with a
  coefficient changed, and one of another fragment, are found out.
- What docs/CODING.md asks of a worker, with a book: leases of lost nodes, of a drained one and of a damaged fragment, each with its
  recipe, the bytes that it gives, and the report.
- Beside ISA-L, where its header is (tests/library/bytes.c): parities and rebuilt fragments of many lengths, and each recipe of each set
  by its functions over 4,096 bytes. A changed coefficient is seen each time.

What is left out is printed. The last line is 'N passed, M failed'."""
import ctypes
import os
import random
import subprocess
import sys
import tempfile
import time

from tests import harness
from tests.harness import CC, EXAMPLES, TESTS, TOP
from tests.library.library import command_of, lrc_embed, text_of
from tests.model import field, recipe_rules
from tests.model.rules import NARROW, WIDE, is_recoverable, members

CODES = {WIDE: lrc_embed.Code.WIDE, NARROW: lrc_embed.Code.NARROW}
LENGTHS = (0, 1, 63, 64, 65, 1000)


def width_of(code):
    return len(field.generator(code)[0])


# Recipes.


def compare_matrices(count, library):
    for code, number in CODES.items():
        count.check(f"the {code.name} matrix", lrc_embed.matrix(library, number) == field.generator(code))


def recipes_of(library, code):
    """Each set of a code with the fragments that it misses and that have a recipe, and these."""
    for missing in range(1, code.all + 1):
        found = {fragment: lrc_embed.recipe_of(library, CODES[code], missing, fragment) for fragment in members(missing)}
        yield missing, {fragment: recipe.sources() for fragment, recipe in found.items() if recipe}


def compare_recipes(count, library, code):
    """Each recipe, and that there is no other. Returns how many sets can be decoded, and how many recipes read how many."""
    sets, reads = 0, {}
    for missing, found in recipes_of(library, code):
        wanted = [fragment for fragment in members(missing) if recipe_rules.is_known(code, missing, fragment)]
        faults = {fragment: recipe_rules.fault_of(code, missing, fragment, sources) for fragment, sources in found.items()}
        wrong = {fragment: fault for fragment, fault in faults.items() if fault}
        count.check(f"the {code.name} set {missing:04x}: {wrong}, recipes of {[*found]}", not wrong and [*found] == wanted)
        sets += [*found] == [*members(missing)]
        for sources in found.values():
            reads[len(sources)] = reads.get(len(sources), 0) + 1
    recoverable = sum(is_recoverable(code, missing) for missing in range(1, code.all + 1))
    count.check(f"the {code.name} code has {sets} sets that can be decoded", sets == recoverable)
    return sets, sum(reads.values()), *(reads.get(number, 0) for number in (3, 6, 12))


def compare_copies(count, library):
    """A fragment that is not missing is copied, whatever else is missing."""
    for code, number in CODES.items():
        for missing in range(0, code.all, 7):
            there = [fragment for fragment in code.fragments if not missing >> fragment & 1]
            found = [lrc_embed.recipe_of(library, number, missing, fragment).sources() for fragment in there]
            count.check(f"copies of the {code.name} set {missing:04x}", found == [{fragment: 1} for fragment in there])


def spoil_recipes(count, library, draws):
    """A recipe that is not the fragment's is found out."""
    for code, number in CODES.items():
        for missing in (0b11, 0b111, 0b1001001):
            sources = lrc_embed.recipe_of(library, number, missing, 0).sources()
            source = draws.choice([*sources])
            changed = sources | {source: sources[source] ^ draws.randint(1, 254)}
            changed = {source: coefficient for source, coefficient in changed.items() if coefficient}
            count.check("a changed coefficient is not seen", recipe_rules.fault_of(code, missing, 0, changed))
            count.check("another fragment's recipe is not seen", recipe_rules.fault_of(code, missing, 1, sources))


# Buffers.


def compare_stripes(count, library, draws):
    for code, number in CODES.items():
        width, rows = width_of(code), field.generator(code)
        for length in LENGTHS:
            data = [draws.randbytes(length) for _ in range(width)]
            wanted = [recipe_rules.sum_of(data, dict(enumerate(row)), length) for row in rows[width:]]
            count.check(f"{code.name} parities of {length}", lrc_embed.encode(library, number, data) == wanted)
            stripe = data + wanted
            for missing in (0b1, 0b11, 0b111, 1 << width, 0b101 << width):
                given = [None if missing >> fragment & 1 else stripe[fragment] for fragment in code.fragments]
                for fragment in members(missing):
                    found = lrc_embed.rebuild(library, lrc_embed.recipe_of(library, number, missing, fragment), given)
                    count.check(f"{code.name} fragment {fragment} of {missing:04x}, {length} bytes", found == stripe[fragment])


def status_of(call):
    """The status of a call that is not done."""
    try:
        call()
    except lrc_embed.Fault as fault:
        return fault.status
    return lrc_embed.Status.DONE


def compare_refusals(count, library):
    Status = lrc_embed.Status
    for code, number in CODES.items():
        data = [bytes(5)] * width_of(code)
        stripe, recipe = data + [bytes(5)] * 4, lrc_embed.recipe_of(library, number, 1, 0)
        source = next(iter(recipe.sources()))
        for name, wanted, call in (
            ("no data", Status.MISCOUNTED, lambda: lrc_embed.encode(library, number, data[1:])),
            ("a shorter one", Status.UNEVEN, lambda: lrc_embed.encode(library, number, [*data[1:], bytes(4)])),
            ("no fragments", Status.MISCOUNTED, lambda: lrc_embed.rebuild(library, recipe, stripe[1:])),
            ("a source that is absent", Status.UNEVEN,
             lambda: lrc_embed.rebuild(library, recipe, [None if f == source else it for f, it in enumerate(stripe)])),
        ):
            count.check(f"{code.name}: {name}: {status_of(call).name}", status_of(call) == wanted)
    other = lrc_embed.recipe_of(library, lrc_embed.Code.WIDE, 3, 0)
    other.code = lrc_embed.Code.NARROW
    found = status_of(lambda: lrc_embed.rebuild(library, other, [bytes(5)] * 10))
    count.check(f"a recipe of the other code: {found.name}", found == Status.OUT_OF_RANGE)


# A worker.


class Worker:
    """A worker over a book of two stripes, with the bytes of each home in a table by seat."""

    def __init__(self, count, book, library, draws):
        self.count, self.book, self.library, self.disk = count, book, library, {}
        self.stripes = {}
        for stripe, (code, word) in enumerate(((WIDE, "place"), (NARROW, "place6"))):
            self.call(f"{word} {stripe}")
            data = [draws.randbytes(90) for _ in range(width_of(code))]
            self.stripes[stripe] = code, data + lrc_embed.encode(library, CODES[code], data)
            for fragment, seat in enumerate(self.homes(stripe)):
                self.disk[seat] = self.stripes[stripe][1][fragment]

    def call(self, line):
        return self.book.call(1, command_of(line))

    def homes(self, stripe):
        code = self.stripes[stripe][0] if stripe in self.stripes else (WIDE, NARROW)[stripe]
        homes = self.book.homes(stripe).homes
        return [str(homes[fragment].seat) if homes[fragment].is_there else None for fragment in code.fragments]

    def rebuild(self, lease, recipe):
        """Reads what the recipe reads, writes what it gives to the target, and reports."""
        homes = self.homes(lease.stripe)
        given = [self.disk[home] if fragment in recipe.sources() else None for fragment, home in enumerate(homes)]
        self.disk[str(lease.target)] = lrc_embed.rebuild(self.library, recipe, given)
        reply = self.call(f"done {lease.stripe} {lease.fragment} {lease.epoch}")
        self.count.check(f"the report of fragment {lease.fragment}: {text_of(reply)}", reply.kind == lrc_embed.ReplyKind.ENDED)

    def work(self):
        """Takes leases until none is granted; returns the kinds of repair."""
        kinds = []
        while (reply := self.call("next")).kind == lrc_embed.ReplyKind.GRANTED:
            self.rebuild(reply.lease, self.book.recipe(reply.lease.stripe, reply.lease.fragment))
            kinds.append(lrc_embed.Repair(reply.repair).name)
        return kinds

    def compare(self, name):
        for stripe, (_, whole) in self.stripes.items():
            found = [self.disk.get(home) for home in self.homes(stripe)]
            self.count.check(f"{name}: the bytes of stripe {stripe}", found == whole)


def run_worker(count, library, draws):
    nodes = harness.topology_of(harness.nodes_in_order(30, 8))
    with lrc_embed.Book(library, nodes) as book:
        worker = Worker(count, book, library, draws)
        for node in (1, 2, 7):
            worker.call(f"fail {node}")
        kinds = worker.work()
        count.check(f"repairs of lost nodes: {kinds}", {"LOCAL", "GLOBAL"} <= {*kinds})
        worker.compare("after lost nodes")
        worker.call("drain 4")
        kinds = worker.work()
        count.check(f"repairs of a drained node: {kinds}", {*kinds} == {"MOVE"})
        worker.compare("after a drained node")
        repair_damaged(count, worker, stripe=0, fragment=8)


def repair_damaged(count, worker, stripe, fragment):
    """The way round for a damaged fragment on a node that is well."""
    home = worker.homes(stripe)[fragment]
    node = home.split(":")[0]
    worker.disk[home] = bytes(len(worker.disk[home]))
    replies = [worker.call(line) for line in (f"drain {node}", f"lease {stripe} {fragment}", f"undrain {node}")]
    lease = replies[1].lease
    count.check(f"the lease of a damaged fragment: {text_of(replies[1])}", replies[1].repair == lrc_embed.Repair.MOVE)
    count.check("it would be copied", worker.book.recipe(stripe, fragment).sources() == {fragment: 1})
    missing = worker.book.missing(stripe).value | 1 << fragment
    worker.rebuild(lease, lrc_embed.recipe_of(worker.library, CODES[worker.stripes[stripe][0]], missing, fragment))
    count.check("the home is another", worker.homes(stripe)[fragment] == str(lease.target) != home)
    worker.compare("after a damaged fragment")


# ISA-L.


def run_isal(count, room, seed, wanted):
    """What the program in C has found: the sets and the recipes of each code, and how many fragments these read."""
    program = f"{room}/bytes"
    include = f"{TOP}/crates/lrc_embed/include"
    words = [CC, "-std=c11", "-O2", "-Wall", "-Wextra", "-Werror", "-I", include, f"{TESTS}/library/bytes.c", f"{room}/liblrc_embed.a"]
    if count.run("building bytes.c", *words, "-lisal", "-o", program) is None:
        return
    said = count.run("bytes.c", program, str(seed), timeout=600)
    if said is not None:
        *lines, runs = [tuple(map(int, line.split())) for line in said.splitlines()]
        count.check(f"sets and recipes by ISA-L: {lines}, and not {wanted}", lines == wanted)
        print(f"by ISA-L: {sum(it[0] for it in lines)} sets, {sum(it[1] for it in lines)} recipes, {runs[0]} runs over buffers")
        count.add(sum(it[1] for it in lines) + runs[0], [])


def has_isal(room):
    with open(f"{room}/isal.c", "w", encoding="utf-8") as file:
        file.write("#include <isa-l.h>\nint main(void) { return 0; }\n")
    words = [CC, f"{room}/isal.c", "-lisal", "-o", f"{room}/isal"]
    return subprocess.run(words, capture_output=True).returncode == 0


def main(words):
    folder = next((word for word in words if not word.isdigit()), None)
    seed = next((int(word) for word in words if word.isdigit()), int(time.time()) // 3600)
    print(f"seed {seed}")
    count, draws = harness.Count(), random.Random(seed)
    with tempfile.TemporaryDirectory() as room:
        if folder is None and count.run("examples/embed/build", f"{EXAMPLES}/embed/build", room, timeout=7200) is None:
            return count.report()
        for name in ("liblrc_embed.a", "liblrc_embed.so"):
            if folder is not None:
                os.symlink(os.path.realpath(os.path.join(folder, name)), f"{room}/{name}")
        library = ctypes.CDLL(f"{room}/liblrc_embed.so")
        compare_matrices(count, library)
        found = [compare_recipes(count, library, code) for code in CODES]
        compare_copies(count, library)
        spoil_recipes(count, library, draws)
        compare_stripes(count, library, draws)
        compare_refusals(count, library)
        run_worker(count, library, draws)
        if has_isal(room):
            run_isal(count, room, seed, found)
        else:
            print("left out: ISA-L: there is no isa-l.h, or no library of it")
    return count.report()


if __name__ == "__main__":
    sys.exit(main(sys.argv[1:]))
