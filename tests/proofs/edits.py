"""Tries the wrong bodies of crates, each of which the prover has to refuse, and keeps what it said of them.

Usage: tests/proofs/edits [NAME..]     tries the edits of these crates, by default of all: some checks of each crate
       tests/proofs/edits --stale      tries those of which --check says that they are to be tried again
       tests/proofs/edits --check      proves nothing, and takes seconds

An edit is a file crates/NAME/must-fail/*.edit or crates/NAME/more-edits/*.edit. `rt ci` tries those of must-fail at each
run. All others are tried by this script when what they are tried over has changed. It checks a copy of the crate over the
libraries below it that `rt ci`, `rt lib` or `rt check` left in out/. One that is not of the present sources is built first, by
`rt lib`, and a line says so. The crate is proved once as it stands, and over what that check keeps with several edits at a
time, no two in functions of one name: a function is proved from the contracts of others and not from their bodies, so each
edit is refused where it stands. What is not refused so is tried again without those that were, or by halves, and at last
alone, as is an edit outside a function.

What the prover said is kept in crates/NAME/more-edits/verdicts. Its first lines are four sums:
  statements  the public clauses and types of the crate, and all that stands in its specs/
  below       the definitions and types of the crates below that these name, and what those name in turn, as the imports of each
              file tell; not what only bodies and proofs there reach: definitions of files marked as internal, invariants of
              types, and how the model of a type is made of its fields
  sources     its folder src/, whole
  proofs      its folder proofs/, whole
A line for each edit follows: its name, a sum of its text, the verdict, and the goal that was open or the file that was
refused. The verdict is one of
  clause      a clause, an invariant or a law does not hold with it
  safety      something would go out of its range, or not end
  name        only a proof file is wrong, which names what the edit took away: that says little
  proved      the crate is still proved with it
  unread      it can't be applied or read, or the prover stopped at a limit of its own
The first two are what an edit is there for. --check fails where an edit can't be applied, where it has another verdict or
none, and where the statements or what they name below have changed since it was tried. Where only sources or proofs have
changed it says so and passes: a body that still meets the same clauses makes no wrong body right.

The last line is 'N passed, M failed'."""
import concurrent.futures
import functools
import hashlib
import os
import re
import shutil
import subprocess
import sys
import tempfile

from tests import harness
from tests.harness import TOP
from tests.proofs import clauses, kit

GOAL = re.compile(r"(?:error: |\()`([\w-]+)")
# Goals that a body owes whatever its contract says; a `requires` of std is one of them.
SAFETY = re.compile(r"overflow|bounds|index|slice|unwrap|expect|unreachable|divide|remainder|shift|cast|measure|decreases|prove")
# A proof file that names what an edit took away.
NAMES = re.compile(r"proofs/.*(has no field|is not in scope|has no `|which was (rejected|not admitted))")
# A text that the prover can't read, in a file that an edit may have changed.
UNREAD = re.compile(r"(?:src|specs)/\S+: error: (?!`).*(is not in scope|has no field|is no name|operand is missing|expected the end|cannot continue)")
FUNCTION = re.compile(r"(\s*)(?:pub(?:\(\w+\))? )?(?:const |unsafe |extern \"C\" )*fn (\w+)")
REFUSED = ("clause", "safety")


# Edits.


class Edit:
    """A wrong body: what it replaces, and the function in which it does, if it is one function."""

    def __init__(self, crate, path):
        self.folder = f"{TOP}/crates/{crate}"
        self.name = os.path.basename(path).removesuffix(".edit")
        self.sum = hashlib.sha256(harness.read(path)).hexdigest()[:12]
        self.pairs, file = [], ""
        for line in clauses.text_of(path).splitlines():
            if line.startswith("file: "):
                file = line[6:].strip()
            elif line.startswith("old: "):
                self.pairs.append([file, line[5:], ""])
            elif line.startswith("new:") and self.pairs:
                self.pairs[-1][2] = line[4:].removeprefix(" ")

    def fault(self):
        """Why it can't be applied, or None."""
        texts = {}
        for file, old, new in self.pairs:
            path = f"{self.folder}/{file}"
            if not os.path.isfile(path):
                return f"there is no {file}"
            text = texts.get(file) or clauses.text_of(path)
            if text.count(old) != 1:
                return f"what it replaces stands {text.count(old)} times in {os.path.relpath(path, TOP)}: {old}"
            texts[file] = text.replace(old, new)
        return None if texts else "it replaces nothing"

    @functools.cached_property
    def place(self):
        """The file, and the name and the first and last line of the function, or None."""
        # (a later pair may replace what an earlier one has made)
        places = {function_around(self.folder, file, old) for file, old, _ in self.pairs}
        return places.pop() if len(places) == 1 and not self.fault() else None

    def owns(self, line):
        """Whether a line of a check is told of the function of this edit."""
        file, name, begin, end = self.place
        inside = re.match(rf"(?:note: )?(?:\./)?{re.escape(file)}:(\d+):", line)
        if inside:
            return begin <= int(inside[1]) <= end
        return bool(re.match(rf"(?:note: )?(?:\./)?proofs/(?:\S+/)?{name}/\w+\.antt:\d+:", line))


def edits_of(crate):
    """The edits of a crate, in the order of their names."""
    folders = [f"{TOP}/crates/{crate}/{it}" for it in ("must-fail", "more-edits")]
    found = [Edit(crate, path) for folder in folders for path in clauses.files_below(folder, ".edit")]
    if len({it.name for it in found}) < len(found):
        harness.stop(f"crates/{crate} has two edits of one name")
    return sorted(found, key=lambda it: it.name)


def function_around(folder, file, old):
    """The file, and the name and the first and last line of the function in which a text stands, or None."""
    text = clauses.text_of(f"{folder}/{file}") if file.endswith(".rt") and os.path.isfile(f"{folder}/{file}") else ""
    if text.count(old) != 1:
        return None
    lines, at = text.split("\n"), text[: text.index(old)].count("\n")
    heads = ((n, FUNCTION.match(lines[n])) for n in range(at, -1, -1))
    begin, head = next(((n, head) for n, head in heads if head), (0, None))
    # (its comments and attributes are its own)
    while begin and lines[begin - 1].lstrip().startswith(("///", "#[")):
        begin -= 1
    end = next((n for n in range(begin, len(lines)) if head and lines[n] == f"{head[1]}}}"), -1)
    return (file, head[2], begin + 1, end + 1) if at <= end else None


# The record of a crate.


def record_of(crate):
    """The sums and the verdicts that are kept for a crate: each verdict with the sum of its edit, by name."""
    sums, verdicts = {}, {}
    path = f"{TOP}/crates/{crate}/more-edits/verdicts"
    for line in clauses.text_of(path).splitlines() if os.path.isfile(path) else []:
        words = line.split()
        if len(words) == 2:
            sums[words[0]] = words[1]
        elif len(words) == 4:
            verdicts[words[0]] = words[1:]
    return sums, verdicts


def keep(crate, sums, verdicts):
    folder = f"{TOP}/crates/{crate}/more-edits"
    os.makedirs(folder, exist_ok=True)
    lines = [f"{part} {sum}" for part, sum in sums.items()]
    lines += [" ".join([name, *verdicts[name]]) for name in sorted(verdicts)]
    write(f"{folder}/verdicts", "".join(f"{line}\n" for line in lines))


# Trying.


def batches_of(edits):
    """Parts edits into batches, in each of which no two are in functions of one name."""
    batches = []
    for edit in edits:
        fitting = next((it for it in batches if edit.place[1] not in {other.place[1] for other in it}), None)
        if fitting is None:
            batches.append(fitting := [])
        fitting.append(edit)
    return batches


def lay_out(folder, crate):
    """Makes a repository of a crate and of the libraries below it as they are built, with what checks of the crate kept."""
    names = [*clauses.crates_below(crate), crate]
    with open(f"{folder}/crates.txt", "w", encoding="utf-8") as file:
        lines = clauses.text_of(f"{TOP}/crates.txt").splitlines(keepends=True)
        file.writelines(line for line in lines if re.split(r"[\s:]", line)[0] in names)
    for name in names:
        for part in ("src", "specs", "proofs"):
            if os.path.isdir(f"{TOP}/crates/{name}/{part}"):
                shutil.copytree(f"{TOP}/crates/{name}/{part}", f"{folder}/crates/{name}/{part}")
        # (a link will do for what is only read; a build makes new files)
        part, copy = ("rlib", link_or_copy) if name != crate else ("incremental", shutil.copy2)
        if os.path.isdir(f"{TOP}/crates/{name}/out/{part}"):
            shutil.copytree(f"{TOP}/crates/{name}/out/{part}", f"{folder}/crates/{name}/out/{part}", copy_function=copy)
    return kit.crates(folder)[crate]


def link_or_copy(source, to):
    try:
        os.link(source, to)
    except OSError:
        shutil.copy2(source, to)


def check_with(crate, edits):
    """Checks a crate with these edits, and returns the lines that the check prints."""
    texts = {}
    for file, old, new in (pair for edit in edits for pair in edit.pairs):
        text = clauses.text_of(f"{crate.folder}/{file}")
        texts.setdefault(file, text)
        write(f"{crate.folder}/{file}", text.replace(old, new))
    how = {"stdin": subprocess.DEVNULL, "stdout": subprocess.PIPE, "stderr": subprocess.STDOUT, "text": True, "errors": "replace"}
    lines = subprocess.run(kit.words_of_check(crate), cwd=crate.folder, **how).stdout.splitlines()
    for file, text in texts.items():
        write(f"{crate.folder}/{file}", text)
    return lines


def write(path, text):
    with open(path, "w", encoding="utf-8") as file:
        file.write(text)


def is_proved(lines):
    return any(line.startswith("logic=proved") for line in lines)


def try_together(crate, edits):
    """The verdict on each of these edits, and the goal that tells it, by name; none on one of which nothing is told even alone."""
    found = told_of(edits, check_with(crate, edits))
    left = [it for it in edits if it.name not in found]
    if not left or len(edits) == 1:
        return found
    # (without those that were refused, or by halves, where one that can't be read keeps all from the prover)
    parts = [left] if found else [left[: len(left) // 2], left[len(left) // 2 :]]
    return functools.reduce(dict.__or__, (try_together(crate, part) for part in parts), found)


def told_of(edits, lines):
    """The verdict that a check with these edits tells of each, and its goal, by name."""
    is_alone = len(edits) == 1
    if is_alone and is_proved(lines):
        return {edits[0].name: ["proved", "-"]}
    if not any(line.startswith("logic=not-proved") for line in lines):
        return {}
    told = [line for line in lines if re.search(r"\.(rt|antt):\d+:\d+: ", line)]
    found = {it.name: verdict_in(told if is_alone else list(filter(it.owns, told))) for it in edits}
    return {name: verdict for name, verdict in found.items() if verdict and (is_alone or verdict[0] in REFUSED)}


def verdict_in(told):
    """The verdict that lines tell, and the goal or the file that they name first, or None."""
    told = [it for it in told if ": error" in it or it.startswith("note: ")]
    if any(UNREAD.search(it) for it in told):
        return ["unread", "-"]
    for line in told:
        goal, file = GOAL.search(line), re.search(r"((?:src|specs|proofs)/\S+?):\d", line)
        if not NAMES.search(line) and (goal or ": error" in line):
            name = goal[1] if goal else file[1]
            return ["safety" if SAFETY.match(name) else "clause", name]
    return ["name", "-"] if any(map(NAMES.search, told)) else None


def try_over(crate, edits):
    """The verdicts on these edits of a crate, by name, or None where the crate itself is not proved over these libraries."""
    changed = [it.name for it in crate.below() if not kit.is_built(it)]
    lines = [f"crates/{changed[0]} has changed since its library was looked at"] if changed else check_with(crate, [])
    if not is_proved(lines):
        said = next((it for it in lines if "error" in it), lines[-1] if lines else "nothing")
        print(f"crates/{crate.name} is not proved as it stands, so its edits tell nothing: {said}", flush=True)
        return None
    batches = [*batches_of([it for it in edits if it.place]), *([it] for it in edits if not it.place and not it.fault())]
    return functools.reduce(dict.__or__, (try_together(crate, batch) for batch in batches), {})


def try_edits(crate, is_whole):
    """Tries the edits of a crate, or those that are stale, keeps what was said, and returns the verdicts on all, or None."""
    sums, every = clauses.sums(crate), edits_of(crate)
    edits = every if is_whole else stale_edits(crate)
    with tempfile.TemporaryDirectory() as folder:
        found = try_over(lay_out(folder, crate), edits)
    if found is None:
        return None
    kept_sums, verdicts = record_of(crate)
    verdicts |= {it.name: [it.sum, *found.get(it.name, ["unread", "-"])] for it in edits}
    verdicts = {it.name: verdicts[it.name] for it in every}
    keep(crate, sums if len(edits) == len(every) else kept_sums, verdicts)
    for name, (_, verdict, told) in sorted(verdicts.items()):
        print(f"{crate}/{name}: {verdict} ({told})", flush=True)
    return verdicts


def build_below(names):
    """Proves and builds the libraries below crates that are not of the present sources: side by side, two runs would do so twice."""
    crates = kit.crates(TOP)
    for library in dict.fromkeys(it for name in names for it in clauses.crates_below(name)):
        if not kit.is_built(crates[library]):
            print(f"crates/{library} has no library of its present sources: rt lib builds it", flush=True)
            if not kit.build(crates[library]):
                harness.stop(f"crates/{library} is not proved, so nothing above it can be tried")


def try_all(names, is_whole):
    count = harness.Count()
    try:
        build_below(names)
    except ImportError as why:
        harness.stop(f"the toolchain lacks what tells how a crate is checked: {why}")
    lanes = int(os.environ.get("RT_JOBS") or len(os.sched_getaffinity(0)))
    longest_first = sorted(names, key=lambda it: -len(edits_of(it)))
    with concurrent.futures.ThreadPoolExecutor(lanes) as pool:
        tried = dict(zip(longest_first, pool.map(lambda it: try_edits(it, is_whole), longest_first)))
    for name in names:
        if tried[name] is None:
            count.check(f"{name} is not proved as it stands, so its edits were not tried", False)
            continue
        for edit, (_, verdict, told) in sorted(tried[name].items()):
            count.check(f"{name}/{edit} was not refused for what a clause says: {verdict} ({told})", verdict in REFUSED)
    return count.report()


# Checking.


def is_known(edit, verdicts):
    kept, verdict, _ = verdicts.get(edit.name, ["", "none", "-"])
    return kept == edit.sum and verdict in REFUSED


def stale_edits(crate):
    """The edits that are to be tried: all where a statement has another meaning now, else those that are not known to be refused."""
    (sums, verdicts), now = record_of(crate), clauses.sums(crate)
    is_same = all(sums.get(part) == now[part] for part in ("statements", "below"))
    return [it for it in edits_of(crate) if not is_same or not is_known(it, verdicts)]


def check(names):
    count, changed = harness.Count(), []
    for crate in names:
        sums, verdicts = record_of(crate)
        edits, now = edits_of(crate), clauses.sums(crate)
        for edit in edits:
            fault = edit.fault()
            count.check(f"{crate}/{edit.name} no longer applies: {fault}", not fault)
            count.check(f"{crate}/{edit.name} is not known to be refused: tests/proofs/edits {crate}", is_known(edit, verdicts))
        for part, what in (("statements", "a clause or a definition of it"), ("below", "a definition that its clauses name")):
            is_same = sums.get(part) == now[part]
            count.check(f"{crate}: {what} has changed since its edits were tried, so they are stale: tests/proofs/edits {crate}", is_same)
        if any(sums.get(part) != now[part] for part in ("sources", "proofs")):
            changed.append(f"{crate} ({len(edits)})")
    if changed:
        print(f"only bodies or proofs have changed since the edits of these crates were tried: {', '.join(changed)}")
    return count.report()


def main(words):
    every = [name for name in sorted(clauses.crates()) if edits_of(name)]
    if words == ["--check"]:
        return check(every)
    is_whole = words != ["--stale"]
    names = words or every if is_whole else list(filter(stale_edits, every))
    lacking = [it for it in names if it not in every]
    if lacking:
        harness.stop(f"crates/{lacking[0]} has no edit")
    return try_all(sorted(set(names)), is_whole)


if __name__ == "__main__":
    sys.exit(main(sys.argv[1:]))
