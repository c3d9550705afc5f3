"""Tests which parts `./run-tests --changed` chooses, and the table of parts.

Usage: tests/parts/choice

- Rows of files that change, and the parts that run and that wait for a proof, written by hand.
- Each file of the repository is looked at by some part that does not look at everything, or stands in the table with the reason.
- Each path and pattern of the table fits a file that is there; each command is there; no two parts have one name.
The last line is 'N passed, M failed'."""
import os
import sys

from tests import harness
from tests.harness import TOP
from tests.parts import parts

EACH = "house choice lists"  # each change runs these
QUICK = "compare sweep pictures replay show recipes takeover balance"  # parts over the program that have a quick form
FULL = "sweep replay show limits packages bench budget tables"  # those over the program that a proved one is wanted for
LIBRARY = "limits embed views bytes beside stores service cluster packages"
ROWS = [
    # Pages.
    ("README.md", "believe compare", ""),
    ("docs/RULES.md", "compare", ""),
    ("docs/OPERATING.md", "compare recipes takeover balance service", ""),
    ("docs/SERVICE.md", "service", ""),
    ("docs/FORMATS.md", "compare show recipes service", ""),
    ("docs/SPEED.md", "", ""),
    ("docs/SPEED.md docs/EMBEDDING.md", "embed stores", ""),
    # Tests, and what they import.
    ("tests/program/recipes", "recipes", ""),
    ("tests/program/show.py", "show", ""),
    ("tests/model/rules.py", "sweep growth pictures replay show recipes takeover balance compare limits embed views bytes beside stores service cluster packages bench budget tables edits believe tried", ""),
    ("tests/model/draws.py", "replay show recipes pictures balance views beside stores service cluster bench budget", ""),
    ("tests/program/calls.c", "sweep growth", ""),
    ("tests/library/restarts.py", "beside", ""),
    ("tests/stores/store_sqlite.py", "stores", ""),
    ("tests/proofs/kit.py", "edits", ""),
    ("tools/tables.py", "pictures recipes takeover balance cluster service packages", ""),
    ("tools/balance", "recipes balance cluster service packages", ""),
    ("bench/budget", "budget", ""),
    ("bench/kinds.py", "bench budget", ""),
    ("bench/show.py", "tables", ""),
    ("tests/service/limits.py", "service", ""),
    ("run-tests", "", ""),
    # Examples.
    ("examples/rules/place_and_fail.bundle", "compare replay show", ""),
    ("examples/embed/lrc_embed.py", "limits embed views bytes beside stores packages", ""),
    ("examples/stores/threads/main.c", "stores", ""),
    ("examples/cluster/gateway.go", "cluster", ""),
    # The service.
    ("service/internal/replica/gather.go", "service", ""),
    ("service/client/client.go", "service cluster", ""),
    ("service/book/bytes.go", "embed service packages", ""),
    # Crates: what only the program stands on, what both stand on, what neither does, and the tests of crates.
    ("crates/lrc_outputs/src/play.rt", f"edits believe {QUICK}", f"proofs {FULL}"),
    ("crates/lrc_show/src/status.rt", f"edits believe {QUICK}", f"proofs {FULL} {LIBRARY}"),
    ("crates/lrc_walks/src/lib.rt", "edits believe", f"proofs {LIBRARY}"),
    ("crates/lrc_store/src/decide.rt", f"edits believe tried {QUICK}", f"proofs growth {FULL} {LIBRARY}"),
    ("crates/lrc_durability/src/laws.rt", "edits believe", "proofs"),
    ("crates/lrc_tests/src/code.rt", "edits believe tried", "proofs"),
    ("crates/probes/src/main.rt", "edits believe", "proofs growth"),
    ("crates/lrc_embed/include/lrc_embed.h", "edits embed views bytes stores service cluster packages", ""),
    # What no compiler reads.
    ("crates/lrc_rules/specs/Steps.antt", "edits believe", "proofs"),
    ("crates/lrc_rules/proofs/ChangesLemmas.antt", "edits", "proofs"),
    ("crates/lrc_rules/more-edits/verdicts", "edits", ""),
    ("crates/lrc_rules/must-fail/a_new_one.edit", "edits", "proofs"),
    ("crates/lrcman/stdout", "edits", "proofs"),
    # Together.
    ("crates/lrc_show/src/status.rt tests/program/show docs/SPEED.md", f"edits believe {QUICK}", "proofs sweep replay limits packages bench budget tables embed views bytes beside stores service cluster"),
    # What no part looks at.
    (".gitignore", "", ""),
]
# Crates of which `tried` runs the tests, for a changed file.
TRIED = [
    ("crates/lrc_store/src/decide.rt", ["lrc_tests"]),
    ("crates/lrc_samples/src/lib.rt", ["lrc_tests"]),
]
NEAREST = [("sho", "show"), ("tests/program/show", "show"), ("swep", "sweep"), ("store", "stores"), ("recipe", "recipes")]


def test_choice(count):
    for paths, now, later in ROWS:
        choice = parts.choose(paths.split())
        ran, waits = ({it.part.name for it in choice.now}, {it.name for it in choice.later})
        wanted = {*now.split(), *EACH.split()}
        count.check(f"{paths}: run {sorted(ran)}, and not {sorted(wanted)}", ran == wanted)
        count.check(f"{paths}: later {sorted(waits)}, and not {sorted(later.split())}", waits == set(later.split()))
    for path, crates in TRIED:
        commands = {it.part.name: it.command for it in parts.choose([path]).now}
        count.check(f"{path}: {commands.get('tried')}", commands.get("tried") == " ".join(["tests/proofs/tried", *crates]))
    for word, name in NEAREST:
        count.check(f"the part nearest to {word} is {parts.nearest(word)}, and not {name}", parts.nearest(word) == name)


def test_commands(count):
    """What looks at a changed file runs whole, what only stands on a changed crate runs quickly."""
    for path, command in (
        ("tests/program/show.py", "tests/program/show PROGRAM"),
        ("crates/lrc_show/src/status.rt", "tests/program/show --quick PROGRAM"),
        ("tests/proofs/tried.py", "tests/proofs/tried"),
    ):
        commands = [it.command for it in parts.choose([path]).now]
        count.check(f"{path}: {commands}", command in commands)


def test_files(count):
    """No file is forgotten, and none that is gone is named."""
    table, unseen = parts.parts().values(), []
    for path in parts.files():
        is_seen, why = any(parts.looks_at(part, path) for part in table), parts.why_apart(path)
        unseen += [] if is_seen else [path]
        count.check(f"{path}: no part looks at it, by tests/parts/parts.toml", is_seen or why)
        count.check(f"{path}: a part looks at it, and [apart] of tests/parts/parts.toml has it too", not is_seen or not why)
    for pattern in parts.table()["apart"]:
        count.check(f"[apart] of tests/parts/parts.toml has {pattern}, which no file fits", any(map(parts.is_like(pattern), unseen)))


def test_table(count):
    """What the table names is there, once."""
    table = parts.parts().values()
    for part in table:
        for pattern in part.looks:
            count.check(f"{part.name} looks at {pattern}, which no file fits", any(map(parts.is_like(pattern), parts.files())))
        for command in filter(None, (part.run, part.quick)):
            word = command.split()[0]
            count.check(f"{part.name} runs {word}, which is not there", word == "rt" or os.access(f"{TOP}/{word}", os.X_OK))
    count.check("two parts of tests/parts/parts.toml have one name", len(table) == len(parts.table()["part"]))


def main():
    count = harness.Count()
    test_choice(count)
    test_commands(count)
    test_files(count)
    test_table(count)
    return count.report()


if __name__ == "__main__":
    sys.exit(main())
