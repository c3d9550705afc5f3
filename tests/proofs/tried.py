"""Runs the tests of each crate that has some, by `rt try --test`: it compiles them with checks, and proves nothing.

Usage: tests/proofs/tried [NAME..], by default every crate with a #[test] function. The last line is 'N passed, M failed'."""
import re
import subprocess
import sys

from tests import harness
from tests.harness import TOP
from tests.proofs import clauses

RESULT = re.compile(r"^test result: \w+\. (\d+) passed; (\d+) failed", re.MULTILINE)


def has_tests(crate):
    return any("#[test]" in clauses.text_of(path) for path in clauses.files_below(f"{TOP}/crates/{crate}/src", ".rt"))


def main(names):
    count = harness.Count()
    for crate in names or filter(has_tests, clauses.crates()):
        how = {"cwd": f"{TOP}/crates/{crate}", "stdin": subprocess.DEVNULL, "stdout": subprocess.PIPE, "stderr": subprocess.STDOUT}
        ran = subprocess.run(["rt", "try", "--test"], text=True, errors="replace", **how)
        found = RESULT.search(ran.stdout)
        passed, failed = map(int, found.groups()) if found else (0, 0)
        print(f"{crate}: {passed} tests passed", flush=True)
        is_well = passed and not failed and not ran.returncode
        count.add(passed, [] if is_well else [f"the tests of {crate}: {ran.stdout[-2000:]}"])
    return count.report()


if __name__ == "__main__":
    sys.exit(main(sys.argv[1:]))
