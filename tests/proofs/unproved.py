"""Compiles the program without any proof, and keeps it.

Usage: tests/proofs/unproved CRATE FILE    keeps the program of a crate as FILE

`rt try` compiles a program with checks, runs it and removes it. So this runs it on an input that takes some seconds, and
links the file that it runs to FILE meanwhile. The program stops where a check fails: an index out of its range, a sum that
wraps, a bad access. It is slower than a proved one, and it is not what a store should run."""
import glob
import os
import subprocess
import sys
import tempfile
import time

from tests import harness
from tests.harness import TOP


def main(crate, file):
    bundle = harness.example("place_one_stripe") + b"drop 1\nplace 1\n" * 20_000
    with tempfile.TemporaryDirectory(dir=os.path.dirname(os.path.abspath(file))) as room, tempfile.TemporaryFile() as given:
        given.write(bundle)
        given.seek(0)
        how = {"cwd": f"{TOP}/crates/{crate}", "env": {**os.environ, "TMPDIR": room}, "stdout": subprocess.DEVNULL}
        with subprocess.Popen(["rt", "try", "--", "run"], stdin=given, stderr=subprocess.PIPE, **how) as run:
            # (where its standard output is, the program is whole and runs)
            while run.poll() is None and not (found := glob.glob(f"{room}/*/*/stdout")):
                time.sleep(0.01)
            if found:
                os.link(f"{os.path.dirname(found[0])}/program", file)
                run.terminate()
            said = run.communicate()[1].decode(errors="replace")
    if not found:
        print(said[-2000:], "tests/proofs/unproved: rt try has run no program", sep="\n", file=sys.stderr)
        return 1
    return 0


if __name__ == "__main__":
    sys.exit(main(*sys.argv[1:]))
