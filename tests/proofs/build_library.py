"""Builds the library of crates/lrc_embed over the crates that `rt ci` has just proved, so that nothing is proved twice.

Usage: tests/proofs/build_library SINCE FOLDER, where SINCE is a file that was made before that run began

`rt ci` builds libraries without the stamp by which `rt lib` finds that one is up to date. Where all libraries below
lrc_embed were built since then, they get that stamp here. Else, as after a run that failed, or with another kit,
examples/embed/build proves all of it once more."""
import os
import sys

from tests.harness import TOP
from tests.proofs import kit


def stamp(since):
    """Writes the stamps of the crates below lrc_embed, if all of them were built since then and none has one."""
    embed = kit.crates(TOP)["lrc_embed"]
    begun = os.path.getmtime(since)
    stamps = {f"{crate.folder}/out/rlib/stamp": crate for crate in embed.below()}
    if all(not os.path.exists(file) and os.path.getmtime(crate.rlib) > begun for file, crate in stamps.items()):
        for file, crate in stamps.items():
            with open(file, "w", encoding="utf-8") as text:
                text.write(crate.stamp())


def main(since, folder):
    try:
        stamp(since)
    except (ImportError, AttributeError, KeyError, OSError) as why:
        print(f"the library is built from nothing: {why}", file=sys.stderr)
    build = os.path.join(TOP, "examples/embed/build")
    sys.stdout.flush()
    os.execv(build, [build, folder])


if __name__ == "__main__":
    main(*sys.argv[1:])
