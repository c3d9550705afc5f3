"""Counts the instructions of calls of the library of crates/lrc_embed from C, with valgrind.

Usage: bench/calls [OPTION].. LIBRARY..., where each is an archive of lrc_embed.h, or a folder with liblrc_embed.a

A store of 512 nodes and 4,096 stripes; a table has the instructions of a call, and of each further library how many times those of
the first. The counts are those of the call with the step of a loop around it, and the same from run to run, whatever else the
machine does.

  --nodes N     nodes of the store, 32 to 512 (512)
  --stripes N   stripes that fill it, 256 to 4096, at most eight for each node (4096)
  --only KIND   this kind of call; may be given several times
  --quick       32 nodes, 256 stripes, where no option says otherwise"""
import os
import subprocess
import sys
import tempfile

from bench import common, instructions
from bench.common import HERE, TOP, Wrong, number, print_head, print_row
from tests.harness import CC

USUAL, QUICK = {"nodes": 512, "stripes": 4096}, {"nodes": 32, "stripes": 256}
KINDS = {
    "place": "`place`", "drop": "`drop`", "next": "`next`, granted", "done": "`done`", "idle": "`next`, idle", "tick": "`tick`, no lease",
    "refused": "`up` of a node that is up, refused", "level": "`lrc_embed_level`", "homes": "`lrc_embed_homes`", "load": "`lrc_embed_load`",
}


def options(words):
    parser = common.parser_of("bench/calls [OPTION].. LIBRARY...")
    parser.add_argument("libraries", nargs="*", metavar="LIBRARY")
    parser.add_argument("--nodes", type=number(32, 512))
    parser.add_argument("--stripes", type=number(256, 4096))
    parser.add_argument("--only", action="append", choices=KINDS)
    given = common.parsed(parser, words, __doc__, USUAL, QUICK)
    if not given.libraries:
        parser.error("no library is given")
    if given.stripes > 8 * given.nodes:
        parser.error("a store takes at most eight stripes for each node")
    return given


def compiled(library, program):
    archive = os.path.join(library, "liblrc_embed.a") if os.path.isdir(library) else library
    strict = ["-std=c11", "-O2", "-Wall", "-Wextra", "-Werror", f"-I{TOP}/crates/lrc_embed/include"]
    subprocess.run([CC, *strict, "-o", program, f"{HERE}/calls.c", archive, "-pthread"], check=True)
    return program


def counted(program, given, kind):
    """The instructions of a call."""
    return instructions.in_functions("counted*", [program, str(given.nodes), str(given.stripes), kind])


def main(words):
    given = options(words)
    print(f"{given.nodes} nodes, {given.stripes} stripes; instructions of a call\n")
    with tempfile.TemporaryDirectory() as folder:
        programs = [compiled(library, f"{folder}/calls{at}") for at, library in enumerate(given.libraries)]
        first, *others = (f"library {at}" for at in range(1, len(programs) + 1))
        print_head(["call", first, *(head for other in others for head in (other, "times"))])
        for kind in given.only or KINDS:
            count, *more = [counted(program, given, kind) for program in programs]
            print_row([KINDS[kind], f"{count:,.0f}", *(cell for it in more for cell in (f"{it:,.0f}", f"{it / count:.2f}"))])
    return 0


if __name__ == "__main__":
    try:
        sys.exit(main(sys.argv[1:]))
    except Wrong as what:
        sys.exit(f"wrong: {what}")
