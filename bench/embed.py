"""Measures calls of the library of crates/lrc_embed from C, beside the calls themselves.

Usage: bench/embed [OPTION].. [FOLDER], where FOLDER has what examples/embed/build makes; by default it is built anew.

One process makes the same calls, some ten thousand of each kind, in three ways in turn, each on a book that is made anew
and filled. A table reports the medians over the rounds, in nanoseconds of processor time for a call:

  from C     lrc_embed_call
  itself     Book::add, in the same library, with a command that was read before: no handle, no status, and no reply made
             for C. objcopy makes it visible in a copy of the library; where there is none, this is left out
  more       the difference within a round: what lies between C and the book
  replayed   lrc_embed_replay of a run of calls, for each of them: the call made in a loop of the library, and its
             reply compared

After each of the ways the history has to be that of the others. A second table has looks, whole, and calls that the
book has no part in; a third the texts of `lrc_embed_show`, in milliseconds. Lines about memory follow: the bytes that a book holds, with
the allocator's own, and those of an entry of a full history.

  --nodes N     nodes of the store, 32 to 512 (512)
  --stripes N   stripes that fill it, 256 to 4096, at most eight for each node (4096)
  --rounds N    turns, 1 to 1001 (25)
  --quick       32 nodes, 256 stripes, one round, where no option says otherwise"""
import os
import shutil
import subprocess
import sys
import tempfile

from bench import common
from bench.common import HERE, TOP, number, print_head, print_row
from tests.harness import CC
from tests.model.rules import MOST_STRIPES

USUAL = {"nodes": 512, "stripes": MOST_STRIPES, "rounds": 25}
QUICK = {"nodes": 32, "stripes": 256, "rounds": 1}
OWN = "lrc_book::book::Book::add=bench_book_add"
KINDS = {
    "refused": "`up` of a node that is up, refused",
    "idle": "`next`, idle",
    "next": "`next`, granted",
    "report": "`done`",
    "drop": "`drop`",
    "place": "`place`",
}
LOOKS = {
    "load": "`lrc_embed_load`",
    "mode": "`lrc_embed_mode`",
    "missing": "`lrc_embed_missing`",
    "level": "`lrc_embed_level`",
    "homes": "`lrc_embed_homes`",
    "peek": "`lrc_embed_peek` of `next`",
    "image": "`lrc_embed_image`",
    "open_image": "`lrc_embed_open_image`",
    "count": "`lrc_embed_count`",
    "version": "`lrc_embed_version`",
    "closed": "`lrc_embed_call`, the handle is closed",
    "full": "`lrc_embed_call`, the history is full",
}

TABLES = ["status", "stripes", "nodes", "leases", "work", "fragments", "domains fault", "domains upgrade", "health", "capacity"]


def options(words):
    parser = common.parser_of("bench/embed [OPTION].. [FOLDER]")
    parser.add_argument("folder", nargs="?", metavar="FOLDER")
    parser.add_argument("--nodes", type=number(32, 512))
    parser.add_argument("--stripes", type=number(256, MOST_STRIPES))
    parser.add_argument("--rounds", type=number(1, 1001))
    given = common.parsed(parser, words, __doc__, USUAL, QUICK)
    if given.stripes > 8 * given.nodes:
        parser.error("a store takes at most eight stripes for each node")
    return given


def shown_archive(archive, folder):
    """The library, or a copy of it in which the book's own call can be called, where objcopy makes one."""
    if not shutil.which("objcopy"):
        return archive
    copy = os.path.join(folder, "shown.a")
    words = ["--redefine-sym", OWN, "--globalize-symbol", OWN.split("=")[1]]
    subprocess.run(["objcopy", *words, archive, copy], check=True)
    return copy


def measured(given, folder):
    """The figures that bench/embed.c prints, by their names."""
    program = os.path.join(folder, "embed")
    if not given.folder:
        subprocess.run([os.path.join(TOP, "examples/embed/build"), folder], check=True, stdout=subprocess.DEVNULL)
    archive = shown_archive(os.path.join(given.folder or folder, "liblrc_embed.a"), folder)
    strict = ["-std=c11", "-O2", "-Wall", "-Wextra", "-Werror"]
    header = os.path.join(TOP, "crates/lrc_embed/include")
    subprocess.run([CC, *strict, "-I", header, os.path.join(HERE, "embed.c"), archive, "-o", program], check=True)
    words = [program, *(str(getattr(given, name)) for name in USUAL)]
    ended = subprocess.run(words, stdout=subprocess.PIPE, text=True, check=True)
    lines = (line.split() for line in ended.stdout.splitlines())
    return {name: [float(figure) for figure in figures] for name, *figures in lines}


def main(words):
    given = options(words)
    with tempfile.TemporaryDirectory() as folder:
        told = measured(given, folder)
    print(f"{given.nodes} nodes, {given.stripes} stripes, {given.rounds} rounds; nanoseconds of processor time\n")
    print_head(["call", "from C", "itself", "more", "replayed"])
    for name, what in KINDS.items():
        called, replayed, *own = told[name]
        itself = [f"{nanoseconds:.0f}" for nanoseconds in own] or ["-", "-"]
        print_row([what, f"{called:.0f}", *itself, f"{replayed:.0f}"])
    print()
    print_head(["look", "from C"])
    for name, what in LOOKS.items():
        print_row([what, f"{told[name][0]:.1f}"])
    print()
    print_head(["`show`", "ms", "bytes"])
    for number, table in enumerate(TABLES, 1):
        nanoseconds, length = told[f"show_{number}"]
        print_row([f"`{table}`", f"{nanoseconds / 1e6:.2f}", f"{length:.0f}"])
    print()
    for filled, size in dict(told[f"memory_{part}"] for part in range(3)).items():
        print(f"a book with {filled:.0f} stripes: {size / 2**20:.2f} MiB")
    print(f"an entry: {told['entry'][0]:.0f} bytes, and of `place` {told['entry_of_place'][0]:.0f} more")


if __name__ == "__main__":
    main(sys.argv[1:])
