"""Measures looks of viewers of a published book, and its calls beside them, from C.

Usage: bench/views [OPTION].. FOLDER, where FOLDER has what examples/embed/build makes

A store of 512 nodes and 2,000 stripes; one thread drops and places stripes without a pause, and each viewer follows and looks at a
level, on a thread of its own. A table has nanoseconds, medians over the rounds: a look while nobody calls, a look beside calls,
which makes the calls since the look before, and a call, of processor time and by wall.

  --calls N     calls in a round (200000)
  --rounds N    rounds (5)
  --quick       2,000 calls, one round, at most two viewers"""
import os
import subprocess
import sys
import tempfile
from statistics import median

from bench import common
from bench.common import HERE, TOP, number
from tests.harness import CC

VIEWERS = (0, 1, 2, 4, 8)


def compiled(folder, room):
    program = f"{room}/views"
    words = [CC, "-std=c11", "-O2", "-Wall", "-Wextra", "-Werror", f"-I{TOP}/crates/lrc_embed/include", "-o", program, f"{HERE}/views.c",
             f"{folder}/liblrc_embed.a", "-pthread"]
    subprocess.run(words, check=True)
    return program


def measured(program, viewers, calls):
    """Nanoseconds of a look, of a call by its thread, and of a call by wall."""
    ran = subprocess.run([program, str(viewers), str(calls)], check=True, capture_output=True, text=True)
    return tuple(map(float, ran.stdout.split()))


def row(program, viewers, calls, rounds):
    alone = median(measured(program, viewers, 0)[0] for _ in range(rounds)) if viewers else 0
    beside = [measured(program, viewers, calls) for _ in range(rounds)]
    look, thread, wall = (median(column) for column in zip(*beside))
    shown = [f"{alone:.1f}", f"{look:.0f}"] if viewers else ["-", "-"]
    return f"| {viewers} | {' | '.join([*shown, f'{thread:.0f}', f'{wall:.0f}'])} |"


def main():
    parser = common.parser_of("bench/views [OPTION].. FOLDER")
    parser.add_argument("--calls", type=number(1, 900_000))
    parser.add_argument("--rounds", type=number(1, 1001))
    parser.add_argument("folder")
    given = common.parsed(parser, sys.argv[1:], __doc__, {"calls": 200_000, "rounds": 5}, {"calls": 2_000, "rounds": 1})
    print("| Viewers | A look: nobody calls | beside calls | A call: thread | wall |\n|---|---:|---:|---:|---:|")
    with tempfile.TemporaryDirectory() as room:
        program = compiled(os.path.abspath(given.folder), room)
        for viewers in VIEWERS[:3] if given.quick else VIEWERS:
            print(row(program, viewers, given.calls, given.rounds), flush=True)


if __name__ == "__main__":
    main()
