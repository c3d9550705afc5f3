"""What the scripts of bench share: options, and the rows of tables."""
import argparse
import os
import subprocess
import sys

HERE = os.path.dirname(os.path.abspath(__file__))
TOP = os.path.dirname(HERE)


class Wrong(Exception):
    """A program does not do as it should."""


# Options.


def number(least, most):
    """Reads a whole number of this range."""

    def read(word):
        if not word.isdecimal() or not least <= int(word) <= most:
            raise argparse.ArgumentTypeError(f"{word!r} is no whole number from {least} to {most}")
        return int(word)

    return read


def parser_of(usage, flags=()):
    """A parser of options, which takes --quick and --help too."""
    parser = argparse.ArgumentParser(usage.split()[0], usage=usage, add_help=False, allow_abbrev=False)
    for flag in (*flags, "--quick", "--help"):
        parser.add_argument(flag, action="store_true")
    return parser


def parsed(parser, words, page, usual, quick):
    """The options in the words. One that is not given has the usual value, or the quick one with --quick."""
    given = parser.parse_args(words)
    if given.help:
        print(page)
        sys.exit(0)
    for name, value in (quick if given.quick else usual).items():
        if getattr(given, name) is None:
            setattr(given, name, value)
    return given


def expect_program(parser, program):
    """The path of a program that can be run."""
    if not os.access(program, os.X_OK) or os.path.isdir(program):
        parser.error(f"{program} is no program")
    return os.path.abspath(program)


def status_of(script, words):
    """The exit status of a script of bench."""
    return subprocess.run([sys.executable, script, *words], capture_output=True).returncode


# Tables.


def print_row(cells):
    print("| " + " | ".join(map(str, cells)) + " |", flush=True)


def print_head(cells, names=1):
    """The head of a table, of which the first columns are names and the others numbers."""
    print_row(cells)
    print("|" + "---|" * names + "---:|" * (len(cells) - names), flush=True)
