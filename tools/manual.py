"""Makes the manual page of a tool from what the tool says of itself by --help, as help2man does."""
import os
import re
import subprocess
import sys

WIDE = "1000"  # columns, so that argparse breaks no line


def help_of(path):
    """What a tool prints by --help."""
    env = {**os.environ, "COLUMNS": WIDE}
    return subprocess.run([sys.executable, path, "--help"], capture_output=True, text=True, check=True, env=env).stdout


def escaped(line):
    """A line as troff takes it: no minus is a hyphen, and no line a request."""
    return re.sub(r"^(?=[.'])", r"\\&", line.replace("\\", r"\e").replace("-", r"\-"))


def example(lines):
    """Lines that stay as they are, four columns to the right."""
    return [".PP", ".nf", ".RS 4", *(escaped(line[4:]) for line in lines), ".RE", ".fi"]


def items(lines):
    """Lines of which those that begin an item have a hyphen first, and the others two spaces."""
    for line in lines:
        yield from [r".IP \(bu 2"] if line.startswith("- ") else []
        yield escaped(line[2:])


def paragraph(text):
    """A paragraph of a tool's description: an example, a list or prose."""
    lines = text.split("\n")
    if lines[0].startswith("    "):
        return example(lines)
    return [*items(lines)] if lines[0].startswith("- ") else [".PP", *map(escaped, lines)]


def options(text):
    """The options, as argparse lists them."""
    for words, told in re.findall(r"^  (\S.*?)(?:  +(\S.*))?$", text, re.M):
        yield from (".TP", rf"\fB{escaped(words)}\fR", escaped(told))


def page(name, text):
    """The manual page of a program that prints this by --help: its usage, a sentence, paragraphs, arguments and options."""
    usage, sentence, rest = text.split("\n\n", 2)
    description, _, arguments = rest.partition("\n\npositional arguments:\n")
    lines = [f'.TH {name.upper()} 1 "" "lrcman" "User Commands"']
    lines += [".SH NAME", escaped(name) + r" \- " + escaped(sentence[0].lower() + sentence[1:].rstrip("."))]
    lines += [".SH SYNOPSIS", r"\fB" + escaped(usage.removeprefix("usage: ").replace("\n", " ")) + r"\fR"]
    lines += [".SH DESCRIPTION", *(line for it in description.split("\n\n") for line in paragraph(it))]
    lines += [".SH OPTIONS", *options(arguments.partition("\noptions:\n")[2])]
    lines += [".SH SEE ALSO", ".BR lrcman (1),", ".BR lrcmand (8)"]
    return "\n".join([*lines, ""])
