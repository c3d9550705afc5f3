"""The module of the library, the rules of logs, and requests from their words: what the stores in Python share."""
import os
import sys

sys.dont_write_bytecode = True
sys.path.append(os.path.join(os.path.dirname(os.path.abspath(__file__)), os.pardir, "embed"))
import lrc_embed


def refusal_of(rules, library):
    """Why a log of this version of the rules is not taken; None if it is. By other rules a replay stops at the first reply that
    differs, and until then it is of another history."""
    own = lrc_embed.rules_version(library)
    return None if rules == own else f"the log is of version {rules} of the rules, and the library of version {own}"


def command_of(library, line):
    """The command of a line as docs/RULES.md has it, `done 7 3 1` say. ValueError if it is none."""
    command = lrc_embed.read_command(library, line)
    if command is None:
        raise ValueError("the line has no command")
    return command


def request_of(library, line):
    """A request `TOKEN SESSION COMMAND`, as its token, session and command. ValueError if it is none."""
    token, session, command = line.rstrip("\n").split(" ", 2)
    return token, int(session), command_of(library, command)
