"""The names that the libraries show."""
import re
import shutil

from tests.harness import TOP, read
from tests.packages.said import ended, left_out


def declared():
    """The functions of the header."""
    return set(re.findall(r"^uint\d+_t (lrc_\w+)\(", read(f"{TOP}/crates/lrc_embed/include/lrc_embed.h").decode(), re.M))


def shown(*words):
    """The names that nm prints: of its lines the last word."""
    return {line.split()[-1] for line in ended("nm", *words).stdout.splitlines() if line and not line.endswith(":")}


def test(count, folder):
    if not shutil.which("nm"):
        return left_out("the names that the libraries show", "there is no nm")
    shared, static = f"{folder}/liblrc_embed.so", f"{folder}/liblrc_embed.a"
    checked = shown("-g", "--defined-only", f"{folder}/liblrc_embed_checked.a")
    for name, found in {"shared": shown("-D", "--defined-only", shared), "static": shown("-g", "--defined-only", static),
                        "checked": checked}.items():
        count.check(f"names of the {name} library alone: {sorted(found - declared())}", not found - declared())
        count.check(f"names of the header that the {name} library lacks: {sorted(declared() - found)}", declared() <= found)
    count.check("the header declares functions", len(declared()) > 30)
    wanted = {"malloc", "realloc", "free", "memcpy", "memmove", "memset"}
    found = shown("-u", static)
    count.check(f"the static library takes of the C library: {sorted(found)}", found <= wanted)
