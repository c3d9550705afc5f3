"""Installs below a prefix what is proved and built. It proves and builds nothing itself.

Usage: tools/install [OPTION].. PREFIX      for example: tools/install /usr/local

  lrcman        the program, its manual page, and its completion for bash
  library       liblrc_embed as a shared library
  development   its header, the static library and its checked build, what pkg-config and CMake ask for, and the sources of the crates
                for Rust and of the package for Go, which are built with programs
  python        lrc_embed.py
  service       lrcmand, its manual page, and a unit and the user for systemd
  tools         lrcman-balance, lrcman-picture and lrcman-takeover, which are those of this folder, and their manual pages

What is not built is left out, and a line on standard error says what builds it.

  --only PART        this one alone, which has to be built then; repeatable
  --destdir DIR      writes below DIR what is to stand at PREFIX later
  --libdir FOLDER    where libraries go, below PREFIX: by default lib
  --python FOLDER    where the module goes, below PREFIX: by default lib/pythonX.Y/site-packages, of the python3 that runs this
  --program FILE     by default crates/lrcman/out/lrcman
  --library FOLDER   by default examples/embed/out
  --service FILE     by default service/out/lrcmand

The names of the files that were written go to standard output. The status is 1 if nothing was built, or a file could not be
written, and 2 if the command line is wrong."""
import argparse
import ctypes
import dataclasses
import glob
import os
import re
import sys

from tools import manual

TOP = os.path.dirname(os.path.dirname(os.path.abspath(__file__)))
PARTS = ("lrcman", "library", "development", "python", "service", "tools")
BUILDS = {"lrcman": "`rt run -- matrix` in crates/lrcman", "service": "service/build"}


# Programs in Python, and what they import, which stands beside them.
TOOLS, MODULES = ("balance", "picture", "takeover"), ("books.py", "tables.py")


# What is built with the programs that take it, by its folder below share/lrc_embed.
SOURCES = {"rust/lrc-embed-sys": "examples/embed/rust/lrc-embed-sys", "rust/lrc-embed": "examples/embed/rust/lrc-embed",
           "go/book": "service/book"}


class Refused(Exception):
    """Why nothing is installed."""


@dataclasses.dataclass(frozen=True)
class Built:
    """The files that are built: the program, the folder of the library, and the service."""

    program: str = f"{TOP}/crates/lrcman/out/lrcman"
    library: str = f"{TOP}/examples/embed/out"
    service: str = f"{TOP}/service/out/lrcmand"

    def needs(self, part):
        """The files that a part takes."""
        shared, *static = (f"{self.library}/liblrc_embed{it}" for it in (".so", ".a", "_checked.a"))
        taken = {"lrcman": [self.program], "library": [shared], "development": [shared, *static], "service": [self.service]}
        return taken.get(part, [])

    def lacks(self, part):
        """Why a part can't be installed, or nothing."""
        for path in self.needs(part):
            if not os.path.isfile(path):
                return f"there is no {path}: {BUILDS.get(part, 'examples/embed/build')} builds it"
        return ""


@dataclasses.dataclass(frozen=True)
class Place:
    """Where it goes: the prefix, and below it the folders of libraries and of the module."""

    prefix: str
    destdir: str = ""
    libdir: str = "lib"
    python: str = f"lib/python{sys.version_info.major}.{sys.version_info.minor}/site-packages"

    def path(self, name):
        """The file of a name below the prefix."""
        return os.path.normpath(f"{self.destdir}{self.prefix}/{name}")


def read(path):
    with open(path, "rb") as file:
        return file.read()


def interface():
    """The version of the header, which is the number in the name of the shared library."""
    header = read(f"{TOP}/crates/lrc_embed/include/lrc_embed.h").decode()
    return int(re.search(r"^#define LRC_EMBED_VERSION (\d+)$", header, re.M)[1])


def check_library(path):
    """Refuses a library of another version than the header."""
    found = ctypes.CDLL(os.path.abspath(path)).lrc_embed_version()
    if found != interface():
        raise Refused(f"{path} has version {found} of its interface, and the header is for version {interface()}")


def filled(name, values):
    """The text of a file whose @words@ stand for values."""
    return re.sub(r"@(\w+)@", lambda word: str(values[word[1]]), read(f"{TOP}/{name}").decode()).encode()


def renamed(text):
    """A text of tools with the names that they have where they are installed."""
    return re.sub(rf"\btools/({'|'.join(TOOLS)})\b", r"lrcman-\1", text)


def tool_files():
    """What the part of tools installs, as files_of has it."""
    for tool in TOOLS:
        path = f"{TOP}/tools/{tool}"
        yield f"bin/lrcman-{tool}", f"../share/lrcman/{tool}", None
        yield f"share/lrcman/{tool}", renamed(read(path).decode()).encode(), 0o755
        yield f"share/man/man1/lrcman-{tool}.1", manual.page(f"lrcman-{tool}", renamed(manual.help_of(path))).encode(), 0o644
    for module in MODULES:
        yield f"share/lrcman/{module}", read(f"{TOP}/tools/{module}"), 0o644


def source_files():
    """The sources of the development part, but for their tests, as files_of has them."""
    for to, folder in SOURCES.items():
        for path in sorted(glob.glob(f"{TOP}/{folder}/**", recursive=True)):
            name = os.path.relpath(path, f"{TOP}/{folder}")
            is_test = name.startswith("tests/") or name.endswith("_test.go")
            if name.endswith((".rs", ".toml", ".go", ".mod")) and not is_test:
                yield f"share/lrc_embed/{to}/{name}", read(path), 0o644


def files_of(part, built, place):
    """What a part installs: names below the prefix, and the bytes and the mode of each; a link is its target."""
    version, lib = interface(), place.libdir
    if part == "lrcman":
        yield "bin/lrcman", read(built.program), 0o755
        yield "share/man/man1/lrcman.1", read(f"{TOP}/docs/lrcman.1"), 0o644
        yield "share/bash-completion/completions/lrcman", read(f"{TOP}/docs/lrcman.bash"), 0o644
    elif part == "library":
        yield f"{lib}/liblrc_embed.so.{version}", read(f"{built.library}/liblrc_embed.so"), 0o644
    elif part == "development":
        folders = {"prefix": place.prefix, "libdir": f"${{prefix}}/{lib}", "includedir": "${prefix}/include", "version": version}
        cmake = {"up": os.path.relpath(".", f"{lib}/cmake/lrc_embed"), "libdir": lib, "version": version}
        yield "include/lrc_embed.h", read(f"{TOP}/crates/lrc_embed/include/lrc_embed.h"), 0o644
        yield f"{lib}/liblrc_embed.so", f"liblrc_embed.so.{version}", None
        for name in ("liblrc_embed.a", "liblrc_embed_checked.a"):
            yield f"{lib}/{name}", read(f"{built.library}/{name}"), 0o644
        yield f"{lib}/pkgconfig/lrc_embed.pc", filled("examples/embed/lrc_embed.pc.in", folders), 0o644
        for name in ("config", "config-version"):
            text = filled(f"examples/embed/lrc_embed-{name}.cmake.in", cmake)
            yield f"{lib}/cmake/lrc_embed/lrc_embed-{name}.cmake", text, 0o644
        yield from source_files()
    elif part == "python":
        yield f"{place.python}/lrc_embed.py", read(f"{TOP}/examples/embed/lrc_embed.py"), 0o644
    elif part == "service":
        unit = read(f"{TOP}/service/lrcmand.service").replace(b"/usr/bin/", f"{place.prefix}/bin/".encode())
        yield "bin/lrcmand", read(built.service), 0o755
        yield "share/man/man8/lrcmand.8", read(f"{TOP}/docs/lrcmand.8"), 0o644
        yield "lib/systemd/system/lrcmand.service", unit, 0o644
        yield "lib/sysusers.d/lrcmand.conf", read(f"{TOP}/service/lrcmand.sysusers"), 0o644
    elif part == "tools":
        yield from tool_files()


def write(path, data, mode):
    """Writes a file or a link anew: a program that runs, or a library in use, keeps its own."""
    os.makedirs(os.path.dirname(path), exist_ok=True)
    new = f"{path}.new"
    if mode is None:
        if os.path.lexists(new):
            os.remove(new)
        os.symlink(data, new)
    else:
        with open(new, "wb") as file:
            file.write(data)
        os.chmod(new, mode)
    os.replace(new, path)


def install(parts, built, place):
    """Installs parts; returns the paths of their files."""
    if "library" in parts or "development" in parts:
        check_library(f"{built.library}/liblrc_embed.so")
    written = []
    for part in parts:
        for name, data, mode in files_of(part, built, place):
            write(place.path(name), data, mode)
            written.append(place.path(name))
    return written


def options_of(words):
    parser = argparse.ArgumentParser(usage=__doc__.partition("Usage: ")[2], allow_abbrev=False)
    parser.add_argument("prefix")
    parser.add_argument("--only", action="append", choices=PARTS, default=[])
    parser.add_argument("--destdir", default="")
    parser.add_argument("--libdir", default=Place.libdir)
    parser.add_argument("--python", default=Place.python)
    for name in ("program", "library", "service"):
        parser.add_argument(f"--{name}", default=getattr(Built, name))
    given = parser.parse_args(words)
    if not os.path.isabs(given.prefix):
        parser.error(f"PREFIX is a path from the root, and not {given.prefix}")
    return given


def chosen(named, built):
    """The parts that are to be installed: those that are named, or all. What is not built is left out, if nobody named it."""
    lacking = {part: why for part in named or PARTS if (why := built.lacks(part))}
    if named and lacking:
        raise Refused("; ".join(lacking.values()))
    for part, why in lacking.items():
        print(f"left out: {part}: {why}", file=sys.stderr)
    if not named and not any(built.needs(part) for part in set(PARTS) - set(lacking)):
        raise Refused("nothing is built")
    return [part for part in named or PARTS if part not in lacking]


def main(words):
    given = options_of(words)
    built = Built(given.program, given.library, given.service)
    place = Place(os.path.abspath(given.prefix), given.destdir and os.path.abspath(given.destdir), given.libdir, given.python)
    try:
        print(*install(chosen(given.only, built), built, place), sep="\n")
    except (Refused, OSError) as why:
        print(f"tools/install: {why}", file=sys.stderr)
        return 1
    return 0


if __name__ == "__main__":
    sys.exit(main(sys.argv[1:]))
