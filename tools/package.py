"""Makes packages for Debian of what is proved and built. It proves and builds nothing itself.

Usage: tools/package [OPTION].. FOLDER      writes PACKAGE_VERSION_ARCHITECTURE.deb of each into the folder

  lrcman              the program, its manual page, its completion for bash, and its pages
  liblrc-embedN       the shared library, where N is the version of its interface
  liblrc-embed-dev    the header, the static library, what pkg-config and CMake ask for, sources for Rust and Go, and examples
  python3-lrc-embed   lrc_embed.py
  lrcmand             the service, its manual page, a unit for systemd with its own user, and its options in /etc/default
  lrcman-tools        lrcman-balance, lrcman-picture and lrcman-takeover, with their manual pages

A package whose files are not built is left out, and a line on standard error says what builds them. The same files and the same
commit make the same packages, byte for byte. The version is that of the tag of the tree, as v1.2, and else 0 with the time of
the commit; LRCMAN_VERSION names another. DEBFULLNAME and DEBEMAIL name who makes the packages, by default whoever made the commit.

  --only PACKAGE     this one alone, which has to be built then; repeatable; liblrc-embed stands for liblrc-embedN
  --program FILE     by default crates/lrcman/out/lrcman
  --library FOLDER   by default examples/embed/out
  --service FILE     by default service/out/lrcmand

It takes dpkg-deb, dpkg-shlibdeps and strip. The status is 1 if nothing was built, or one of these failed, and 2 if the command
line is wrong."""
import argparse
import dataclasses
import gzip
import hashlib
import os
import re
import shutil
import subprocess
import sys
import tempfile
import time

from tools import install
from tools.install import TOP, Refused

DEBIAN = f"{TOP}/tools/debian"
TRIPLET = "x86_64-linux-gnu"
# What tools/install installs for each package, and which files beside go to its folder of documents.
PARTS = {"lrcman": "lrcman", "liblrc-embed": "library", "liblrc-embed-dev": "development", "python3-lrc-embed": "python",
         "lrcmand": "service", "lrcman-tools": "tools"}
DOCUMENTS = {
    "lrcman": ["docs/OPERATING.md", "docs/RULES.md", "docs/FORMATS.md"],
    "liblrc-embed-dev": ["docs/EMBEDDING.md", "docs/CODING.md", "examples/embed/late_worker.c", "examples/embed/late_worker.cpp",
                         "examples/embed/late_worker.rs"],
    "python3-lrc-embed": ["examples/embed/late_worker.py"],
    "lrcmand": ["docs/SERVICE.md", "service/openapi.json", "service/alerts.yml", "service/console.html",
                "service/client/lrcmand_client.py"],
}


@dataclasses.dataclass(frozen=True)
class Release:
    """What all packages say: their version, when the sources were committed, and who makes them."""

    version: str
    time: int
    maintainer: str


def ran(*words, **how):
    """What a command prints, which has to end well."""
    ended = subprocess.run(words, capture_output=True, text=True, **how)
    if ended.returncode:
        raise Refused(f"{words[0]} ended with status {ended.returncode}: {ended.stderr.strip()}")
    return ended.stdout.strip()


def git(*words):
    """What git says of the tree, or nothing."""
    ended = subprocess.run(["git", "-C", TOP, *words], capture_output=True, text=True)
    return ended.stdout.strip() if ended.returncode == 0 else ""


def release():
    made, name, address = (git("log", "-1", f"--format=%{it}") for it in ("ct", "an", "ae"))
    seconds = int(os.environ.get("SOURCE_DATE_EPOCH") or made or 0)
    tag, commit = git("describe", "--tags", "--match", "v[0-9]*").removeprefix("v"), git("rev-parse", "--short=12", "HEAD")
    untagged = f"0~{time.strftime('%Y%m%d.%H%M%S', time.gmtime(seconds))}.{commit or 'unknown'}"
    version = tag.replace("-", "+", 1).replace("-", ".") or untagged
    if git("status", "--porcelain", "--untracked-files=no"):
        version += "+changed"
    version = os.environ.get("LRCMAN_VERSION", version)
    if not re.fullmatch(r"\d[\w.+~]*", version, re.A):
        raise Refused(f"{version!r} is no version of a package: it begins with a digit, and has letters, digits, ., + and ~")
    name, address = os.environ.get("DEBFULLNAME", name or "lrcman"), os.environ.get("DEBEMAIL", address or "root@localhost")
    return Release(version, seconds, f"{name} <{address}>")


def named(package):
    """The name of a package, with the number of the interface where it has one."""
    return f"{package}{install.interface()}" if package == "liblrc-embed" else package


# A tree.


def put(tree, name, data, mode=0o644):
    install.write(f"{tree}/{name}", data, mode)


def packed(data):
    return gzip.compress(data, 9, mtime=0)


def files_in(tree):
    """The files of a tree but for those of DEBIAN, by their names from its top, in order."""
    for at, folders, names in os.walk(tree):
        folders[:] = sorted(it for it in folders if it != "DEBIAN")
        yield from (os.path.relpath(f"{at}/{name}", tree) for name in sorted(names))


def fill(tree, package, built, made):
    """Puts a package's files into its tree."""
    place = install.Place("/usr", tree, f"lib/{TRIPLET}", "lib/python3/dist-packages")
    install.install([PARTS[package]], built, place)
    documents = f"usr/share/doc/{named(package)}"
    for path in DOCUMENTS.get(package, ()):
        folder = "examples/" if path.startswith("examples/") else ""
        put(tree, f"{documents}/{folder}{os.path.basename(path)}", install.read(f"{TOP}/{path}"))
    date = time.strftime("%a, %d %b %Y %H:%M:%S +0000", time.gmtime(made.time))
    log = f"lrcman ({made.version}) unstable; urgency=medium\n\n  * Of the sources of this version.\n\n"
    log += f" -- {made.maintainer}  {date}\n"
    put(tree, f"{documents}/changelog.gz", packed(log.encode()))
    put(tree, f"{documents}/copyright", text_of("copyright", {"year": time.gmtime(made.time).tm_year}))
    if package == "lrcmand":
        put(tree, "etc/default/lrcmand", install.read(f"{TOP}/service/lrcmand.default"))
    if os.path.exists(overrides := f"{DEBIAN}/{package}.lintian-overrides"):
        put(tree, f"usr/share/lintian/overrides/{named(package)}", install.read(overrides))
    for name in list(files_in(tree)):
        if "/share/man/" in name:
            put(tree, f"{name}.gz", packed(install.read(f"{tree}/{name}")))
            os.remove(f"{tree}/{name}")


def name_python(tree):
    """Has programs in Python run by that of the system, which the package depends on."""
    anywhere, own = b"#!/usr/bin/env python3\n", b"#!/usr/bin/python3\n"
    for name in files_in(tree):
        path = f"{tree}/{name}"
        if not os.path.islink(path) and (data := install.read(path)).startswith(anywhere):
            put(tree, name, own + data.removeprefix(anywhere), 0o755)


def strip(tree):
    """Removes what only debuggers read; returns the files that the system's loader loads."""
    loaded = []
    for name in files_in(tree):
        path = f"{tree}/{name}"
        if os.path.islink(path):
            continue
        if name.endswith(".a"):
            ran("strip", "--strip-debug", "--enable-deterministic-archives", "--remove-section=.comment", path)
        elif install.read(path)[:4] == b"\x7fELF":
            ran("strip", "--strip-unneeded", "--remove-section=.comment", path)
            loaded.append(path)
    return loaded


def text_of(name, values):
    return install.filled(os.path.relpath(f"{DEBIAN}/{name}", TOP), values)


# What dpkg reads.


def depends_of(loaded, room):
    """The packages that files need, as dpkg-shlibdeps finds them."""
    os.makedirs(f"{room}/debian", exist_ok=True)
    with open(f"{room}/debian/control", "w", encoding="utf-8") as text:
        text.write("Source: lrcman\n\nPackage: lrcman\nArchitecture: any\n")
    return ran("dpkg-shlibdeps", "-O", *(f"-e{path}" for path in loaded), cwd=room).partition("=")[2]


def control(package, tree, loaded, made, room):
    """The fields of a package."""
    values = {"soname": install.interface(), "version": made.version, "depends": "-"}
    stanzas = text_of("control", values | {"depends": "@depends@"}).decode().strip().split("\n\n")
    fields = next(it for it in stanzas if it.startswith(f"Package: {named(package)}\n"))
    if "@depends@" in fields:
        fields = fields.replace("@depends@", depends_of(loaded, room))
    paths = [f"{tree}/{it}" for it in files_in(tree)]
    size = sum(1 if os.path.islink(it) else -(-os.path.getsize(it) // 1024) for it in paths)
    head, _, rest = fields.partition("\nDescription:")
    further = f"Version: {made.version}\nSource: lrcman\nPriority: optional\nMaintainer: {made.maintainer}\nInstalled-Size: {size}"
    return f"{head}\n{further}\nDescription:{rest}\n".encode()


def describe(package, tree, loaded, made, room):
    """Writes the folder DEBIAN of a tree."""
    put(tree, "DEBIAN/control", control(package, tree, loaded, made, room))
    files = [it for it in files_in(tree) if not os.path.islink(f"{tree}/{it}")]
    sums = {it: hashlib.md5(install.read(f"{tree}/{it}")).hexdigest() for it in files}
    put(tree, "DEBIAN/md5sums", "".join(f"{value}  {it}\n" for it, value in sums.items() if not it.startswith("etc/")).encode())
    if kept := "".join(f"/{it}\n" for it in sums if it.startswith("etc/")):
        put(tree, "DEBIAN/conffiles", kept.encode())
    if package == "liblrc-embed":
        put(tree, "DEBIAN/shlibs", f"liblrc_embed {install.interface()} {named(package)}\n".encode())
        put(tree, "DEBIAN/triggers", b"activate-noawait ldconfig\n")
    for script in ("postinst", "prerm", "postrm"):
        if os.path.exists(path := f"{DEBIAN}/{package}.{script}"):
            put(tree, f"DEBIAN/{script}", install.read(path), 0o755)


def make(package, built, made, folder):
    """Makes a package; returns its file."""
    with tempfile.TemporaryDirectory() as room:
        tree = f"{room}/tree"
        fill(tree, package, built, made)
        name_python(tree)
        loaded = strip(tree)
        describe(package, tree, loaded, made, room)
        for at, folders, _ in os.walk(tree):
            for it in [at, *(f"{at}/{name}" for name in folders)]:
                os.chmod(it, 0o755)
        fields = install.read(f"{tree}/DEBIAN/control").decode()
        architecture = re.search(r"^Architecture: (\w+)$", fields, re.M)[1]
        file = f"{folder}/{named(package)}_{made.version}_{architecture}.deb"
        ran("dpkg-deb", "--root-owner-group", "--build", tree, file, env={**os.environ, "SOURCE_DATE_EPOCH": str(made.time)})
    return file


# The command line.


def options_of(words):
    parser = argparse.ArgumentParser(usage=__doc__.partition("Usage: ")[2], allow_abbrev=False)
    parser.add_argument("folder")
    parser.add_argument("--only", action="append", choices=PARTS, default=[])
    for name in ("program", "library", "service"):
        parser.add_argument(f"--{name}", default=getattr(install.Built, name))
    return parser.parse_args(words)


def main(words):
    given = options_of(words)
    built = install.Built(given.program, given.library, given.service)
    try:
        for tool in ("dpkg-deb", "dpkg-shlibdeps", "strip"):
            if not shutil.which(tool):
                raise Refused(f"there is no {tool}: Debian's dpkg-dev and binutils have these tools")
        chosen = install.chosen([PARTS[it] for it in given.only], built)
        made = release()
        os.makedirs(given.folder, exist_ok=True)
        for package, part in PARTS.items():
            if part in chosen:
                print(make(package, built, made, given.folder), flush=True)
    except (Refused, OSError) as why:
        print(f"tools/package: {why}", file=sys.stderr)
        return 1
    return 0


if __name__ == "__main__":
    sys.exit(main(sys.argv[1:]))
