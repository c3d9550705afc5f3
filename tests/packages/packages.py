"""The packages that tools/package makes, before they are installed."""
import os
import re
import shutil

from tests.harness import TOP, read
from tests.library.library import lrc_embed
from tests.packages.installed import FILES, MODULE, TOOLS, of_built, parts_of
from tests.packages.said import ended, left_out

PACKAGE, LIBRARY = f"{TOP}/tools/package", f"liblrc-embed{lrc_embed.VERSION}"
TRIPLET = "x86_64-linux-gnu"
NEEDED = ("dpkg-deb", "dpkg-shlibdeps", "strip")
PARTS = {"lrcman": "lrcman", LIBRARY: "library", "liblrc-embed-dev": "development", "python3-lrc-embed": "python",
         "lrcmand": "service", "lrcman-tools": "tools"}
# What stands beside what tools/install installs.
BESIDE = {
    "lrcman": ["usr/share/doc/lrcman/OPERATING.md", "usr/share/doc/lrcman/RULES.md", "usr/share/doc/lrcman/FORMATS.md"],
    LIBRARY: [],
    "liblrc-embed-dev": [f"usr/share/doc/liblrc-embed-dev/{it}" for it in (
        "EMBEDDING.md", "CODING.md", "examples/late_worker.c", "examples/late_worker.cpp", "examples/late_worker.rs")],
    "python3-lrc-embed": ["usr/share/doc/python3-lrc-embed/examples/late_worker.py"],
    "lrcmand": ["etc/default/lrcmand", "usr/share/lintian/overrides/lrcmand",
                *(f"usr/share/doc/lrcmand/{it}" for it in (
                    "SERVICE.md", "openapi.json", "alerts.yml", "console.html", "lrcmand_client.py"))],
    "lrcman-tools": [],
}


def files_of(package):
    """The files that a package has to have."""
    names = [f"usr/{it}".replace(MODULE, "lib/python3/dist-packages") for it in FILES[PARTS[package]]]
    for name in names:
        name += ".gz" if "/man/" in name else ""
        yield re.sub(r"^usr/lib/(?=liblrc|pkgconfig|cmake)", f"usr/lib/{TRIPLET}/", name)
    yield from BESIDE[package]
    yield from (f"usr/share/doc/{package}/{it}" for it in ("changelog.gz", "copyright"))


def made_by(count, name, built, folder, *words, **how):
    """Makes packages; returns their files by their names."""
    ran = ended(PACKAGE, *of_built(built), *words, folder, **how)
    if not count.check(f"{name}: status {ran.returncode}: {ran.stderr}", ran.returncode == 0):
        return {}
    return {os.path.basename(line).partition("_")[0]: line for line in ran.stdout.splitlines()}


def check_package(count, package, file):
    """The files and the fields of a package."""
    found = [line.split(maxsplit=5) for line in ended("dpkg-deb", "-c", file).stdout.splitlines()]
    names = {it[5].partition(" -> ")[0].removeprefix("./") for it in found if it[0][0] != "d"}
    count.check(f"the files of {package}: {names ^ set(files_of(package))}", names == set(files_of(package)))
    count.check(f"the owners of {package}", {it[1] for it in found} == {"root/root"})
    count.check(f"others write to files of {package}", all(it[0][0] == "l" or it[0][5] == it[0][8] == "-" for it in found))
    fields = dict(re.findall(r"^([\w-]+): (.*)$", ended("dpkg-deb", "-f", file).stdout, re.M))
    wanted = {"Package": package, "Version": "1.5", "Source": "lrcman", "Maintainer": "A Name <name@example.org>",
              "Architecture": "all" if package in ("python3-lrc-embed", "lrcman-tools") else "amd64"}
    count.check(f"the fields of {package}: {fields}", wanted.items() <= fields.items())
    depends = {"liblrc-embed-dev": f"{LIBRARY} (= 1.5)", "python3-lrc-embed": f"{LIBRARY} (= 1.5)", "lrcmand": "systemd",
               "lrcman-tools": "python3 (>= 3.11)"}
    count.check(f"{package} depends on {fields['Depends']}", fields["Depends"].startswith(depends.get(package, "libc6 (>= ")))


def test_python(count, file):
    """The system's Python runs the tools, and not another one that comes first on the path."""
    for tool in TOOLS:
        words = f'dpkg-deb --fsys-tarfile "$0" | tar -xO ./usr/share/lrcman/{tool} | head -1'
        first = ended("sh", "-c", words, file).stdout
        count.check(f"what runs lrcman-{tool}: {first}", first == "#!/usr/bin/python3\n")


def test_refusals(count, room, built):
    """What is not built is told, and nothing is made of it; a version that is none is refused."""
    ran = ended(PACKAGE, *of_built(built), "--service", f"{room}/none", "--program", f"{room}/none", f"{room}/left",
                env={**os.environ, "LRCMAN_VERSION": "1"})
    names = sorted(it.partition("_")[0] for it in os.listdir(f"{room}/left"))
    told = "left out: lrcman: " in ran.stderr and "left out: service: " in ran.stderr
    count.check(f"without program and service: {names}: {ran.stderr}", told and names == sorted({*PARTS} - {"lrcman", "lrcmand"}))
    none = ["--only", "lrcman", "--program", f"{room}/none"]
    for name, words, version in (("none is built", none, "1"), ("no version", [], "v1 2")):
        ran = ended(PACKAGE, *of_built(built), *words, f"{room}/refused", env={**os.environ, "LRCMAN_VERSION": version})
        is_told = ran.returncode == 1 and ran.stderr.startswith("tools/package: ")
        count.check(f"{name}: status {ran.returncode}: {ran.stderr}", is_told)
        count.check(f"{name}: nothing is made", not os.path.exists(f"{room}/refused") or not os.listdir(f"{room}/refused"))


def test(count, room, built):
    """Makes the packages; returns their files by their names."""
    lacking = [it for it in NEEDED if not shutil.which(it)]
    if lacking:
        return left_out("packages", f"there is no {lacking[0]}") or {}
    env = {**os.environ, "LRCMAN_VERSION": "1.5", "SOURCE_DATE_EPOCH": "1700000000"}
    env |= {"DEBFULLNAME": "A Name", "DEBEMAIL": "name@example.org"}
    made = made_by(count, "tools/package", built, f"{room}/packages", env=env)
    wanted = {package for package, part in PARTS.items() if part in parts_of(built)}
    count.check(f"the packages: {sorted(made)}", set(made) == wanted)
    for package, file in made.items():
        check_package(count, package, file)
    test_python(count, made["lrcman-tools"])
    only = [f"--only={it}" for it in ("liblrc-embed", "liblrc-embed-dev", "python3-lrc-embed", "lrcman-tools")]
    again = made_by(count, "the same again", built, f"{room}/again", *only, env=env)
    count.check(f"made again: {sorted(again)}", len(again) == 4)
    for package, file in again.items():
        count.check(f"{package} has the same bytes again", read(file) == read(made[package]))
    ran = ended(PACKAGE, *of_built(built), "--only", "python3-lrc-embed", f"{room}/own")
    count.check(f"its own version: {ran.stdout}{ran.stderr}", re.search(r"/python3-lrc-embed_\d[\w.+~]*_all\.deb\n$", ran.stdout))
    test_refusals(count, room, built)
    if not shutil.which("lintian"):
        left_out("what lintian finds", "there is no lintian")
    elif made:
        # (it leaves files in the folder for temporary ones)
        ran = ended("lintian", "--fail-on", "error,warning", *made.values(), env={**os.environ, "TMPDIR": room})
        count.check(f"lintian: {ran.stdout}{ran.stderr}", ran.returncode == 0)
    return made
