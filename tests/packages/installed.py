"""What tools/install installs, and programs that are built against it."""
import os
import re
import shutil
import stat
import sys

from tests.harness import CC, EXAMPLES, TOP, read
from tests.library.library import lrc_embed, of_version
from tests.packages.said import ended, left_out

INSTALL, PREFIX = f"{TOP}/tools/install", "/usr/lrcman"
VERSION, WORKER = lrc_embed.VERSION, f"{EXAMPLES}/embed/late_worker.c"
TOOLS = "balance", "picture", "takeover"
# The sources for Rust and Go, below share/lrc_embed.
SOURCES = [
    *(f"rust/lrc-embed-sys/{it}" for it in ("Cargo.toml", "build.rs", "src/lib.rs")),
    *(f"rust/lrc-embed/{it}" for it in ("Cargo.toml", "examples/late_worker.rs")),
    *(f"rust/lrc-embed/src/{it}.rs" for it in ("bytes", "command", "lib", "texts", "views", "words")),
    *(f"go/book/{it}.go" for it in ("bytes", "calls", "command", "health", "installed", "json", "library", "line", "looks",
                                    "published", "recipes", "reply", "tables", "words")),
    "go/book/go.mod",
]
MODULE = f"lib/python{sys.version_info.major}.{sys.version_info.minor}/site-packages"
# Each file below the prefix, and its permissions; a link has none.
FILES = {
    "lrcman": {"bin/lrcman": 0o755, "share/man/man1/lrcman.1": 0o644, "share/bash-completion/completions/lrcman": 0o644},
    "library": {f"lib/liblrc_embed.so.{VERSION}": 0o644},
    "development": {
        "include/lrc_embed.h": 0o644, "lib/liblrc_embed.so": None, "lib/liblrc_embed.a": 0o644, "lib/liblrc_embed_checked.a": 0o644,
        "lib/pkgconfig/lrc_embed.pc": 0o644,
        "lib/cmake/lrc_embed/lrc_embed-config.cmake": 0o644, "lib/cmake/lrc_embed/lrc_embed-config-version.cmake": 0o644,
        **{f"share/lrc_embed/{it}": 0o644 for it in SOURCES}},
    "python": {f"{MODULE}/lrc_embed.py": 0o644},
    "service": {"bin/lrcmand": 0o755, "share/man/man8/lrcmand.8": 0o644, "lib/systemd/system/lrcmand.service": 0o644,
                "lib/sysusers.d/lrcmand.conf": 0o644},
    "tools": {**{f"bin/lrcman-{it}": None for it in TOOLS}, **{f"share/lrcman/{it}": 0o755 for it in TOOLS},
              "share/lrcman/books.py": 0o644, "share/lrcman/tables.py": 0o644,
              **{f"share/man/man1/lrcman-{it}.1": 0o644 for it in TOOLS}},
}
CMAKE = """cmake_minimum_required(VERSION 3.16)
project(worker C)
find_package(lrc_embed {version} REQUIRED)
find_package(lrc_embed {version} REQUIRED)
add_executable(shared late_worker.c)
target_link_libraries(shared lrc_embed::lrc_embed)
add_executable(static late_worker.c)
target_link_libraries(static lrc_embed::static)
"""


def of_built(built):
    """The options that name what is built."""
    return ["--program", built.program, "--library", built.library, "--service", built.service]


def tree(folder):
    """Each file of a folder, with its permissions; a link has none."""
    found = {}
    for at, _, names in os.walk(folder):
        for name in names:
            mode = os.lstat(f"{at}/{name}").st_mode
            found[os.path.relpath(f"{at}/{name}", folder)] = None if stat.S_ISLNK(mode) else stat.S_IMODE(mode)
    return found


def parts_of(built):
    """The parts that are built."""
    return [part for part in FILES if part != "service" or os.path.exists(built.service)]


def check_files(count, name, ran, folder, parts):
    """What an installation has written and printed."""
    wanted = {file: mode for part in parts for file, mode in FILES[part].items()}
    count.check(f"{name}: status {ran.returncode}: {ran.stderr}", ran.returncode == 0)
    count.check(f"{name}: the files {set(tree(folder).items()) ^ set(wanted.items())}", tree(folder) == wanted)
    printed = {os.path.relpath(line, folder) for line in ran.stdout.splitlines()}
    count.check(f"{name}: it prints {ran.stdout}", printed == set(wanted))


def worker_replies():
    """What the example prints."""
    return read(f"{EXAMPLES}/late_worker.out").decode().split("risk\n")[0] + "replayed 9\ndifferent at 4\n"


def check_worker(count, name, *words, **how):
    ran = ended(*words, **how)
    is_right = ran.returncode == 0 and ran.stdout == worker_replies()
    count.check(f"{name}: status {ran.returncode}: {ran.stdout}{ran.stderr}", is_right)


def test_files(count, room, built):
    """The files, once at a prefix and once below a folder for later; a second time they are put in the place of the first."""
    prefix, later = f"{room}/prefix", f"{room}/later"
    for _ in range(2):
        check_files(count, "tools/install", ended(INSTALL, *of_built(built), prefix), prefix, parts_of(built))
    ran = ended(INSTALL, *of_built(built), "--destdir", later, PREFIX)
    check_files(count, "tools/install --destdir", ran, f"{later}{PREFIX}", parts_of(built))
    for folder, own in ((f"{later}{PREFIX}", PREFIX), (prefix, prefix)):
        text = read(f"{folder}/lib/pkgconfig/lrc_embed.pc").decode()
        count.check(f"lrc_embed.pc of {own}: {text}", f"prefix={own}\n" in text and room not in text.replace(own, ""))
    for name, source in {"bin/lrcman": built.program, f"lib/liblrc_embed.so.{VERSION}": f"{built.library}/liblrc_embed.so",
                         "include/lrc_embed.h": f"{TOP}/crates/lrc_embed/include/lrc_embed.h"}.items():
        count.check(f"{name} is {source}", read(f"{prefix}/{name}") == read(source))
    if "service" in parts_of(built):
        text = read(f"{later}{PREFIX}/lib/systemd/system/lrcmand.service").decode()
        count.check(f"the command of the unit: {text}", f"\nExecStart={PREFIX}/bin/lrcmand\n" in text)
    only = ended(INSTALL, *of_built(built), "--only", "development", "--only", "python", "--libdir", "lib/other", "--python", "py",
                 f"{room}/only")
    wanted = {name.replace("lib/", "lib/other/", 1) for name in FILES["development"]} | {"py/lrc_embed.py"}
    count.check(f"--only, --libdir, --python: {only.stderr} {sorted(tree(f'{room}/only'))}", set(tree(f"{room}/only")) == wanted)
    return prefix


def check_refused(count, name, status, told, *words):
    """A command that installs nothing, and says why."""
    ran = ended(INSTALL, *words)
    is_told = all(it in ran.stderr for it in told) and not ran.stdout
    count.check(f"{name}: status {ran.returncode}: {ran.stdout}{ran.stderr}", ran.returncode == status and is_told)


def test_refusals(count, room, built):
    """What is not built is told, a library of another version is refused, and so is a command line that is wrong."""
    nothing = ["--program", f"{room}/none", "--library", f"{room}/none", "--service", f"{room}/none"]
    told = ["left out: lrcman: there is no", "rt run", "examples/embed/build builds it", "service/build builds it", "nothing is"]
    check_refused(count, "nothing is built", 1, told, *nothing, f"{room}/refused")
    check_refused(count, "what is named is not built", 1, ["there is no"], *nothing, "--only", "library", f"{room}/refused")
    check_refused(count, "a prefix from here", 2, ["PREFIX"], *nothing, "usr/local")
    check_refused(count, "no such part", 2, ["--only"], "--only", "java", f"{room}/refused")
    check_refused(count, "no prefix", 2, ["PREFIX"])
    other = of_version(count, room, VERSION + 1)
    shutil.copy(other.shared, f"{other.folder}/liblrc_embed.so")
    shutil.copy(f"{built.library}/liblrc_embed.a", other.folder)
    told = [f"version {VERSION + 1} of its interface", f"for version {VERSION}"]
    check_refused(count, "another version", 1, told, "--library", other.folder, "--only", "library", f"{room}/refused")
    count.check("a refusal writes nothing", not os.path.exists(f"{room}/refused"))
    ran = ended(INSTALL, "--program", built.program, "--library", f"{room}/none", "--service", f"{room}/none", f"{room}/some")
    some = set(tree(f"{room}/some"))
    count.check(f"what is built is installed: {ran.stderr}", ran.returncode == 0 and some == {*FILES["lrcman"], *FILES["python"], *FILES["tools"]})


def test_pkg_config(count, room, prefix):
    if not shutil.which("pkg-config"):
        return left_out("a program in C by pkg-config", "there is no pkg-config")
    env = {**os.environ, "PKG_CONFIG_PATH": f"{prefix}/lib/pkgconfig"}
    flags = ended("pkg-config", "--cflags", "--libs", "lrc_embed", env=env).stdout.split()
    count.check(f"the flags of pkg-config: {flags}", flags == [f"-I{prefix}/include", f"-L{prefix}/lib", "-llrc_embed"])
    found = ended("pkg-config", "--modversion", "lrc_embed", env=env).stdout
    count.check(f"the version of pkg-config: {found}", found == f"{VERSION}\n")
    if count.run("a program in C by pkg-config", CC, "-std=c11", WORKER, "-o", f"{room}/by_pkg_config", *flags) is not None:
        how = {"env": {**os.environ, "LD_LIBRARY_PATH": f"{prefix}/lib"}}
        check_worker(count, "the program in C by pkg-config", f"{room}/by_pkg_config", **how)
        needed = ended("readelf", "-d", f"{room}/by_pkg_config").stdout
        count.check(f"it needs {needed}", f"[liblrc_embed.so.{VERSION}]" in needed)


def test_checked(count, room, prefix):
    """A program in C over the checked build, which is not the other one."""
    library = f"{prefix}/lib/liblrc_embed_checked.a"
    count.check("the checked build tells of a handle in use", b"is in use" in read(library))
    words = [CC, "-std=c11", "-pthread", f"-I{prefix}/include", WORKER, library, "-o", f"{room}/over_checked"]
    if count.run("a program in C over the checked build", *words) is not None:
        check_worker(count, "the program in C over the checked build", f"{room}/over_checked")


def test_cmake(count, room, prefix):
    """By CMake: the shared and the static library, also where the prefix was moved; another version is not found."""
    if not shutil.which("cmake"):
        return left_out("a program in C by CMake", "there is no cmake")
    moved = shutil.copytree(prefix, f"{room}/moved", symlinks=True)
    for name, at, version, status in (("found", prefix, "", 0), ("moved", moved, VERSION, 0), ("older", prefix, VERSION - 1, 1),
                                      ("newer", prefix, VERSION + 1, 1)):
        source = f"{room}/cmake_{name}"
        os.mkdir(source)
        shutil.copy(WORKER, source)
        with open(f"{source}/CMakeLists.txt", "w", encoding="utf-8") as text:
            text.write(CMAKE.format(version=version))
        how = {"env": {**os.environ, "CC": CC}, "status": status}
        said = count.run(f"cmake: {name}", "cmake", "-S", source, "-B", f"{source}/out", f"-DCMAKE_PREFIX_PATH={at}", **how)
        if status or said is None or count.run(f"cmake --build: {name}", "cmake", "--build", f"{source}/out") is None:
            continue
        for program in ("shared", "static"):
            check_worker(count, f"the {program} program by CMake, {name}", f"{source}/out/{program}")
            needs = f"liblrc_embed.so.{VERSION}" in ended("readelf", "-d", f"{source}/out/{program}").stdout
            count.check(f"the {program} program needs the shared library: {needs}", needs == (program == "shared"))


def test_python(count, prefix):
    env = {**os.environ, "PYTHONPATH": f"{prefix}/{MODULE}", "LD_LIBRARY_PATH": f"{prefix}/lib"}
    script = re.sub(r"^sys.dont_write_bytecode.*\n", "", read(f"{EXAMPLES}/embed/late_worker.py").decode(), flags=re.M)
    check_worker(count, "Python", sys.executable, "-B", "-c", script, env=env, cwd="/")


def test(count, room, built):
    prefix = test_files(count, room, built)
    test_refusals(count, room, built)
    test_pkg_config(count, room, prefix)
    test_checked(count, room, prefix)
    test_cmake(count, room, prefix)
    test_python(count, prefix)
    for name in parts_of(built):
        if name in ("lrcman", "service"):
            program = f"{prefix}/bin/{'lrcmand' if name == 'service' else name}"
            words = ["--version"] if name == "service" else ["matrix"]
            count.run(f"{program} {words}", program, *words)
    return prefix
