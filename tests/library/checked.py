"""The checked build of the library (examples/embed/checked): each call with a handle that another thread is inside of ends the program
with a message; calls that are allowed beside each other do not; and embed.c and views.c pass over it as they are.

The calls are those that the crate exports, so one that the build forgets is found out."""
import re
import signal
import subprocess
import sys

from tests.harness import CC, EXAMPLES, TESTS, TOP, read

# For each kind of handle: one that a thread is inside of, with the call that it is inside of, and one that is free.
BUSY = {
    "lrc_handle": [("&handle", "lrc_embed_show"), ("&published.book", "lrc_embed_view"), ("&viewer.book", "lrc_embed_view")],
    "lrc_published": [("&published", "lrc_embed_view")],
    "lrc_viewer": [("&viewer", "lrc_embed_view")],
}
FREE = {"lrc_handle": "&free_handle", "lrc_published": "&free_published", "lrc_viewer": "&free_viewer"}
PLACES = ["&handle", "&published", "&viewer"]  # as the program prints them
OVERLAPS = ["lrc_embed_publish", "lrc_embed_unpublish", "lrc_embed_view", "lrc_embed_publish"]


def cases_of(exports):
    """Each call with each handle busy: its name, the handle, the call that another thread is inside of, and its words in C."""
    for name, declaration in sorted(exports.items()):
        given = [it.strip() for it in re.search(r"\((.*)\)", declaration)[1].split(",")]
        kinds = [next((kind for kind in BUSY if it.startswith(f"{kind} *")), None) for it in given]
        for at, kind in enumerate(kinds):
            for busy, inside in BUSY.get(kind, ()):
                passed = [busy if i == at else FREE[kind] if (kind := kinds[i]) else "(void *)zeros" if "*" in it else "0"
                          for i, it in enumerate(given)]
                yield name, busy, inside, f"{name}({', '.join(passed)})"


def symbols(*words):
    """The names that an archive or a shared library has for programs."""
    listed = subprocess.run(["nm", "--defined-only", *words], capture_output=True, text=True, check=True).stdout
    return sorted(re.findall(r" T (\w+)$", listed, re.M))


def built(count, room, source, archive, *words):
    """A program of the tests over an archive."""
    program = f"{room}/{source}-{archive}"
    flags = ["-std=c11", "-O2", "-Wall", "-Wextra", "-Werror", f"-I{TOP}/crates/lrc_embed/include", f"-I{room}"]
    made = count.run(f"{source}.c over {archive}", CC, *flags, f"{TESTS}/library/{source}.c", f"{room}/{archive}.a", "-pthread", *words,
                     "-o", program)
    return program if made is not None else None


def is_ended(count, name, ended, said):
    """The program was ended, and this is all that it said."""
    right = ended.returncode == -signal.SIGABRT and re.fullmatch(f"{said}\n", ended.stderr)
    count.check(f"{name}: status {ended.returncode}: {ended.stderr}", right)


def ran(program, *words):
    return subprocess.run([program, *words], capture_output=True, text=True, timeout=60)


def test_cases(count, program, cases):
    for number, (name, busy, inside, call) in enumerate(cases):
        ended = ran(program, str(number))
        at = dict(zip(PLACES, ended.stdout.split())).get(busy.removesuffix(".book"))  # (a book is its first part)
        is_ended(count, call, ended, rf"{name}: the handle at {at} is in use: thread \d+ is inside of {inside}")


def test_threads(count, room, cases):
    wraps = "-Wl,--wrap=malloc"
    checked, plain = (built(count, room, "checked", archive, wraps) for archive in ("liblrc_embed_checked", "liblrc_embed"))
    if not checked or not plain:
        return
    test_cases(count, checked, cases)
    for number, name in enumerate(OVERLAPS):
        is_ended(count, f"overlap {number}", ran(checked, "overlap", str(number)), rf"{name}: the handles at 0x\w+ and 0x\w+ overlap")
    is_ended(count, "a call in an allocator", ran(checked, "nested"),
             "lrc_embed_count: this thread is inside of lrc_embed_show: a call from a signal handler or an allocator")
    count.check("what is allowed", count.run("what is allowed, checked", checked, "allowed") == "allowed\n")
    count.check("what is allowed, by the library itself", count.run("what is allowed", plain, "allowed") == "allowed\n")
    # The library itself finds none of this out: so it is the checked build that does.
    number = next(number for number, (name, *_) in enumerate(cases) if name == "lrc_embed_level")
    ended = ran(plain, str(number))
    count.check(f"the library itself: {ended.returncode}", ended.returncode == 0 and ended.stdout.endswith("status 1\n"))


def test(count, room, exports):
    """The room has what examples/embed/build makes; the exports are the declarations in C of those of the crate."""
    if count.run("examples/embed/checked/build", f"{EXAMPLES}/embed/checked/build", room) is None:
        return
    for words in ([f"{room}/liblrc_embed_checked.a"], ["-D", f"{room}/liblrc_embed_checked.so"]):
        found = symbols(*words)
        count.check(f"the names of {words[-1]}: {set(found) ^ set(exports)}", found == sorted(exports))
    cases = list(cases_of(exports))
    with open(f"{room}/made.h", "w", encoding="utf-8") as file:
        file.writelines(f"    case {number}: return {call};\n" for number, (*_, call) in enumerate(cases))
    print(f"calls with a handle that is in use: {len(cases)}")
    test_threads(count, room, cases)
    views = built(count, room, "views", "liblrc_embed_checked", "-Wl,--wrap=malloc,--wrap=realloc")
    for words in (["statuses"], ["full"], ["closes"], ["refused", "1", "20"], ["beside", "5000", "4"]) if views else ():
        count.run(f"views.c, checked: {words[0]}", views, *words)
    calls = built(count, room, "embed", "liblrc_embed_checked", "-Wl,--wrap=malloc,--wrap=realloc,--wrap=free")
    if calls:
        count.run("embed.c, checked", calls, "images")
    found = count.run("late_worker.py, checked", sys.executable, f"{EXAMPLES}/embed/late_worker.py", f"{room}/liblrc_embed_checked.so")
    replies = read(f"{EXAMPLES}/late_worker.out").decode().split("risk\n")[0]
    count.check(f"late_worker.py, checked: {found}", found == replies + "replayed 9\ndifferent at 4\n")
