"""What the tests take from the toolchain's own `rt`: the words of a check, and which libraries are of the present sources.

`rt lib` stamps a library with a sum of all that it is made of. `rt ci` leaves libraries with no stamp, which `rt` itself
doesn't take: they hold statements alone, which fit only the libraries that they were proved over. The times of files tell
whether such a library is of the present sources: `rt ci` makes the folder out/ of a crate anew before it reads the crate, and
has built all libraries below it by then. What they told once is kept beside the library, as sums."""
import functools
import os
import shutil
import subprocess

from tests.harness import loaded

NEEDED = "KIT RATTLE KEPT PARTS crates_below sum_of text_of Crate.below Crate.words Crate.stamp Crate.is_built".split()


@functools.cache
def module():
    """The module beside `rt`; an ImportError tells what of the toolchain is not found."""
    rt = shutil.which("rt")
    if not rt:
        raise ImportError("there is no rt on the path")
    folder = os.path.dirname(os.path.realpath(rt))
    if not os.path.isfile(f"{folder}/rtlib.py"):
        raise ImportError(f"there is no {folder}/rtlib.py")
    rtlib = loaded(f"{folder}/rtlib.py")
    for name in NEEDED:
        owner, _, part = name.rpartition(".")
        if not hasattr(getattr(rtlib, owner, None) if owner else rtlib, part):
            raise ImportError(f"{folder}/rtlib.py has no {name}")
    if not os.access(rtlib.RATTLE, os.X_OK):
        raise ImportError(f"there is no program {rtlib.RATTLE}")
    # (the stamp of a crate asks for those of all below it, each again for each crate above)
    rtlib.Crate.stamp = functools.cache(rtlib.Crate.stamp)
    return rtlib


def crates(top):
    """The crates of a repository as they are now, by their names."""
    return {crate.name: crate for crate in module().crates_below(top)}


def words_of_check(crate):
    """The command that checks a crate over the libraries as they are built, and keeps what it proved for the next check."""
    return [module().RATTLE, "check", *crate.words(["--jobs", "1"]), *module().KEPT]


def is_built(crate):
    """Whether there is a library of a crate as it is now, built by `rt lib` or by `rt ci`."""
    return crate.is_built() or is_left_by_ci(crate)


def is_left_by_ci(crate):
    """Whether one run of `rt ci` left the library of a crate and all below it, and their sources are as it read them."""
    libraries, kept = [*crate.below(), crate], f"{crate.folder}/out/rlib/sources"
    formats = [f"{it.folder}/out/rlib/{it.name}.rlib/format" for it in libraries]
    if not all(map(os.path.isfile, formats)):
        return False
    sum = " ".join([crate.stamp(), *map(module().sum_of, formats)])
    # (the times come after the sum, so that a change in between is seen; what a run puts back is older than the folder)
    begun, built = ([os.path.getmtime(path) for path in paths] for paths in ([it.folder for it in libraries], formats))
    if all(map(float.__lt__, begun, built)) and max([last_change(crate), *built[:-1]]) < begun[-1]:
        with open(kept, "w", encoding="utf-8") as file:
            file.write(sum)
    return module().text_of(kept) == sum


def last_change(crate):
    """When something that a library is made of was last changed: a copy can keep the time of a text, but not that of its entry."""
    parts = [f"{it.folder}/{part}" for it in [*crate.below(), crate] for part in module().PARTS]
    files = [f"{at}/{name}" for part in parts for at, _, names in os.walk(part) for name in [".", *names]]
    files += [f"{module().KIT}/WHAT", f"{os.path.dirname(os.path.dirname(crate.folder))}/crates.txt"]
    return max(time for file in files for time in (os.path.getmtime(file), os.path.getctime(file)))


def build(crate):
    """Proves and builds the library of a crate, over those below it as they are built, and returns whether it is proved."""
    # (what `rt ci` left below has a stamp for the time of this build alone)
    lent = {f"{it.folder}/out/rlib/stamp": it.stamp() for it in crate.below() if not it.is_built()}
    for path, stamp in lent.items():
        with open(path, "w", encoding="utf-8") as file:
            file.write(stamp)
    try:
        return not subprocess.run(["rt", "lib"], cwd=crate.folder, stdout=subprocess.DEVNULL).returncode
    finally:
        for path in lent:
            os.remove(path)
