"""Installs the program, the library and the service, and makes packages of them.

Usage: tests/packages/run PROGRAM FOLDER [SERVICE], where FOLDER has what examples/embed/build makes, and SERVICE is lrcmand; by
default service/build builds it

- The libraries show the functions of the header, and nothing else.
- tools/install puts each file below a prefix, and below a folder for later. Against what it installs, programs in C are built
  by pkg-config and by CMake, and run; Python finds the module. It says what is not built. The crates for Rust have the
  declarations of the header; they and the package for Go are built against what is installed, and tried.
- The tools in Python print there what those of the tree print, and their manual pages have what they say of themselves.
- The manual pages and the completion have the words, options and defaults that the programs have.
- tools/package makes the packages, the same bytes each time; lintian finds no error. In a clean root of Debian each is installed
  and used: the program, a program in C, Python's module, and the service by the command of its unit. They are removed again.
- systemd takes the unit and finds it guarded. Where systemd can be started in the clean root, the unit is started there.

What this machine lacks is printed and left out. The last line is 'N passed, M failed'."""
import os
import sys
import tempfile

from tests import harness
from tests.harness import TOP
from tests.packages import bindings, clean, installed, packages, pages, symbols, tools, unit
from tests.packages.said import ended, left_out
from tools.install import Built


def built_service(count, folder, room):
    """Builds the service; returns its file, or nothing where Go is not there."""
    file = f"{room}/lrcmand"
    ran = ended(f"{TOP}/service/build", "--library", folder, file)
    if ran.returncode == 3:
        return left_out("the service", ran.stderr.strip())
    count.check(f"service/build: {ran.stderr[-2000:]}", ran.returncode == 0)
    return file


def main(words):
    if len(words) not in (2, 3):
        harness.stop("name the program, and the folder of the library")
    os.environ["DPKG_DEB_COMPRESSOR_LEVEL"] = "1"  # (a package is made in a tenth of the time)
    count, (program, folder, *rest) = harness.Count(), map(os.path.abspath, words)
    with tempfile.TemporaryDirectory() as room:
        service = rest[0] if rest else built_service(count, folder, room)
        built = Built(program, folder, service or f"{room}/none")
        symbols.test(count, folder)
        prefix = installed.test(count, room, built)
        bindings.test(count, room, prefix)
        tools.test(count, room, prefix, program)
        pages.test(count, service)
        unit.test(count, room, service)
        made = packages.test(count, room, built)
        clean.test(count, room, made)
    return count.report()


if __name__ == "__main__":
    sys.exit(main(sys.argv[1:]))
