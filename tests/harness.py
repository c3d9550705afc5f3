"""What the tests share: the count of checks, the programs under test, and the reading and writing of bundles."""
import functools
import importlib.util
import os
import re
import shutil
import subprocess
import sys
import tomllib

from tests.model.rules import Node

TESTS = os.path.dirname(os.path.abspath(__file__))
TOP = os.path.dirname(TESTS)
EXAMPLES = os.path.join(TOP, "examples")
CC = os.environ.get("CC", "cc")


# Checks.


class Count:
    """Counts the checks that passed and failed."""

    def __init__(self):
        self.passed, self.failed = 0, 0

    def check(self, name, right):
        """Counts a check and returns whether it passed; prints the name of one that failed."""
        if right:
            self.passed += 1
        else:
            print(f"wrong: {name}", flush=True)
            self.failed += 1
        return bool(right)

    def add(self, passed, wrong, most=10):
        """Counts the checks of one case, and prints the first of those that failed: one mistake shows in many."""
        self.passed += passed
        self.failed += len(wrong)
        for line in wrong[:most]:
            print(f"wrong: {line}", flush=True)

    def run(self, name, *words, status=0, timeout=600, **how):
        """Runs a command, which has to end with the status; returns what it printed, or None."""
        ran = subprocess.run(words, capture_output=True, text=True, timeout=timeout, **how)
        if self.check(f"{name}: status {ran.returncode}: {ran.stderr[-2000:]}", ran.returncode == status):
            return ran.stdout
        return None

    def report(self):
        """Prints the last line of a test, and returns its exit status."""
        print(f"{self.passed} passed, {self.failed} failed")
        return 1 if self.failed else 0


def stop(why):
    """Ends a test that can't be run."""
    print(f"{os.path.splitext(os.path.relpath(sys.argv[0], TOP))[0]}: {why}")
    print("0 passed, 1 failed")
    sys.exit(1)


# Programs.


@functools.cache
def loaded(path, name=None):
    """The module of a file that runs alone, an example's say, by its own name or this one; what it imports is loaded before it."""
    name = name or os.path.splitext(os.path.basename(path))[0]
    spec = importlib.util.spec_from_file_location(name, path)
    sys.modules[name] = importlib.util.module_from_spec(spec)
    try:
        spec.loader.exec_module(sys.modules[name])
    except BaseException:
        del sys.modules[name]
        raise
    return sys.modules[name]

def program_of(words, name="lrcman"):
    """The program under test: the first word of the command line, or what was built in the crate of this name."""
    program = os.path.abspath(words[0] if words else f"{TOP}/crates/{name}/out/{name}")
    if not os.access(program, os.X_OK):
        stop(f"there is no program {program}: `rt ci` at the top, or `rt run` in crates/{name}, builds it")
    return program


def compiled_shim(folder):
    """Compiles tests/program/calls.c, the object that refuses memory and fails reads and writes of a program."""
    if not shutil.which(CC):
        stop(f"there is no C compiler {CC}")
    shim = f"{folder}/calls.so"
    if subprocess.run([CC, "-O2", "-shared", "-fPIC", "-o", shim, f"{TESTS}/program/calls.c"]).returncode:
        stop("the C compiler did not compile tests/program/calls.c")
    return shim


def run_bundle(program, bundle):
    return subprocess.run([program, "run"], input=bundle, capture_output=True)


# Bundles.


def read(path):
    with open(path, "rb") as file:
        return file.read()


def example(name):
    """The bundle of an example."""
    return read(f"{EXAMPLES}/{name}.bundle")


def bundles_in(folder):
    """The path below the top, and the bytes, of each bundle of a folder of examples."""
    for name in sorted(os.listdir(os.path.join(EXAMPLES, folder))):
        if name.endswith(".bundle"):
            path = os.path.normpath(os.path.join(EXAMPLES, folder, name))
            yield os.path.relpath(path, TOP), read(path)


def nodes_in_order(count, slots):
    """Nodes from 0, each in a fault domain of its own, in ten upgrade domains in turn."""
    return {number: Node(number, number % 10, slots) for number in range(count)}


def topology_of(nodes):
    """The topology of a bundle, as text."""
    keys = "[[node]]\nnumber = {}\nfault = {}\nupgrade = {}\nslots = {}\n"
    return "".join(keys.format(number, *node) for number, node in nodes.items())


def bundle_of(nodes, scripts):
    """A bundle, as text, of nodes and the lines of each script."""
    return topology_of(nodes) + "".join("".join(f"{line}\n" for line in ["%%", *script]) for script in scripts)


def split(bundle):
    """The topology of a bundle, and the lines of each of its scripts."""
    topology, *scripts = re.split(rb"^%%$\n?", bundle, flags=re.MULTILINE)
    return topology, [script.split(b"\n") for script in scripts]


def nodes_of(topology):
    """The nodes of a topology, by their numbers."""
    nodes = tomllib.loads(topology.decode())["node"]
    return {node["number"]: Node(node["fault"], node["upgrade"], node["slots"]) for node in nodes}


def parts_of(bundle):
    """The nodes of a bundle by their numbers, and the commands of each of its scripts."""
    topology, scripts = split(bundle)
    return nodes_of(topology), [[line.decode() for line in script if line and line[:1] != b"#"] for script in scripts]


def in_turn(scripts):
    """The calls of scripts that take turns, in the order in which they are made: the index of each script and of its line."""
    return [(i, n) for n, i in sorted((n, i) for i, script in enumerate(scripts) for n in range(len(script)))]
