"""Runs the small store of examples/cluster: nodes, a gateway and workers over the service.

Usage: tests/cluster/run [--long] FOLDER [SEED], where FOLDER has what examples/embed/build makes. The seed, by default that of
the hour, is printed

- gofmt, go vet and staticcheck find nothing, and the tests of the program pass.
- Its demo ends well: a rack is lost, a worker is late, all is upgraded under load, a byte on a disk is damaged, a file is cut.
  The log of the book has to be a history of tests/model/rules.py. What the demo counted is compared with it: each report of a
  worker, how many fragments it read for its repair, and how many were rebuilt for the reader. The fragments on the disks at
  their homes have to be stripes of tests/model/field.py.
- Its phases with new racks end well: an empty rack is filled by repairs with one target on a node at a time, and tools/balance
  evens out the shares over the service. Each worker looked at the targets before it wrote, and saw what the model has. No command
  of a round put a stripe at a lower level, no move was of a stripe at risk, and no node had more leases than is allowed. In the end
  no lawful move helps.
- A node without the fence, a reader that compares no checksums, workers that ignore the limit of targets, a wrong count and a
  changed byte with its checksum are found.

With --long there are more objects, and three lrcmand too. What this machine lacks is printed and left out. The last line is
'N passed, M failed'."""
import json
import os
import shutil
import subprocess
import sys
import tempfile
import time
import zlib

from tests import harness
from tests.cluster import shares
from tests.cluster.history import Run, bytes_of, judged
from tests.harness import TOP

EXAMPLE = f"{TOP}/examples/cluster"


def left_out(what, why):
    print(f"left out: {what}: {why}", flush=True)


def said_by(*words, **how):
    ran = subprocess.run(words, capture_output=True, text=True, **how)
    return ran.returncode, (ran.stdout + ran.stderr).rstrip()


# The program.


def go_env():
    """What go reads: the example takes the client of the service."""
    links = said_by("bash", "-c", f". {TOP}/service/go-env && go_links")[1]
    return {**os.environ, "GO111MODULE": "off", "CGO_ENABLED": "1", "GOPATH": links}


def test_go(count):
    env = go_env()
    staticcheck = next((it for it in ("staticcheck", "go-staticcheck") if shutil.which(it)), None)
    checks = [("gofmt", "-l", "."), ("go", "vet", "."), ("go", "vet", "-tags", "faulty", ".")]
    if staticcheck:
        checks.append((staticcheck, "."))
    else:
        left_out("staticcheck", "there is none: Debian's go-staticcheck has it")
    for words in checks:
        told = said_by(*words, cwd=EXAMPLE, env=env)
        count.check(f"{' '.join(words)}: {told}", told == (0, ""))
    status, said = said_by("go", "test", "-race", "-count=1", ".", cwd=EXAMPLE, env=env)
    count.check(f"go test: {said[-4000:]}", status == 0)


def build(count, library, room):
    """Builds lrcmand, the program and the faulty one; tells whether all are there, or why nothing can be."""
    for name, tags, *words in (
        ("lrcmand", "", f"{TOP}/service/build", "--library", library, f"{room}/lrcmand"),
        ("cluster", "", f"{EXAMPLE}/build", f"{room}/cluster"),
        ("faulty", "faulty", f"{EXAMPLE}/build", f"{room}/faulty"),
    ):
        status, said = said_by(*words, env={**os.environ, "GO_TAGS": tags})
        if status == 3:
            return left_out("all of it", said)
        count.check(f"building {name}: {said[-2000:]}", status == 0)
    return all(os.path.exists(f"{room}/{name}") for name in ("lrcmand", "cluster", "faulty"))


def run_demo(room, program, folder, seed, *more, fault=None, is_quiet=False, lrcmand="lrcmand"):
    """Runs the demo; returns its status and its lines."""
    # (timeout asks it to end, so that its processes end too)
    words = ["timeout", "900", f"{EXAMPLE}/demo", "--folder", folder]
    words += ["--lrcmand", f"{room}/{lrcmand}", "--program", f"{room}/{program}"]
    env = {**os.environ, **({"CLUSTER_FAULT": fault} if fault else {})}
    status, said = said_by(*words, "--seed", str(seed), *more, env=env)
    if not is_quiet:
        print(said, flush=True)
    return status, said


# What must be found.


def test_counts(count, folder):
    """A changed count, and a changed byte with its checksum, are found."""
    report = json.loads(bytes_of(f"{folder}/report.json"))
    index = next(i for i, it in enumerate(report["repairs"]) if it[4] == 6)
    report["repairs"][index][4] = 7
    report["rack"]["rebuilt"] += 1
    report["cut"]["reads"] = 12
    run = Run(folder, report)
    run.judge()
    count.check(f"changed counts are found: {run.faults}", len(run.faults) == 3)
    file = run.file_of(min(run.store.stripes), 3)
    text = bytearray(bytes_of(file))
    text[100] ^= 1
    text[:4] = zlib.crc32(text[4:]).to_bytes(4)
    with open(file, "wb") as out:
        out.write(text)
    run = judged(folder)
    count.check(f"a changed byte is found: {run.faults}", len(run.faults) == 1 and "the bytes of stripe" in run.faults[0])


def note_words(room, name):
    """Makes an lrcmand that first notes the words of its command line."""
    with open(f"{room}/noted", "w", encoding="utf-8") as out:
        out.write(f'#!/bin/sh\necho "$@" >> {room}/{name}.words\nexec {room}/lrcmand "$@"\n')
    os.chmod(f"{room}/noted", 0o755)


def test_faulty(count, room, seed):
    for fault, phases in (("fence", "late"), ("checksum", "damage"), ("none", "late,damage")):
        how = {"fault": fault, "is_quiet": True, "lrcmand": "noted"}
        note_words(room, fault)
        more = ("--disk-reserve", "4096") if fault == "none" else ()
        status, said = run_demo(room, "faulty", f"{room}/{fault}", seed, "--objects", "4", "--phases", phases, *more, **how)
        words = bytes_of(f"{room}/{fault}.words").decode().split()
        given = [it for option, it in zip(words, words[1:]) if option == "--disk-reserve"]
        count.check(f"lrcmand begins with {words}", given == [*more[1:]] and "--data" in words)
        is_found = status == 1 and "differs at byte" in said.splitlines()[-1]
        wanted = status == 0 if fault == "none" else is_found
        count.check(f"the fault {fault}: {said[-2000:]}", wanted)


def test_demo(count, room, seed, *more):
    folder = f"{room}/run"
    shutil.rmtree(folder, ignore_errors=True)
    status, said = run_demo(room, "cluster", folder, seed, *more)
    is_well = status == 0 and said.endswith("everything was read back, byte for byte")
    if count.check(f"the demo ends well: {status}", is_well):
        run = judged(folder)
        count.add(run.passed, run.faults)
        count.check(f"something happened: {len(run.repairs)} repairs, {len(run.entries)} entries", len(run.repairs) > 10)
    return is_well


def test_new_racks(count, room, seed, objects):
    """Racks come; and workers that ignore the limit of targets are found."""
    for program, fault, phases in (("cluster", None, "targets,share"), ("faulty", "targets", "targets")):
        folder = f"{room}/{program}-racks"
        words = ["--objects", objects, "--phases", phases]
        status, said = run_demo(room, program, folder, seed, *words, fault=fault, is_quiet=bool(fault))
        is_well = status == 0 and said.endswith("everything was read back, byte for byte")
        if not count.check(f"the demo of new racks, {program}: {status}: {said[-2000:]}", is_well):
            continue
        run = judged(folder, shares.Run)
        if fault:
            count.check(f"an ignored limit is found: {run.faults}", any("targets on node" in it for it in run.faults))
        else:
            count.add(run.passed, run.faults)


def main(words):
    is_long = "--long" in words
    folder, *rest = [word for word in words if word != "--long"] or harness.stop("name the folder of the library")
    seed = int(rest[0]) if rest else int(time.time()) // 3600
    count = harness.Count()
    print(f"seed {seed}", flush=True)
    with tempfile.TemporaryDirectory() as room:
        if not build(count, os.path.abspath(folder), room):
            return count.report()
        test_go(count)
        if is_long:
            test_demo(count, room, seed, "--members", "3", "--objects", "60")
        if test_demo(count, room, seed, "--objects", "60" if is_long else "12"):
            test_counts(count, f"{room}/run")
        test_new_racks(count, room, seed, "24" if is_long else "12")
        test_faulty(count, room, seed)
    return count.report()


if __name__ == "__main__":
    sys.exit(main(sys.argv[1:]))
