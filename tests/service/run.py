"""Tests lrcmand: its Go, and processes of it on loopback.

Usage: service/test [--long] [--library FOLDER], where FOLDER has what examples/embed/build makes; by default examples/embed/out

- gofmt, go vet and staticcheck find nothing; the tests of each package pass with the race detector. Fuzz tests of the readers of calls,
  log entries and snapshot records run over their seeds. openapi.json is made of the table of routes, and each answer in the tests of the
  interface is held against it. Page, metrics and ctl show states and counts that the plain model wrote (internal/survey/recorded); the
  rules of alerts and the console are read by a parser that knows the metrics and labels; Chromium shows the page of each state as
  the model has it.
- promtool takes the rules of alerts, and their tests pass, and fail where a rule is changed. Prometheus scrapes a member, has an
  answer to each rule, and shows in the console each state, from healthy to lost, with the counts of the model.
- One member: it is ready within a second, is killed and continues; its tables are those of tests/model/shown.py, byte for byte, and its
  recipes are right by that model.
- What an operator sees: versions and options, a start, an end under load without an election, what systemd is sent.
- The recipes of docs/OPERATING.md for a month run word for word, each on three days in a row, and each day's backup is restored. After
  each the book is that of the model. Over TLS tools/balance has the script of the model, and refuses another CA, another host and a
  missing token.
- A book moves from one member to another, call by call as the model has it.
- Members at addresses where nobody listens don't strand a group, and changes that would are refused; a backup under load is restored
  with all that was acknowledged before it, with its keys and leases, and every book at one place of the log; a member continues alone
  with all that was acknowledged when the others are lost. The recipes of the page for all this are run word for word.
- 5,000 connections that are idle, send half a head, a slow body or one that nobody reads, or are silent in a handshake leave /health
  under a tenth of a second; 100 bodies of 8 MiB at once stay below 600 MB, and each is answered; 20,000 requests by chance, by a seed
  that is printed, find no fault and leave no descriptor or memory. Pages of other origins command nothing; each role, name and book has
  its rights over TLS and no others.
- Three to five members, of which some are killed, stopped, woken, made leader, added and removed while clients call, look and read logs.
  Each acknowledged reply stands in the log of its book, in each client's order, none twice; no look is older than it says; the log is a
  history of tests/model/rules.py, and all members have its image in the end. Ten seconds, or two minutes with --long, which makes the other
  runs longer too: ten minutes in all.
- service/measure --quick has all its rows, and each reply in it that is acknowledged is an entry; no figure is judged. Each run shows
  that this count finds a reply that is no entry.
- The clients of Go and of Python make each call at most once, and report rightly what came of it: over a fake group that does what goes
  wrong and knows few keys, and over members that are killed and cut off while a book forgets its keys. What they read of tables is that
  of a member and of the model. Their examples run as they stand.
- Members speak over links that hang, lose one direction, are late or are reset, and answers to clients hang or break off after any byte:
  all the same has to hold. A leader that only clients reach acknowledges nothing, and has no look as of now; the others continue. A
  program that leaves out the question to a majority is found.
- One byte of the newest file of each kind is changed, at places by chance: the member exits and says why, or continues, says what it
  passed over, and has the image of the model. A folder of another number or another group is refused, and left as it is.
- Strangers send the port of members 2,400 requests that no member sends, and open 1,200 connections: the group serves calls meanwhile,
  has no other entry, and its terms and memory stay in bounds. A folder that was emptied, that of another member and an older copy are
  refused by name, and every call that was acknowledged is there; a web server that answers 410 and 403 at the address of a member that is
  down ends nobody.
- Answers to calls without keys are right, also where a member hears nothing of its leader, or where two of three members are gone: 200 is
  made once, 503 never, 504 at most once. A call with a key whose answer is lost is not made again after 4,096 others, and a book that is
  made and removed meanwhile stays away. A member that was stopped makes up for no ticks. One of three with other checksums shows its
  book to nobody.
- Members stay small however large the entries of their log are, and a call waits for few of the looks at its book.
- With --long, members whose time.Now goes to another hour twice a second, while durations stay right, do as the others.
- The disk of a member is full: it exits and says why, and continues when there is room again.
- Members lose power, one or all at once: their folders are on disks in memory, mounted by FUSE, that know what was synced. Of the rest a
  cut loses, tears or keeps each page, and loses or keeps each name. Members start on what is left, also with small files of the log and
  many snapshots. All the same has to hold. A program that does not sync its log, or not its names, is found.
- Members end before each step of a snapshot that is written or that comes, and of a log that is cut, by kills and by power cuts: each
  start has all that was acknowledged, also from the snapshot before where the newest is damaged. A part of the steps, by a seed, or all
  with --long.
- A program that acknowledges before it has committed, and one that reports a wrong age, are found by the same. Such programs are made
  with a tag that service/build never sets.
- A group goes from one version of the rules to the next, and a program of the one before exits and says why.

What this machine lacks is printed and left out. The last line is 'N passed, M failed'."""
import os
import shutil
import signal
import subprocess
import sys
import tempfile
import time

from tests import harness
from tests.harness import TOP, Count
from tests.model.rules import Node
from tests.service.balance_tls import test_balance_over_tls
from tests.service.bytes_and_looks import test_bytes, test_calls_beside_looks
from tests.service.chaos import chaos
from tests.service.client_py import test_clients, test_examples, test_looks, test_python_client, test_tls
from tests.service.clocks import NoClock, build_jumping, hours_away
from tests.service.cluster import place
from tests.service.crash_points import test_crash_points
from tests.service.damaged import test_damage, test_other_folders
from tests.service.full_disk import test_full_disk
from tests.service.limits import test_limits
from tests.service.lost_folder import test_lost_folders
from tests.service.members import test_members
from tests.service.monitoring import test_monitoring
from tests.service.month import test_month
from tests.service.move import test_move
from tests.service.onceonly import test_once_only
from tests.service.one_member import test_one_member
from tests.service.operators import test_operators
from tests.service.partitions import test_network
from tests.service.powercuts import test_power_cuts
from tests.service.strangers import test_strangers
from tests.service.versions import test_versions
from tests.service.work import LEAST

SERVICE = os.path.join(TOP, "service")
SECONDS, LONG, MOST_RUNS = 10, 120, 10
# Few slots, and few domains: so that places, leases and upgrades are refused too.
NODES = {number: Node(number % 12, number % 10, 6) for number in range(24)}


def left_out(what, why):
    print(f"left out: {what}: {why}", flush=True)


def go(library, words):
    """Runs a line of shell with what Go needs."""
    line = f'. "{SERVICE}/go-env" && go_env "{library}" && {words}'
    return subprocess.run(["bash", "-c", line], capture_output=True, text=True, cwd=SERVICE, timeout=3600)


def what_go_lacks(library):
    ran = subprocess.run(["bash", "-c", f'. "{SERVICE}/go-env" && missing_for_go "{library}"'], capture_output=True, text=True)
    return ran.stdout.strip()


def expect_quiet(count, name, ran):
    said = (ran.stdout + ran.stderr).strip()
    count.check(f"{name}: {said[-2000:]}", ran.returncode == 0 and not said)


def test_go(count, library):
    expect_quiet(count, "gofmt", go(library, "gofmt -l book client cmd internal"))
    expect_quiet(count, "go vet", go(library, "go vet $(go_packages) && go vet -tags faulty $(go_packages)"))
    program = next((it for it in ("staticcheck", "go-staticcheck") if shutil.which(it)), None)
    if program:
        expect_quiet(count, "staticcheck", go(library, f"{program} $(go_packages)"))
    else:
        left_out("staticcheck", "there is none: Debian's go-staticcheck has it")
    ran = go(library, "go test -race -count=1 -timeout 1h $(go_packages)")
    for line in ran.stdout.splitlines():
        words = line.split()
        if words[:1] == ["ok"] or words[:1] == ["FAIL"] and len(words) > 1:
            count.check(f"go test {words[1]}: {ran.stdout[-4000:]}", words[0] == "ok")
    count.check(f"go test: {ran.stdout[-4000:]} {ran.stderr[-2000:]}", ran.returncode == 0)


def build(count, library, file, tags=""):
    how = {"env": {**os.environ, "GO_TAGS": tags}}
    return count.run("service/build", os.path.join(SERVICE, "build"), "--library", library, file, **how)


def test_cuts(count, library, room, program, faulty, is_long):
    if not go(library, "go_fuse_packages").stdout:
        left_out("power cuts", "there is no package go-fuse: Debian's golang-github-hanwen-go-fuse-dev has it")
        return
    expect_quiet(count, "go vet powercut", go(library, "go vet $(go_fuse_packages)"))
    ran = go(library, f"go test -count=1 $(go_fuse_packages) && go build -o {room}/powercut $(go_fuse_packages)")
    if count.check(f"powercut: {ran.stdout[-2000:]} {ran.stderr[-2000:]}", ran.returncode == 0):
        powercut = f"{room}/powercut"
        test_power_cuts(count, program, faulty, powercut, room, NODES, 25 if is_long else 4, is_long)
        test_crash_points(count, faulty, powercut, room, NODES, is_long)


def test_chaos(count, program, room, is_long):
    seed = int(time.time())
    run = chaos(program, f"{room}/chaos", NODES, harness.topology_of(NODES), LONG if is_long else SECONDS, seed)
    print(f"members come and go, seed {seed}: {run}", flush=True)
    count.add(run.told + run.looks + run.entries - min(len(run.faults), run.told), run.faults)
    happened = run.told >= LEAST, run.looks >= LEAST, run.acts.get("killed"), run.acts.get("stopped")
    count.check(f"something happened: {run}", all(happened))


def expect_jumps(count, room, program):
    """The time of day of the one program jumps, and that of the other does not."""
    jumping, still = hours_away(f"{room}/jumping", f"{room}/hours-jumping"), hours_away(program, f"{room}/hours-still")
    count.check(f"a time of day that jumps is hours away: {jumping}", len(set(jumping)) > 3)
    count.check(f"a time of day that does not: {still}", set(still) == {0})


def test_clocks(count, library, room, program):
    """Members whose time of day jumps do as the others."""
    try:
        is_built = build_jumping(count, os.path.join(SERVICE, "build"), library, room, f"{room}/jumping")
    except NoClock as why:
        left_out("a time of day that jumps", why)
        return
    if is_built:
        expect_jumps(count, room, program)
        seed = int(time.time())
        run = chaos(f"{room}/jumping", f"{room}/clocks", NODES, harness.topology_of(NODES), 30, seed)
        print(f"members whose time of day jumps, seed {seed}: {run}", flush=True)
        count.add(max(run.told + run.looks + run.entries - len(run.faults), 0), run.faults)
        count.check(f"something happened: {run}", run.told >= LEAST and run.looks > 0)


def run_faulty(faulty, room, fault, seed):
    how = {"env": {"LRCMAND_FAULT": fault}, "is_quiet": True, "lookers": 4}
    with place(room) as folder:
        return chaos(faulty, f"{folder}/{fault}{seed}", NODES, harness.topology_of(NODES), 3, seed, **how)


def test_faulty(count, faulty, room):
    """What must be found is found, in one run of several: a look that says it is new is often new."""
    for fault, words in (("early", "told"), ("fresh", "a look of age 0")):
        for seed in range(1, MOST_RUNS + 1):
            run = run_faulty(faulty, room, fault, seed)
            is_found = any(words in it for it in run.faults)
            if is_found:
                break
        count.check(f"a program that is {fault} is found in {MOST_RUNS} runs: {run} {run.faults[:3]}", is_found)
    run = run_faulty(faulty, room, "none", 1)
    count.check(f"without a fault nothing is found: {run.faults[:3]}", not run.faults)


# How the rows of service/measure begin.
ROWS = ["1 ", "8 ", "64 ", "256 ", "lrcmand ", "no book ", "64 books without", "64 books of 4 ", "80 books without",
        "2,560 calls in", "a snapshot in", "1 of", "2 of", "4 of"]


def test_measure(count, library, room):
    told = count.run("service/measure", os.path.join(SERVICE, "measure"), "--quick", "--library", library, "--folder", room)
    lines = (told or "").splitlines()
    for row in ROWS:
        count.check(f"service/measure has no row {row!r}: {told}", any(line.startswith(row) for line in lines))
    for line in lines:
        if line.startswith("left out"):
            print(line, flush=True)


def test_both_clients(count, program, library, room):
    test_python_client(count)
    for test, words in ((test_looks, ()), (test_tls, ()), (test_examples, (library,))):
        with place(room) as folder:
            test(count, program, *words, folder)
    expect_quiet(count, "caller", go(library, f"go build -o {room}/caller lrcman/service/internal/caller"))
    test_clients(count, program, f"{room}/caller", room, NODES)


def tests_of(count, library, program, faulty, is_long):
    """The tests of members, in their order. Each takes the folder that it has to itself."""
    yield lambda room: test_one_member(count, program, room)
    yield lambda room: test_monitoring(count, program, room, left_out)
    yield lambda room: test_month(count, program, room, left_out)
    yield lambda room: test_balance_over_tls(count, program, room, left_out)
    yield lambda room: test_move(count, program, room)
    yield lambda room: test_members(count, program, room, NODES)
    yield lambda room: test_once_only(count, program, faulty, room, NODES)
    yield lambda room: test_operators(count, program, faulty, room, NODES)
    yield lambda room: test_bytes(count, program, room, NODES, 400 if is_long else 130)
    yield lambda room: test_calls_beside_looks(count, program, room, NODES)
    yield lambda room: test_limits(count, program, room, NODES)
    yield lambda room: test_chaos(count, program, room, is_long)
    yield lambda room: test_faulty(count, faulty, room)
    yield lambda room: test_versions(count, faulty, room, NODES)
    yield lambda room: test_both_clients(count, program, library, room)
    yield lambda room: test_measure(count, library, room)
    yield lambda room: test_damage(count, program, room, NODES, 30 if is_long else 3)
    yield lambda room: test_other_folders(count, program, room, NODES)
    yield lambda room: test_lost_folders(count, program, room, NODES)
    yield lambda room: test_strangers(count, program, room, NODES)
    yield lambda room: test_full_disk(count, faulty, room, NODES)
    yield lambda room: test_network(count, program, faulty, room, NODES, 60 if is_long else 6)
    yield lambda room: test_cuts(count, library, room, program, faulty, is_long)
    if is_long:
        yield lambda room: test_clocks(count, library, room, program)


def main(words):
    is_long = "--long" in words
    words = [word for word in words if word != "--long"]
    library = os.path.join(TOP, "examples/embed/out")
    if len(words) == 2 and words[0] == "--library":
        library = os.path.abspath(words[1])
    elif words:
        print(f"service/test: this word is none of the options: {words[0]}", "0 passed, 1 failed", sep="\n")
        return 1
    count = Count()
    if lacking := what_go_lacks(library):
        left_out("all of it", lacking)
        return count.report()
    signal.signal(signal.SIGTERM, lambda *_: sys.exit(1))  # (so that processes and mounts end with it)
    with tempfile.TemporaryDirectory() as room:
        test_go(count, library)
        program, faulty = f"{room}/lrcmand", f"{room}/faulty"
        if build(count, library, program) and build(count, library, faulty, "faulty"):
            for test in tests_of(count, library, program, faulty, is_long):
                with place(room) as folder:
                    test(folder)
    return count.report()


if __name__ == "__main__":
    sys.exit(main(sys.argv[1:]))
