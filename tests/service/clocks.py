"""A program whose time of day jumps, for tests: the standard library of Go is compiled with another time.Now for it."""
import json
import os
import subprocess
import time
from email.utils import parsedate_to_datetime

from tests.service.cluster import Asker, Group, Member
from tests.service.one_member import wait_ready

# Twice a second the time of day goes to another hour, and each process has other hours. The clock by which durations are
# measured stays right, as in a machine whose time of day is set.
OLD_NOW, NEW_NOW = "\tsec, nsec, mono := now()\n", "\tsec, nsec, mono := now()\n\tsec += jump(mono)\n"
OLD_IMPORT, NEW_IMPORT = '\t_ "unsafe" // for go:linkname\n', '\t"syscall"\n\t_ "unsafe" // for go:linkname\n'
JUMP = """
var jumpSeed = int64(syscall.Getpid())

func jump(mono int64) int64 { return (mono/5e8 + jumpSeed) * 7919 % 36000 - 18000 }
"""


class NoClock(Exception):
    """There can be no such program here, with the reason."""


def overlay(folder):
    """Writes the changed source of Go, and the file that names it."""
    root = subprocess.run(["go", "env", "GOROOT"], capture_output=True, text=True, check=True).stdout.strip()
    path = os.path.join(root, "src/time/time.go")
    with open(path, encoding="utf-8") as file:
        text = file.read()
    if text.count(OLD_NOW) != 1 or text.count(OLD_IMPORT) != 1:
        raise NoClock(f"{path} is another one than that of Go 1.19")
    changed, file_of_names = os.path.join(folder, "time.go"), os.path.join(folder, "overlay.json")
    with open(changed, "w", encoding="utf-8") as file:
        file.write(text.replace(OLD_NOW, NEW_NOW).replace(OLD_IMPORT, NEW_IMPORT) + JUMP)
    with open(file_of_names, "w", encoding="utf-8") as file:
        json.dump({"Replace": {path: changed}}, file)
    return file_of_names


def build_jumping(count, build, library, room, file):
    """Builds the program, which takes a minute: all of Go's packages are compiled anew. Returns whether it could."""
    how = {"env": {**os.environ, "GOFLAGS": f"-overlay={overlay(room)}"}}
    return count.run("service/build", build, "--library", library, file, **how)


def hours_away(program, folder):
    """How many whole hours the time of day of a member is away, at eight moments half a second apart, as the heads of its
    answers tell it."""
    group = Group(program, folder, 0)
    member, asker, found = Member(group, 1, []), Asker(5), []
    try:
        member.start()
        wait_ready(asker, member)
        for _ in range(8):
            _, head, _ = asker.ask(member.client, "GET", "/health")
            found.append(round((parsedate_to_datetime(head["Date"]).timestamp() - time.time()) / 3600))
            time.sleep(0.5)
    finally:
        member.kill()
    return found
