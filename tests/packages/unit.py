"""The unit of the service, as systemd reads it without starting it."""
import os
import re
import shutil

from tests.harness import TOP
from tests.packages.installed import INSTALL, of_built
from tests.packages.said import ended, left_out
from tools.install import Built

# The most that `systemd-analyze security` may find open to a service, of 10.
MOST_EXPOSED = 1.5


def test(count, room, service):
    if not shutil.which("systemd-analyze"):
        return left_out("the unit", "there is no systemd-analyze")
    path = f"{TOP}/service/lrcmand.service"
    if service:  # (it has to find the command)
        prefix = f"{room}/unit"
        ended(INSTALL, *of_built(Built(service=service)), "--only", "service", prefix)
        path = f"{prefix}/lib/systemd/system/lrcmand.service"
        ran = ended("systemd-analyze", "verify", path)
        count.check(f"systemd-analyze verify: {ran.stderr}", ran.returncode == 0 and "lrcmand" not in ran.stderr)
    ran = ended("systemd-analyze", "security", "--offline=yes", path)
    found = re.search(r"exposure level for lrcmand\.service: ([\d.]+)", ran.stdout)
    print(f"systemd-analyze security: {found[1] if found else ran.stderr} of 10", flush=True)
    count.check(f"systemd-analyze security: {ran.stdout[-500:]}", found and float(found[1]) <= MOST_EXPOSED)
    users = shutil.which("systemd-sysusers")
    if not users:
        return left_out("the user of the unit", "there is no systemd-sysusers")
    os.makedirs(f"{room}/users/etc", exist_ok=True)
    count.run("systemd-sysusers", users, f"--root={room}/users", f"{TOP}/service/lrcmand.sysusers")
    with open(f"{room}/users/etc/passwd", encoding="utf-8") as text:
        found = text.read()
    count.check(f"the user: {found}", re.search(r"^lrcmand:x:\d+:\d+:[^:]*:/var/lib/lrcmand:/usr/sbin/nologin$", found, re.M))
