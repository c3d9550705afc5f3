"""A clean root of Debian, in which the packages are installed, used and removed.

debootstrap makes it once, in some minutes, from a mirror (MIRROR names another one), and it is kept in tests/packages/out."""
import json
import os
import re
import shutil
import subprocess
import time

from tests.harness import EXAMPLES, TOP, example
from tests.packages.installed import worker_replies
from tests.packages.packages import LIBRARY, files_of
from tests.packages.said import ended, left_out

KEPT, SUITE = f"{TOP}/tests/packages/out", "bookworm"
MIRROR = os.environ.get("MIRROR", "http://deb.debian.org/debian")
INCLUDED = "systemd,procps,python3,gcc,libc6-dev,pkg-config"
ALONE = ["unshare", "--mount", "--pid", "--fork", "--kill-child"]
WITHIN = ["env", "-i", "PATH=/usr/sbin:/usr/bin:/sbin:/bin", "LC_ALL=C", "DEBIAN_FRONTEND=noninteractive"]
NODES = "".join(f"[[node]]\nnumber = {i}\nfault = {i}\nupgrade = {i % 10}\nslots = 4\n" for i in range(20))
ASK = """import json, sys, urllib.request
method, path, given, kind = sys.argv[1:]
request = urllib.request.Request(path, given.encode() or None, {"Content-Type": kind}, method=method)
print(urllib.request.urlopen(request, timeout=30).read().decode())
"""


def why_not():
    if os.geteuid():
        return "only root makes one"
    for tool in ("debootstrap", "unshare", "chroot", "tar"):
        if not shutil.which(tool):
            return f"there is no {tool}"
    return ""


def packed_root(room):
    """The archive of the root; nothing, and why, if it could not be made."""
    os.makedirs(KEPT, exist_ok=True)
    file, root = f"{KEPT}/{SUITE}.tar", f"{room}/made"
    if os.path.exists(file):
        return file, ""
    words = ["debootstrap", "--variant=minbase", f"--include={INCLUDED}", SUITE, root, MIRROR]
    try:
        ran = ended(*ALONE, *words, timeout=3600)
    except subprocess.TimeoutExpired:
        return "", "debootstrap takes more than an hour"
    if ran.returncode:
        return "", (ran.stdout + ran.stderr).strip().splitlines()[-1]
    new = f"{file}.{os.getpid()}"  # (another run may make one too)
    subprocess.run(["tar", "-C", root, "-cf", new, "--exclude=./proc/*", "--exclude=./sys/*", "--exclude=./dev/*",
                    "--exclude=./var/cache/apt/archives/*.deb", "."], check=True)
    os.rename(new, file)
    return file, ""


class Root:
    """A root, and commands in it: without a network, and with no process but theirs."""

    def __init__(self, folder):
        self.folder, self.first = folder, None

    def __call__(self, *words, **how):
        if self.first:
            spaces = ["--mount", "--pid", "--net", "--uts", "--ipc", "--cgroup", "--root", "--wd=/"]
            inside = ["nsenter", f"--target={self.first}", *spaces]
        else:
            mounts = "mount -t proc proc \"$0/proc\" && mount --bind /dev \"$0/dev\" && exec chroot \"$0\" \"$@\""
            inside = [*ALONE, "--net", "sh", "-c", mounts, self.folder]
        return ended(*inside, *WITHIN, *words, **how)

    def shell(self, script, **how):
        return self("sh", "-c", script, **how)

    def has(self, path):
        return os.path.lexists(f"{self.folder}/{path}")


def check(count, name, ran, wanted=None, status=0):
    """A command in the root that ends with this status, and prints this if it has to."""
    is_right = ran.returncode == status and (wanted is None or ran.stdout == wanted)
    return count.check(f"{name}: status {ran.returncode}: {ran.stdout[-1500:]}{ran.stderr[-1500:]}", is_right)


def test_use(count, root):
    """The program, a program in C and Python's module, as those who install them use them."""
    bundle = example("place_one_stripe").decode()
    if root.has("usr/bin/lrcman"):
        check(count, "lrcman check", root("lrcman", "check", input=bundle), "ok nodes 20 scripts 1 commands 1\n")
        with open(f"{EXAMPLES}/place_one_stripe.out", encoding="utf-8") as text:
            check(count, "lrcman run", root("lrcman", "run", input=bundle), text.read())
        root.shell("cd /srv && lrcman show nodes > nodes.csv", input=bundle)
    if root.has("srv/nodes.csv"):
        drawn = root("lrcman-picture", "--load", "/srv/nodes.csv")
        check(count, "lrcman-picture", drawn)
        count.check(f"the picture: {drawn.stdout[-200:]}", drawn.stdout.endswith("</svg>\n"))
    examples = "/usr/share/doc/liblrc-embed-dev/examples"
    built = root.shell(f"cd /srv && gcc -o worker {examples}/late_worker.c $(pkg-config --cflags --libs lrc_embed)")
    if check(count, "gcc against the library", built):
        check(count, "a program in C", root("/srv/worker"), worker_replies())
        needed = root("ldd", "/srv/worker").stdout
        count.check(f"it takes the installed library: {needed}", f"/lib/x86_64-linux-gnu/liblrc_embed.so.{LIBRARY[12:]} " in needed)
    static = root.shell(f"cd /srv && gcc -o static {examples}/late_worker.c -l:liblrc_embed.a && ./static")
    check(count, "a program in C with the static library", static, worker_replies())
    check(count, "Python", root("python3", "/usr/share/doc/python3-lrc-embed/examples/late_worker.py"), worker_replies())
    packages = LIBRARY, "liblrc-embed-dev", "python3-lrc-embed", "lrcman-tools"
    check(count, "dpkg finds each file as it was packed", root("dpkg", "--verify", *packages), "")


# The service, under systemd.


class Systemd:
    """systemd as the first process of the root."""

    def __init__(self, root):
        self.root, self.boot = root, None

    def __enter__(self):
        words = [f"{TOP}/tests/packages/boot", self.root.folder, f"lrcman-tests-{os.getpid()}"]
        self.boot = subprocess.Popen(words, stdin=subprocess.DEVNULL, stdout=subprocess.DEVNULL, stderr=subprocess.PIPE, text=True)
        for _ in range(600):
            time.sleep(0.1)
            if self.boot.poll() is not None:
                break
            self.root.first = first_within(self.boot.pid)
            if self.root.first and self.root("systemctl", "is-system-running").stdout.strip() in ("running", "degraded"):
                return self
        self.root.first = None
        return self

    def runs(self):
        return self.root.first is not None

    def __exit__(self, *_):
        if self.root.first:
            os.kill(self.root.first, 9)
        self.root.first = None
        try:
            self.said = self.boot.communicate(timeout=60)[1]
        except subprocess.TimeoutExpired:
            self.boot.kill()


def first_within(pid):
    """The process that is the first one of its namespace, below a process; or None before it is systemd."""
    children = ended("ps", "-o", "pid=,comm=", "--ppid", str(pid)).stdout.split("\n")
    for child in filter(None, (it.split(maxsplit=1) for it in children)):
        if child[1] == "systemd":
            return int(child[0])
        if (found := first_within(child[0])) is not None:
            return found
    return None


def asked(root, method, path, given="", kind="application/json", port=7421):
    """What the service answers, as JSON; nothing, if it doesn't."""
    ran = root("python3", "-c", ASK, method, f"http://127.0.0.1:{port}{path}", given, kind)
    try:
        return json.loads(ran.stdout)
    except ValueError:
        return {"error": ran.stdout + ran.stderr[-300:]}


def shown(root, *names):
    """Properties of the unit."""
    ran = root("systemctl", "show", "lrcmand.service", *(f"--property={it}" for it in names))
    return dict(line.split("=", 1) for line in ran.stdout.splitlines())


def wait_until(holds, seconds=30):
    end = time.monotonic() + seconds
    while not holds() and time.monotonic() < end:
        time.sleep(0.2)
    return holds()


def test_start(count, root):
    """To install it starts nothing; then it runs as its own user, with its own folder, and answers once it is said to be ready."""
    found = shown(root, "ActiveState", "UnitFileState")
    count.check(f"it starts by itself: {found}", found == {"ActiveState": "inactive", "UnitFileState": "disabled"})
    check(count, "systemctl enable --now", root("systemctl", "enable", "--now", "lrcmand"))
    check(count, "it is ready when systemctl returns", root("lrcmand", "ctl", "status"))
    owner = root("ps", "-o", "user=", "-p", shown(root, "MainPID")["MainPID"]).stdout.strip()
    count.check(f"its user: {owner}", owner == "lrcmand")
    check(count, "its folder", root("stat", "-c", "%U:%G %a", "/var/lib/lrcmand"), "lrcmand:lrcmand 700\n")
    made = asked(root, "PUT", "/books/p0", NODES, "text/plain")
    count.check(f"a book is made: {made}", "error" not in made)
    placed = asked(root, "POST", "/books/p0/call", '{"command":"place 1"}')
    count.check(f"a stripe is placed: {placed}", placed.get("kind") == "placed" and placed.get("n") == 1)
    spread = root("lrcman-balance", "--dry", "p0")
    check(count, "lrcman-balance of a book of the service", spread)
    count.check(f"what it prints: {spread.stdout}", re.search(r"^now,0,0,0\.0,20\.0,", spread.stdout, re.M))


def test_restart(count, root):
    """What it acknowledged is there after it was killed, when the unit starts it again; and it reads its files again."""
    before = shown(root, "MainPID")["MainPID"]
    root("systemctl", "kill", "--signal=KILL", "lrcmand")
    again = wait_until(lambda: shown(root, "ActiveState", "NRestarts") == {"ActiveState": "active", "NRestarts": "1"})
    after = shown(root, "ActiveState", "NRestarts", "MainPID")
    count.check(f"it is started again: {after}", again and after["MainPID"] != before)
    kept = asked(root, "GET", "/books/p0/stripes/1?now=1")
    count.check(f"the stripe is there: {kept}", kept.get("n") == 1 and kept["rows"][0]["home_12"] == "16:0")
    check(count, "systemctl reload", root("systemctl", "reload", "lrcmand"))
    log = root("journalctl", "--unit=lrcmand", "--output=cat").stdout
    count.check(f"the journal: {log[-500:]}", "tokens and certificates were read anew" in log)


def test_options(count, root):
    """Options come from the file; wrong ones end it, and it is not started again."""
    with open(f"{root.folder}/etc/default/lrcmand", "a", encoding="utf-8") as text:
        text.write("LRCMAND_LISTEN=127.0.0.1:7500\n")
    check(count, "systemctl restart", root("systemctl", "restart", "lrcmand"))
    kept = asked(root, "GET", "/books/p0/stripes/1?now=1", port=7500)
    count.check(f"it listens where the file says: {kept}", kept.get("n") == 1)
    with open(f"{root.folder}/etc/default/lrcmand", "a", encoding="utf-8") as text:
        text.write("LRCMAND_TICK=often\n")
    check(count, "a wrong option", root("systemctl", "restart", "lrcmand"), status=1)
    time.sleep(3)
    found = shown(root, "ActiveState", "NRestarts", "ExecMainStatus")
    count.check(f"it is not started again: {found}", found == {"ActiveState": "failed", "NRestarts": "0", "ExecMainStatus": "2"})
    root.shell("sed -i /often/d /etc/default/lrcmand")
    check(count, "the option is gone", root("systemctl", "restart", "lrcmand"))


def test_upgrade(count, root, file):
    """A member that runs is another process after an upgrade, with the changed options, and none after the removal."""
    before = shown(root, "MainPID")["MainPID"]
    check(count, "dpkg --install of a member that runs", root("dpkg", "--install", file))
    found = shown(root, "ActiveState", "MainPID")
    count.check(f"it was restarted: {found}", found["ActiveState"] == "active" and found["MainPID"] not in (before, "0"))
    count.check("the file of options stays", "7500" in root("cat", "/etc/default/lrcmand").stdout)
    check(count, "dpkg --remove", root("dpkg", "--remove", "lrcmand"))
    count.check("it has ended", root("pgrep", "-x", "lrcmand").stdout == "")
    check(count, "its folder stays", root("stat", "-c", "%a", "/var/lib/lrcmand"), "700\n")


def test_service(count, root, file):
    with Systemd(root) as systemd:
        if systemd.runs():
            for test, *given in ((test_start,), (test_restart,), (test_options,), (test_upgrade, file)):
                test(count, root, *given)
            return
    left_out("the service under systemd", f"systemd does not start in the clean root: {systemd.said[-300:]}")


def test_removal(count, root, made):
    """Nothing of the packages is left, but for the books."""
    kept = root.has("var/lib/lrcmand/data")
    ran = root("dpkg", "--purge", *made)
    check(count, "dpkg --purge", ran)
    if kept:
        stay = root.has("var/lib/lrcmand/data") and "the books in /var/lib/lrcmand stay" in ran.stdout
        count.check(f"the books stay, and that is told: {ran.stdout}", stay)
    left = sorted(path for package in made for path in files_of(package) if root.has(path))
    count.check(f"what is left: {left}", not left)
    found = root("dpkg-query", "--show", "--showformat=${Package}\n", "*lrc*").stdout.split()
    count.check(f"what dpkg knows: {found}", not set(found) & set(made))


def test(count, room, made):
    """Installs, uses and removes packages, by their names."""
    if not made:
        return left_out("a clean root", "there are no packages")
    why = why_not()
    file, why = ("", why) if why else packed_root(room)
    if why:
        return left_out("a clean root of Debian", why)
    root = Root(f"{room}/clean")
    os.mkdir(root.folder)
    subprocess.run(["tar", "-C", root.folder, "-xf", file], check=True)
    for path in made.values():
        shutil.copy(path, f"{root.folder}/srv")
    files = {package: f"/srv/{os.path.basename(path)}" for package, path in made.items()}
    check(count, "dpkg --install of one alone", root("dpkg", "--install", files["liblrc-embed-dev"]), status=1)
    if check(count, "dpkg --install", root("dpkg", "--install", *files.values())):
        check(count, "what is installed is whole", root("dpkg", "--audit"), "")
        test_use(count, root)
        if "lrcmand" in made:
            check(count, "systemd-analyze verify", root("systemd-analyze", "verify", "lrcmand.service"))
            test_service(count, root, files["lrcmand"])
        test_removal(count, root, made)
