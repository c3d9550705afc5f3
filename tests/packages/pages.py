"""The manual pages, the completion for bash, and the file of options: whether they have the words of the programs."""
import re
import shutil

from tests.harness import TOP, read
from tests.library.library import lrc_embed
from tests.packages.installed import FILES
from tests.packages.packages import PARTS
from tests.packages.said import ended, left_out

# An option of `lrcmand -h`: its name, what it takes, and what it is for, at the end its default, if it has one.
OPTION = re.compile(r"^  --([\w-]+)(?: (\S+))? {2,}(\S.*)$", re.M)
DEFAULT = re.compile(r" \(([^() ]+)\)$")
# What the unit sets itself, and what starts no member.
NOT_SET = {"data", "version"}
ASKED = """source {file}
COMP_WORDS=({words}) COMP_CWORD={place}
_lrcman
echo "${{COMPREPLY[*]}}"
"""


def page(name):
    return read(f"{TOP}/docs/{name}").decode()


def completed(*words):
    """What bash offers for the last of these words."""
    script = ASKED.format(file=f"{TOP}/docs/lrcman.bash", words=" ".join(it or "''" for it in words), place=len(words) - 1)
    return ended("bash", "-c", script).stdout.split()


def synopsis():
    """The words of lrcman, as its page has them."""
    text = re.search(r"^\.SH SYNOPSIS\n(.*?)^\.SH", page("lrcman.1"), re.M | re.S)[1]
    return re.findall(r"^\\fBlrcman ([\w-]+)\\fR", text, re.M)


def tables():
    """What `lrcman show` shows, as the page has it."""
    text = re.search(r"^\\fBshow\\fR (.*?)^\.TP", page("lrcman.1"), re.M | re.S)[1]
    return re.findall(r"^\.BR (\w+) (?:[,;]$|\" \")", text, re.M)


def test_completion(count):
    if not shutil.which("bash"):
        return left_out("the completion", "there is no bash")
    words, shown = synopsis(), tables()
    count.check(f"the words of the page: {words} {shown}", len(words) >= 13 and len(shown) >= 5)
    for given, wanted in {
            ("lrcman", ""): words,
            ("lrcman", "re"): [it for it in words if it.startswith("re")],
            ("lrcman", "show", ""): shown,
            ("lrcman", "show", "s"): [it for it in shown if it[0] == "s"],
            ("lrcman", "show", "stripes", ""): [],
            ("lrcman", "may-stop", ""): ["fault", "upgrade"],
            ("lrcman", "may-lose", "3", "f"): ["fault"],
            ("lrcman", "run", ""): [],
            ("lrcman", "nothing"): []}.items():
        count.check(f"{' '.join(given)}: {completed(*given)}", sorted(completed(*given)) == sorted(wanted))


def test_manual(count, name):
    """The page is read without a warning."""
    if not shutil.which("man") or not shutil.which("groff"):
        return left_out(f"whether {name} is read without a warning", "there is no man, or no groff")
    ran = ended("man", "--warnings", "-E", "UTF-8", "-l", "-Tutf8", "-Z", f"{TOP}/docs/{name}")
    count.check(f"{name}: {ran.stderr}", ran.returncode == 0 and not ran.stderr and len(ran.stdout) > 2000)


def plain(text):
    """A line of a manual page without its marks."""
    return re.sub(r"\\f[BIR]", "", text).replace("\\-", "-").replace("\\e", "\\")


def test_options(count, service):
    """Each option stands on the page and in the file of options, with the same words and the same default."""
    told = OPTION.findall(ended(service, "-h").stdout)
    count.check(f"the options of lrcmand -h: {len(told)}", len(told) > 25)
    text = re.search(r"^\.SH OPTIONS\n(.*?)^\.SH", page("lrcmand.8"), re.M | re.S)[1]
    found = re.findall(r"^\.TP\n\\fB\\-\\-(\S+)\\fR(?: \\fI(\S+)\\fR)?\n(.*)$", text, re.M)
    found = [tuple(map(plain, it)) for it in found]
    count.check(f"the options of lrcmand.8: {set(found) ^ set(told)}", found == told)
    wanted = []
    for name, takes, words in told:
        default = DEFAULT.search(words)
        value = default[1] if default else takes or "true"
        wanted.append((DEFAULT.sub("", words), f"LRCMAND_{name.upper().replace('-', '_')}", value))
    wanted = [it for it, (name, *_) in zip(wanted, told) if name not in NOT_SET]
    found = re.findall(r"^# (.*)\n#(\w+)=(.*)$", read(f"{TOP}/service/lrcmand.default").decode(), re.M)
    count.check(f"the options of lrcmand.default: {set(found) ^ set(wanted)}", found == wanted)


def test_page(count):
    """The page of packages has each part and each package, and the version of the interface."""
    text = page("PACKAGES.md")
    rows = set(re.findall(r"^\| `([\w-]+)` \|", text, re.M))
    count.check(f"the rows of PACKAGES.md: {rows ^ {*PARTS, *PARTS.values()}}", rows == {*PARTS, *PARTS.values()})
    versions = set(re.findall(r"liblrc_embed\.so\.(\d+)|liblrc-embed(\d+)|find_package\(lrc_embed (\d+)", text))
    own = str(lrc_embed.VERSION)
    count.check(f"the versions of PACKAGES.md: {versions}", len(versions) == 3 and {"".join(it) for it in versions} == {own})


def test_folders(count):
    """The folders below a prefix that the page names have files."""
    folders = re.findall(r"/usr/local/(share/[\w./-]+)", page("PACKAGES.md"))
    lacking = [it for it in folders if not any(name.startswith(f"{it}/") for name in FILES["development"])]
    count.check(f"folders of PACKAGES.md: {folders}, of which nothing is in {lacking}", len(folders) > 1 and not lacking)


def test(count, service):
    test_page(count)
    test_folders(count)
    test_completion(count)
    for name in ("lrcman.1", "lrcmand.8"):
        test_manual(count, name)
    if service:
        test_options(count, service)
