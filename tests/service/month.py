"""The recipes of a month of docs/OPERATING.md, word for word over a member of the service, beside the model."""
import os
import re
import shutil
import time

from tests import harness
from tests.program import recipes
from tests.service.cluster import Asker, Group
from tests.service.members import Recipe
from tests.service.one_member import wait_ready

BOOK, LIMIT = "p0", 120
FUNCTIONS = ["show", "health", "forecast", "tell", "plan", "come", "fits", "backup"]


class Month(recipes.Month):
    """A book of a member, with the functions of the page, and the model beside it."""

    refusal = 22  # (that of curl)

    def __init__(self, count, group, folder):
        self.group, self.member, self.asker = group, group.members[1], Asker(30)
        super().__init__(count, group.program, folder)

    def begin(self):
        os.symlink(self.group.program, f"{self.shell.folder}/bin/lrcmand")
        os.remove(f"{self.shell.folder}/bin/lrcman")  # (no recipe may need it)
        self.shell.environment["LRCMAND_SERVER"] = f"http://127.0.0.1:{self.member.client},http://127.0.0.1:1"
        self.functions += "".join(recipes.recipes(of_service=True))
        self.ask("PUT", "", harness.topology_of(self.store.nodes))

    def ask(self, method, path, body=None):
        self.asker.close()  # (a connection that waited may be closed within a call)
        status, _, text = self.asker.ask(self.member.client, method, f"/books/{BOOK}{path}", body)
        self.count.check(f"{method} {path}: {status} {text[:200]}", status == 200)
        return text.decode()

    def table(self, view):
        return self.ask("GET", f"/show/{view.replace(' ', '-')}?format=csv&now=1")

    def refuse(self):
        ran = self.shell.run(f"{self.functions}tell 'place x'")
        is_told = ran.returncode == 1 and not ran.stdout and ran.stderr
        self.count.check(f"a bad command: {ran.returncode} {ran.stdout} {ran.stderr}", is_told)
        self.compare("a bad command is made")

    def health(self):
        return recipes.columns([line.split(",") for line in super().health()])

    def fits(self, there, bought):
        found = super().fits(there, bought)
        names = self.asker.json(self.member.client, "GET", "/books?now=1")[1]
        self.count.check(f"the book of the plan is gone: {names}", [book["name"] for book in names.get("books", ())] == [BOOK])
        return found

    def restore(self):
        """Each backup is restored as docs/SERVICE.md has it, and has the book as it was."""
        for day, image in self.backups.items():
            room = f"{self.shell.folder}/restored-{day}"
            with Recipe("\n## Backup, restore, and a lost majority\n", "\n## ", self.group.program, room) as recipe:
                shutil.copy(f"{self.shell.folder}/backup.{day}", f"{room}/books.backup")
                recipe.run_block(self.count, 1)
                status, end = 0, time.monotonic() + LIMIT
                while status != 200 and time.monotonic() < end:
                    status, _, found = recipe.asker.ask(recipe.host(5).client, "GET", f"/books/{BOOK}/image?now=1")
                    time.sleep(0.1)
                self.count.check(f"the backup of {day} has {found}", found == image.encode())


def test_month(count, program, room, left_out):
    if not shutil.which("curl"):
        left_out("the recipes of a month", "there is no curl")
        return
    names = re.findall(r"^(\w+)\(\)", "".join(recipes.recipes(of_service=True)), re.MULTILINE)
    count.check(f"the functions of the month are {names}", names == FUNCTIONS)
    os.mkdir(f"{room}/month")
    with Group(program, f"{room}/month-members", 1, ["--tick", "0"]) as group:
        wait_ready(Asker(5), group.members[1], LIMIT)
        recipes.three_days(Month(count, group, f"{room}/month"))
