"""Disks in memory that can lose power: processes of powercut, each with the folder of one member."""
import os
import subprocess


class NoDisk(Exception):
    """There can be no such disk here, with the reason."""


class Disk:
    """A disk that is mounted at a folder."""

    def __init__(self, program, folder):
        self.folder = folder
        os.makedirs(folder, exist_ok=True)
        how = {"stdin": subprocess.PIPE, "stdout": subprocess.PIPE, "stderr": subprocess.PIPE, "text": True}
        self.process = subprocess.Popen([program, folder], **how)
        if self.process.stdout.readline() != "ready\n":
            raise NoDisk(self.process.communicate()[1].strip() or "it ended")

    def ask(self, line):
        self.process.stdin.write(f"{line}\n")
        self.process.stdin.flush()
        return self.process.stdout.readline().strip()

    def cut(self, seed):
        """Loses power: requests wait from now on. Returns what became of pages and names that were not synced."""
        return self.ask(f"cut {seed}")

    def restore(self):
        """Has power again, after all who used the folder were killed: else they would wait for ever."""
        return self.ask("on")

    def close(self):
        self.process.stdin.close()
        self.process.wait(20)


class Disks:
    """A disk for each member of a group that has not begun yet."""

    def __init__(self, program, group):
        self.program, self.group, self.disks = program, group, {}

    def __enter__(self):
        try:
            for number, member in self.group.members.items():
                self.disks[number] = Disk(self.program, os.path.join(self.group.folder, f"disk{number}"))
                member.folder = os.path.join(self.disks[number].folder, "data")
        except NoDisk:
            self.__exit__()
            raise
        return self

    def __exit__(self, *_):
        for disk in self.disks.values():
            disk.close()

    def cut(self, numbers, seed):
        """Cuts the power of some members at once, and kills them. Their disks have power again then."""
        told = [self.disks[number].cut(seed + number) for number in numbers]
        for number in numbers:
            self.group.members[number].process.kill()
        for number in numbers:
            self.disks[number].restore()
        for number in numbers:
            self.group.members[number].process.wait()
        return told
