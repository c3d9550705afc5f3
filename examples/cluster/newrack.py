"""What the demo shows of racks that come: repairs that go to an empty rack a few at a time, and moves that even out shares."""
import os
import subprocess
import sys
import threading

from processes import BOOK, HERE, Wrong, until

BALANCE = os.path.join(os.path.dirname(os.path.dirname(HERE)), "tools/balance")
LIMIT_OF_TARGETS, AT_ONCE, WITHIN = 1, 4, 5
SLOTS, LATER = (24, 32, 32, 40), 1  # slots of nodes in turn, and how many racks are not there at first
LOST_RACK, MOST_ROUNDS = 3, 100


class NewRack:
    """The phases `targets` and `share` of a demo, whose store has nodes of several sizes, and a rack that is not there yet."""

    def __init__(self, demo):
        self.demo, self.store = demo, demo.store

    def limit_targets(self):
        """An empty rack comes, and another one is lost: every repair would go to the empty nodes at once."""
        begun = self.demo.entries()
        self.store.join(self.store.later)
        self.demo.say(f"rack {self.store.later[0].rack} is new and empty")
        lost = self.store.lose_rack(LOST_RACK)
        self.store.start_workers("-targets", str(LIMIT_OF_TARGETS), "-repairs")
        until("the rack is given up", lambda: all(self.store.node_row(node.number)["mode"] == "gone" for node in lost))
        until("every stripe is whole", self.store.is_whole)
        self.demo.say(f"rack {LOST_RACK} was lost, and is rebuilt with {LIMIT_OF_TARGETS} target on a node at a time")
        self.demo.say_repairs()
        self.demo.report["targets"] = {"from": begun, "to": self.demo.entries(), "limit": LIMIT_OF_TARGETS}
        self.demo.read_all("from their new homes")
        self.store.join(lost)
        self.demo.say(f"rack {LOST_RACK} is back, with empty disks")

    def even_out(self):
        """Rounds of tools/balance, whose moves are made while objects are read."""
        begun, before, rounds = self.demo.entries(), self.demo.repairs(), 0
        is_over, read = threading.Event(), []

        def load():
            while not is_over.is_set():
                read.append(self.demo.read(len(read) % self.demo.objects))

        self.say_spread("before")
        reader = threading.Thread(target=load)
        reader.start()
        try:
            while True:
                at, script = self.demo.entries(), self.plan()
                if script:
                    self.move(script)
                    rounds += 1
                elif self.demo.entries() == at:
                    break
                if rounds > MOST_ROUNDS:
                    raise Wrong(f"{MOST_ROUNDS} rounds, and there is still a script")
        finally:
            is_over.set()
            reader.join()
        moves = [it for it in set(self.demo.repairs()) - set(before) if it[3] == "move"]
        self.demo.report["share"] = {"from": begun, "to": at, "rounds": rounds, "moves": len(moves),
                                     "reads": len(read), "within": WITHIN, "at_once": AT_ONCE}
        self.demo.say(f"{rounds} rounds of moves, beside {len(read)} reads")
        self.demo.say_repairs(before)
        self.say_spread("after")
        self.demo.read_all("from where they are now")

    def plan(self, *words):
        """What tools/balance prints of the book. A node that does not answer for a while takes part again first."""
        until("every stripe is whole", self.store.is_whole)
        server = ",".join(f"http://127.0.0.1:{client}" for _, client in self.store.members.values())
        words = ["--server", server, "--within", str(WITHIN), "--at-once", str(AT_ONCE), *words, BOOK]
        ran = subprocess.run([sys.executable, BALANCE, *words], capture_output=True, text=True)
        if ran.returncode:
            raise Wrong(f"tools/balance: {ran.stderr}")
        return ran.stdout

    def move(self, script):
        words = [self.store.program, "move", "--cluster", f"{self.store.folder}/cluster.json"]
        with open(f"{self.store.folder}/mover.log", "a", encoding="utf-8") as said:
            ran = subprocess.run(words, input=script, stdout=said, stderr=said, text=True)
        if ran.returncode:
            raise Wrong("a round of moves: mover.log says why")

    def say_spread(self, when):
        """The row of now, of the table of --dry."""
        names, now = (line.split(",") for line in self.plan("--dry").splitlines()[:2])
        row = dict(zip(names, now))
        self.demo.say(f"shares {when}: {row['least']} to {row['most']} %, {row['mean']} in the mean; {row['above']} nodes are above "
                      f"by {WITHIN} points, {row['below']} below")
