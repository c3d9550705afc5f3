"""Writes the states that the tests of metrics and of the page look at, as the plain model tests/model/rules.py has them.

Usage: service/internal/survey/recorded/record    writes states/NAME.json anew"""
import json
import os

from tests.model import rules, shown

HERE = os.path.dirname(os.path.abspath(__file__))

WORKERS = ["w1", "repair-7.rack-b", "<script>alert(1)</script>", None]


class Recording:
    """A store, every call that it was made, and the workers who were granted leases."""

    def __init__(self, faults=20, each=4, upgrades=10, slots=24):
        numbers = [(f, k) for f in range(faults) for k in range(each)]
        self.nodes = {f * 10 + k: rules.Node(f, (f + 3 * k) % upgrades, slots) for f, k in numbers}
        self.store, self.entries, self.workers = rules.Store(self.nodes), [], {}

    def call(self, command, session=1, worker=None):
        reply = self.store.call(session, command)
        self.entries.append({"session": session, "command": command, "reply": reply, **({"worker": worker} if worker else {})})
        words = reply.split(" ")
        if words[0] == "granted" and worker:
            self.workers[f"{words[1]} {words[2]} {words[5]}"] = worker
        return words

    def fill(self, stripes):
        for stripe in range(stripes):
            self.call(f"{'place6' if stripe % 4 == 3 else 'place'} {stripe}")

    def repair(self, done, granted):
        for at in range(done + granted):
            words = self.call("next", 1 + at % 3, WORKERS[at % 4])
            if at < done and words[0] == "granted":
                self.call(f"done {words[1]} {words[2]} {words[5]}", 1 + at % 3, WORKERS[at % 4])

    def state(self):
        store = self.store
        rows = {view: [line.split(",") for line in shown.shown(view, store, len(self.entries)).splitlines()[1:]]
                for view in ("status", "stripes", "nodes", "leases", "work", "health")}
        counts = {}
        for entry in self.entries:
            cause = entry["command"].split(" ")[0] + " " + entry["reply"].split(" ")[0]
            counts[cause] = counts.get(cause, 0) + 1
        return {
            "status": dict(rows["status"]), "nodes": [self.node(row) for row in rows["nodes"]],
            "stripes": [self.stripe(row) for row in rows["stripes"]],
            "leases": [{"stripe": int(s), "fragment": int(f), "session": int(h), "target": t, "epoch": int(e), "expiry": int(x),
                        "worker": self.workers.get(f"{s} {f} {e}", "")} for s, f, h, t, e, x in rows["leases"]],
            "work": [{"stripe": int(r[0]), "fragment": int(r[1]), "kind": r[2], "standing": r[5]} for r in rows["work"]],
            "health": [{"reason": reason, "count": int(count), "first": [int(it) for it in first.split()]}
                       for reason, count, first in rows["health"]],
            "capacity": shown.shown("capacity", store, len(self.entries)), "counts": counts, "entries": self.entries,
        }

    @staticmethod
    def node(row):
        number, fault, upgrade, mode, down, _, online, _, _, load, slots = row
        return {"node": int(number), "fault": int(fault), "upgrade": int(upgrade), "mode": mode, "down": down == "yes",
                "online": online == "yes", "load": int(load), "slots": int(slots)}

    @staticmethod
    def stripe(row):
        return {"stripe": int(row[0]), "code": row[1], "level": row[2], "margin": row[3], "missing": int(row[4], 16), "homes": row[8:]}


def quiet():
    r = Recording()
    r.fill(60)
    r.call("tick", 8)
    return r


def rack():
    r = quiet()
    for node in range(50, 54):
        r.call(f"fail {node}")
    for node in (70, 71, 112):
        r.call(f"down {node}")
    r.repair(6, 4)
    r.call("tick", 8)
    r.repair(3, 3)
    r.call("lease 3 0", 2)
    return r


def upgrade():
    r = quiet()
    r.call("drain 31")
    r.call("drain 152")
    r.call("upgrade 4")
    r.call("upgrade 5")
    r.repair(5, 3)
    return r


def harm():
    r = Recording(faults=18, each=1, upgrades=9, slots=8)
    r.fill(6)
    for node in (0, 20):
        r.call(f"fail {node}")
    r.call("next", 2, WORKERS[2])
    for node in (10, 30):
        r.call(f"down {node}")
    r.call("fail 60")
    r.call("fail 80")
    r.call("fail 70")
    r.call("tick", 8)
    return r


def most():
    """As many nodes as there may be."""
    r = Recording(faults=64, each=8, upgrades=16, slots=8)
    r.fill(40)
    for node in range(70, 78):
        r.call(f"down {node}")
    return r


def main():
    for make in (quiet, rack, upgrade, harm, most):
        state = make().state()
        with open(f"{HERE}/states/{make.__name__}.json", "w") as file:
            json.dump(state, file, separators=(",", ":"))
            file.write("\n")
        print(make.__name__, {name: value for name, value in state["status"].items() if value not in ("0", 0)})


if __name__ == "__main__":
    main()
