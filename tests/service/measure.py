"""Measures lrcmand: calls a second beside etcd's own puts, takeovers, memory, restarts, and cores.

Usage: service/measure [--quick] [--library FOLDER] [--folder FOLDER] [--only PART,..] [--seed N]

All processes run on this machine, over loopback and one disk. What is compared runs in turn, in rounds of changing order. Runs at
another time, or on another machine, do not compare: the ratios of one run do. Each reply that is told is checked to be an entry.

- rates: three members with 64 books of 512 nodes. `tick` is a call that changes little; `place, drop` gives sixteen fragments
  homes and takes them away. All calls have keys. `etcd put` is 100 bytes by etcd's own client. All clients ask the leader.
- takeover: clients ask all three members, and the leader is killed.
- memory: resident, of the greatest of three members.
- restart: one member alone, of 64 books.
- cores: one member alone with 1,000 books and 256 clients, which have the cores that are left.

It takes a quarter of an hour; with --quick a quarter of a minute, and its figures mean nothing then. etcd is that of Debian's
etcd-server; without it only lrcmand is measured. --library has what examples/embed/build makes; --folder is on the disk to be
measured. The status is 1 if a reply was told that is no entry, and not if a mark is missed."""
import argparse
import os
import shutil
import signal
import statistics
import subprocess
import sys
import tempfile

from tests.harness import TOP
from tests.service import measures
from tests.service.cluster import place
from tests.service.measures import median

SERVICE = os.path.join(TOP, "service")
# What is wanted: so many times the puts of etcd, and so many seconds.
LEAST_RATIO, MOST_TAKEOVER = 1.2, 2


def table(title, columns, rows):
    """Prints rows, the first column to the left and the others to the right."""
    texts = [columns, *([it if isinstance(it, str) else f"{it:,.2f}" for it in row] for row in rows)]
    widths = [max(len(row[i]) for row in texts) for i in range(len(columns))]
    print(f"\n{title}")
    for row in texts:
        cells = [row[0].ljust(widths[0]), *(text.rjust(width) for text, width in zip(row[1:], widths[1:]))]
        print("  ".join(cells).rstrip(), flush=True)


def mark(is_met):
    return "met" if is_met else "missed"


def told(runs):
    """The columns of a system: calls a second, p50 and p99."""
    return [f"{median(runs, 'rate'):,.0f}", f"{median(runs, 'p50_ms'):.1f} / {median(runs, 'p99_ms'):.1f}"]


def show_rates(room, has_etcd):
    found = measures.rates(room, has_etcd)
    columns = ["clients", "tick", "p50 / p99 ms", "place, drop", "p50 / p99 ms"]
    columns += ["etcd put", "p50 / p99 ms", "tick / put", "place, drop / put", "mark 1.2"] * has_etcd
    rows = []
    for clients in measures.CLIENTS:
        row = [str(clients), *told(found["tick", clients]), *told(found["turns", clients])]
        if has_etcd:
            puts = median(found["put", clients], "rate")
            ratios = [median(found[kind, clients], "rate") / puts for kind in ("tick", "turns")]
            row += [*told(found["put", clients]), *ratios, mark(min(ratios) >= LEAST_RATIO)]
        rows.append(row)
    table(f"Calls told a second by three members, median of {room.scale.rounds} rounds", columns, rows)


def show_takeovers(room, has_etcd):
    found = measures.takeovers(room, has_etcd)
    rows = []
    for system, times in found.items():
        median_time = statistics.median(times)
        rows.append([system, median_time, max(times), mark(median_time <= MOST_TAKEOVER) if system == "lrcmand" else ""])
    title = f"Seconds of silence after the leader was killed, {room.scale.kills} times, with elections after one second"
    table(title, ["system", "median", "most", "mark 2 s"], rows)


def show_memory(room, _):
    rows = [[name, f"{found:,.0f}"] for name, found in measures.memory(room).items()]
    table("Resident memory of a member of three", ["with", "MB"], rows)


def show_restarts(room, _):
    rows = [[name, seconds, f"{folder:,.0f}", f"{resident:,.0f}"] for name, seconds, folder, resident in measures.restarts(room)]
    table("Restart of one member after a kill", ["goes on with", "seconds", "MB in its folder", "MB resident"], rows)


def show_cores(room, _):
    rows = [[f"{count} of {os.cpu_count()}", *told(runs)] for count, runs in measures.cores(room).items()]
    title = f"Calls told a second by one member with {room.scale.many:,} books and 256 clients, by the cores that it may use"
    table(title, ["cores", "tick", "p50 / p99 ms"], sorted(rows))


PARTS = {"rates": show_rates, "takeover": show_takeovers, "memory": show_memory, "restart": show_restarts, "cores": show_cores}


def parse(words):
    parser = argparse.ArgumentParser(usage="see the head of this file")
    parser.add_argument("--quick", action="store_true")
    parser.add_argument("--library", default=os.path.join(TOP, "examples/embed/out"))
    parser.add_argument("--folder")
    parser.add_argument("--only", default=",".join(PARTS))
    parser.add_argument("--seed", type=int, default=1)
    options = parser.parse_args(words)
    for part in options.only.split(","):
        if part not in PARTS:
            parser.error(f"there is no part {part}: it has to be one of {', '.join(PARTS)}")
    return options


def build(library, folder):
    """The programs lrcmand and load."""
    program, loader = os.path.join(folder, "lrcmand"), os.path.join(folder, "load")
    library = os.path.abspath(library)
    subprocess.run([os.path.join(SERVICE, "build"), "--library", library, program], check=True, stdout=subprocess.DEVNULL)
    line = f'. "{SERVICE}/go-env" && go_env "{library}" && go build -o "{loader}" lrcman/service/cmd/load'
    subprocess.run(["bash", "-c", line], check=True)
    return program, loader


def main(words):
    options = parse(words)
    has_etcd = shutil.which("etcd") is not None
    if not has_etcd:
        print("left out: etcd: there is none; Debian's etcd-server has it")
    signal.signal(signal.SIGTERM, lambda *_: sys.exit(1))  # (so that its processes end with it)
    with tempfile.TemporaryDirectory(dir=options.folder) as folder:
        scale = measures.QUICK if options.quick else measures.FULL
        room = measures.Room(*build(options.library, folder), folder, scale, options.seed)
        print(f"seed {options.seed}, {os.cpu_count()} cores, load {os.getloadavg()[0]:.1f}", flush=True)
        for part in options.only.split(","):
            with place(folder) as room.folder:
                PARTS[part](room, has_etcd)
    for fault in room.faults:
        print(f"wrong: {fault}")
    return 1 if room.faults else 0


if __name__ == "__main__":
    sys.exit(main(sys.argv[1:]))
