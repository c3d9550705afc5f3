"""The store of many threads: what it told is in its log, after kills and on a full disk; a torn end of the log is cut off,
and a damaged record or image is found; each entry and image is the one of the model; its lock lets callers go first; and the
sanitizers find nothing."""
import os
import re
import resource
import shutil
import struct
import subprocess
import zlib

from tests.harness import read
from tests.library.library import lrc_embed
from tests.model import draws, rules, store
from tests.stores.store_requests import (CXX, STORES, Running, check_other_version, compile_store, left_out, next_version, pause,
                                         wrong_reply)

HEADER, RECORD, LENGTH = struct.Struct("<QII"), struct.Struct("<QQ128sII"), struct.Struct("<QII")
REPLY = lrc_embed.Entry.reply.offset
# Those of main.cpp.
NODES = {i: rules.Node(i % 20, (i + i // 20) % 10, 24) for i in range(60)}
HERE = os.path.dirname(os.path.abspath(__file__))
SANITIZERS = {"threads": "-fsanitize=thread", "addresses": "-fsanitize=address,undefined"}


def files(folder, ending):
    """The files of a store with an ending, by their numbers: those that it has, and those that it has cut off."""
    found = {}
    for at in (folder, f"{folder}/older"):
        for name in os.listdir(at) if os.path.isdir(at) else ():
            if re.fullmatch(rf"\d+\.{ending}", name):
                found[int(name.split(".")[0])] = f"{at}/{name}"
    return dict(sorted(found.items()))


def last_log(folder):
    """The file that the log goes on in, and the number of the entry before it."""
    number, file = max(files(folder, "log").items())
    return file, number


def whole_records(folder):
    """The bytes of the records of all logs, from the first, up to one that is not whole, or not the next."""
    records = []
    for before, file in files(folder, "log").items():
        if before != len(records):
            break
        data = read(file)[HEADER.size:]
        for at in range(0, len(data) - RECORD.size + 1, RECORD.size):
            record = data[at:at + RECORD.size]
            number, _, _, _, checksum = RECORD.unpack(record)
            if number != len(records) + 1 or checksum != zlib.crc32(record[:-4]):
                break
            records.append(record)
    return records


def image_text(file):
    """The text of an image; None if it is not whole."""
    data = read(file)
    length, _, checksum = LENGTH.unpack_from(data, HEADER.size)
    text = data[HEADER.size + LENGTH.size:]
    return text.decode() if (len(text), zlib.crc32(text)) == (length, checksum) else None


def entry_of(record):
    return RECORD.unpack(record)[2]


class Told:
    """The numbers that a store told, with the checksums of their replies, over all of its runs."""

    def __init__(self, count, folder):
        self.count, self.folder, self.replies, self.seen = count, folder, {}, 0

    def add(self, lines):
        for line in lines:
            if looked := re.fullmatch(r"look (\d+)", line):
                self.seen = max(self.seen, int(looked[1]))
            elif re.fullmatch(r"[0-9a-f]{8} \d+", line):
                checksum, number = line.split()
                self.count.check(f"threads: {number} is told once", int(number) not in self.replies)
                self.replies[int(number)] = checksum

    def check(self):
        """Each is in the log, with this reply, and what looks have shown too. Returns how many records the log has."""
        records = whole_records(self.folder)
        self.count.check(f"threads: a look saw {self.seen} of {len(records)} entries", self.seen <= len(records))
        lost = [number for number, checksum in self.replies.items() if number > len(records)
                or f"{zlib.crc32(entry_of(records[number - 1])[REPLY:]):08x}" != checksum]
        self.count.check(f"threads: told and lost: {lost[:5]}", not lost)
        return len(records)


def start(program, folder, seconds, every, workers=6, lookers=2, tell=True, **how):
    """Runs the store, whose log is cut after each `every` entries."""
    return Running(program, folder, seconds, workers, lookers, every, *["tell"] * tell, **how)


def run_until(is_enough, *words, told=None):
    """Runs the store for half a second, and again until it has done enough, which takes longer on a busy machine. Returns what
    the last run ended with."""
    for _ in range(20):
        lines, status, errors = start(*words, tell=told is not None).end()
        if told is not None:
            told.add(lines)
        if status or is_enough():
            break
    return lines, status, errors


def new_folder(room, name):
    """A folder for a store, which keeps there what it cuts off."""
    os.makedirs(f"{room}/{name}/older")
    return f"{room}/{name}"


def copy_of(folder, name):
    shutil.copytree(folder, f"{folder}-{name}")
    return f"{folder}-{name}"


def change(file, at, data):
    with open(file, "r+b") as changed:
        changed.seek(at)
        changed.write(data)


def test_kills(count, program, folder, kills):
    """Killed at drawn points, every other time while the log is cut after each group. Then, as after a loss of power, what was
    told to nobody is cut or changed at a drawn byte."""
    told, row, torn, half = Told(count, folder), draws.numbers(11), 0, []
    for at in range(kills):
        kept = len(whole_records(folder)) if files(folder, "log") else 0
        every, most = (1, 40) if at % 2 else (40 + next(row) % 200, 300)
        store = start(program, folder, 60, every)
        count.check(f"threads: it begins after {kept} entries", store.line() == f"ready {kept}")
        count.check("threads: what is half written is removed", not any(map(os.path.exists, half)))
        told.add(store.lines(next(row) % most))
        pause(row, 40)
        told.add(store.kill())
        told.check()
        marks = [RECORD.unpack(record)[1] for record in whole_records(folder)]
        half = [f"{folder}/{len(marks) + 1000}.{ending}.part" for ending in ("image", "log")]
        for file in half:
            with open(file, "wb") as part:
                part.write(b"half a file")
        torn += tear(folder, max([told.seen, *told.replies, *marks]), row)
        told.check()
    # A kill may leave an image or a log too many, until the next cut.
    cuts = len(files(folder, "image"))
    enough = lambda: len(files(folder, "image")) > max(cuts, kills / 2)
    _, status, errors = run_until(enough, program, folder, 0.5, 10, told=told)
    count.check(f"threads: it cuts its log: status {status}: {errors}", status == 0 and not errors)
    # Of the log after the last cut the next test needs several records that are known to be durable.
    enough = lambda: durable_of(folder) > last_log(folder)[1] + 2
    _, status, errors = run_until(enough, program, folder, 0.5, 1_000_000, told=told)
    count.check(f"threads: status {status}: {errors}", status == 0 and not errors)
    images = files(folder, "image")
    here = [number for number, file in images.items() if os.path.dirname(file) == folder]
    count.check(f"threads: {len(here)} images are kept of {len(images)}", here == [*images][-2:] and len(images) > kills / 2)
    logs = [number for number, file in files(folder, "log").items() if os.path.dirname(file) == folder]
    count.check(f"threads: the logs from the image before on are kept: {logs}", logs[:1] == here[:1])
    print(f"threads: {kills} kills, {torn} of them with a group half written, {told.check()} entries,"
          f" {len(told.replies)} told, {len(images)} images")


def durable_of(folder):
    """How many entries the last record says are durable."""
    return RECORD.unpack(whole_records(folder)[-1])[1]


def tear(folder, durable, row):
    """Leaves less of what came after the durable records, as a crash of the machine does. Returns whether there was any."""
    file, before = last_log(folder)
    size, kept = os.path.getsize(file), HEADER.size + max(0, durable - before) * RECORD.size
    if size <= kept:
        with open(file, "ab") as log:
            log.write(bytes(next(row) % RECORD.size))  # a part of a record
        return 0
    at = kept + next(row) % (size - kept)
    if next(row) % 2:
        os.truncate(file, at)
    else:
        change(file, at, bytes([next(row) % 256]))
    return 1


def expect_end(count, program, folder, name, why):
    """The store has to end at its start, with this reason."""
    _, status, errors = start(program, folder, 0.1, 1_000_000).end()
    count.check(f"threads: {name}: status {status}: {errors}", status == 1 and why in errors)


def test_damage(count, program, folder):
    """A record that was durable is not taken for a torn end. Nor is the log taken for another one's nodes."""
    before, durable = last_log(folder)[1], durable_of(folder)
    for name, at in {"first": before + 1, "middle": (before + durable) // 2, "last": durable}.items():
        damaged = copy_of(folder, name)
        file, _ = last_log(damaged)
        size = os.path.getsize(file)
        change(file, HEADER.size + (at - before - 1) * RECORD.size + 40, b"\xff")
        expect_end(count, program, damaged, f"the {name}", f"record {at} is damaged")
        count.check("threads: nothing is cut off the damaged log", os.path.getsize(file) == size)
    for ending in ("log", "image"):
        other = copy_of(folder, f"other-{ending}")
        change(max(files(other, ending).items())[1], HEADER.size - 1, b"\xff")
        expect_end(count, program, other, f"{ending} of other nodes", "other nodes")


def test_images(count, program, folder):
    """The store begins in the image before where the newest is damaged, and in none that it lacks the log of."""
    entries, (older, newest) = len(whole_records(folder)), [*files(folder, "image")][-2:]
    for name, at, data in (("text", 100, b"?"), ("length", HEADER.size + 7, b"\1"), ("short", None, None)):
        damaged = copy_of(folder, f"image-{name}")
        file = f"{damaged}/{newest}.image"
        if at is None:
            os.truncate(file, 20)
        else:
            change(file, at, data)
        lines, status, errors = start(program, damaged, 0.5, 10, tell=False).end()
        count.check(f"threads: damaged {name}: {lines[:1]}", status == 0 and lines[:1] == [f"ready {entries}"])
        count.check(f"threads: it tells what is damaged: {errors}", errors == f"store: {file} is damaged\n")
        count.check("threads: it keeps what is damaged", os.path.exists(f"{file}.damaged"))
        # It goes on with images that are whole, of which it keeps two.
        here = lambda: [number for number in files(damaged, "image") if os.path.exists(f"{damaged}/{number}.image")]
        run_until(lambda: len(here()) > 1 and older not in here(), program, damaged, 0.5, 10)
        images = here()
        entries_now = len(whole_records(damaged))
        store = start(program, damaged, 0.1, 100)
        is_right = len(images) == 2 and older not in images and store.line() == f"ready {entries_now}"
        count.check(f"threads: after a damaged image: {images}", is_right and store.end()[1] == 0)
    before = copy_of(folder, "record-before")
    change(f"{before}/{newest}.image", 100, b"?")
    change(f"{before}/{older}.log", HEADER.size + 40, b"\xff")
    expect_end(count, program, before, "a record behind the image before", f"record {older + 1} is damaged")
    both = copy_of(folder, "no-image")
    for number in (older, newest):
        change(f"{both}/{number}.image", 100, b"?")
    expect_end(count, program, both, "no image is whole", "there is no log after entry 0")
    lost = copy_of(folder, "no-log")
    os.remove(f"{lost}/{newest}.log")
    expect_end(count, program, lost, "the log is lost", f"there is no log after entry {newest}")


def test_versions(count, program, other, folder):
    """A library of another interface makes no log, and a log or an image of other rules is not taken: it stays as it is."""
    check_other_version(count, "threads", [other, folder, 0.1, 1, 1, 1000])
    own, entries = lrc_embed.RULES_VERSION, len(whole_records(folder))
    for ending in ("log", "image"):
        file = max(files(folder, ending).items())[1]
        kept = read(file)
        magic, rules_of_log, nodes = HEADER.unpack(kept[:HEADER.size])
        count.check(f"threads: the {ending} has the version of the rules", rules_of_log == own)
        right = f"the log is of version {own + 1} of the rules, and the library of version {own}"
        for head, why in {(magic, own + 1, nodes): right, (magic + 1, own, nodes): "the file is no log of this store"}.items():
            changed = HEADER.pack(*head) + kept[HEADER.size:]
            change(file, 0, changed)
            expect_end(count, program, folder, f"another head of the {ending}", why)
            count.check(f"threads: the {ending} with another head stays as it is", read(file) == changed)
        change(file, 0, kept)
    store = start(program, folder, 0.1, 1_000_000)
    count.check("threads: the log is taken again", store.line() == f"ready {entries}" and store.end()[1] == 0)


def test_disk_full(count, program, folder):
    """No file may grow past a size: the store tells nothing that is not in its log, and ends. With more room it goes on. The last
    of these sizes is enough for a log that is cut often, and not for its image."""
    told = Told(count, folder)
    for size, every in ((60_000, 1_000_000), (60_000, 1_000_000), (120_000, 1_000_000), (5_000, 20)):
        limits = lambda: resource.setrlimit(resource.RLIMIT_FSIZE, (size, size))
        # (without the signal that a file has come to its limit, as on a full disk)
        lines, status, errors = start(program, folder, 60, every, preexec_fn=limits, restore_signals=False).end()
        told.add(lines)
        told.check()
        count.check(f"threads: full: status {status}: {errors}", status == 1 and "the log has failed" in errors)
    full = len(whole_records(folder))
    enough = lambda: files(folder, "image") and len(whole_records(folder)) > full
    _, status, errors = run_until(enough, program, folder, 0.5, 5, told=told)
    has_grown = told.check() > full and files(folder, "image")
    count.check(f"threads: after the full disk: status {status}: {errors}", status == 0 and has_grown)


def test_model(count, program, folder):
    """Each entry of a run is the one of the model, and so is each image."""
    run_until(lambda: len(files(folder, "image")) > 5, program, folder, 0.5, 100)
    images = files(folder, "image")
    model, wrong = store.Store(NODES), []
    records = whole_records(folder)
    for number, record in enumerate(records, 1):
        wrong += wrong_reply(model, number, entry_of(record))
        if number in images and image_text(images[number]) != model.image(number):
            wrong.append(f"image {number}")
    count.add(len(records) + len(images) - len(wrong), [f"threads: {line}" for line in wrong])
    count.check("threads: images are made", len(images) >= 2)
    print(f"threads: {len(records)} entries and {len(images)} images beside the model, {sum(model.grants.values())} leases")


def test_deleted(count, program, folder):
    """What is cut off is deleted, where there is no folder for it."""
    os.mkdir(folder)
    def enough():
        images = files(folder, "image")
        return len(images) > 1 and min(images) > 100

    _, status, errors = run_until(enough, program, folder, 0.5, 20)
    names = sorted(name.split(".")[1] for name in os.listdir(folder))
    count.check(f"threads: {names} are left: {errors}", status == 0 and names == ["image", "image", "log", "log"])


def test_lock(count, room):
    """A caller gets the lock before those who look, which all the while look again."""
    program = f"{room}/lock"
    words = ["-std=c++17", "-O2", "-pthread", f"-I{STORES}/threads", "-o", program, f"{HERE}/lock.cpp"]
    if count.run("threads: lock.cpp", CXX, *words) is None:
        return
    # A caller that stops between its count and the lock waits for many looks, so that one quiet try has to do.
    for _ in range(20):
        said = count.run("threads: the lock", program, "8", "1000", timeout=120) or "1000 0"
        waited, middle = map(int, said.split())
        if waited < 5:
            break
    count.check(f"threads: of 1000 calls {waited} waited for more than three looks", waited < 5)
    count.check(f"threads: there were {middle} looks between two calls", middle > 0)


def sanitized(room, flag):
    """Whether the compiler has the sanitizer, and its programs run here."""
    with open(f"{room}/none.cpp", "w", encoding="utf-8") as file:
        file.write("int main() {}\n")
    made = subprocess.run([CXX, flag, "-o", f"{room}/none", f"{room}/none.cpp"], capture_output=True)
    return made.returncode == 0 and subprocess.run([f"{room}/none"], capture_output=True).returncode == 0


def test_sanitizers(count, library, room, seconds):
    for name, flag in SANITIZERS.items():
        if not sanitized(room, flag):
            left_out(f"threads: {flag}", "not on this machine")
            continue
        program = compile_store(count, "threads/main.cpp", library, f"{room}/{name}", "-g", "-pthread", flag)
        for _ in range(2):  # from nothing, and after what that has left
            folder = f"{room}/of-{name}"
            os.makedirs(folder, exist_ok=True)
            _, status, errors = start(program, folder, seconds, 200, tell=False).end()
            count.check(f"threads: {flag}: status {status}: {errors[:2000]}", status == 0 and not errors)


def tell_speed(program, room):
    """Prints how many calls a second are told, by the number of workers and of threads that look."""
    for workers, lookers in ((1, 2), (4, 2), (16, 0), (16, 2), (16, 8), (64, 2)):
        folder = new_folder(room, f"speed-{workers}-{lookers}")
        lines, _, _ = start(program, folder, 5, 100_000, workers, lookers, tell=False).end()
        print(f"threads: {workers} workers, {lookers} look: {lines[-1]}")


def test(count, library, room, is_long):
    program = compile_store(count, "threads/main.cpp", library, f"{room}/threads", "-pthread")
    if program is None:
        return
    test_lock(count, room)
    killed = new_folder(room, "threads-killed")
    test_kills(count, program, killed, 200 if is_long else 20)
    test_damage(count, program, killed)
    test_images(count, program, killed)
    links = next_version(count, room).links
    other = compile_store(count, "threads/main.cpp", library, f"{room}/threads-other", "-pthread", *links)
    test_versions(count, program, other, killed)
    test_disk_full(count, program, new_folder(room, "threads-full"))
    test_model(count, program, new_folder(room, "threads-model"))
    test_deleted(count, program, f"{room}/threads-deleted")
    test_sanitizers(count, library, room, 10 if is_long else 1)
    if is_long:
        tell_speed(program, room)
