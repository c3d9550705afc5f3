"""What the tests of the stores share: requests with the replies of the model in tests/model/rules.py, and stores that run."""
import os
import re
import shutil
import signal
import subprocess
import sys
import threading
import time
import zlib

from tests import harness
from tests.library.comparing import STRIPES, Differs, compare
from tests.library.library import FIELDS, command_of, lrc_embed, of_version, text_of
from tests.model import draws, rules, store

STORES = os.path.join(harness.EXAMPLES, "stores")
INCLUDE = f"{harness.TOP}/crates/lrc_embed/include"
CXX = os.environ.get("CXX", "c++")
NODES = harness.nodes_in_order(20, 16)
TOPOLOGY = harness.topology_of(NODES)


def left_out(what, why):
    print(f"{what}: {why}, left out", flush=True)


def compile_store(count, source, folder, program, *flags):
    """Compiles a store in C++ with the library, and returns the program; None if that fails, or there is no compiler."""
    if not shutil.which(CXX):
        left_out(source, f"no {CXX} on this machine")
        return None
    warnings = ["-Wall", "-Wextra", "-Wpedantic", "-Wconversion", "-Werror"]
    files = ["-o", program, f"{STORES}/{source}", f"{folder}/liblrc_embed.a"]
    compiled = count.run(source, CXX, "-std=c++17", "-O2", *warnings, f"-I{INCLUDE}", *files, *flags)
    return program if compiled is not None else None


def check_other_version(count, name, words):
    """A store ends at once with a library of another version, and says which it is, and its own."""
    if words[0] is None:
        return  # (it was not compiled, which is counted)
    ended = subprocess.run(list(map(str, words)), stdin=subprocess.DEVNULL, capture_output=True, text=True, timeout=60)
    said, own = ended.stderr.strip(), lrc_embed.VERSION
    right = f"the library has version {own + 1} of its interface, and "
    is_told = ended.returncode == 1 and not ended.stdout and right in said and said.endswith(f" is for version {own}")
    count.check(f"{name} with another library: status {ended.returncode}: {said}", is_told)


def next_version(count, room):
    """A library of the version after this one."""
    return of_version(count, room, lrc_embed.VERSION + 1)


def line_of(command):
    """The line of a command, as scripts have it."""
    kind = lrc_embed.CommandKind(command.kind)
    word = "done" if kind is kind.REPORT else kind.name.lower()
    return " ".join([word, *(str(getattr(command, name)) for name in FIELDS.get(word, ["node"]))])


def wrong_reply(model, number, data):
    """Makes the call of an entry, of which these are the bytes, in the model. A line if its reply is not the model's."""
    entry = lrc_embed.Entry.from_buffer_copy(data)
    line = line_of(entry.command)
    right = model.call(entry.session, line)
    found = text_of(entry.reply)
    return [] if found == right else [f"entry {number}, `{line}` by {entry.session}: {found}, and not {right}"]


def model_of(nodes, entries):
    """The model after the calls of entries, which are bytes, and a line for each reply that is not the model's."""
    model, wrong = store.Store(nodes), []
    for number, data in enumerate(entries, 1):
        wrong += wrong_reply(model, number, data)
    return model, wrong


class Requests:
    """Requests in the order in which they are sent, and what has to come of them if each is made once and none is lost."""

    def __init__(self, seed, count):
        self.model, row = rules.Store(NODES), draws.numbers(seed)
        within = draws.Range(STRIPES, [*NODES, 65535], range(12))
        self.calls = []  # the session, the command and the reply of each
        for _ in range(count):
            session, line = draws.drawn_call(self.model, row, within)
            self.calls.append((session, line, self.model.call(session, line)))

    def sent(self, begin, end):
        """The text of requests. Each has a token of its own."""
        calls = enumerate(self.calls[begin:end], begin)
        return "".join(f"r{at} {session} {line}\n" for at, (session, line, _) in calls)

    def told(self, begin, end):
        """The lines that answer them."""
        return [f"r{at} {at + 1} {reply}" for at, (_, _, reply) in enumerate(self.calls[begin:end], begin)]

    def generations(self):
        """The numbers of the entries that placed the stripes which are there in the end."""
        found = {}
        for number, (_, line, reply) in enumerate(self.calls, 1):
            word, *numbers = line.split()
            if word.startswith("place") and reply.startswith("placed"):
                found[int(numbers[0])] = number
            elif word == "drop" and reply == "dropped":
                del found[int(numbers[0])]
        return found

    def check_log(self, count, name, library, rows, images):
        """A log has each call once, in order, from the older of its two images on: rows of number, token, bytes of the entry and
        checksum, and images as number, text and checksum. The images are those of the model, and the replay from each of them
        gives the model's state, in all that a book reports."""
        begin, wrong = rows[0][0] - 1 if rows else 0, []
        numbers = [number for number, _, _ in images]
        is_cut = begin == numbers[0] and len(images) == 2 if begin else len(images) < 2
        count.check(f"{name}: a log from {begin} on, of which there are images {numbers}", is_cut)
        for at, (number, token, data, checksum) in enumerate(rows, begin):
            session, line, reply = self.calls[at] if at < len(self.calls) else (None, "tick", None)
            entry = lrc_embed.Entry.from_buffer_copy(data)
            found = number, token, entry.session, bytes(entry.command), text_of(entry.reply), checksum
            if found != (at + 1, f"r{at}", session, bytes(command_of(line)), reply, zlib.crc32(data)):
                wrong.append(f"{name}: record {at + 1}: {found}")
        count.check(f"{name}: {begin + len(rows)} records of {len(self.calls)} calls", begin + len(rows) == len(self.calls))
        count.add(len(rows) - len(wrong), wrong)
        model = store.Store(NODES)
        for at, (session, line, _) in enumerate(self.calls, 1):
            model.call(session, line)
            for number, text, checksum in images:
                if at == number:
                    count.check(f"{name}: image {number}", (text, checksum) == (model.image(number), zlib.crc32(text.encode())))
        for number, text, _ in images if begin else [(0, None, None), *images]:
            try:
                with lrc_embed.Book(library, TOPOLOGY, b"".join(row[2] for row in rows[number - begin:]), text) as book:
                    compare(book, self.model, len(self.calls))
                count.passed += 1
            except (Differs, lrc_embed.Fault) as differs:
                count.check(f"{name}: the replay from {number}: {differs}", False)


class Running:
    """A store that runs as a process of its own, with its input and output. One that hangs is killed after a while."""

    def __init__(self, *words, seconds=600, **how):
        self.process = subprocess.Popen(list(map(str, words)), stdin=subprocess.PIPE, stdout=subprocess.PIPE,
                                        stderr=subprocess.PIPE, text=True, **how)
        self.guard = threading.Timer(seconds, self.process.kill)
        self.guard.daemon = True
        self.guard.start()

    def send(self, text):
        try:
            self.process.stdin.write(text)
            self.process.stdin.flush()
        except BrokenPipeError:
            pass  # it has ended, which is seen by what it prints

    def lines(self, most):
        """The next lines, at most so many. A line that was cut off was told to nobody."""
        lines = []
        while len(lines) < most and (line := self.process.stdout.readline()).endswith("\n"):
            lines.append(line[:-1])
        return lines

    def line(self):
        return next(iter(self.lines(1)), None)

    def answers(self, requests, begin, end):
        """The lines that answer requests. They are sent some hundred at a time, so that neither pipe is ever full."""
        lines = []
        for at in range(begin, end, 200):
            last = min(at + 200, end)
            self.send(requests.sent(at, last))
            lines += self.lines(last - at)
        return lines

    def ask(self, text):
        """The line that answers a line."""
        self.send(text + "\n")
        return self.line()

    def kill(self, by=signal.SIGKILL):
        """Kills it, and returns the lines that it had printed."""
        self.process.send_signal(by)
        return self.end()[0]

    def end(self):
        """Ends its input, and returns what is left of its output, its status, and the text of its errors."""
        try:
            self.process.stdin.close()
        except BrokenPipeError:
            pass
        lines, errors = self.lines(sys.maxsize), self.process.stderr.read()
        status = self.process.wait()
        self.guard.cancel()
        return lines, status, errors


def check_readme(count, name, running):
    """A store, which has just begun, prints what its README says: after the command that runs it, first what it prints by itself,
    then requests and their answers in turn. Replies to requests are those of the model."""
    text = harness.read(f"{STORES}/{name}/README.md").decode()
    block = re.search(r"^    \$ (?:.*\n)(?:    .*\n)+", text, re.M)[0]
    first, *lines = [line[4:] for line in block.splitlines() if not re.match(r"    (?:\$|    )", line)]
    count.check(f"{name}: README: {first}", running.line() == first and len(lines) > 5)
    model, known = rules.Store(NODES), {}
    for asked, told in zip(lines[::2], lines[1::2]):
        found = running.ask(asked)
        count.check(f"{name}: README: `{asked}`: {found}, and not {told}", found == told)
        if request := re.fullmatch(r"(a\d+) (\d) (.*)", asked):
            token, session, line = request.groups()
            if token not in known:
                known[token] = f"{token} {len(known) + 1} {model.call(int(session), line)}"
            count.check(f"{name}: README: {told}, and not {known[token]}", told == known[token])
    count.check(f"{name}: README: it ends well", running.end()[1] == 0)


def pause(row, most):
    """Waits for a drawn time, at most so many milliseconds."""
    time.sleep(next(row) % 1000 / 1000 * most / 1000)
