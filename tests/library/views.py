"""Tests published books and their viewers, by the library of crates/lrc_embed.

Usage: tests/library/views [--long] [FOLDER], where FOLDER has what examples/embed/build makes; by default it is built first.

- Beside the model of tests/model/rules.py: a published book makes 600 drawn calls. Viewers that are made at several places follow
  it after each call, or now and then; then each reports all that the model does, the place too. The published book and its viewers
  forget in between. A viewer that has not followed yet is found out, so a body that does nothing would be.
- From C (tests/library/views.c): each status, with a full history, a full feed and numbers at their ends; closes in each order;
  viewers that follow while the last calls are made and the book is taken back, which have all calls when they are told; memory
  refused from each request on; and eight threads that look while another one calls, each with a viewer of its own: each look
  shows what the book showed at its place, no place is less than the one before, and the last look is at the end. This is run
  plain and with the thread, the address and the undefined-behaviour sanitizers. They see the program, and of the library what it
  allocates.
- `bench/views` ends well.

With --long these are 5,000 calls, and 100 times as many beside the lookers. The last line is 'N passed, M failed'."""
import ctypes
import os
import subprocess
import sys
import tempfile
from itertools import islice

from tests import harness
from tests.harness import CC, EXAMPLES, TOP
from tests.library.comparing import STRIPES, Differs, compare, expect, status_of
from tests.library.library import command_of, lrc_embed, text_of
from tests.model import draws, rules

NODES = harness.nodes_in_order(20, 16)
SANITIZERS = ["-fsanitize=thread", "-fsanitize=address,undefined"]
PLAIN = "-O2"
LOOKERS = 8


def left_out(what, why):
    print(f"left out: {what}: {why}")


# Beside the model.


def drawn_calls(store, seed):
    """Calls of all kinds, without end, by what the store has."""
    within = draws.Range(STRIPES, [*store.nodes, 65535], range(max(store.in_upgrade) + 2))
    row = draws.numbers(seed)
    while True:
        yield draws.drawn_call(store, row, within)


def follow(viewer, store, place):
    """Brings a viewer to the end, and compares it."""
    expect("place of a viewer", viewer.follow(), (place, True))
    compare(viewer, store, place)


def play(library, calls, seed):
    """Makes calls on a published book, with viewers that follow it. Returns how often one that had not followed was found out."""
    store, text, behind = rules.Store(NODES), harness.topology_of(NODES), 0
    with lrc_embed.PublishedBook(lrc_embed.Book(library, text)) as book:
        always, rarely = book.view(text), book.view(text)
        for place, (session, line) in enumerate(islice(drawn_calls(store, seed), calls), 1):
            found = book.call(session, command_of(line))
            expect(f"reply to `{line}`", text_of(found), store.call(session, line))
            if place % 10 == 0:  # (it has not followed yet)
                behind += is_behind(always, store, place)
            follow(always, store, place)
            if place % 50 == 0:
                follow(rarely, store, place)
                rarely.forget()
                compare(book, store, place)
            if place % 100 == 0:
                book.forget()
                rarely.close()
                rarely = book.view(text)
                follow(rarely, store, place)
    expect("a viewer after the book was taken back", rarely.follow(), (calls, False))
    compare(rarely, store, calls)
    rarely.close()
    always.close()
    expect("a closed viewer", status_of(rarely.follow), lrc_embed.Status.IS_CLOSED)
    return behind


def is_behind(viewer, store, place):
    try:
        compare(viewer, store, place)
    except Differs:
        return True
    return False


def test_model(count, library, calls):
    for seed in (1, 2):
        try:
            behind = play(library, calls, seed)
        except Differs as differs:
            count.check(f"beside the model, row {seed}: {differs}", False)
            continue
        count.check(f"of {calls // 10} viewers that had not followed, {behind} were found out", behind == calls // 10)


# From C.


def compiled(count, folder, room, flag):
    """The program, built with a flag; None if the machine has not what the flag asks for."""
    program = f"{room}/views{flag}".replace("=", "-").replace(",", "-")
    if flag != PLAIN and not is_there(room, flag):
        left_out("the program of views.c", f"{CC} does not build with {flag}, or its programs do not run here")
        return None
    words = [CC, "-std=c11", "-g", "-Wall", "-Wextra", "-Werror", flag, f"-I{TOP}/crates/lrc_embed/include", "-o", program,
             f"{TOP}/tests/library/views.c", f"{folder}/liblrc_embed.a", "-pthread", "-Wl,--wrap=malloc,--wrap=realloc"]
    return program if count.run(f"views.c {flag}", *words) is not None else None


def is_there(room, flag):
    with open(f"{room}/none.c", "w", encoding="utf-8") as file:
        file.write("int main(void) { return 0; }\n")
    made = subprocess.run([CC, flag, "-o", f"{room}/none", f"{room}/none.c"], capture_output=True, check=False)
    return made.returncode == 0 and subprocess.run([f"{room}/none"], capture_output=True, check=False).returncode == 0


def test_program(count, folder, room, calls, rounds):
    for flag in [PLAIN, *SANITIZERS]:
        program = compiled(count, folder, room, flag)
        if program is None:
            continue
        count.run(f"statuses {flag}", program, "statuses")
        count.run(f"full {flag}", program, "full")
        count.run(f"closes {flag}", program, "closes")
        count.run(f"ended {flag}", program, "ended", str(rounds if flag == PLAIN else rounds // 10))
        told = count.run(f"refused {flag}", program, "refused", "1", "60")
        count.check(f"refused {flag}: {told}", told and int(told.split(" ")[0]) > 60)
        beside = count.run(f"beside {flag}", program, "beside", str(calls if flag == PLAIN else calls // 10), str(LOOKERS))
        count.check(f"beside {flag}: {beside}", beside == f"{LOOKERS} lookers, all as the book\n")


def main(words):
    is_long = "--long" in words
    folder = next((word for word in words if word != "--long"), None)
    count = harness.Count()
    with tempfile.TemporaryDirectory() as room:
        if folder is None:
            folder = room
            if count.run("examples/embed/build", f"{EXAMPLES}/embed/build", folder, timeout=7200) is None:
                return count.report()
        library = ctypes.CDLL(os.path.join(os.path.abspath(folder), "liblrc_embed.so"))
        test_model(count, library, 5000 if is_long else 600)
        test_program(count, os.path.abspath(folder), room, 500_000 if is_long else 5000, 2000 if is_long else 100)
        table = count.run("bench/views", sys.executable, f"{TOP}/bench/views", "--quick", folder) or ""
        count.check(f"bench/views: {table}", [line.split(" ")[1] for line in table.splitlines()[2:]] == ["0", "1", "2"])
    return count.report()


if __name__ == "__main__":
    sys.exit(main(sys.argv[1:]))
