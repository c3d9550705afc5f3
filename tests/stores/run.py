"""Runs the stores of examples/stores over the library of crates/lrc_embed.

Usage: tests/stores/run [--long] FOLDER [NAME ..], where FOLDER has what examples/embed/build makes; by default all stores

What each is tried with stands in the module of tests that has its name. What this machine lacks is printed and left out. The
last line is 'N passed, M failed'."""
import os
import sys
import tempfile

from tests import harness
from tests.stores import (store_books, store_durability, store_postgres, store_races, store_requests, store_sqlite, store_standby,
                          store_threads)

TESTS = {"sqlite": store_sqlite.test, "threads": store_threads.test, "races": store_races.test,
         "durability": store_durability.test}
OVER_POSTGRES = {"standby": store_standby.test, "books": store_books.test}


def run_over_postgres(names, count, folder, room, is_long):
    """Runs the stores over PostgreSQL, on one server of their own."""
    if why := store_postgres.why_not(room):
        return store_requests.left_out("postgres", why)
    with store_postgres.Server(room) as server:
        for name in names:
            OVER_POSTGRES[name](count, folder, room, is_long, server)


def main(words):
    is_long = "--long" in words
    folder, *names = [word for word in words if word != "--long"] or harness.stop("name the folder of the library")
    if unknown := set(names) - {*TESTS, *OVER_POSTGRES}:
        harness.stop(f"there is no store {unknown.pop()}")
    count = harness.Count()
    with tempfile.TemporaryDirectory() as room:
        rest = os.path.abspath(folder), room, is_long
        for name in [name for name in TESTS if name in (names or TESTS)]:
            TESTS[name](count, *rest)
        if over := [name for name in OVER_POSTGRES if name in (names or OVER_POSTGRES)]:
            run_over_postgres(over, count, *rest)
    return count.report()


if __name__ == "__main__":
    sys.exit(main(sys.argv[1:]))
