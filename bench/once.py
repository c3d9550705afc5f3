"""Runs PROGRAM run < SOURCE > SINK several TIMES, one after the other, or until it fails. Prints the means of its wall, user
and system time in seconds, its greatest peak memory in KiB, and its last exit status. A run that takes more than SECONDS
of user and system time is ended by a signal.

Usage: python3 -S -I bench/once.py SECONDS TIMES PROGRAM SOURCE SINK

The system counts the memory of the process that starts a program as the program's own where it is greater. So this
script imports next to nothing."""
import os
import resource
import sys
import time


def run(program, source, sink):
    """Runs it once: its wall, user and system time, its peak memory, and its exit status."""
    # Some file systems write a file that was emptied to the disk when it is closed. A new one costs a run no such wait.
    if os.path.isfile(sink):
        os.unlink(sink)
    files = [
        (os.POSIX_SPAWN_OPEN, 0, source, os.O_RDONLY, 0),
        (os.POSIX_SPAWN_OPEN, 1, sink, os.O_WRONLY | os.O_CREAT, 0o600),
    ]
    begun = time.perf_counter()
    child = os.posix_spawn(program, [program, "run"], os.environ, file_actions=files)
    _, status, used = os.wait4(child, 0)
    wall = time.perf_counter() - begun
    return wall, used.ru_utime, used.ru_stime, used.ru_maxrss, os.waitstatus_to_exitcode(status)


def main(seconds, times, *files):
    # Each run inherits the limit, and none the time that others took.
    resource.setrlimit(resource.RLIMIT_CPU, (int(seconds), int(seconds)))
    runs, status = [], 0
    while len(runs) < int(times) and status == 0:
        *took, status = run(*files)
        runs.append(took)
    *spent, memory = zip(*runs)
    print(*(sum(each) / len(runs) for each in spent), max(memory), status)


if __name__ == "__main__":
    main(*sys.argv[1:])
