"""A log doesn't grow the memory of a desk: an entry takes as many bytes as without one.

The memory is the most that the program has held so far. It is read behind the first commits and behind many, so what a log takes once doesn't
count.
"""
import os

from .hosting import Hosted
from .log_texts import WIDE
from .logged_hosts import line_of
from .running import Planner, bytes_of, put, remove, want
from .scarcity import most_memory

AT_ONCE = 1000  # commits whose lines, and whose answers, a pipe holds
FIRST, ALL, ALL_HOSTED = 2, 20, 8  # the memory is read behind so many times that many, and behind all, which a host takes longer for
MOST = 32  # bytes that an entry may take more than without a log; its text has room for 128
# A build that checks each access keeps what was let go, unless it is told not to: all that was ever put into the log.
LET_GO = {**os.environ, "ASAN_OPTIONS": "quarantine_size_mb=0:detect_leaks=0"}


def grown(process, commit, times):
    """The bytes that an entry takes, of those that the calls make, each so many."""
    for number in range(times):
        commit(number)
        if number + 1 == FIRST:
            before = most_memory(process)
    return (most_memory(process) - before) * 1024 / AT_ONCE / (times - FIRST)


def served(words):
    """The same of a session."""
    planner = Planner(*words, env=LET_GO)

    def commit(number):
        first = number * AT_ONCE
        lines = b"".join(line_of(0, first + it) + b"\n" for it in range(AT_ONCE))
        planner.ask(lines, b"".join(b"version %d\n" % (first + it + 1) for it in range(AT_ONCE)))

    bytes_each = grown(planner.process, commit, ALL)
    want("the end", planner.end_all(), (0, b"", b""))
    return bytes_each


def hosted(words):
    """The same of a host with two planners, who commit at once."""
    with Hosted(["p1", "p2"], *words, ground="wide", env=LET_GO) as desk:
        seats = desk.seats()

        def commit(number):
            first, each = number * AT_ONCE // 2, AT_ONCE // 2
            for planner, seat in enumerate(seats, 1):
                seat.send(b"".join(line_of(planner, first + it) + b"\n" for it in range(each)))
            told = {seat.hear() for seat in seats for _ in range(each)}
            want("what is answered", told, {b"version %d" % (2 * first + it) for it in range(1, AT_ONCE + 1)})

        bytes_each = grown(desk.operator.process, commit, ALL_HOSTED)
        for seat in seats:
            seat.close()
        desk.ends(0, b"audit same\n", b"")
    return bytes_each


def takes_as_much(name, taken, times, *words):
    """An entry takes as many bytes with a log as without."""
    put("wide", WIDE)
    without = taken(words)
    logged = taken([*words, "--log", "log", "--sync", "off"])
    want("how many entries the log has", bytes_of("log").count(b"\ncommit "), times * AT_ONCE)
    remove("log", "wide")
    print(f"{name}: {without:.1f} bytes an entry without a log, {logged:.1f} with one")
    want(f"whether {logged:.1f} bytes an entry with a log are as the {without:.1f} without", logged - without < MOST, True)


def log_in_no_memory():
    """A session of 20,000 commits takes as much memory with a log as without."""
    takes_as_much("log_in_no_memory", served, ALL, "serve", "--map", "wide")


def hosted_log_in_no_memory():
    """So does a host of two planners with 8,000."""
    takes_as_much("hosted_log_in_no_memory", hosted, ALL_HOSTED)


def tests():
    for test in (log_in_no_memory, hosted_log_in_no_memory):
        yield test.__name__, test
