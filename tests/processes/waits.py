"""Planners who wait for a version, in version 2 of session lines: how soon they are told, and what it costs meanwhile."""
import os
import statistics
import time

from .hosting import Hosted
from .running import second, want


def used(process):
    """The seconds of processor time that the process has used, by /proc: in user and in system mode."""
    with open(f"/proc/{process.pid}/stat") as file:
        fields = file.read().rpartition(")")[2].split()
    return (int(fields[11]) + int(fields[12])) / os.sysconf("SC_CLK_TCK")


WAITERS, ROUNDS, SOON = 64, 20, 0.05
LATE = 5  # seconds that a wait may end late on a busy machine


def many_wait():
    """64 planners who wait take no processor time, hold up no commit, and are told of it soon: within 50 ms in the median."""
    names, took = [f"w{number}" for number in range(WAITERS)], []
    with Hosted(names) as hosted:
        seats = hosted.seats()
        for version in range(ROUNDS):
            for seat in seats:
                seat.send(b"wait %d 86400\n" % version)
            time.sleep(1 if version == 0 else 0.02)
            if version == 0:
                before = used(hosted.operator.process)
                time.sleep(1)
                want("whether those who wait take no processor time", used(hosted.operator.process) - before <= 0.01, True)
            began = time.monotonic()
            hosted.operator.ask(b"open 0,0\n", b"version %d\n" % (version + 1))
            for seat in seats:
                want("what ends a wait", seat.hear(), b"version %d" % (version + 1))
                took.append(time.monotonic() - began)
        for seat in seats:
            seat.close()
        hosted.ends(0, b"audit same\n", b"")
    median = statistics.median(took)
    print(f"many_wait: told after {1000 * median:.1f} ms in the median, {1000 * max(took):.1f} ms at most")
    want("whether those who wait are told soon", median < SOON * second(), True)


def waits_end():
    """A wait ends at once with a version above, or for no second; else with the time, or with the commit that comes before."""
    with Hosted(["east", "west"]) as hosted:
        east, west = hosted.seats()
        for line, seconds in ((b"wait 0 0", 0), (b"wait 7 1", 1), (b"wait 0 2", 2)):
            began = time.monotonic()
            east.ask(line, b"version 0")
            want(f"whether {line} ends in its time", seconds <= time.monotonic() - began < seconds + LATE, True)
        west.ask(b"open 0,0", b"version 1")
        east.ask(b"wait 0 86400", b"version 1")
        east.send(b"wait 2 86400\nwait 1 86400\n")
        west.ask(b"open 0,0", b"version 2")
        time.sleep(0.2)
        west.ask(b"open 0,0", b"version 3")
        want("what a wait that went on is told", (east.hear(), east.hear()), (b"version 3", b"version 3"))
        east.close(), west.close()
        hosted.ends(0, b"audit same\n", b"")


def tests():
    for test in (many_wait, waits_end):
        yield test.__name__, test
