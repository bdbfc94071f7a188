"""How planners of `host` come to their pipes: in each order, under whatever names, and how those who don't come are waited for."""
import contextlib
import errno
import os
import signal
import subprocess
import threading
import time

from .hosting import Hosted, Seat, opened
from .running import PATIENCE, Planner, bytes_of, put, remove, want

ENDS = {"in": os.O_WRONLY, "out": os.O_RDONLY}
AUDITED = (0, b"audit same\n", b"")


class Coming:
    """A planner that opens its pipes in that order, `both` at once, from now on."""

    def __init__(self, name, order):
        self.name, self.ends = name, {}
        turns = [("in",), ("out",)] if order == "both" else [("in", "out") if order == "in" else ("out", "in")]
        self.threads = [threading.Thread(target=self.open, args=(turn,), daemon=True) for turn in turns]
        for thread in self.threads:
            thread.start()

    def open(self, turn):
        for end in turn:
            time.sleep(0 if end == turn[0] else 0.2)  # (meanwhile one alone is open)
            self.ends[end] = os.open(f"{self.name}.{end}", ENDS[end])

    def seat(self):
        """The planner, once both are open."""
        for thread in self.threads:
            thread.join(PATIENCE)
        want(f"what {self.name} has opened", sorted(self.ends), ["in", "out"])
        seat = Seat.__new__(Seat)
        seat.name, seat.lines, seat.answers, seat.left = self.name, self.ends["in"], self.ends["out"], b""
        return seat


def make_pipes(*names):
    for name in names:
        remove(f"{name}.in", f"{name}.out")
        os.mkfifo(f"{name}.in"), os.mkfifo(f"{name}.out")


def remove_pipes(*names):
    for name in names:
        for end in ENDS:
            with contextlib.suppress(FileNotFoundError):
                os.remove(f"{name}.{end}")


def opened_in_each_order():
    """Either pipe first, or both at once, by planners that wait before the host is there and that come later."""
    orders = ("in", "out", "both")
    for early in (True, False):
        make_pipes(*orders)
        comings = [Coming(order, order) for order in orders if early]
        time.sleep(0.2)
        host = Planner("host", "--map", "m", *orders)
        time.sleep(0.3)
        comings = comings or [Coming(order, order) for order in orders]
        for number, coming in enumerate(comings, 1):
            seat = coming.seat()
            seat.ask(b"close %d,0" % (number - 1), b"version %d" % number)
            os.close(seat.lines)
            want("what comes behind the last line", seat.hear(), None)
            os.close(seat.answers)
        want("the end", host.end_all(), AUDITED)
    remove_pipes(*orders)


def written_before_it_is_read():
    """A planner may write all, and go, before it opens its answers."""
    with Hosted(["east", "west"]) as hosted:
        for name, stays in (("east", True), ("west", False)):
            lines = opened(f"{name}.in", os.O_WRONLY)
            os.write(lines, b"version\nfly\n")
            if not stays:
                os.close(lines)
            time.sleep(0.2)
            answers = opened(f"{name}.out", os.O_RDONLY)
            heard = b""
            while heard.count(b"\n") < 2:
                heard += os.read(answers, 99)
            want("the answers", heard, b"version 0\nbad 2 word\n")
            if stays:
                os.close(lines)
            want("what comes behind them", os.read(answers, 99), b"")
            os.close(answers)
        hosted.ends(*AUDITED)


def gone_before_its_thread_waits():
    """A planner that wrote and went while others' files were still being opened is answered."""
    others = [f"p{number}" for number in range(250)]
    for name in others:
        put(f"{name}.in", b"")
    for _ in range(3):
        make_pipes("east")
        shell = subprocess.Popen(["sh", "-c", "printf 'version\\n' > east.in; cat east.out"], stdout=subprocess.PIPE)
        time.sleep(0.2)
        host = Planner("host", "--map", "m", "--wait", "10", "east", *others)
        want("the end", host.end_all(), AUDITED)
        want("the answers", shell.communicate(timeout=PATIENCE)[0], b"version 0\n")
    remove_pipes("east", *others)


def gone_without_a_line():
    """Pipes that are opened and closed, in either order, are a session with no line: so one ends who isn't to come."""
    for shell in ("cat east.out & : > east.in; wait", ": > east.in; cat east.out", "cat < east.out & sleep 0.1; : > east.in; wait"):
        with Hosted(["east"], "-v") as hosted:
            time.sleep(0.3)
            came = subprocess.run(["sh", "-c", shell], capture_output=True, timeout=PATIENCE)
            want("what it reads", came.stdout, b"")
            hosted.operator.process.stdin.close()
            status, said, complained = hosted.end()
            want("what is told", sorted(complained.splitlines())[:2], [b"mapf_desk: east: 0 lines", b"mapf_desk: east: has come"])
            want("the end", (status, said), (0, b"audit same\n"))


def half_a_planner():
    """Who has opened one pipe alone is waited for, whichever it is, and hasn't come."""
    for end, how in ENDS.items():
        with Hosted(["east"], "-v", "--wait", "4") as hosted:
            time.sleep(0.3)
            half = opened(f"east.{end}", how)
            hosted.operator.process.stdin.close()
            told = b"mapf_desk: operator: 0 lines\nmapf_desk: east: hasn't come yet\nmapf_desk: east: never came\n"
            hosted.ends(2, b"audit same\n", told)
            os.close(half)


def silent_for_longer_than_the_wait():
    """Who has opened both has come, though it says nothing for longer than others are waited for."""
    with Hosted(["east", "west"], "--wait", "3") as hosted:
        east = Seat("east")
        time.sleep(4)
        east.ask(b"version", b"version 0")
        east.close()
        hosted.ends(2, b"audit same\n", b"mapf_desk: west: never came\n")


# How names of one planner's pipes go while it is awaited.
GOING = {
    "the input is removed": "rm away.in",
    "the answers are removed behind the input": "rm away.out",
    "the input is renamed": "mv away.in gone.in",
    "the answers are renamed behind the input": "mv away.out gone.out",
    "both are renamed": "mv away.in gone.in; mv away.out gone.out",
    "a file is in the input's place": "rm away.in; echo close 0,0 > away.in",
    "a file is in the place of the answers behind the input": "rm away.out; echo > away.out",
    "a new pipe is in the input's place": "rm away.in; mkfifo away.in",
    "all names are gone": "rm *.in *.out",
}


def names_that_go():
    """Whatever becomes of its names, a planner is waited for no longer than so many seconds; the rest is served, saved and audited."""
    for what, shell in GOING.items():
        with Hosted(["away", "east"], "--wait", "3", "--save", "kept") as hosted:
            east = Seat("east")
            half = opened("away.in", os.O_WRONLY) if "behind" in what else None
            subprocess.run(["sh", "-c", shell], check=True)
            east.ask(b"close 0,0", b"version 1")
            east.close()
            began = time.monotonic()
            hosted.ends(2, b"audit same\n", b"mapf_desk: away: never came\n")
            want(f"whether it ends in time where {what}", time.monotonic() - began < PATIENCE / 4, True)
            want("the journal", bytes_of("kept"), b"journal 2\nmode stay\nentry 2 0 0 1\nclose 0,0\nend 1\n")
            if half:
                os.close(half)
        remove("kept")
        remove_pipes("gone")


KILLED = 'exec 3> east.in 4< east.out; printf "agent 0 0,0 2,0\\nbegin\\npath 0" >&3; read one <&4; read two <&4; echo $one, $two; kill -9 $$'


def back_by_pipes_that_are_kept():
    """Who is killed can come back while somebody keeps its pipes open, within the line and gathering as it was, and later no more."""
    with Hosted(["east", "west"]) as hosted:
        kept, west = hosted.seats()
        killed = subprocess.run(["sh", "-c", KILLED], capture_output=True, timeout=PATIENCE)
        want("the planner's end", (killed.returncode, killed.stdout), (-signal.SIGKILL, b"version 1, base 1\n"))
        back = Seat("east")
        back.ask(b" 0,0 1,0", b"kept")
        back.ask(b"commit", b"version 2")
        back.close()
        os.close(kept.lines)
        want("what comes behind the last line", kept.hear(), None)
        os.close(kept.answers)
        want("why nobody comes", no_reader("east.in"), errno.ENXIO)
        west.ask(b"version", b"version 2")
        west.close()
        hosted.operator.process.stdin.close()
        hosted.ends(*AUDITED)


def no_reader(pipe):
    """Why it isn't opened for writing, before long, with no wait."""
    for _ in range(100):
        try:
            os.close(os.open(pipe, os.O_WRONLY | os.O_NONBLOCK))
        except OSError as why:
            return why.errno
        time.sleep(0.05)


def tests():
    for test in (opened_in_each_order, written_before_it_is_read, gone_before_its_thread_waits, gone_without_a_line, half_a_planner,
                 silent_for_longer_than_the_wait, names_that_go, back_by_pipes_that_are_kept):
        yield test.__name__, test
