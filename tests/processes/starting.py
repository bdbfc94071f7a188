"""The threads of `host`, one at a time: each start waits until this script lets it go on, or is refused."""
import errno
import os
import subprocess
import time

from .comings import make_pipes, remove_pipes
from .growing import sleeps
from .running import PATIENCE, Wrong, bytes_of, put, remove, want
from .stepping import Stepped

STARTS = {56: "start", 435: "start"}  # the calls of x86-64 Linux that start a thread, by their numbers
NAMES = ["east", "west", "north"]
WORDS = ["host", "--map", "m", "--workers", "1", "--save", "kept", *NAMES]
# The threads in the order of their starts: of all hosting, of who sees how long planners are waited for, of sessions; then of the audit.
AUDIT = ["index", "report"]
THREADS = ["hosting", "waiting", *NAMES, "operator", *AUDIT]


def come_to_rest(process):
    """Waits until each thread of the program sleeps, as it is seen to do twice."""
    until, rests = time.monotonic() + PATIENCE, 0
    while rests < 2:
        rests = rests + 1 if sleeps(process) else 0
        if time.monotonic() > until:
            raise Wrong("the program doesn't come to rest")
        time.sleep(0.005)


def hosted(refused=None):
    """Planners at files, with a line each, whose threads start one at a time; the start of that thread is refused. Gives whose sessions were
    answered, or had touched the desk's file, before each start, and the end."""
    for name in NAMES:
        put(f"{name}.in", b"version\n")
        remove(f"{name}.out")
    remove("kept")
    session, seen = Stepped(b"version\n", WORDS, STARTS), []
    for number, _ in session.calls():
        come_to_rest(session.process)
        seen.append([name for name in NAMES if os.path.exists(f"{name}.out") and bytes_of(f"{name}.out")])
        is_refused = refused is not None and len(seen) == refused + 1
        session.answer(number, errno.EAGAIN if is_refused else 0)
    return seen, session.end()


def forget():
    remove("kept", *(f"{name}.{end}" for name in NAMES for end in ("in", "out")))


def none_begins_before_all_have_threads():
    """While the start of any session's thread is awaited nobody is answered, though its own thread is there."""
    seen, ended = hosted()
    want("the end", ended, (0, b"version 0\naudit same\n", b""))
    want("who is answered before each start", seen, [[]] * (len(THREADS) - len(AUDIT)) + [NAMES] * len(AUDIT))
    forget()


def one_thread_refused():
    """Where one thread doesn't start, that is told of the planner or the operator whose it is, and all others are served, audited and saved.
    Without the threads of all sessions no line is read."""
    for refused, thread in enumerate(THREADS):
        seen, ended = hosted(refused)
        answers = {name: bytes_of(f"{name}.out") for name in NAMES if os.path.exists(f"{name}.out")}
        others = [name for name in NAMES if name != thread]
        if thread in ("hosting", "waiting"):
            want(f"what is without the thread {thread}", (seen, ended), ([[]] * (refused + 1), (2, b"", b"mapf_desk: out of memory\n")))
            want("whether anybody is answered, or anything saved", (answers, os.path.exists("kept")), ({}, False))
            continue
        told = "mapf_desk: out of memory\n" if thread in AUDIT else f"mapf_desk: {thread}: no thread\n"
        said = (b"" if thread == "operator" else b"version 0\n") + (b"" if thread in AUDIT else b"audit same\n")
        want(f"the end without the thread {thread}", ended, (2, said, told.encode()))
        want("the answers", answers, {**{name: b"" for name in NAMES}, **{name: b"version 0\n" for name in others}})
        want("the journal", bytes_of("kept"), b"journal 2\nmode stay\nend 0\n")
    forget()


def nobody_waits_at_a_pipe():
    """Where the thread doesn't start that waits for who reads a planner's answers, that planner isn't waited for."""
    make_pipes("east"), put("west.in", b"version\n")
    session, starts = Stepped(b"", ["host", "--map", "m", "east", "west"], STARTS), 0
    for number, _ in session.calls():
        starts += 1
        session.answer(number, errno.EAGAIN if starts == 3 else 0)
    want("the end", session.end(), (2, b"audit same\n", b"mapf_desk: east: no thread\n"))
    want("the answers", bytes_of("west.out"), b"version 0\n")
    remove_pipes("east"), remove("west.in", "west.out")


def no_thread_at_pipes():
    """Where the thread of a session at pipes doesn't start, they are closed at once, before others come, and nobody is waited for there."""
    make_pipes("east", "west")
    comes = "trap '' PIPE; exec 3> east.in 4< east.out; : > opened; cat <&4; echo >&3 && echo heard; echo version > west.in & cat west.out"
    shell = subprocess.Popen(["sh", "-c", comes], stdout=subprocess.PIPE, stderr=subprocess.DEVNULL)
    session, starts = Stepped(b"", ["host", "--map", "m", "east", "west"], STARTS), 0
    for number, _ in session.calls():
        starts += 1
        until = time.monotonic() + PATIENCE
        while starts == 5 and not os.path.exists("opened") and time.monotonic() < until:
            time.sleep(0.005)
        session.answer(number, errno.EAGAIN if starts == 5 else 0)
    want("the end", session.end(), (2, b"audit same\n", b"mapf_desk: east: no thread\n"))
    want("what is read", shell.communicate(timeout=PATIENCE)[0], b"version 0\n")
    remove_pipes("east", "west"), remove("opened")


def tests():
    for test in (none_begins_before_all_have_threads, one_thread_refused, nobody_waits_at_a_pipe, no_thread_at_pipes):
        yield test.__name__, test
