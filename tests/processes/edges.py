"""The edge to the system: descriptors that are closed, streams that don't wait."""
import contextlib
import fcntl
import os
import subprocess
import threading
import time

from .comings import make_pipes
from .growing import unheard
from .hosting import Seat
from .running import PATIENCE, Planner, Program, bytes_of, is_fault, put, remove, start, want
from .texts import ADD, ONE_ENTRY


def with_files(names, given):
    """Planners whose inputs are files of those lines."""
    for name in names:
        put(f"{name}.in", given)


def without_files(names):
    remove(*(f"{name}.{end}" for name in names for end in ("in", "out")))


def closed_descriptors():
    """Standard streams that are closed at the start are taken for /dev/null: no file gets the place of one."""
    names = ["east", "west"]
    for closed in ("<&-", "<&- >&-", "<&- >&- 2>&-", ">&-", "2>&-"):
        with_files(names, b"version\nversion")
        shell = f'exec "$0" host --map m --save kept {" ".join(names)} {closed}'
        ran = subprocess.run(["sh", "-c", shell, Program.path], capture_output=True, stdin=subprocess.DEVNULL, timeout=PATIENCE)
        want(f"the status with {closed}", ran.returncode, 2)
        want(f"standard output with {closed}", ran.stdout, b"" if ">&-" in closed.replace("2>&-", "") else b"audit same\n")
        faults = [] if "2>&-" in closed else [b"mapf_desk: %s: ended within a line" % name.encode() for name in names]
        want(f"standard error with {closed}", sorted(ran.stderr.splitlines()), faults)
        want(f"the answers with {closed}", [bytes_of(f"{name}.out") for name in names], [b"version 0\n"] * 2)
        want(f"the journal with {closed}", bytes_of("kept"), b"journal 2\nmode stay\nend 0\n")
        remove("kept")
    without_files(names)


def closed_input_of_a_host():
    """Each entry has its planner's number where standard input is closed at the start: no pipe gets its place."""
    names = ["east", "west"]
    make_pipes(*names)
    host = subprocess.Popen(["sh", "-c", 'exec "$0" host --map m --save kept east west <&-', Program.path], stdout=subprocess.PIPE)
    east, west = [Seat(name) for name in names]
    east.ask(b"agent 1 0,0 2,0", b"version 1"), west.ask(b"agent 2 2,0 0,0", b"version 2")
    east.close(), west.close()
    want("standard output", host.communicate(timeout=PATIENCE)[0], b"audit same\n")
    entries = b"entry 1 0 0 1\nagent 1 0,0 2,0\nentry 2 1 0 1\nagent 2 2,0 0,0\n"
    want("the journal", bytes_of("kept"), b"journal 2\nmode stay\n" + entries + b"end 2\n")
    remove("kept"), without_files(names)


def closed_error_of_a_session():
    """The journal alone is in its file where standard error is closed at the start, also where there is a fault to tell."""
    shell = 'exec "$0" serve --map m --save kept 2>&-'
    ran = subprocess.run(["sh", "-c", shell, Program.path], capture_output=True, input=b"agent 0 0,0 2,0\nfly\n", timeout=PATIENCE)
    want("the end", (ran.returncode, ran.stdout, ran.stderr), (0, b"version 1\nbad 2 word\n", b""))
    want("the journal", bytes_of("kept"), ONE_ENTRY)
    remove("kept")
    with open("/dev/full", "wb") as full:
        ran = subprocess.run(["sh", "-c", shell, Program.path], stdout=full, input=ADD, timeout=PATIENCE)
    want("the status", ran.returncode, 2)
    want("the journal", bytes_of("kept"), ONE_ENTRY)
    remove("kept")


def maps_that_are_no_plain_files():
    """A pipe as the map is waited for; a device without an end is a file that is too large."""
    os.mkfifo("slow")
    planner = Planner("serve", "--map", "slow")
    put("slow", bytes_of("m"))
    planner.ask(b"version\n", b"version 0\n")
    want("the end", planner.end_all(), (0, b"", b""))
    remove("slow")
    is_fault(["serve", "--map", "/dev/zero", "-v"], "can't read /dev/zero\n  more than 1073741824 bytes")


def unwaiting(end):
    """An end of a pipe at which nobody waits: what would wait is told so."""
    fcntl.fcntl(end, fcntl.F_SETFL, fcntl.fcntl(end, fcntl.F_GETFL) | os.O_NONBLOCK)
    return end


MANY_BYTES = 32768  # as fill half of a pipe


def heard_slowly(end, heard, most=0):
    """Hears all that comes, from a while later on, once so many bytes wait to be taken."""
    until = time.monotonic() + PATIENCE / 2
    while unheard(end) < most and time.monotonic() < until:
        time.sleep(0.05)
    time.sleep(2)
    while piece := os.read(end, 65536):
        heard.append(piece)


def streams_that_do_not_wait(words, given, status, out, err):
    """Standard streams that don't wait are waited for."""
    pipes = [os.pipe() for _ in range(3)]
    (hears, feeds), outs, errs = pipes
    process = start(words, stdin=unwaiting(hears), stdout=unwaiting(outs[1]), stderr=unwaiting(errs[1]))
    for end in (hears, outs[1], errs[1]):
        os.close(end)
    said, complained = [], []
    threads = [threading.Thread(target=heard_slowly, args=it) for it in ((outs[0], said, MANY_BYTES), (errs[0], complained))]
    for thread in threads:
        thread.start()
    line = given.index(b"\n") + 1
    os.write(feeds, given[:line])
    until = time.monotonic() + PATIENCE
    while unheard(feeds) and process.poll() is None and time.monotonic() < until:
        time.sleep(0.01)
    time.sleep(0.5)  # (meanwhile there is no more to read)
    with contextlib.suppress(BrokenPipeError):
        for at in range(line, len(given), 65536):
            os.write(feeds, given[at : at + 65536])
    os.close(feeds)
    for thread in threads:
        thread.join(PATIENCE)
    want("the status", process.wait(PATIENCE), status)
    want("standard output", b"".join(said), out)
    want("standard error", b"".join(complained), err)
    for end in (outs[0], errs[0]):
        os.close(end)


MANY = 30000  # lines whose answers fill a pipe some times over


def serve_on_streams_that_do_not_wait():
    streams_that_do_not_wait(["serve", "--map", "m"], b"version\n" * MANY, 0, b"version 0\n" * MANY, b"")


def host_on_streams_that_do_not_wait():
    with_files(["east"], b"")
    streams_that_do_not_wait(["host", "--map", "m", "east"], b"version\n" * MANY, 0, b"version 0\n" * MANY + b"audit same\n", b"")
    without_files(["east"])


def faults_on_an_error_stream_that_does_not_wait():
    """What is told is told whole, though standard error is full for a while."""
    hears, tells = os.pipe()
    unwaiting(tells)
    filled = 0
    try:
        while True:
            filled += os.write(tells, b"." * 4096)
    except BlockingIOError:
        pass
    process = start(["host", "--map", "m", "gone"], stdin=subprocess.DEVNULL, stderr=tells)
    os.close(tells)
    heard = []
    heard_slowly(hears, heard)
    os.close(hears)
    want("standard error", b"".join(heard)[filled:], b"mapf_desk: gone: can't open its input: No such file or directory (os error 2)\n")
    want("the end", (process.communicate(timeout=PATIENCE)[0], process.returncode), (b"audit same\n", 2))


def tests():
    for test in (closed_descriptors, closed_input_of_a_host, closed_error_of_a_session, maps_that_are_no_plain_files,
                 serve_on_streams_that_do_not_wait, host_on_streams_that_do_not_wait, faults_on_an_error_stream_that_does_not_wait):
        yield test.__name__, test
