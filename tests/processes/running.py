"""How the program is started, and how what it did is compared with what the pages of docs/ say."""
import contextlib
import os
import resource
import select
import subprocess
import time
import weakref

TOP = os.path.dirname(os.path.dirname(os.path.dirname(os.path.abspath(__file__))))
PATIENCE = int(os.environ.get("PATIENCE", 60))  # seconds that one run may take
USER = os.geteuid() or 61234  # root may do all and has no limit of threads, so one who runs nothing else stands for it


def processor_time():
    """The seconds that the runs so far took of all processors together, so that other work beside them counts little."""
    used = resource.getrusage(resource.RUSAGE_CHILDREN)
    return used.ru_utime + used.ru_stime


def second():
    """A second for the limits of time, or on a slow machine what a loop takes here and now that took a second where they were set."""
    began, total = time.process_time(), 0
    for it in range(7_000_000):
        total += it
    return max(1, time.process_time() - began) * PATIENCE / 60


class Program:
    """The program that is tried: what `rt ci` or `./desk --prove` built, where no other is named."""

    path = f"{TOP}/crates/mapf_desk/out/mapf_desk"
    readings = f"{TOP}/crates/demo_texts/out/demo_texts"  # the program that tells what texts are read as


class Wrong(Exception):
    """What a run did that it shouldn't."""


def want(what, found, right):
    if found != right:
        raise Wrong(f"{what} is {found!r:.300}, and not {right!r:.300}")


STARTED = weakref.WeakSet()  # the processes that somebody still knows


def start(words, **how):
    """The program with those words, over pipes where nothing else is said."""
    pipes = {"stdin": subprocess.PIPE, "stdout": subprocess.PIPE, "stderr": subprocess.PIPE}
    process = subprocess.Popen([Program.path, *words], **{**pipes, **how})
    STARTED.add(process)
    return process


def kill_all():
    """Kills what a test that failed leaves: without its folder it would save in others."""
    for process in list(STARTED):
        process.kill()


def run(words, given=b"", **how):
    """The status, standard output and standard error of a run."""
    process = start(words, **how)
    try:
        out, err = process.communicate(given if process.stdin else None, timeout=PATIENCE)
    except subprocess.TimeoutExpired:
        process.kill()
        process.communicate()
        raise Wrong(f"not done after {PATIENCE} seconds") from None
    return process.returncode, (out or b"").decode(), (err or b"").decode()


def is_run(words, given, wanted, **how):
    """A run has that status, and prints that on standard output and on standard error."""
    status, said, complained = run(words, given, **how)
    want("standard error", complained, wanted[2])
    want("standard output", said, wanted[1])
    want("the status", status, wanted[0])


def is_fault(words, text, given=b"", out="", **how):
    """A run ends by a fault of that text."""
    is_run(words, given, (2, out, f"mapf_desk: {text}\n"), **how)


def is_answered(words, given, out, **how):
    """A run is done, and has no fault."""
    is_run(words, given, (0, out, ""), **how)


def bytes_of(file):
    with open(file, "rb") as opened:
        return opened.read()


def put(file, text):
    with open(file, "wb") as opened:
        opened.write(text)


def make_large(file, size):
    """A file of so many zeros, which takes no place on the disk."""
    with open(file, "wb") as opened:
        opened.truncate(size)


def remove(*files):
    for file in files:
        if os.path.exists(file):
            os.remove(file)


@contextlib.contextmanager
def room_for(size):
    """What is started within writes no file of more bytes: a write of more takes a beginning, and the next one fails."""
    soft, hard = resource.getrlimit(resource.RLIMIT_FSIZE)
    resource.setrlimit(resource.RLIMIT_FSIZE, (size, hard))
    try:
        yield
    finally:
        resource.setrlimit(resource.RLIMIT_FSIZE, (soft, hard))


def as_user():
    """What is started runs as that user."""
    if USER != os.geteuid():
        os.setgroups([]), os.setgid(USER), os.setuid(USER)


class Planner:
    """A session that is still going on."""

    def __init__(self, *words, **how):
        self.process = start(words, stderr=subprocess.PIPE, bufsize=0, **how)

    def send(self, lines):
        self.process.stdin.write(lines)

    def ask(self, line, answer):
        """Sends a line, and waits for its answer with no more sent."""
        self.send(line)
        heard = b""
        while not heard.endswith(b"\n") or heard.count(b"\n") < answer.count(b"\n"):
            if not select.select([self.process.stdout], [], [], PATIENCE)[0]:
                raise Wrong(f"{line!r} had no whole answer, but {heard!r}, before more input came")
            piece = os.read(self.process.stdout.fileno(), 65536)
            if not piece:
                break
            heard += piece
        want(f"the answer to {line!r}", heard, answer)

    def end(self):
        """Ends the session's input, and gives the status and what else was answered."""
        status, rest, _ = self.end_all()
        return status, rest

    def end_all(self):
        """As `end`, with standard error."""
        self.process.stdin.close()
        rest, complained = self.process.stdout.read(), self.process.stderr.read()
        self.process.stdout.close(), self.process.stderr.close()
        return self.process.wait(PATIENCE), rest, complained
