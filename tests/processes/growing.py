"""Programs that want memory: one that waits for more input has so many pages more than it holds then.

The C library is told to map each growth apart, by whole pages (GLIBC_TUNABLES), and the bound is set from outside while the program
sleeps at a pipe. So with no page more at first, and then with one more each time, each growth at which it holds more pages than ever
is refused in some run.
"""
import contextlib
import fcntl
import os
import resource
import struct
import termios
import time

from .hosting import opened
from .running import PATIENCE, Wrong, remove, start

PAGE, MOST_PAGES = 4096, 1000
FULL = "mapf_desk: out of memory\n"
TUNABLES = "glibc.malloc.mmap_threshold=1:glibc.malloc.mmap_max=1000000:glibc.malloc.tcache_count=0:glibc.malloc.arena_max=1"


@contextlib.contextmanager
def growths_apart():
    """In what is started within each growth is a mapping of its own."""
    os.environ["GLIBC_TUNABLES"] = TUNABLES
    try:
        yield
    finally:
        del os.environ["GLIBC_TUNABLES"]


def stacks_of(pages):
    """A thread that is started has a stack of so many pages."""
    return lambda: resource.setrlimit(resource.RLIMIT_STACK, (pages * PAGE, resource.RLIM_INFINITY))


def sleeps(process):
    """Whether all threads of the program wait; it has ended, or waits, before long."""
    folder = f"/proc/{process.pid}/task"
    for task in os.listdir(folder):
        with contextlib.suppress(FileNotFoundError, ProcessLookupError), open(f"{folder}/{task}/stat") as file:
            if file.read().rpartition(")")[2].split()[0] not in "SZX":
                return False
    return True


def unheard(pipe):
    """How many bytes of the pipe nobody has taken yet."""
    return struct.unpack("i", fcntl.ioctl(pipe, termios.FIONREAD, bytes(4)))[0]


def settle(process, pipe):
    """Waits until the program has heard all of the pipe, and waits for more, as it is seen to do twice, or has ended."""
    until, rests = time.monotonic() + PATIENCE, 0
    while process.poll() is None and rests < 2:
        rests = 0 if unheard(pipe) or not sleeps(process) else rests + 1
        if time.monotonic() > until:
            raise Wrong("the program doesn't come to rest")
        time.sleep(0.0002)


def leave(process, pages):
    """The program may have so many pages more than it holds; any number where none is said."""
    with open(f"/proc/{process.pid}/statm") as file:
        held = int(file.read().split()[0])
    size = resource.RLIM_INFINITY if pages is None else (held + pages) * PAGE
    resource.prlimit(process.pid, resource.RLIMIT_AS, (size, resource.RLIM_INFINITY))


def end(process, given=None):
    out, err = process.communicate(given, timeout=PATIENCE)
    return process.returncode, out.decode(), err.decode()


def until_enough(what, ended, whole):
    """What comes with no page more, with one, and so on, until it is the whole; that comes last."""
    seen = []
    for pages in range(MOST_PAGES):
        seen.append(ended(pages))
        if seen[-1] == whole:
            return seen[:-1]
    raise Wrong(f"{what} has no end with {MOST_PAGES} pages, but {seen[-1]!r:.300}")


def served(words, before, line, behind, pages):
    """What a session does that has so many pages for one of its lines, and ample memory for those before and behind it."""
    with start(words, bufsize=0) as process:
        for number, piece in enumerate((before, line, behind)):
            settle(process, process.stdin)
            if process.poll() is None:
                leave(process, pages if number == 1 else None)
            with contextlib.suppress(BrokenPipeError):
                process.stdin.write(piece)
        settle(process, process.stdin)
        return end(process)


SMALL, LARGE = 48, 2048  # pages of a thread's stack; the first thread's takes more than 16


@contextlib.contextmanager
def fed_by_a_pipe(file="fed"):
    """The file is a pipe, so that a program that reads it last waits there; each growth is a mapping of its own."""
    remove(file)
    os.mkfifo(file)
    try:
        with growths_apart():
            yield
    finally:
        remove(file)


def fed_to(process, file, text, pages, given=None):
    """What a program does that has so many pages from where it waits for the file on."""
    with process:
        pipe = opened(file, os.O_WRONLY)
        settle(process, pipe)
        leave(process, pages)
        os.write(pipe, text), os.close(pipe)
        return end(process, given)


def fed(words, text, pages, stack=SMALL, given=b""):
    return fed_to(start(words, preexec_fn=stacks_of(stack)), "fed", text, pages, given)
