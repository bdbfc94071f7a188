"""Want of memory: a fault of its own, `out of memory`, with no more to tell, or an answer.

Under a build that checks each access (`rt try`) a process takes far more room than these limits leave it, and doesn't
start: there these tests can't pass.
"""
import resource

from .running import Wrong, is_answered, is_fault, make_large, remove, run, start, want
from .texts import MAP

MEGA = 1 << 20


def room_of(size, stack=None):
    """A process may have so many bytes of room for its data; `stack` is what a thread's stack takes."""
    def limit():
        resource.setrlimit(resource.RLIMIT_CORE, (0, 0))
        if stack:
            resource.setrlimit(resource.RLIMIT_STACK, (stack, resource.getrlimit(resource.RLIMIT_STACK)[1]))
        resource.setrlimit(resource.RLIMIT_AS, (size, size))
    return limit


def no_room_for_the_words():
    """Words of 1,800,000 bytes are read in room that lessens: whatever there is room for, it is told."""
    words = ["drill", "--map", "none", *["s" * 120000] * 15]
    seen = set()
    for size in range(40 * MEGA, MEGA, -MEGA // 2):
        status, said, complained = run(words, preexec_fn=room_of(size))
        if status == 127 or status < 0:
            break  # (the C library itself wasn't loaded)
        want("standard output", said, "")
        want("the status", status, 2)
        want("whether standard error has one line with the prefix", (complained.startswith("mapf_desk: "), complained.count("\n")), (True, 1))
        seen.add(complained)
    want("what is told", seen, {"mapf_desk: can't read none\n", "mapf_desk: out of memory\n"})


def no_room_for_a_file():
    """Each file that the words name may be too large to be held; --verbose has no more to tell."""
    make_large("large", 200 * MEGA)
    room = room_of(100 * MEGA)
    try:
        for words in ("serve --map large", "serve --map m --scen large", "serve --map m --journal large -v", "audit --map large -v",
                      "audit --map m --scen large", "audit --map m --journal large", "drill --map large one", "drill --map m --scen large one",
                      "drill --map m one large -v", "check --map large --paths p", "check --map m --scen large --paths p",
                      "check --map m --paths large -v"):
            is_fault(words.split(), "out of memory", preexec_fn=room)
        is_fault(["serve", "--map", "none", "--journal", "large"], "can't read none", preexec_fn=room)
    finally:
        remove("large")


def no_room_for_a_line():
    """A line that can't be held ends the session: what was complete before it is answered, and saved."""
    out = "version 1\n"
    line = b"agent 0 0,0 2,0\n" + b"#" * (200 * MEGA)
    room = room_of(100 * MEGA)
    for words, before in ((["serve", "--map", "m", "--save", "left"], b""), (["serve", "--save", "left"], MAP)):
        want("what it does", broken(words, before + line, room), (2, out.encode(), b"mapf_desk: out of memory\n"))
        is_answered(["serve", "--map", "m", "--journal", "left"], b"version\n", out)
        remove("left")
    want("what a map's line does", broken([], b"." * (200 * MEGA), room), (2, b"", b"mapf_desk: out of memory\n"))


def broken(words, given, room):
    """A run that may end before it has read all that it is given."""
    process = start(words, preexec_fn=room)
    try:
        process.stdin.write(given)
        process.stdin.close()
    except BrokenPipeError:
        pass
    out, err = process.stdout.read(), process.stderr.read()
    process.stdout.close(), process.stderr.close()
    return process.wait(), out, err


def no_room_for_an_answer():
    """A line whose answer wants more memory than there is is refused and has no effect, and the session goes on."""
    with open("large", "wb") as file:
        file.write(b"type octile\nheight 512\nwidth 2048\nmap\n" + (b"." * 2048 + b"\n") * 512)
    lines = b"agent 0 0,0 2047,511\ndistance 0 0,0\nversion\n"
    whole = "version 1\ndistance 2558\nversion 1\n"
    seen = set()
    try:
        for size in range(2, 40):
            status, said, complained = run(["serve", "--map", "large"], lines, preexec_fn=room_of(size * MEGA))
            if status == 2:
                want("what it does", (said, complained), ("", "mapf_desk: out of memory\n"))
                seen.add("")
            elif status == 0:
                want("standard error", complained, "")
                want("whether the answers are lawful", said in LAWFUL, True)
                seen.add(said)
            elif status != 127 and status >= 0:  # (at 127 the C library itself wasn't loaded)
                raise Wrong(f"the status is {status}")
        is_answered(["serve", "--map", "large"], lines, whole)
    finally:
        remove("large")
    want("whether it ran out of memory, was refused some, and had enough", {"", *LAWFUL[:2]} <= seen, True)


# What the three lines above may be answered, as memory wants.
LAWFUL = ["version 1\ndistance 2558\nversion 1\n", "version 1\nrefused memory\nversion 1\n", "refused memory\nrefused unknown-agent\nversion 0\n"]


def no_room_for_a_thread():
    """A thread that can't be started is want of memory: nothing is printed on standard output."""
    room = room_of(256 * MEGA, stack=1024 * MEGA)
    is_fault(["audit", "--map", "m"], "out of memory", preexec_fn=room)
    is_fault(["drill", "--map", "m", "one"], "out of memory", preexec_fn=room)
    is_fault(["check", "--map", "m", "--paths", "p"], "out of memory", preexec_fn=room)
    is_fault(["drill", "--map", "m", "one", "-v"], "out of memory", preexec_fn=room)


def tests():
    for test in (no_room_for_the_words, no_room_for_a_file, no_room_for_a_line, no_room_for_an_answer, no_room_for_a_thread):
        yield test.__name__, test
