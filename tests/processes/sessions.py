"""Sessions behind a map that are worked, edited, cut off, or broken off by streams that fail, beside a plain reader of their lines."""
import random
import socket

from .edits import Edits
from .edited_maps import LIKELY
from .plain_hearing import hear_all, parted
from .plain_texts import read_map
from .plain_words import Fault
from .running import bytes_of, is_run, remove, room_for, run, want
from .texts import MAP

LIMIT = 8
WORDS = ["serve", "--limit", str(LIMIT)]
GOOD = [
    MAP + b"agent 0 0,0 2,0\nbegin\nwatch map\npath 0 0,0 1,0 2,0\ncommit\njump 1\ncommit\npath 0 0,0 2,0\ndistance 0 0,0\nsolves vertex edge\n",
    b"type octile\nheight 2\nwidth 4\nmap\n..@.\n....\n# two agents\nagent 0 0,0 3,1\nagent 01 3,0 0,01\n\n  path 0 0,0 0,1 1,1 2,1 3,1\r\n"
    b"tail 1 0 3,1 2,1\nreport\nbegin\nclose 2,1\nwatch agent 1\nwatch cell 2,1\n\tdrop\t1\ncommit\nreport\nsolves vertex follow swap\n"
    b"distance 0 3,0\nopen 2,0\ngoal 0 3,0\ncancel\nversion\n",
    b"type octile\nheight 1\nwidth 2\nmap\n..\nbegin\nagent 5 0,0 0,0\nbegin\nagent 7 0,0 1,0\nagent 7 1,0 1,0\nversion\nreport\ncommit\n"
    b"commit\ncancel\nwatch map\ncommit\nbegin\ncommit\nwatch map\ncommit\ndrop 9\ncancel\nversion\nreport",
    b"type octile\nheight 1\nwidth 2\nmap\n..\nagent 1 0,0 1,0\nopen 0,0\nopen 0,0\nopen 0,0\nopen 0,0\nopen 0,0\nopen 0,0\nclose 1,0\n"
    b"open 1,0\nbegin\ndrop 1\ncommit\ncommit\nreport\nsolves cycle\ndistance 1 0,0\n",
]
# Lines behind the map, each with its answer.
LINES = [
    (b"agent 0 0,0 2,0\n", "version 1\n"), (b"begin\n", "base 1\n"), (b"watch map\n", "kept\n"), (b"path 0 0,0 1,0 2,0\n", "kept\n"),
    (b"commit\n", "version 2\n"), (b"jump 1\n", "bad 6 word\n"), (b"commit\n", "bad 7 notbegun\n"),
    (b"path 0 0,0 2,0\n", "refused faulty 0 not-a-step 1\n"), (b"distance 0 0,0\n", "distance 2\n"), (b"solves vertex edge\n", "solves yes\n"),
]
SESSION = MAP + b"".join(line for line, _ in LINES)


def answers_of(size):
    """The answers to the lines that are complete in the first bytes of the session."""
    said, end = "", len(MAP)
    for line, answer in LINES:
        end += len(line)
        said += answer if end <= size else ""
    return said


def compare(text):
    """A session over a map is answered as its lines say; tells whether it began, and its answers."""
    first, session = parted(text)
    status, said, complained = run(WORDS, text)
    try:
        read_map(first)
    except Fault as why:
        want(f"the session {text[:1000]!r}", (status, said, complained), (2, "", f"mapf_desk: map: {why}\n"))
        return False, said
    want(f"the end of {text[:1000]!r}", (status, complained), (0, ""))
    hear_all(session, said, LIMIT)
    return True, said


def are_counted(text, said):
    """A session that began has so many lines: a bad one in the line behind them is told with its number."""
    lines = hear_all(parted(text)[1], said, LIMIT) + text.endswith(b"\n") + 1
    is_run(WORDS, text + b"\n!", (0, f"{said}bad {lines} word\n", ""))


def good_sessions():
    for text in GOOD:
        begun, said = compare(text)
        want(f"whether {text!r} began", begun, True)
        are_counted(text, said)


def edited_sessions():
    edits, begun = Edits(random.Random(4), LIKELY), 0
    for _ in range(2500):
        text = edits.edited(GOOD)
        is_begun, said = compare(text)
        begun += is_begun
        if is_begun:
            are_counted(text, said)
    want("whether so many began", 1000 < begun < 2500, True)


def fronts_of_a_session():
    """Every front is answered as far as it is complete; an end without a line feed is an end of a line."""
    for end in range(len(SESSION) + 1):
        front = SESSION[:end]
        begun, said = compare(front)
        want(f"whether {end} bytes begin", begun, end >= 36)
        want(f"what {end} bytes are answered first", said[: len(answers_of(end))], answers_of(end))
        if begun and front[-1:] != b"\n":
            is_run(WORDS, front + b"\n", (0, said, ""))


def full_gatherings():
    """A commit watches 4,096 things and makes 4,096 edits, and not one more of either; those are committed."""
    rows = [(b"begin\n", "base 0\n"), *[(b"watch map\n", "kept\n")] * 4096, (b"watch map\n", "bad 4098 full\n"),
            *[(b"open 0,0\n", "kept\n")] * 4096, (b"open 0,0\n", "bad 8195 full\n"), (b"commit\n", "version 1\n"), (b"version\n", "version 1\n")]
    is_run(WORDS, MAP + b"".join(line for line, _ in rows), (0, "".join(answer for _, answer in rows), ""))


def torn(text):
    """A stream of those bytes, which fails behind them, once: the end that hears goes away with a byte unheard."""
    here, there = socket.socketpair()
    there.send(b"?")
    here.sendall(text)
    here.close()
    return there


def readers_that_fail():
    """A reader fails behind any byte: the lines that were complete are answered, and no more is."""
    for end in range(len(SESSION) + 1):
        with torn(SESSION[:end]) as reader:
            is_run(WORDS, b"", (2, answers_of(end), "mapf_desk: read failed\n"), stdin=reader)


def writers_that_fail():
    """A writer fails behind any byte of the answers, and has taken those before it."""
    for text in GOOD:
        _, whole, _ = run(WORDS, text)
        for room in range(len(whole)):
            with open("taken", "wb") as writer, room_for(room):
                is_run(WORDS, text, (2, "", "mapf_desk: write failed\n"), stdout=writer, restore_signals=False)
            want(f"what is taken of {room} bytes", bytes_of("taken"), whole[:room].encode())
    remove("taken")


def tests():
    for test in (good_sessions, edited_sessions, fronts_of_a_session, full_gatherings, readers_that_fail, writers_that_fail):
        yield test.__name__, test
