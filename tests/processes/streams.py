"""Standard input, output and error: devices that are full, pipes that are closed, sessions that are broken off."""
import os

from .running import Planner, is_answered, is_fault, is_run, run, want
from .texts import ADD, FILES, MAP, RESTING

# Words, standard input, and a text of standard error where standard output takes nothing.
PRINTING = [
    ("answer", "serve --map m", b"version\n"),
    ("last_answer", "serve --map m", b"version"),
    ("answer_of_a_typed_map", "", MAP + b"version\n"),
    ("audit", "audit --map m", b""),
    ("drill", "drill --map m one", b""),
    ("check", "check --map m --paths p", b""),
    ("help", "--help", b""),
    ("help_of_a_word", "serve --help", b""),
    ("version", "--version", b""),
]


def onto_full(words, given=b""):
    """A run onto a full device tells that, and so does one onto a pipe that nobody hears."""
    with open("/dev/full", "wb") as full:
        is_run(words, given, (2, "", "mapf_desk: write failed\n"), stdout=full)
    hears, tells = os.pipe()
    os.close(hears)
    is_run(words, given, (2, "", "mapf_desk: write failed\n"), stdout=tells)
    os.close(tells)


def full_help():
    """Help and the version are printed on standard output: where it takes nothing, that is told."""
    for words in ("--help", "serve --help", "--version", "help audit"):
        onto_full(words.split())


def without_error(words, given, status, out):
    """Where standard error takes nothing, the status tells the fault alone."""
    with open("/dev/full", "wb") as full:
        is_run(words, given, (status, out, ""), stderr=full)
    hears, tells = os.pipe()
    os.close(hears)
    is_run(words, given, (status, out, ""), stderr=tells)
    os.close(tells)


def full_refusal():
    """A mistake in the words is told on standard error: where it takes nothing, the status tells it alone."""
    with open("/dev/full", "wb") as full:
        status, said, _ = run(["bogus"], stderr=full)
    want("standard output", said, "")
    want("the status", status, 2)


def full_error():
    without_error(["serve", "--map", "none"], b"", 2, "")
    without_error(["serve", "--map", "none", "-v"], b"", 2, "")
    without_error(["serve"], FILES["map_size"], 2, "")
    without_error(["serve", "--map", "m"], b"version\n", 0, "version 0\n")
    without_error(["drill", "--map", "map_size", "one", "-v"], b"", 2, "")


def closed_pipe():
    """Whoever hears the answers goes away before they come, or while they come."""
    hears, tells = os.pipe()
    os.close(hears)
    is_run(["serve", "--map", "m"], b"version\n" * 50000, (2, "", "mapf_desk: write failed\n"), stdout=tells)
    os.close(tells)
    planner = Planner("serve", "--map", "m")
    planner.ask(b"version\n", b"version 0\n")
    planner.process.stdout.close()
    planner.send(b"version\n")
    complained = planner.process.stderr.read()
    want("standard error", complained, b"mapf_desk: write failed\n")
    want("the status", planner.process.wait(), 2)
    planner.process.stdin.close(), planner.process.stderr.close()


def folder_as_input():
    """Standard input that can't be read is told; what was read from files before is no matter."""
    for words, out in ((["serve", "--map", "m"], ""), ([], "")):
        folder = os.open(".", os.O_RDONLY)
        is_run(words, b"", (2, out, "mapf_desk: read failed\n"), stdin=folder)
        os.close(folder)


def no_input():
    """An input that is over before it began, by a closed pipe or an empty device."""
    with open("/dev/null", "rb") as nothing:
        is_run(["serve", "--map", "m"], b"", (0, "", ""), stdin=nothing)
        is_run([], b"", (2, "", "mapf_desk: map: not octile\n"), stdin=nothing)
    hears, tells = os.pipe()
    os.close(tells)
    is_run(["serve", "--map", "m"], b"", (0, "", ""), stdin=hears)
    os.close(hears)


def reasons_of_streams():
    for words, given in ((["serve", "--map", "m", "-v"], b"version\n"), (["audit", "--map", "m", "-v"], b"")):
        with open("/dev/full", "wb") as full:
            _, _, complained = run(words, given, stdout=full)
        want("standard error", complained, "mapf_desk: write failed\n  No space left on device (os error 28)\n")
    hears, tells = os.pipe()
    os.close(hears)
    _, _, complained = run(["serve", "--map", "m", "-v"], b"version\n", stdout=tells)
    want("standard error", complained, "mapf_desk: write failed\n  Broken pipe (os error 32)\n")
    os.close(tells)
    folder = os.open(".", os.O_RDONLY)
    _, _, complained = run(["serve", "--map", "m", "-v"], stdin=folder)
    os.close(folder)
    want("standard error", complained, "mapf_desk: read failed\n  Is a directory (os error 21)\n")


def answers_before_more_input():
    planner = Planner("serve", "--map", "m")
    planner.ask(ADD, b"version 1\n")
    planner.ask(b"# nothing to answer\n\nversion\n", b"version 1\n")
    planner.ask(b"report\n", b"version 1\n" + RESTING.encode())
    planner.ask(b"path 0 0,0 2,0\n", b"refused faulty 0 not-a-step 1\n")
    want("the end", planner.end_all(), (0, b"", b""))


def answers_behind_a_typed_map():
    """A map comes line by line, and its session is answered line by line."""
    planner = Planner()
    for line in MAP.splitlines(keepends=True):
        planner.send(line)
    planner.ask(b"begin\n", b"base 0\n")
    planner.ask(ADD, b"kept\n")
    planner.ask(b"commit\n", b"version 1\n")
    want("the end", planner.end_all(), (0, b"", b""))


def a_line_in_two_pieces():
    planner = Planner("serve", "--map", "m")
    planner.send(b"ver")
    planner.ask(b"sion\n", b"version 0\n")
    want("the end", planner.end(), (0, b""))


def broken_off():
    """The input ends within a line: what was complete is answered, and the front of a line counts as one."""
    planner = Planner("serve", "--map", "m")
    planner.ask(ADD, b"version 1\n")
    planner.send(b"path 0 0,0 1,")
    want("the end", planner.end(), (0, b"bad 2 shape\n"))


def broken_off_while_gathering():
    """What was gathered and not committed has no effect; a map that is broken off has no session."""
    planner = Planner("serve", "--map", "m", "--save", "left")
    planner.ask(b"begin\n", b"base 0\n")
    planner.ask(ADD, b"kept\n")
    want("the end", planner.end_all(), (0, b"", b""))
    is_answered(["serve", "--map", "m", "--journal", "left"], b"version\n", "version 0\n")
    os.remove("left")
    is_fault([], "map: missing row 0", MAP[: MAP.index(b"...")])


def tests():
    for name, words, given in PRINTING:
        yield f"no_{name}_goes_out_whole", lambda words=words, given=given: onto_full(words.split(), given)
    for test in (full_help, full_refusal, full_error, closed_pipe, folder_as_input, no_input, reasons_of_streams, answers_before_more_input,
                 answers_behind_a_typed_map, a_line_in_two_pieces, broken_off, broken_off_while_gathering):
        yield test.__name__, test
