"""The words themselves: mistakes, help, the version, and what is told where a map or a session is to be typed."""
import os
import pty

from .running import PATIENCE, TOP, is_fault, put, remove, run, start, want
from .texts import MAP

# Words that the program doesn't have: status 2, a text on standard error, nothing on standard output.
REFUSED_WORDS = [
    "bogus", "serve --limit 0", "serve --limit 1000001", "serve --limit x", "serve --agents 8193", "serve --mode none",
    "serve --workers 4", "serve m", "serve --save", "serve --map m --save a --save b", "audit", "audit --map m --save j",
    "audit --map m --workers 0", "audit --map m --workers 65", "audit --map m --limit 5", "drill --map m", "drill one",
    "drill --map m --workers 65 one", "drill --map m --journal j one", "--map m", "check --map m", "check --paths p",
    "check --map m --paths p --solves", "check --map m --paths p --solves crash", "check --map m --paths p --form row",
    "serve --agents +1", "serve --limit +5", "host --map m --wait +1 east", "audit --map m --workers +4", "draw --map m --at=-0",
]


def are_refused_words(words):
    """A mistake in the words is told without the prefix of faults."""
    status, said, complained = run(words)
    want("the status", status, 2)
    want("standard output", said, "")
    want("whether standard error is empty", complained == "", False)
    want("whether a line has the prefix of faults", "mapf_desk: " in complained, False)
    want("the end of the last line", complained[-1], "\n")


def is_help(words):
    status, said, complained = run(words)
    want("the status", status, 0)
    want("standard error", complained, "")
    want("whether there is a usage", "Usage:" in said, True)


def word_that_is_no_text():
    is_fault([b"serve", b"--map", b"\xff"], "words that aren't text")
    is_fault([b"\xff"], "words that aren't text")
    is_fault([b"bogus", b"\xc3"], "words that aren't text")


def version():
    """The version is told whatever else is asked for; its second line names the kit that README.md names."""
    status, said, complained = run(["--version"])
    want("the status", status, 0)
    want("standard error", complained, "")
    want("the version before a word", run(["--version", "serve", "--map", "none"]), (status, said, complained))
    lines = said.splitlines()
    want("the first line's first word", lines[0].split()[0], "mapf_desk")
    with open(f"{TOP}/README.md") as readme:
        kit = [line.strip() for line in readme if line.startswith("    rattle-kit")]
    want("the second line", lines[1:], [f"proved with {line}" for line in kit])
    want("how many lines", len(lines), 2)


def on_a_terminal(words, given):
    """What a run prints whose standard input is a terminal, and its status."""
    terminal, inside = pty.openpty()
    process = start(words, stdin=inside)
    os.write(terminal, given + b"\x04")
    said, complained = process.communicate(timeout=PATIENCE)
    os.close(inside), os.close(terminal)
    return process.returncode, said, complained


def is_prompted(words, given, answers, prompt):
    """At a terminal the program says what is to be typed, once, and does all else as elsewhere."""
    status, said, complained = on_a_terminal(words, given)
    want("the status and standard output", (status, said), (0, answers))
    want("whether it says what is to be typed", complained.startswith(prompt), True)
    want("how often it says so", complained.count(b"mapf_desk: type"), 1)


def bare_on_a_terminal():
    for words in ([], ["serve"]):
        is_prompted(words, MAP + b"version\nversion\n", b"version 0\n" * 2, b"mapf_desk: type a map first")


def session_on_a_terminal():
    is_prompted(["serve", "--map", "m"], b"version\nversion\n", b"version 0\n" * 2, b"mapf_desk: type a session line")
    want("what is told of a faulty map", on_a_terminal(["serve", "--map", "map_octile"], b""), (2, b"", b"mapf_desk: map: not octile\n"))


def operator_on_a_terminal():
    put("east.in", b"")
    is_prompted(["host", "--map", "m", "east"], b"version\nversion\n", b"version 0\nversion 0\naudit same\n", b"mapf_desk: type a session line")
    remove("east.in", "east.out")


def tests():
    for words in REFUSED_WORDS:
        yield f"words: {words}", lambda words=words: are_refused_words(words.split())
    for words in ("--help", "serve --help", "audit --help", "drill --help", "check --help", "help serve"):
        yield words, lambda words=words: is_help(words.split())
    for test in (word_that_is_no_text, version, bare_on_a_terminal, session_on_a_terminal, operator_on_a_terminal):
        yield test.__name__, test
