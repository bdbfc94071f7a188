"""Pairs of `host` are told apart by what they are: names that have a file in common, and two hosts on one pair."""
import os

from .comings import AUDITED, make_pipes, remove_pipes
from .growing import unheard
from .hosting import Hosted
from .running import bytes_of, put, run, want

# Names under which a second planner would have a file of the first one.
LINKS = {
    "./a": None,
    "link": lambda: (os.symlink("a.in", "link.in"), os.symlink("a.out", "link.out")),
    "hard": lambda: (os.link("a.in", "hard.in"), os.link("a.out", "hard.out")),
    "inputs": lambda: (os.symlink("a.in", "inputs.in"), put("inputs.out", b"")),
    "answers": lambda: (put("answers.in", b""), os.symlink("a.out", "answers.out")),
    "crossed": lambda: (os.symlink("a.out", "crossed.in"), os.symlink("a.in", "crossed.out")),
}


def two_names_of_one_pair():
    """Two planners that have a file in common are refused before a line is read, pipes and other files alike; so are two hosts of one pair."""
    for name, make in LINKS.items():
        for pipes in (True, False):
            remove_pipes(*LINKS)
            if pipes:
                make_pipes("a")
                keeps = os.open("a.in", os.O_RDWR)
                os.write(keeps, b"close 0,0\n")
            else:
                remove_pipes("a")
                put("a.in", b"close 0,0\n"), put("a.out", b"")
            if make:
                make()
            told = "a" if pipes and name == "crossed" else name  # (answers that are pipes are opened before the inputs)
            want(f"a host of a and {name}", run(["host", "--map", "m", "a", name]), (2, "", f"mapf_desk: {told}: in use\n"))
            want("what is left to be read", unheard(keeps) if pipes else len(bytes_of("a.in")), 10)
            want("the answers", pipes or bytes_of("a.out"), pipes or b"")
            if pipes:
                os.close(keeps)
    remove_pipes("a", *LINKS)
    with Hosted(["east"]) as hosted:
        [east] = hosted.seats()
        east.ask(b"version", b"version 0")
        want("a second host", run(["host", "--map", "m", "./east"]), (2, "", "mapf_desk: ./east: in use\n"))
        east.ask(b"version", b"version 0")
        east.close()
        hosted.ends(*AUDITED)


def odd_name_of_a_pair():
    """A pair that is in use is told in one line, whatever its name."""
    make_pipes("e\x1b\nast")
    told = "mapf_desk: ./e??ast: in use\n"
    want("a host of two names", run(["host", "--map", "m", "e\x1b\nast", "./e\x1b\nast"]), (2, "", told))
    remove_pipes("e\x1b\nast")


def tests():
    for test in (two_names_of_one_pair, odd_name_of_a_pair):
        yield test.__name__, test
