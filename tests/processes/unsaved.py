"""What a fault leaves of the file that a run was to save in: nothing, or the journal under the name that it reports."""
import os

from .comings import make_pipes, remove_pipes
from .hosting import Hosted
from .running import bytes_of, is_fault, put, remove, want
from .texts import ADD, ONE_ENTRY


def is_nothing_left(words, fault):
    """A run with that fault leaves no file that it was to save in, and none beside it."""
    is_fault([words[0], "--save", "never", *words[1:]], fault)
    want(f"what {words} leave", [it for it in os.listdir() if it == "never" or "mapf" in it], [])


def let_go_where_a_file_is_not_read():
    for words in (["--journal", "none"], ["--scen", "none", "--agents", "1"]):
        is_nothing_left(["serve", "--map", "m", *words], "can't read none")
        is_nothing_left(["host", "--map", "m", *words, "nobody"], "can't read none")


def let_go_where_nobody_is_hosted():
    """Too many planners, or two of one pair, of pipes or of other files."""
    is_nothing_left(["host", "--map", "m", *map(str, range(256))], "too many planners")
    make_pipes("a")
    is_nothing_left(["host", "--map", "m", "a", "./a"], "./a: in use")
    remove_pipes("a")
    put("a.in", b""), put("a.out", b"")
    is_nothing_left(["host", "--map", "m", "a", "./a"], "./a: in use")
    remove("a.in", "a.out")


def not_saved_by_a_host_where_the_file_became_a_folder():
    """The fault is reported in place of the audit's end."""
    with Hosted(["east"], "--save", "folder") as hosted:
        hosted.operator.ask(ADD, b"version 1\n")
        os.mkdir("folder")
        for seat in hosted.seats():
            seat.ask(b"version", b"version 1")
            seat.close()
        hosted.ends(2, b"", b"mapf_desk: can't write folder: the journal is in folder.0.mapf-kept\n")
    want("the journal", bytes_of("folder.0.mapf-kept"), ONE_ENTRY)
    os.rmdir("folder"), remove("folder.0.mapf-kept")


def tests():
    for test in (let_go_where_a_file_is_not_read, let_go_where_nobody_is_hosted, not_saved_by_a_host_where_the_file_became_a_folder):
        yield test.__name__, test
