"""How far back `changes` tells, in version 2 of session lines: what --history says, and where a desk begins."""
from .hosting import Hosted
from .running import is_answered, put, remove, run, want

# Each commit changes the one line of the report: the first adds it, each other takes it away and adds another.
EDITS = b"agent 0 0,0 2,0\npath 0 0,0 1,0\npath 0 0,0 1,0 2,0\ngoal 0 1,0\n"
VERSIONS = "version 1\nversion 2\nversion 3\nversion 4\n"
ASKED = b"".join(b"changes %d\n" % version for version in range(6))


def since(version, *lines):
    """What has changed at version 4 since that version, where those lines came."""
    came = "".join(f"{it}\n" for it in lines)
    return f"version 4\nsince {version}\nagents 1\n{came}conflicts 0\nblocked 0\nsum none\nmakespan none\nbounds 1\ngap none\nend\n"


def told(first):
    """The answers at version 4, where changes are kept from that version on."""
    lines = ["agent 0 settle 2 goal no bound 1 gap none"]
    return f"refused forgotten {first}\n" * first + "".join(since(it, *lines * (it < 4)) for it in range(first, 5)) + "refused ahead 4\n"


def serves(words, lines, answers):
    is_answered(["serve", "--map", "m", "--lines", "2", *words], lines, answers)


def changes_within_a_history():
    """Of four commits with 1, 2, 2 and 2 changes as many of the last ones are told as have no more than are kept; usually a million."""
    for most, first in ((0, 4), (1, 4), (2, 3), (3, 3), (4, 2), (5, 2), (6, 1), (7, 0), (8, 0), (1000000000, 0)):
        serves(["--history", str(most)], EDITS + ASKED, VERSIONS + told(first))
    serves([], EDITS + ASKED, VERSIONS + told(0))
    serves([], EDITS + b"begin\nclose 1,0\n" + ASKED + b"cancel\n", f"{VERSIONS}base 4\nkept\n{told(0)}cancelled\n")


def changes_of_nothing():
    """A commit that changes nothing in the report is a version like any other; where no changes are kept it is forgotten too."""
    nothing = "version 1\nsince {}\nagents 0\nconflicts 0\nblocked 0\nsum 0\nmakespan 0\nbounds 0\ngap 0\nend\n"
    serves(["--history", "1"], b"close 1,0\nchanges 0\nchanges 1\n", "version 1\n" + nothing.format(0) + nothing.format(1))
    serves(["--history", "0"], b"close 1,0\nchanges 0\nchanges 1\n", "version 1\nrefused forgotten 1\n" + nothing.format(1))


def changes_from_where_a_desk_begins():
    """With a journal or a log a desk keeps changes from the version on that it has at first, in host too."""
    half = EDITS.index(b"path 0 0,0 1,0 2,0")
    for before, then in ((["--save", "kept"], ["--journal", "kept"]), (["--log", "log"], ["--log", "log"])):
        serves(before, EDITS[:half], "version 1\nversion 2\n")
        serves(then, EDITS[half:] + ASKED, "version 3\nversion 4\n" + told(2))
    for options in (["--journal", "kept"], ["--log", "log"]):
        hosts(options, 2 if options[0] == "--journal" else 4)
    remove("kept", "log")


def hosts(options, first):
    """A host tells its planner and its operator alike."""
    with Hosted(["p1"], *options) as hosted:
        (seat,) = hosted.seats()
        for line, version in ((EDITS.splitlines()[2], 3), (EDITS.splitlines()[3], 4))[first - 2:]:
            seat.ask(line, b"version %d" % version)
        for line in ASKED.splitlines()[:first]:
            seat.ask(line, b"refused forgotten %d" % first)
        hosted.operator.ask(ASKED, told(first).encode())
        seat.close()
        hosted.ends(0, b"audit same\n", b"")


def changes_in_a_drill():
    """In a drill the questions of a script are counted as they are answered: with few changes kept, the older ones as refused."""
    put("script", EDITS + ASKED)
    for most, refused in ((0, 5), (4, 3), (7, 1)):
        counts = f"  script: {10 - refused} accepted, {refused} refused, 0 bad\n"
        want("the counts", run(["drill", "-v", "--map", "m", "--lines", "2", "--history", str(most), "script"])[2], counts)
    remove("script")


def tests():
    for test in (changes_within_a_history, changes_of_nothing, changes_from_where_a_desk_begins, changes_in_a_drill):
        yield test.__name__, test
