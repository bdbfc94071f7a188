"""Sessions over windows on one shared desk: planners one after the other, one between another's lines, and one with very many lines."""
from .hosting import Hosted
from .running import bytes_of, is_answered, put, remove, want

AIMED = b"agents 1\nagent 0 settle 1 goal yes bound 1 gap 0\nconflicts 0\nblocked 0\nsum 1\nmakespan 1\nbounds 1\ngap 0\nend\n"
AFTER_EACH_OTHER = b"journal 2\nmode stay\nentry 1 0 0 1\npath 0 0,0 1,0\nentry 0 1 1 1\nwatch map\ngoal 0 1,0\nend 2\n"
TASK = ("--scen", "s", "--agents", "1")  # agent 0, from 0,0 to 2,0


def ask_all(seat, *rows):
    for line, answer in rows:
        seat.ask(line, answer)


def planners_one_after_the_other():
    """The operator's session stands on what the planner's has left; each commit has the number of its planner."""
    with Hosted(["east"], *TASK, "--save", "kept") as hosted:
        [east] = hosted.seats()
        ask_all(east, (b"path 0 0,0 1,0", b"version 1"), (b"version", b"version 1"), (b"distance 0 0,0", b"distance 2"), (b"solves vertex", b"solves no"))
        east.close()
        ask_all(hosted.operator, (b"begin\n", b"base 1\n"), (b"watch map\n", b"kept\n"), (b"goal 0 1,0\n", b"kept\n"), (b"commit\n", b"version 2\n"),
                (b"report\n", b"version 2\n" + AIMED))
        hosted.ends(0, b"audit same\n", b"")
    want("the journal", bytes_of("kept"), AFTER_EACH_OTHER)
    remove("kept")


STALE = b"refused stale 1 agent 0 1\n"


def commit_that_came_between():
    """Another planner commits between the beginning of a gathering and its commit, which is stale then, and stays so."""
    with Hosted(["east"], *TASK) as hosted:
        [east] = hosted.seats()
        ask_all(hosted.operator, (b"begin\n", b"base 0\n"), (b"goal 0 1,0\n", b"kept\n"))
        east.ask(b"goal 0 1,0", b"version 1")
        ask_all(hosted.operator, (b"commit\n", STALE), (b"commit\n", STALE), (b"cancel\n", b"cancelled\n"), (b"goal 0 1,0\n", b"version 2\n"))
        east.close()
        hosted.ends(0, b"audit same\n", b"")


COMMITS = 50000
LAST = "agents 1\nagent 0 settle 0 goal no bound 1 gap none\nconflicts 0\nblocked 0\nsum none\nmakespan none\nbounds 1\ngap none\nend\n"


def commits_that_nobody_waits_for():
    """50,000 commits, sent with no wait for an answer: a desk alone and the operator of a shared one have the same journal, and its scene."""
    goals = [f"goal 0 {number % 3},0\n" for number in range(COMMITS)]
    answers = "".join(f"version {number + 1}\n" for number in range(COMMITS))
    wanted = "journal 2\nmode stay\n" + "".join(f"entry 0 {base} 0 1\n{goal}" for base, goal in enumerate(goals)) + f"end {COMMITS}\n"
    put("west.in", b"")
    words = ["--map", "m", *TASK, "--limit", str(COMMITS), "--save", "kept"]
    for word, names, last in (("serve", [], ""), ("host", ["west"], "audit same\n")):
        is_answered([word, *words, *names], "".join(goals).encode(), answers + last)
        want(f"the journal of {word}", bytes_of("kept").decode(), wanted)
        is_answered(["audit", "--map", "m", *TASK, "--journal", "kept"], b"", f"version {COMMITS}\n{LAST}")
        remove("kept")
    remove("west.in", "west.out")


def tests():
    for test in (planners_one_after_the_other, commit_that_came_between, commits_that_nobody_waits_for):
        yield test.__name__, test
