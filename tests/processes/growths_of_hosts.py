"""Want of memory at a desk that planners share, growth by growth: the turn is free behind it, and the desk can be closed."""
import os

from .growing import MOST_PAGES, fed, fed_by_a_pipe, growths_apart, leave, settle, until_enough
from .hosting import Hosted
from .running import Wrong, bytes_of, put, remove, want
from .texts import SCEN

STANDS = "journal 2\nmode stay\nend 0\n", "journal 2\nmode stay\nentry 1 0 0 1\npath 0 0,0 1,0\nend 1\n"
FAULTS = {"out of memory", *(f"{name}: {what}" for name in ("operator", "east") for what in ("out of memory", "no thread"))}


def text_of(file):
    return bytes_of(file).decode() if os.path.exists(file) else None


def hosted(pages):
    """A desk that hosts one planner with one line: its end, the planner's answers, and what is saved."""
    remove("kept", "east.out")
    words = ["host", "--map", "m", "--scen", "fed", "--agents", "1", "--save", "kept", "east"]
    return fed(words, SCEN, pages), text_of("east.out"), text_of("kept")


def shared_desk_that_is_closed():
    """Wherever a shared desk and its planners find no memory, what is saved is what was committed, as the planner was answered; else nothing is."""
    put("east.in", b"path 0 0,0 1,0\n")
    with fed_by_a_pipe():
        seen = until_enough("a shared desk", hosted, ((0, "audit same\n", ""), "version 1\n", STANDS[1]))
    for (status, said, complained), answered, kept in seen:
        faults = complained.splitlines()
        want("the end", (status, said, {it.removeprefix("mapf_desk: ") for it in faults} <= FAULTS), (2, "", True))
        want("whether the answer is lawful", answered in (None, "", "refused memory\n", "version 1\n"), True)
        want("what is saved", kept in (None, STANDS[answered == "version 1\n"]), True)
    want("whether it was saved with the commit and without", {it[2] for it in seen}, {None, *STANDS})
    want("whether the planner was refused", "refused memory\n" in {it[1] for it in seen}, True)
    remove("east.in", "east.out", "kept")


PATH, FAR, SOLVES = (b"path 0 0,0 1,0", b"version 1\n"), (b"distance 0 0,0", b"distance 2\n"), (b"solves vertex", b"solves no\n")
REPORT = (b"report", b"version 1\nagents 1\nagent 0 settle 1 goal no bound 2 gap none\nconflicts 0\nblocked 0\nsum none\nmakespan none\n"
          b"bounds 2\ngap none\nend\n")
# Calls of a planner, of which each takes memory: whichever reads first makes the books.
CALLS = [[PATH, FAR], [PATH, REPORT], [PATH, SOLVES], [FAR, PATH], [FAR, PATH, REPORT]]


def refused_at_seat(desk, seat, line, answer):
    """How often a planner's line is refused for want of memory until it is answered; meanwhile another planner has the turn."""
    process = desk.operator.process
    for pages in range(MOST_PAGES):
        settle(process, process.stdin)
        leave(process, pages)
        seat.send(line + b"\n")
        heard = seat.hear() + b"\n"
        leave(process, None)
        if heard != b"refused memory\n":
            whole = heard + b"".join(seat.hear() + b"\n" for _ in range(answer.count(b"\n") - 1))
            want(f"the answer to {line!r}", whole, answer)
            return pages
        desk.operator.ask(b"distance 9 0,0\n", b"refused unknown-agent\n")
    raise Wrong(f"{line!r} has no answer with {MOST_PAGES} pages")


def want_of_memory_at_a_shared_desk():
    """Each call of a shared desk is refused until there is memory; the turn is free then, and the desk can be closed."""
    for rows in CALLS:
        with growths_apart(), Hosted(["east"], "--scen", "s", "--agents", "1", "--save", "kept") as desk:
            [east] = desk.seats()
            east.ask(b"version", b"version 0")
            want(f"which of {rows} are refused at first", [refused_at_seat(desk, east, *row) > 0 for row in rows], [True] * len(rows))
            east.close()
            desk.ends(0, b"audit same\n", b"")
        want("what is saved", text_of("kept"), STANDS[1])
    remove("kept")


# Agents 0 and 1 rest at 0,0, which is one conflict; each is 2 steps from its goal, and 1 step once a commit has changed it.
SHOWN = (b"version 2\nagents 2\nagent 0 settle 0 goal no bound 1 gap none\nagent 1 settle 0 goal no bound 1 gap none\nconflicts 1\n"
         b"parked 0 0 1 0,0\nblocked 0\nsum none\nmakespan none\nbounds 2\ngap none\nend\n")
# What changes where agent 0 gets the goal 1,0.
WOULD = (b"would 1\nsince 0\nagents 2\nagent 0 settle 0 goal no bound 1 gap none\nconflicts 1\nblocked 0\nsum none\nmakespan none\n"
         b"bounds 3\ngap none\nend\n")
# A name, and lines with their answers: of the first planner, of the second one, and whether a line takes memory.
ROWS = [
    ("stale_second_planner", [
        (1, b"begin", b"base 0\n", False), (1, b"goal 0 1,0", b"kept\n", True), (0, b"path 0 0,0 1,0", b"version 1\n", True),
        (1, b"commit", b"refused stale 1 agent 0 1\n", False), (1, b"version", b"version 1\n", False),
    ]),
    ("watch_makes_stale", [
        (1, b"begin", b"base 0\n", False), (1, b"watch agent 0", b"kept\n", True), (1, b"goal 1 1,0", b"kept\n", True),
        (0, b"goal 0 1,0", b"version 1\n", True), (1, b"commit", b"refused stale 1 agent 0 1\n", False), (1, b"cancel", b"cancelled\n", False),
        (1, b"goal 1 1,0", b"version 2\n", True), (0, b"report", SHOWN, True),
    ]),
    ("watch_of_the_map", [
        (0, b"distance 0 0,0", b"distance 2\n", True), (1, b"begin", b"base 0\n", False), (1, b"watch map", b"kept\n", True),
        (1, b"goal 0 1,0", b"kept\n", True), (0, b"close 1,0", b"version 1\n", True), (0, b"distance 0 0,0", b"distance none\n", False),
        (0, b"distance 9 0,0", b"refused unknown-agent\n", False), (0, b"distance 0 0,1", b"refused out-of-map\n", False),
        (1, b"commit", b"refused stale 1 map 1\n", False),
    ]),
    ("trial_before_and_after_a_commit", [
        (1, b"begin", b"base 0\n", False), (1, b"goal 0 1,0", b"kept\n", True), (1, b"try", WOULD, True), (1, b"version", b"version 0\n", False),
        (0, b"path 0 0,0 1,0", b"version 1\n", True), (1, b"try", b"refused stale 1 agent 0 1\n", False),
        (1, b"commit", b"refused stale 1 agent 0 1\n", False),
    ]),
]


def rows_of_two_planners(rows):
    """Calls of two planners by turns, each line refused until there is memory for it; those that take none are never refused. No history is
    kept, whose want of memory would make others take some."""
    put("tasks", b"version 1\n" + b"0 m 3 1 0 0 2 0 2\n" * 2)
    with growths_apart(), Hosted(["east", "west"], "--scen", "tasks", "--agents", "2", "--history", "0") as desk:
        seats = desk.seats()
        for seat in seats:
            seat.ask(b"# a line as long as those that follow\nversion", b"version 0")
        refused = [refused_at_seat(desk, seats[number], line, answer) > 0 for number, line, answer, _ in rows]
        want("which lines are refused at first", refused, [takes for *_, takes in rows])
        for seat in seats:
            seat.close()
        desk.ends(0, b"audit same\n", b"")
    remove("tasks")


def tests():
    for name, rows in ROWS:
        yield name, lambda rows=rows: rows_of_two_planners(rows)
    for test in (shared_desk_that_is_closed, want_of_memory_at_a_shared_desk):
        yield test.__name__, test
