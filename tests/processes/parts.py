"""Limits by their numbers, cells beside one another, the row of an agent, and what several edits of one commit change."""
from .plain import Scene, line_of
from .running import is_answered, is_fault, put, remove
from .texts import EMPTY

MOST_TIME = 4294967295
# Widths and heights, and whether there may be a map of that size.
SIZES = [
    (2048, 512, True), (512, 2048, True), (1024, 1024, True), (1, 1, True), (2048, 513, False), (2049, 1, False), (1, 2049, False),
    (0, 1, False), (1, 0, False), (65537, 65536, False),
]
# Lines at the limits of agents, cells and times, over a map of 3 x 1, and what they are answered.
LINES = [
    ("agent 65535 0,0 2,0", "version 1"), ("agent 65536 0,0 2,0", "bad 2 shape"), ("agent 0 2,0 0,0", "version 2"),
    ("goal 0 2047,2047", "refused faulty 0 out-of-map"), ("goal 0 2048,0", "bad 5 shape"), ("goal 0 0,2048", "bad 6 shape"),
    (f"tail 0 {MOST_TIME}", "refused faulty 0 no-such-time"), (f"tail 0 {MOST_TIME + 1}", "bad 8 shape"),
]
# The cells of a map of 3 x 2, and where an agent comes from each in one step, a wait among them.
BESIDE = {
    (0, 0): [(0, 0), (1, 0), (0, 1)], (1, 0): [(1, 0), (0, 0), (2, 0), (1, 1)], (2, 0): [(2, 0), (1, 0), (2, 1)],
    (0, 1): [(0, 1), (1, 1), (0, 0)], (1, 1): [(1, 1), (0, 1), (2, 1), (1, 0)], (2, 1): [(2, 1), (1, 1), (2, 0)],
}
OUTSIDE = [(3, 0), (3, 1), (0, 2), (2, 2)]
# Faults of paths from 0,0 on a map of 6 x 6.
FAULTY = [("path 0", "empty-path"), ("path 0 0,0 0,1 2,1 5,5", "not-a-step 2")]
# What becomes of agent 3 in a corridor of two cells: its settle time, whether it is at its goal, and the bound.
ROWS = [
    ("agent 3 0,0 1,0", (0, "no", 1)), ("path 3 0,0 1,0 1,0", (1, "yes", 1)), ("goal 3 0,0", (1, "no", 0)), ("path 3 0,0", (0, "yes", 0)),
]
# A corridor of four cells with agents 2, 3 and 5: 2 and 3 go, and 5 rests at its goal; and commits over it.
CORRIDOR = [
    ("agent", 2, (0, 0), (3, 0)), ("path", 2, (0, 0), (1, 0)), ("agent", 3, (1, 0), (3, 0)), ("path", 3, (1, 0), (2, 0)), ("agent", 5, (2, 0), (2, 0)),
]
CHANGED = [
    [("goal", 3, (2, 0)), ("agent", 1, (0, 0), (2, 0)), ("path", 1, (0, 0), (0, 0), (1, 0)), ("drop", 2), ("goal", 1, (3, 0)),
     ("agent", 2, (3, 0), (0, 0)), ("drop", 1), ("path", 3, (1, 0), (0, 0), (0, 0), (1, 0)), ("agent", 1, (2, 0), (1, 0))],
    [("goal", 2, (1, 0))],
    [("path", 2, (0, 0))],
]
FLIPPED = [("close", (3, 0)), ("open", (1, 0)), ("close", (3, 0)), ("goal", 2, (1, 0)), ("close", (0, 0)), ("open", (3, 0))]


def put_open(columns, rows):
    put("open", b"type octile\nheight %d\nwidth %d\nmap\n" % (rows, columns) + (b"." * columns + b"\n") * rows)


def are_answered(pairs):
    """These lines over the open map have these answers."""
    is_answered(["serve", "--map", "open"], "".join(f"{line}\n" for line, _ in pairs).encode(), "".join(f"{it}\n" for _, it in pairs))


def limits_of_small_types():
    for width, height, lawful in SIZES:
        if lawful:
            put_open(width, height)
            are_answered([(f"open {width - 1},{height - 1}", "version 1")])
        else:
            is_fault([], "map: bad size", f"type octile\nheight {height}\nwidth {width}\nmap\n".encode())
    put_open(3, 1)
    are_answered(LINES)
    for planner, fault in ((255, None), (256, "journal: bad line 3")):
        put("journal", f"journal 2\nmode stay\nentry {planner} 0 0 1\nopen 0,0\nend 1\n".encode())
        words = ["serve", "--map", "open", "--journal", "journal"]
        is_fault(words, fault) if fault else is_answered(words, b"version\n", "version 1\n")


def cells_and_their_neighbours():
    """An agent steps to the cells beside its own, and to no other; cells outside are told before that."""
    put_open(3, 2)
    for here, beside in BESIDE.items():
        steps = [("path", 0, here, there) for there in [*BESIDE, *OUTSIDE]]
        lines, version = [(line_of(("agent", 0, here, here))[:-1], "version 1")], 1
        for step in steps:
            version += step[-1] in beside
            refused = "out-of-map" if step[-1] in OUTSIDE else "not-a-step 1"
            lines.append((line_of(step)[:-1], f"version {version}" if step[-1] in beside else f"refused faulty 0 {refused}"))
        are_answered(lines)


def faults_of_plans():
    put_open(6, 6)
    are_answered([("agent 0 0,0 5,5", "version 1"), *((line, f"refused faulty 0 {why}") for line, why in FAULTY)])


def rows_of_a_table():
    put_open(2, 1)
    lines = [("report", f"version 0\n{EMPTY[:-1]}")]
    for version, (line, (settle, done, bound)) in enumerate(ROWS, 1):
        total, gap = (settle, settle - bound) if done == "yes" else ("none", "none")
        told = f"agents 1\nagent 3 settle {settle} goal {done} bound {bound} gap {gap}\nconflicts 0\nblocked 0\nsum {total}\nmakespan {total}"
        lines += [(line, f"version {version}"), ("report", f"version {version}\n{told}\nbounds {bound}\ngap {gap}\nend")]
    are_answered([*lines, ("drop 3", "version 5"), ("report", f"version 5\n{EMPTY[:-1]}")])


def commits_over_the_corridor(commits, behind=()):
    """The commits, each of several edits and with the plain report after it; then further lines."""
    put_open(4, 1)
    scene, lines = Scene(4, 1, "stay"), []
    for version, edits in enumerate([CORRIDOR, *commits], 1):
        lines += [("begin", f"base {version - 1}"), *((line_of(edit)[:-1], "kept") for edit in edits), ("commit", f"version {version}")]
        for edit in edits:
            scene.make(edit)
        lines.append(("report", f"version {version}\n{scene.report()[:-1]}"))
    are_answered([*lines, *behind])


def agents_with_their_former_rows():
    """Each change over the corridor as it was, and all one after the other."""
    for edits in CHANGED:
        commits_over_the_corridor([edits])
    commits_over_the_corridor(CHANGED[1:] + CHANGED[:1])


def cells_that_flip():
    """One cell closes and opens, one was open, and one is closed in the end; the goal 1,0 has no way from there."""
    commits_over_the_corridor([FLIPPED], [("distance 5 3,0", "distance 1"), ("distance 2 3,0", "distance 2"), ("distance 5 0,0", "distance none")])


def tidied(test):
    test()
    remove("open", "journal")


def tests():
    for test in (limits_of_small_types, cells_and_their_neighbours, faults_of_plans, rows_of_a_table, agents_with_their_former_rows, cells_that_flip):
        yield test.__name__, lambda test=test: tidied(test)
