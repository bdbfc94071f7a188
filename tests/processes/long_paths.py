"""Files of paths as long as they may be, and longer."""
from .edited_paths import put_closed
from .running import is_fault, is_run, put, remove, run, want

MOST_AGENTS, MOST_CELLS = 8192, 131072
# By each form: a text of agents in those cells, and of one agent in those cells in turn.
AGENTS = {
    "time": lambda cells: b"solution=\n0:" + b"".join(b"(%d,%d)," % it for it in cells),
    "agent": lambda cells: b"".join(b"Agent %d: (%d,%d)->\n" % (n, y, x) for n, (x, y) in enumerate(cells)),
    "session": lambda cells: b"".join(b"path %d %d,%d\n" % (n, x, y) for n, (x, y) in enumerate(cells)),
}
TIMES = {
    "time": lambda cells: b"solution=\n" + b"".join(b"%d:(%d,%d)\n" % (n, *it) for n, it in enumerate(cells)),
    "agent": lambda cells: b"Agent 0:" + b"".join(b"(%d,%d)->" % (y, x) for x, y in cells),
    "session": lambda cells: b"path 0" + b"".join(b" %d,%d" % it for it in cells),
}
TASK = b"0 f 5 5 %d %d 3 4 0\n"


def check(text, *words):
    put("many", text)
    return ["check", "--paths", "many", *words]


def ten_thousand_agents(form):
    """8,192 agents are read, and no more: all in one cell, as a scenario of so many tasks has it, or each in its own."""
    agents = AGENTS[form]
    line = 2 if form == "time" else MOST_AGENTS + 1
    for count in (MOST_AGENTS + 1, 10000):
        is_fault(check(agents([(3, 4)] * count), "--map", "m"), f"paths: too many agents in line {line}")
    words = check(agents([(3, 4)] * MOST_AGENTS), "--map", put_closed(5, 5), "--scen", "tasks")
    put("tasks", b"version 1\n" + TASK % (3, 4) * (MOST_AGENTS - 1) + TASK % (4, 3))
    is_run(words, b"", (1, "wrong 8191 0 not-from-start 4,3 3,4\nsolves no\n", ""))
    cells = [(n % 128, n // 128) for n in range(MOST_AGENTS)]
    status, said, complained = run(check(agents(cells), "--map", put_closed(128, 64)))
    lines = said.splitlines()
    want("the verdict", (status, lines[:2], lines[-1], complained), (1, ["version 0", "agents 8192"], "solves no", ""))
    want("the visits", [it for it in lines if it[:5] == "visit"], [f"visit {n} 0 {x},{y}" for n, (x, y) in enumerate(cells)])
    put("tasks", b"version 1\n" + b"".join(b"0 f 128 64 %d %d 0 0 0\n" % it for it in cells[:-1]))
    status, said, complained = run([*check(agents(cells), "--map", "closed_128_64"), "--scen", "tasks", "--agents", "8191"])
    lines = said.splitlines()
    want("the verdict on fewer agents", (status, lines[1], lines[-2:], complained), (1, "agents 8191", ["differs paths 8192 8191", "solves no"], ""))
    want("their visits", [it for it in lines if it[:5] == "visit"], [f"visit {n} 0 {x},{y}" for n, (x, y) in enumerate(cells[:-1])])
    remove("many", "tasks", "closed_5_5", "closed_128_64")


def ten_thousand_starts():
    is_fault(check(b"starts=" + b"(3,4)," * 10000, "--map", "m"), "paths: too many agents in line 1")
    remove("many")


def settled(last, visits):
    """The verdict on one agent over closed cells."""
    return (f"version 0\nagents 1\nagent 0 settle {last} goal yes bound none gap none\nconflicts 0\nblocked {last + 1}\n{visits}"
            f"sum {last}\nmakespan {last}\nbounds none\ngap none\nend\nsolves no\n")


def longest_paths(form):
    """A path has 131,072 cells, and no more: of an agent that stays, and of one that goes to and fro."""
    name, times = put_closed(5, 5), TIMES[form]
    too_long = lambda text, cell: is_run(check(text, "--map", name), b"", (1, f"wrong 0 {MOST_CELLS} too-long {cell}\nsolves no\n", ""))
    is_run(check(times([(3, 4)] * MOST_CELLS), "--map", name), b"", (1, settled(0, "visit 0 0 3,4\n"), ""))
    too_long(times([(3, 4)] * MOST_CELLS + [(0, 9)]), "0,9")
    is_run(check(times([(3, 4)] * 3 + [(9, 0)] + [(3, 4)] * MOST_CELLS), "--map", name), b"", (1, "wrong 0 3 out-of-map 9,0\nsolves no\n", ""))
    cells = [(3, 3 + n % 2) for n in range(MOST_CELLS)]
    visits = "".join(f"visit 0 {n} 3,{3 + n % 2}\n" for n in range(MOST_CELLS))
    is_run(check(times(cells), "--map", name), b"", (1, settled(MOST_CELLS - 1, visits), ""))
    too_long(times([*cells, (3, 3)]), "3,3")
    is_fault(["draw", "--map", name, "--paths", "many"], f"paths: agent 0 at time {MOST_CELLS}: too-long")
    remove("many", name)


def tests():
    for form in AGENTS:
        yield f"ten_thousand_agents_by_{form}", lambda form=form: ten_thousand_agents(form)
        yield f"longest_paths_by_{form}", lambda form=form: longest_paths(form)
    yield "ten_thousand_starts", ten_thousand_starts
