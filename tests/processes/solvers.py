"""Files of paths as solvers and people write them: what `check` says of those of tests/solvers.txt, and what readings.py reads in some."""
import random
import re

from .examples import Example
from .fleets import Fleet
from .running import TOP, put, remove, run, want

REPORT = re.compile(r"version 0\n.*?\nend\n", re.DOTALL)

# Texts of moves, each with the word of its reader; they begin in 0,0, and behind its edges a map of 2048 x 2048 goes on at the other one.
MOVES = [
    ("any", b"rrdw\n", "moves path 0,0 1,0 2,0 2,1 2,1"),
    ("any", b"w", "moves path 0,0 0,0"),
    ("moves", b"U,R,D", "moves path 0,0 0,2047 1,2047 1,0"),
    ("moves", b",r,,", "moves path 0,0 1,0"),
    ("any", b",r", "no form of paths in line 1"),
    ("flipped", b"uU\nD\n", "flipped path 0,0 0,1 0,2 path 0,0 0,2047"),
    ("any", b"\xef\xbb\xbf# two\r\n\r\n l , L\tw \r\n#\nW", "moves path 0,0 2047,0 2046,0 2046,0 path 0,0 0,0"),
    ("any", b"map,solution_plan,n\nf,\"rr\nww\",2\ng,d,1", "moves path 0,0 1,0 2,0 path 0,0 0,0 0,0 path 0,0 0,1"),
    ("moves", b"\"solution_plan\",n\r\n\"r,r\",\"u \"\"x\"\",\ny\"\r\n\r\n,3\r\n w ,\r\n", "moves path 0,0 1,0 2,0 path 0,0 0,0"),
    ("flipped", b"solution_plan\nu\n", "flipped path 0,0 0,1"),
    ("any", b"n,solution_plan\n1,\"r\nrx\"\n", "bad move 1 in line 3"),
    ("any", b"n,solution_plan\n1,\"r\n", "open quote"),
    ("any", b"n,solution_plan\n1,\n", "no paths"),
    ("any", b"solution_plan", "no paths"),
    ("moves", b"", "no paths"),
    ("flipped", b"# none\n", "no paths"),
    ("any", b"rr\n\nr r0\n", "bad move 2 in line 3"),
    ("moves", b"path 0 0,0", "bad move 0 in line 1"),
    ("any", b"r0", "no form of paths in line 1"),
]
# Texts as people and solvers write them.
WRITTEN = [
    ("any", b"0:(0,0),(2,1),\n1:(1,0),(2,1)", "time path 0,0 1,0 path 2,1 2,1"),
    ("time", b"a log\nagents=1\n0: ( 0 ,\t0 ) , \r\n1 : (1,0)\nruntime=3\n", "time agents 1 path 0,0 1,0"),
    ("any", b"\xef\xbb\xbf0:(0,0)(1,0) (2,0),(3,0)", "time path 0,0 path 1,0 path 2,0 path 3,0"),
    ("any", b"agents=1\nsolved=0\n", "no paths"),
    ("any", b"agents=1\nsolved=1\n", "missing solution"),
    ("any", b"0:(0,0)\nx\n1:(0,0)", "bad time in line 2"),
    ("any", b"solution=\nx\n0:(0,0)", "bad time in line 2"),
    ("any", b"0:(0,0)(1,0),,(2,0)", "bad cell 2 in line 1"),
    ("any", b"0:(0,0),(1 0,0)", "bad cell 1 in line 1"),
    ("any", b"Agent 1: (0,3) -> (0,4)->\nAgent 0:(2, 5)\n", "agent path 5,2 path 3,0 4,0"),
    ("any", b"a log\nAgent 2:(1,0)\n#\nAgent 1 : (0,0)(0,1)\n\ndone\n", "agent path 0,0 1,0 path 0,1"),
    ("agent", b"Agent 0:(0,0)\nx\nAgent 1:(0,0)", "bad agent in line 2"),
    ("any", b"Agent 1:(0,0)\nAgent 1:(0,0)", "bad agent in line 2"),
    ("any", b"Agent 0:(0,0)\nAgent 2:(0,0)", "missing agent 1"),
    ("any", b"path 1 0,0\n# r\npath 0 1,0\n", "session path 1,0 path 0,0"),
    ("any", b"path 1 0,0\npath 2 1,0\n", "session path 0,0 path 1,0"),
    ("any", b"path 5 0,0\n", "missing agent 1"),
    ("any", b'{"start":[[0,1,"E"],[2,3]],"actualPaths":["R,d","",""]}', "json starts 1,0 3,2 path 1,0 2,0 2,1 path 3,2 path 0,0"),
    ("json", b' {"teamSize":7,\n"start":[[0,0]],"plannerPaths":["lu"],"x":{}}', "json starts 0,0 agents 7 path 0,0 2047,0 2047,2047"),
    ("any", b'{"start":[[0,0]],"actualPaths":["r"],"start":[[5,5]]}', "json starts 5,5 path 5,5 6,5"),
    ("any", b'{"start":[[0,0]]}\n}', "bad JSON in line 2, column 0"),
]


def examples():
    """The files of map and scenario that all take, and the examples; what is behind the last one isn't answered yet."""
    with open(f"{TOP}/tests/solvers.txt", encoding="ascii") as opened:
        answered = opened.read().partition("\n\nNot answered yet")[0]
    return map(Example, re.split(r"\n+== ", answered)[1:])


def is_answered(field, example):
    """The example's files are judged so; where it has no map or scenario of its own, those of all are taken."""
    put("field", example.map() or field.map())
    put("tasks", example.text("scenario") or field.text("scenario"))
    put("paths", example.text("paths"))
    words = example.value("words").split()
    status, printed = int(example.value("answer")), example.wanted("answer")
    notes = (example.text("notes") or b"").decode()
    wanted = (2, "", f"mapf_desk: {printed}") if status == 2 else (status, printed, notes)
    status, said, complained = run(["check", "--map", "field", "--paths", "paths", *words])
    told = said if words == ["--only"] else REPORT.sub("", said)
    want(f"the answer to {example.name}", (status, told, complained), wanted)
    remove("field", "tasks", "paths")


def letters_of(path, flipped):
    """The moves of a path, each a letter; to wait where it makes none."""
    up, down = "du" if flipped else "ud"
    names = {(0, 0): "w", (1, 0): "r", (-1, 0): "l", (0, 1): down, (0, -1): up}
    return "".join(names[x - a, y - b] for (a, b), (x, y) in zip(path, path[1:])) or "w"


def moves_text(chance, paths, flipped):
    """Paths as rows of moves, in either case and with commas, or as the lines of a column of a CSV file."""
    rows = [chance.choice((str, str.upper, ",".join, " , ".join))(letters_of(it, flipped)) for it in paths]
    if chance.random() < 0.5:
        return "".join(f"{it}\n" for it in rows)
    cut = chance.randint(0, len(rows))
    records = [f'"a, b",7,"{chr(10).join(it)}",\n' for it in (rows[:cut], rows[cut:])]
    return "map,cost,solution_plan,note\n" + "".join(records)


def random_moves():
    """Paths as moves from the starts of the tasks, also flipped, are answered, and drawn, as the same paths with all their cells."""
    chance, seen = random.Random(47), set()
    for _ in range(40):
        fleet, flipped = Fleet(chance), chance.random() < 0.5
        put("scene", fleet.map.encode()), put("tasks", fleet.scen().encode()), put("cells", fleet.by_session().encode())
        put("moves", moves_text(chance, fleet.paths, flipped).encode())
        words = ["--map", "scene", "--scen", "tasks", "--mode", chance.choice(["stay", "disappear"])]
        more = chance.choice([[], ["--json"], ["--quiet"], ["--own-cells"], ["--solves", "cycle", "edge"]])
        right, form = run(["check", *words, *more, "--paths", "cells"]), ["--flip"] if flipped else chance.choice([[], ["--form", "moves"]])
        want(f"the check of {fleet.by_session()!r} as moves", run(["check", *words, *more, *form, "--paths", "moves"]), right)
        if not flipped:
            want("the picture", run(["draw", *words, "--paths", "moves"]), run(["draw", *words, "--paths", "cells"]))
        seen |= {right[0], "flipped" if flipped else "plain"}
    want("what was seen", seen, {0, 1, "flipped", "plain"})
    remove("scene", "tasks", "cells", "moves")


def tests():
    yield "solver_random_moves", random_moves
    field, *answered = examples()
    for example in answered:
        yield f"solver_{example.name}", lambda example=example: is_answered(field, example)
