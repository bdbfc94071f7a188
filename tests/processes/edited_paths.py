"""Files of paths that are cut off and edited: what `check` says beside a plain reader and the rules of scenes.

The map is closed everywhere, so that a verdict lists each cell of each path as a visit, up to the path's last index. Behind that an agent rests,
and a wait is no longer told. Starts and goals are told by where a path may begin, and by who is finished. The texts are checked many at once,
where counts are told alone, and some of them one by one; readings.py compares all cells.
"""
import json
import random
import re

from .edits import Edits
from .plain_paths import read_paths
from .plain_words import Fault
from .running import put, remove, run, want


LIKELY = b" \t\r\n,,()()->:=#Apgsux0123456789-xyt"
# Files of paths as programs print them, with a log, remarks, blanks, in any order; one repeats its starts, one has none, one has moves.
TEXTS = [
    b"agents=2\nsolved=1\nstarts=(0,0),(2,1),\ngoals=(1,0),(0,1),\nsolution=\n0:(0,0),(2,1),\n1:(1,0),(0,1),\n",
    b"\xef\xbb\xbfsolution=\n0:(0,0),(2,1)\n1:(1,0),(0,1)",
    b"a=b\r\ngoals=(1,2047)\r\nsolution=\r\n0:(00,2047),\r\n\r\n01:(1,2047)\r\n2:(1,2047),\r\n",
    b"50\n#x\n0 : ( 0,0 ) , (2, 1)\n1:(1,0)(0,1),\ndone: 2\n",
    b"Agent 0: (0,3)->(0,4)->(1,4)->\nAgent 1: (2,5)->\nAgent 2: (10,0)->(10,1)\n",
    b"Agent 0:(0,1)->(0,0)\r\n\r\n Agent 1:\t (2047,00)->\r\n",
    b"CBS: 0.1,3\nAgent 2: (0 , 3) -> (0,4)(1,4)\n#\nAgent 1: (2,5)\ns=1\n",
    b"starts=(0,0)\ngoals=(0,0)\nstarts=(0,0)\nsolution=\n0:(0,0)\n",
    b"# two agents\npath 0 3,0 4,0 4,1\npath 1 5,2\n#path 2\n",
    b"\r\n path\t03  2047,0 2047,0001\r\n #\r\n\r\npath 1 1,1\r\npath 2 5,2",
    b"starts=(0,0),(2,1)\ngoals=(2,0),(0,1)\nsolution=\n0:(0,0),(2,1)\n1:(1,0),(2,1)\n2:(1,0),(1,1)\n",
    b"agents=1\nsolved=0\nsolution=\n",
    b"rrdw\nU,l\n",
    b"statistics:\n  runtime: 0.1\nschedule:\n  agent0:\n    - x: 3\n      y: 0\n      t: 0\n    - x: 4\n      y: 0\n      t: 1\n  agent1:\n    - x: 5\n      y: 2\n      t: 0\n",
    b"a log\r\nschedule:\r\nagent2:\r\n- t: 0\r\n  x: 2047\r\n\r\n  y: 01\r\nagent 1:\r\n#\r\n- y:3\r\n  t:0\r\n  x:1\r\n-  x: 1\r\n  y: 4\r\n  t: 01\r\ndone: 1\r\n",
    b"statistics:\nschedule: {}\n",
]
FORMS = [None, "time", "agent", "session", "schedule"]
SIZES = [(8, 12), (8, 12), (8, 2048), (2048, 12)]
# The answers that edited files have, without numbers.
ANSWERS = {
    "read by time", "read by agent", "read by session", "read by moves", "read by schedule", "no form of paths in line", "bad header in line", "repeated list in line",
    "missing solution", "bad time in line", "bad agent in line", "bad path in line", "bad cell in line", "bad move in line", "no cells in line",
    "cell count in line", "missing agent", "bad place in line", "missing place", "missing schedule", "no paths",
}


def put_closed(columns, rows):
    name = f"closed_{columns}_{rows}"
    put(name, b"type octile\nheight %d\nwidth %d\nmap\n" % (rows, columns) + (b"@" * columns + b"\n") * rows)
    return name


def wrong_in(start, goal, path, columns, rows):
    """The first fault of a path, by time, or of its goal, or none."""
    outside = lambda cell: cell[0] >= columns or cell[1] >= rows
    told = lambda cell: "%d,%d" % cell
    for time, (before, cell) in enumerate(zip([start, *path], path)):
        if outside(cell):
            return f"{time} out-of-map {told(cell)}"
        if time == 0 and cell != start:
            return f"0 not-from-start {told(start)} {told(cell)}"
        if abs(before[0] - cell[0]) + abs(before[1] - cell[1]) > 1:
            return f"{time} not-a-step {told(before)} {told(cell)}"
    return f"0 out-of-map {told(goal)}" if outside(goal) else None


def ends_of(listed, ends):
    """The cells listed, and behind them those of the paths."""
    return [*(listed or []), *ends[len(listed or []) :]][: len(ends)]


def differences(starts, goals, agents, paths):
    """The lines of numbers that a text tells and that aren't that of its paths."""
    found = [("agents", agents), *((name, it if it is None else len(it)) for name, it in (("starts", starts), ("goals", goals)))]
    return "".join(f"differs {name} {it} {len(paths)}\n" for name, it in found if it not in (None, len(paths)))


def wrong_paths(starts, goals, paths, size):
    """The lines of the agents whose paths aren't any."""
    found = [(agent, wrong_in(*it, *size)) for agent, it in enumerate(zip(starts, goals, paths))]
    return "".join(f"wrong {agent} {why}\n" for agent, why in found if why)


def report_of(goals, paths, differs):
    """The verdict on paths over closed cells, without the lines of conflicts."""
    last = [max([0, *(n for n in range(1, len(it)) if it[n] != it[n - 1])]) for it in paths]
    done = [path[-1] == goal for path, goal in zip(paths, goals)]
    lines = [f"agent {n} settle {t} goal {'yes' if it else 'no'} bound none gap none" for n, (t, it) in enumerate(zip(last, done))]
    visits = [f"visit {n} {t} {path[t][0]},{path[t][1]}" for n, path in enumerate(paths) for t in range(last[n] + 1)]
    totals = (sum(last), max(last)) if all(done) else ("none", "none")
    ends = [f"sum {totals[0]}", f"makespan {totals[1]}", "bounds none", "gap none", "end", *differs.splitlines(), "solves no"]
    return ["version 0", f"agents {len(paths)}", *lines, f"blocked {len(visits)}", *visits, *ends]


def verdict_by(fault):
    """What stands before `solves no` for a text that isn't read for that fault, or nothing where that is no verdict."""
    if fault == "no paths":
        return "no paths\n"
    return f"differs {fault.removeprefix('repeated list in ')}\n" if fault.startswith("repeated list") else ""


def reading_of(text, form, size):
    """What is wrong with the paths of a text, or its fault; what differs, and the report; and the kind of the answer."""
    try:
        told, *lists, agents, paths = read_paths(text, form)
    except Fault as why:
        return verdict_by(str(why)), str(why), "", None, re.sub(r" \d+", "", str(why))
    if told == "moves":
        return "", "moves need --scen", "", None, "read by moves"
    starts, goals = ends_of(lists[0], [it[0] for it in paths]), ends_of(lists[1], [it[-1] for it in paths])
    differs = differences(*lists, agents, paths)
    return wrong_paths(starts, goals, paths, size), None, differs, report_of(goals, paths, differs), f"read by {told}"


def is_judged(what, words, wrong, fault, differs, report):
    """What `check` says of a text is that: which paths aren't any, its fault, or the report."""
    status, said, complained = run(["check", *words, "--workers", "1"])
    lines = [it for it in said.splitlines() if it.split()[0] not in ("conflicts", "vertex", "parked", "edge", "follow", "swap", "cycle")]
    right = f"{wrong}{differs}solves no".splitlines() if wrong else report or []
    told = f"mapf_desk: paths: {fault}\n" if fault and not wrong else ""
    want(f"the check of {what}", (status, lines, complained), (2 if told else 1, right, told))


def lines_due(wrong, fault, differs, report):
    """The same, without the lists."""
    if wrong or fault:
        return f"{wrong}{differs}".splitlines() if wrong else [f"paths: {fault}"]
    totals = [it for it in report if it.split()[0] in ("agents", "blocked", "sum", "makespan", "bounds", "gap")]
    return [f"finished {sum(' goal yes ' in it for it in report)}", *totals, *differs.splitlines()]


def lines_told(told):
    """The lines that say what an object of `--json` says."""
    if "fault" in told:
        return [told["fault"]]
    lines = [f"{name} {told['counts'][name]}" for name in ("finished", "agents", "blocked") if "counts" in told]
    lines += [f"{name} {'none' if it is None else it}" for name, it in told.get("totals", {}).items()]
    lines += ["no paths"] * (told["verdict"] == "no-paths")
    cells = lambda it: "".join(" %d,%d" % tuple(cell) for cell in it["cells"])
    lines += [f"wrong {it['agent']} {it['time']} {it['why']}{cells(it)}" for it in told["wrong"]]
    return lines + ["differs " + " ".join(map(str, it.values())) for it in told["differs"]]


def are_judged(words, rows):
    """The same of many texts, each with what is right; 250 at once."""
    for some in (rows[at : at + 250] for at in range(0, len(rows), 250)):
        names = [f"edited_{n}" for n in range(len(some))]
        [put(name, text) for name, (text, _) in zip(names, some)]
        status, said, complained = run(["check", *words, "--json", "--workers", "1", "--paths", *names])
        told = [json.loads(line) for line in said.splitlines()]
        for (text, reading), it in zip(some, told):
            want(f"what is said of {text!r} by {words}", lines_told(it), lines_due(*reading))
        want("what the run is", ([it["file"] for it in told], status, complained), (names, max(2 if "fault" in it else 1 for it in told), ""))
        remove(*names)


words_of = lambda size, form: ("--map", "closed_%d_%d" % size, *(("--form", form) if form else ()))


def compare(rows, reading_of=reading_of, words_of=words_of):
    """Compares what `check` says of texts, each in a form on such a map, with the plain reading, of each alone and of many at once, and tells the kinds."""
    groups, kinds = {}, []
    for text, form, size in rows:
        *reading, kind = reading_of(text, form, size)
        kinds.append(kind)
        groups.setdefault(words_of(size, form), []).append((text, reading))
        put("edited", text)
        is_judged(f"{text!r} by {form}", [*words_of(size, form), "--paths", "edited"], *reading)
    [are_judged(*it) for it in groups.items()]
    return kinds


def edited_files_of_paths():
    chance = random.Random(29)
    edits = Edits(chance, LIKELY)
    rows = [(edits.edited(TEXTS), chance.choice([None] * 5 + FORMS[1:]), chance.choice(SIZES)) for _ in range(3000)]
    want("the kinds of answers", set(compare(rows)), ANSWERS)


def fronts_of_files_of_paths(form):
    fronts = [text[:end] for text in TEXTS for end in range(len(text) + 1)]
    compare([(text, form, SIZES[at % 4]) for at, text in enumerate(fronts)])


def texts_of_one_byte():
    """None of them is read, but a letter that is a move."""
    rows = [(bytes([byte]), form, SIZES[0]) for byte in range(256) for form in FORMS]
    for (text, form, _), kind in zip(rows, compare(rows)):
        want(f"whether {text!r} is read", kind.startswith("read"), form is None and text in b"udlrwUDLRW")


def with_maps(test, *given):
    for size in SIZES:
        put_closed(*size)
    test(*given)
    remove("edited", *("closed_%d_%d" % it for it in SIZES))


def tests():
    for test in (edited_files_of_paths, texts_of_one_byte):
        yield test.__name__, lambda test=test: with_maps(test)
    for form in FORMS:
        yield f"fronts_of_files_of_paths{f'_by_{form}' if form else ''}", lambda form=form: with_maps(fronts_of_files_of_paths, form)
