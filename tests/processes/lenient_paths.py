"""Files of paths as solvers and people really write them: what `check` says of each, by hand, and random paths that are written with
anything that docs/FILES.md lets stand and are read back as them.
"""
import random

from .edited_paths import are_judged, is_judged, put_closed, report_of
from .running import is_run, put, remove

# An open map, and a scenario of two agents, of whom one goes along the upper row and one goes up in the last column.
YARD = b"type octile\nheight 3\nwidth 4\nmap\n....\n....\n....\n"
TASKS = b"version 1\n0 yard 4 3 0 0 2 0 2\n0 yard 4 3 3 2 3 1 1\n"
PLAN = ("agents 2\nagent 0 settle 2 goal yes bound 2 gap 0\nagent 1 settle 1 goal yes bound 1 gap 0\nconflicts 0\nblocked 0\nsum 3\nmakespan 2\n"
        "bounds 3\ngap 0\nend\n")
HEAD = b"agents=2\nmap_file=yard.map\nsolver=planner\nsolved=1\nsoc=3\nsoc_lb=3\nmakespan=2\nmakespan_lb=2\nsum_of_loss=3\ncomp_time=1\nseed=0\n"
ENDS = b"starts=(0,0),(3,2),\ngoals=(2,0),(3,1),\n"
ROWS = b"0:(0,0),(3,2),\n1:(1,0),(3,1),\n2:(2,0),(3,1),\n"
ARROWS = b"Agent 0: (0,0)->(0,1)->(0,2)->\nAgent 1: (2,3)->(1,3)->\n"
NONE_FOUND = b"agents=2\nmap_file=yard.map\nsolver=planner\nsolved=0\nsoc=0\nmakespan=0\ncomp_time=1000\n"
TRACKER = b'id,solution_plan,cost\n7,"rr\nu",3\n'
ROBOTS = b'{"actionModel":"MAPF","teamSize":2,"start":[[0,0,"E"],[2,3,"E"]],"actualPaths":["R,R","U,W"]}\n'
SCHEDULE = (b"statistics:\n  cost: 3\n  makespan: 2\n  runtime: 0.01\nschedule:\n  agent0:\n    - x: 0\n      y: 0\n      t: 0\n    - x: 1\n      y: 0\n      t: 1\n"
            b"    - x: 2\n      y: 0\n      t: 2\n  agent1:\n    - x: 3\n      y: 2\n      t: 0\n    - x: 3\n      y: 1\n      t: 1\n")

# Files that hold the plan.
READ = {
    "lacam": HEAD + ENDS + b"solution=\n" + ROWS,
    "pibt": b"instance=yard\nagents=2\nmap_file=yard.map\nsolver=PIBT\nsolved=1\nsoc=3\nmakespan=2\n" + ENDS + b"solution=\n" + ROWS,
    "lacam_under_windows": b"\xef\xbb\xbf" + (HEAD + ENDS + b"solution=\n" + ROWS).replace(b"\n", b"\r\n"),
    "lacam_under_a_remark": b"# by me\n" + HEAD + ENDS + b"solution=\n" + ROWS,
    "lacam_in_its_log": b"[info] 4 x 3\n50\nsolving ..\n" + HEAD + b"\n" + ENDS + b"solution=\n" + ROWS + b"\nsolved in: 1 ms\n",
    "rows_of_pypibt": ROWS,
    "rows_of_a_visualizer": ROWS.replace(b"),\n", b")\n"),
    "tuples_of_python": b"0: (0, 0), (3, 2)\n1: (1, 0), (3, 1)\n2: (2, 0), (3, 1)\n",
    "tuples_with_blanks_alone": b"0: (0, 0) (3, 2)\n1: (1, 0) (3, 1)\n2: (2, 0) (3, 1)\n",
    "cells_with_nothing_between": b"solution=\n0:(0,0)(3,2)\n1:(1,0)(3,1)\n2:(2,0)(3,1)\n",
    "eecbs": ARROWS,
    "mapf_lns2": ARROWS.replace(b": ", b":"),
    "arrows_in_blanks": b"Agent 0: (0, 0) -> (0, 1) -> (0, 2)\nAgent 1: (2, 3) -> (1, 3)\n",
    "eecbs_in_its_log": b"EECBS: Succeed,0.01,3\n2\n" + ARROWS + b"\nRuntime: 0.01 s\n",
    "eecbs_under_a_remark": b"# by me\n\n" + ARROWS,
    "agents_from_one": ARROWS.replace(b"Agent 1", b"Agent 2").replace(b"Agent 0", b"Agent 1"),
    "agents_backwards": b"Agent 1: (2,3)->(1,3)->\nAgent 0: (0,0)->(0,1)->(0,2)->\n",
    "session": b"# by hand\npath 1 3,2 3,1\npath 0 0,0 1,0 2,0\n",
    "session_from_one": b"path 1 0,0 1,0 2,0\npath 2 3,2 3,1\n",
    "robots": ROBOTS,
    "robots_laid_out": ROBOTS.replace(b"{", b"\xef\xbb\xbf\r\n{\r\n").replace(b',"', b',\r\n\t"'),
    "robots_as_planned": ROBOTS.replace(b"actual", b"planner").replace(b',"E"', b""),
    "schedule_of_cbs": SCHEDULE,
    "schedule_under_windows": b"\xef\xbb\xbf" + SCHEDULE.replace(b"\n", b"\r\n"),
    "schedule_alone_under_a_remark": b"# by me\n" + SCHEDULE[SCHEDULE.index(b"schedule:") :],
    "schedule_in_its_log": b"Planning successful! Total cost: 3\n" + SCHEDULE + b"done: 0.01 s\n",
    "schedule_from_one": SCHEDULE.replace(b"agent1", b"agent2").replace(b"agent0", b"agent1"),
    "schedule_backwards": b"schedule:\n" + SCHEDULE[SCHEDULE.index(b"  agent1") :] + SCHEDULE[SCHEDULE.index(b"  agent0") : SCHEDULE.index(b"  agent1")],
    "schedule_of_sorted_keys": b"schedule:\n  agent0:\n  - t: 0\n    x: 0\n    y: 0\n  - t: 1\n    x: 1\n    y: 0\n  - t: 2\n    x: 2\n    y: 0\n"
                               b"  agent1:\n  - t: 0\n    x: 3\n    y: 2\n  - t: 1\n    x: 3\n    y: 1\n",
}
# Files of moves that do, which need the scenario.
MOVES = {"rows_of_moves": b"rr\nu\n", "upper_case_and_commas": b"R,R\r\nU,W\r\n", "mapf_tracker": TRACKER,
         "mapf_tracker_by_agent": b'"id","solution_plan"\n"1",rr\n"2",u\n', "commas_in_quotes": b'"map, small",solution_plan\n"a, b",rr\n"c, d",u\n'}

# Words, a file, what is said of it, and its status.
ANSWERS = [
    ("", NONE_FOUND + b"solution=\n", "no paths\nsolves no\n", 1),
    ("", NONE_FOUND + ENDS + b"solution=\n", "no paths\nsolves no\n", 1),
    ("--scen tasks", NONE_FOUND, "no paths\nsolves no\n", 1),
    ("", NONE_FOUND.replace(b"solved=0", b"solved=1"), "missing solution", 2),
    ("", TRACKER, "moves need --scen", 2),
    ("", b"rr\nu\n", "moves need --scen", 2),
    ("--scen tasks --flip", b"rr\nu\n", "wrong 1 1 out-of-map 3,3\nsolves no\n", 1),
    ("--scen tasks --form moves", b"lr\nu\n", "wrong 0 1 out-of-map 2047,0\nsolves no\n", 1),
    ("--scen tasks --form moves", b"moves:\nrr\nu\n", "bad move 0 in line 1", 2),
    ("--scen tasks", TRACKER[:-4], "open quote", 2),
    ("", ROBOTS.replace(b":2", b":3"), f"version 0\n{PLAN}differs agents 3 2\nsolves no\n", 1),
    ("", ROBOTS.replace(b',[2,3,"E"]', b""), "wrong 1 1 out-of-map 0,2047\ndiffers starts 1 2\nsolves no\n", 1),
    ("--scen tasks", ROBOTS.replace(b"[[0,0", b"[[0,1"), "wrong 0 0 not-from-start 0,0 1,0\ndiffers starts 0 1,0 0,0\nsolves no\n", 1),
    ("--own-cells", ROBOTS.replace(b"R,R", b"R,R,R,R"), "wrong 0 4 out-of-map 0,4\nsolves no\n", 1),
    ("--flip --form json", ROBOTS.replace(b"R,R", b"D,D,D"), "wrong 0 3 out-of-map 0,3\nsolves no\n", 1),
    ("", ROBOTS.replace(b'"R,R","U,W"', b""), "no paths\nsolves no\n", 1),
    ("", ROBOTS.replace(b"MAPF", b"MAPF_T"), "actionModel MAPF_T turns robots", 2),
    ("", ROBOTS.replace(b"R,R", b"R,F"), "bad move 1 of agent 0", 2),
    ("", b"\n" + ROBOTS.replace(b"[2,3", b"2,3"), "bad JSON in line 2, column 62", 2),
    ("", ROBOTS.replace(b"[2,3", b"[2.0,3"), "bad start of agent 1", 2),
    ("", b"# robots\n" + ROBOTS, "bad JSON in line 1, column 0", 2),
    ("", b"a log\n" + ROBOTS, "no form of paths in line 1", 2),
    ("--form time", ROBOTS, "missing solution", 2),
    ("", SCHEDULE[: SCHEDULE.index(b"schedule:")] + b"schedule: {}\n", "no paths\nsolves no\n", 1),
    ("", SCHEDULE[: SCHEDULE.index(b"  agent0")], "no paths\nsolves no\n", 1),
    ("", SCHEDULE[: SCHEDULE.index(b"schedule:")], "missing schedule", 2),
    ("--form schedule", ARROWS, "missing schedule", 2),
    ("", SCHEDULE.replace(b"t: 2", b"t: 3"), "bad place 2 in line 15", 2),
    ("", SCHEDULE.replace(b"      t: 1\n", b""), "bad place 1 in line 12", 2),
    ("", SCHEDULE[:-7], "missing place 1", 2),
    ("", SCHEDULE.replace(b"agent1", b"agent0"), "bad agent in line 16", 2),
    ("", SCHEDULE.replace(b"agent1", b"agent3"), "missing agent 1", 2),
    ("", SCHEDULE.replace(b"agent1", b"robot1"), "bad place 3 in line 16", 2),
    ("--scen tasks", SCHEDULE.replace(b"x: 1", b"x: 3"), "wrong 0 1 not-a-step 0,0 3,0\nsolves no\n", 1),
    ("--scen tasks --own-cells", b"\xef\xbb\xbf" + ARROWS.replace(b"(0,1)", b"(0,3)"), "wrong 0 1 not-a-step 0,0 0,3\nsolves no\n", 1),
    ("--scen tasks --own-cells", b"\xef\xbb\xbf" + SCHEDULE.replace(b"x: 1", b"x: 3"), "wrong 0 1 not-a-step 0,0 3,0\nsolves no\n", 1),
    ("--scen tasks", b'n,solution_plan\n1,"r""r"\n2,u\n', "bad move 1 in line 2", 2),
    ("", b"Agent 0 (5 --> 6): (0,0)->\n", "bad agent in line 1", 2),
    ("", b"agent 0: (0,0)->\n", "no form of paths in line 1", 2),
    ("", b"Agent0: (0,0)->\n", "no form of paths in line 1", 2),
    ("", ARROWS.replace(b"Agent 0", b"Agent 1"), "bad agent in line 2", 2),
    ("", b"Agent 0: (0,0)->\nAgent 10: (0,1)->\n", "missing agent 1", 2),
    ("", ARROWS.replace(b"\nA", b"\nsecond:\nA"), "bad agent in line 2", 2),
    ("", ROWS.replace(b"\n1", b"\nstep one\n1"), "bad time in line 2", 2),
    ("", b"starts=(0,0)\n" + ROWS[15:], "bad time in line 2", 2),
]


def is_the_plan(text, all_words):
    put("lenient", text)
    for words in all_words:
        is_run(["check", "--map", "yard", "--paths", "lenient", *words.split()], b"", (0, f"version 0\n{PLAN}solves yes\n", ""))


def are_answered():
    for words, text, said, status in ANSWERS:
        put("lenient", text)
        right = (1, said, "") if status == 1 else (2, "", f"mapf_desk: paths: {said}\n")
        is_run(["check", "--map", "yard", "--paths", "lenient", *words.split()], b"", right)


def strewn(chance, lines, said=(b"", b" \t", b"#", b" # 0:(9,9)", b"# path 0 9,9", b"#Agent 0: (9,9)")):
    """The lines, with some of these before and behind each."""
    return [it for line in lines for it in (*chance.choices(said, k=chance.choice([0, 0, 1, 2])), line)] + chance.choices(said, k=chance.randrange(2))


def with_logs(chance, lines):
    """The lines within those of a log, which may look like anything but the first or last of them."""
    log = (b"50", b"[info] 0:(0,0)", b"EECBS: Succeed,0.01,3", b"agents 9", b"solver=x", b"Starts=(9,9)", b"Agent", b"paths 0 0,0", b"(9,9)", b"")
    return [*chance.choices(log, k=chance.randrange(3)), *lines, *chance.choices(log[1:], k=chance.randrange(3))]


def listed(chance, cells, join):
    """A list of cells, with blanks wherever they may stand."""
    blank = lambda: chance.choice([b"", b"", b"", b" ", b"\t "])
    part = lambda n: blank() + b"0" * chance.choice([0, 0, 2]) + b"%d" % n + blank()
    joined = lambda: blank() + chance.choice([join, join, b""]) + blank()
    return blank() + b"".join(b"(" + part(x) + b"," + part(y) + b")" + joined() for x, y in cells)


def by_time(chance, paths):
    rows = [[path[min(t, len(path) - 1)] for path in paths] for t in range(max(map(len, paths)))]
    head = chance.choice([[], [b"solution="], [b"agents=%d" % len(paths), b"solution="], [b"starts=" + listed(chance, rows[0], b","), b"goals=" +
                          listed(chance, rows[-1], b",")]])
    colon = lambda: chance.choice([b":", b" :", b": "])
    return with_logs(chance, strewn(chance, head + [b"%d" % t + colon() + listed(chance, row, b",") for t, row in enumerate(rows)]))


def by_agent(chance, paths):
    first = chance.randrange(2)
    lines = [b"Agent %d:" % (n + first) + listed(chance, [it[::-1] for it in path], b"->") for n, path in enumerate(paths)]
    return with_logs(chance, strewn(chance, chance.sample(lines, len(lines))))


def by_session(chance, paths):
    first, blank = chance.randrange(2), lambda: chance.choice([b" ", b" ", b"\t", b"  "])
    lines = [b"path" + blank() + b"%d" % (n + first) + b"".join(blank() + b"%d,%d" % it for it in path) for n, path in enumerate(paths)]
    return strewn(chance, chance.sample(lines, len(lines)))


def by_schedule(chance, paths):
    first, blank = chance.randrange(2), lambda: chance.choice([b" ", b" ", b"\t", b"  ", b""])
    lines = [chance.choice([b"schedule:", b"schedule:", b" schedule: {}"])]
    for number, path in chance.sample(list(enumerate(paths)), len(paths)):
        lines.append(blank() + b"agent" + blank() + b"%d" % (number + first) + blank() + b":")
        for time, (x, y) in enumerate(path):
            pairs = chance.choice([b"xyt", b"xyt", bytes(chance.sample(b"xyt", 3))])
            told = [bytes([key]) + b":" + blank() + b"0" * chance.choice([0, 0, 2]) + b"%d" % {120: x, 121: y, 116: time}[key] for key in pairs]
            lines += [blank() + b"- " + blank() + told[0], *(blank() + it for it in told[1:])]
    head = chance.choice([[], [b"statistics:", b"  runtime: 0.1", b"  cost: 0.5"], [b"agent7:", b"- x: 1"]])
    return with_logs(chance, strewn(chance, head + lines))


def walk(chance):
    path = [(chance.randrange(8), chance.randrange(12))]
    for _ in range(chance.randrange(6)):
        (x, y), (right, down) = path[-1], chance.choice([(0, 0), (1, 0), (-1, 0), (0, 1), (0, -1)])
        path.append((min(max(x + right, 0), 7), min(max(y + down, 0), 11)))
    return path


def are_read_back(form, written_by):
    """Random paths are read back, where the form is named and where it isn't."""
    chance, rows, size = random.Random(41), [], (8, 12)
    for _ in range(300):
        paths = [walk(chance) for _ in range(chance.randrange(1, 7))]
        text = chance.choice([b"", b"\xef\xbb\xbf"]) + chance.choice([b"\n", b"\r\n"]).join(written_by(chance, paths))
        rows.append((text, ("", None, "", report_of([it[-1] for it in paths], paths, ""))))
    words = ["--map", put_closed(*size)]
    for text, reading in rows[:30]:
        put("edited", text)
        is_judged(text, [*words, "--paths", "edited"], *reading)
    are_judged(words, rows)
    are_judged([*words, "--form", form], rows)
    remove("edited", words[1])


def with_files(test, *given):
    put("yard", YARD), put("tasks", TASKS)
    test(*given)
    remove("yard", "tasks", "lenient")


def tests():
    for name, text in READ.items():
        yield f"lenient_{name}", lambda text=text: with_files(is_the_plan, text, ["", "--scen tasks --agents 2"])
    for name, text in MOVES.items():
        yield f"lenient_{name}", lambda text=text: with_files(is_the_plan, text, ["--scen tasks", "--scen tasks --agents 2 --form moves"])
    yield "lenient_answers", lambda: with_files(are_answered)
    for form, written_by in (("time", by_time), ("agent", by_agent), ("session", by_session), ("schedule", by_schedule)):
        yield f"lenient_{form}_read_back", lambda it=(form, written_by): are_read_back(*it)
