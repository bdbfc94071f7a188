"""The word `check` with several files of paths: a line for each, by hand and as each alone is answered."""
import json
import random

from .fleets import Fleet
from .plain import ASKED
from .running import is_fault, is_run, put, remove, run, want

NONE_OF_THESE = "conflicts 0, vertex 0, edge 0, follow 0, swap 0, cycle 0, blocked 0"
YES = f"solves yes, agents 1, finished 1, {NONE_OF_THESE}, sum 2, makespan 2, bounds 2, gap 0"
# Two rest in one cell.
NO = "solves no, agents 2, finished 2, conflicts 1, vertex 1, edge 0, follow 0, swap 0, cycle 0, blocked 0, sum 0, makespan 0, bounds 0, gap 0"
ELSEWHERE = f"solves no, agents 1, finished 0, {NONE_OF_THESE}, sum none, makespan none, bounds 2, gap none"
KINDS = '"kinds":{"vertex":true,"edge":false,"follow":false,"swap":true,"cycle":false}'
YES_OBJECT = ('{"file":"p","solves":true,"verdict":"judged",' + KINDS + ',"counts":{"agents":1,"finished":1,"conflicts":0,"vertex":0,"edge":0,"follow":0,'
              '"swap":0,"cycle":0,"blocked":0},"totals":{"sum":2,"makespan":2,"bounds":2,"gap":0},"wrong":[],"differs":[]}')
NO_PATHS_OBJECT = '{"file":"none_at_all","solves":false,"verdict":"no-paths",' + KINDS + ',"wrong":[],"differs":[]}'
WRONG_OBJECT = ('{"file":"rows","solves":false,"verdict":"wrong-paths",' + KINDS +
                ',"wrong":[{"agent":0,"time":1,"why":"out-of-map","cells":[[%s]]}],"differs":[]}')

# Files beside those of texts.py. Of a name each byte that isn't printable ASCII is shown as `?`, and a tab as a blank.
FILES = {
    "stops": b"path 0 0,0 1,0\n",
    "rows": b"Agent 0: (0,0)->(1,0)->\n",
    "lacking": b"path 0\n",
    "costly": b"soc=9\nmakespan=9\nsolution=\n0:(0,0)\n1:(1,0)\n2:(2,0)\n",
    "a\tb\u00e9\x07": b"path 0 0,0 1,0 2,0\n",
    'a "b" \\c': b"",
    "--flip": b"path 0 0,0 1,0 2,0\n",
}

# Words, the files, the status, and a line for each file behind its name.
WORKED = [
    ("--map m", ["p", "p"], 0, [YES, YES]),
    ("--map m", ["p", "p_two"], 1, [YES, NO]),
    ("--map m", ["p_two", "p"], 1, [NO, YES]),
    ("--map m --quiet --only --workers 1", ["p", "p_two", "p"], 1, [YES, NO, YES]),
    ("--map m --workers 64 -v", ["p", "lost", "p_two"], 2, [YES, "can't read lost", NO]),
    ("--map m", ["lost", "p"], 2, ["can't read lost", YES]),
    ("--map m", ["p", "."], 2, [YES, "can't read ."]),
    ("--map m", ["none_at_all", "twice", "rows"], 1, ["solves no, no paths", "solves no, differs line 2", "solves no, wrong 0 1 out-of-map 0,1"]),
    ("--map m --own-cells", ["rows", "p"], 1, ["solves no, wrong 0 1 out-of-map 1,0", YES]),
    ("--map m", ["lacking", "one", "p"], 2, ["paths: no cells in line 1", "paths: no form of paths in line 1", YES]),
    ("--map m --form time", ["p", "p"], 2, ["paths: missing solution"] * 2),
    ("--map m --scen s", ["p", "stops", "p_two"], 2, [YES, ELSEWHERE, "scen: too few tasks, 1"]),
    ("--map m --scen s --agents 1", ["p_two", "stops", "p"], 1, [f"{ELSEWHERE}, differs paths 2 1", ELSEWHERE, YES]),
    ("--map m --solves edge", ["p_two", "costly"], 0, [NO.replace("no, agents", "yes, agents"), YES]),
    ("--map map_size", ["p", "lost"], 2, ["map: bad size", "can't read lost"]),
    ("--map m --scen scen_size", ["p", "p_two"], 2, ["scen: size mismatch in line 2"] * 2),
    ("--map m", ["a\tb\u00e9\x07", 'a "b" \\c', "\u00e9"], 2, [YES, "solves no, no paths", "can't read ??"]),
]

# The same with --json: whole lines.
OBJECTS = [
    ("--map m", ["p", "none_at_all"], 1, [YES_OBJECT, NO_PATHS_OBJECT]),
    ("--map m --quiet --only --workers 1", ["p", "p"], 0, [YES_OBJECT] * 2),
    ("--map m --own-cells", ["p", "rows"], 1, [YES_OBJECT, WRONG_OBJECT % "1,0"]),
    ("--map m", ["rows", "lost"], 2, [WRONG_OBJECT % "0,1", '{"file":"lost","fault":"can\'t read lost"}']),
    ("--map m", ["lacking", 'no "b" \\c'], 2,
     ['{"file":"lacking","fault":"paths: no cells in line 1"}', '{"file":"no \\"b\\" \\\\c","fault":"can\'t read no \\"b\\" \\\\c"}']),
    ("--map m", ["a\tb\u00e9\x07", "p"], 0, [YES_OBJECT.replace('"p"', '"a b???"'), YES_OBJECT]),
]

# What is told on standard error alone, as of one file.
FAULTS = [
    ("--map m --agents 1 --paths p p", "--agents needs --scen"),
    ("--map none --paths p lost", "can't read none"),
    ("--map m --scen none --paths lost p", "can't read none"),
]


def shown(name):
    """A name as it is shown, byte by byte."""
    return "".join(" " if it == 9 else chr(it) if 32 <= it < 127 else "?" for it in name.encode())


def rows():
    """Each file has its line, in the order of the words; the status is the greatest."""
    for name, text in FILES.items():
        put(name, text)
    for words, files, status, lines in WORKED:
        right = "".join(f"{shown(file)}: {line}\n" for file, line in zip(files, lines, strict=True))
        is_run(["check", *words.split(), "--paths", *files], b"", (status, right, ""))
    for words, files, status, lines in OBJECTS:
        is_run(["check", "--json", *words.split(), "--paths", *files], b"", (status, "".join(f"{it}\n" for it in lines), ""))
    for words, text in FAULTS:
        is_fault(["check", *words.split()], text)
    is_run(["check", "--paths", "p", "./--flip", "--map", "m"], b"", (0, f"p: {YES}\n./--flip: {YES}\n", ""))
    remove(*FILES)


def standard_input():
    """A dash among the files is standard input; where the lines aren't taken, that is the fault."""
    for at, files in enumerate((["-", "p", "p"], ["p", "-", "p"], ["p", "p", "-"])):
        status, said, complained = run(["check", "--map", "m", "--paths", *files], b"path 0 0,0\npath 1 0,0\n")
        want("the end", (status, complained), (1, ""))
        want("the answers", [it.partition(": ")[2] for it in said.splitlines()], [NO if it == at else YES for it in range(3)])
    with open("/dev/full", "wb") as full:
        want("of a full device", run(["check", "--map", "m", "--paths", "p", "p"], stdout=full)[::2], (2, "mapf_desk: write failed\n"))


def row_of(words, file, is_json):
    """What each file alone is answered, as its line among several has it; and the status."""
    status, said, complained = run([*words, "--paths", file, "--quiet"])
    why = complained.removeprefix("mapf_desk: ").rstrip("\n")
    if is_json:
        return status, f'{{"file":{json.dumps(file)},' + (f'"fault":{json.dumps(why)}}}\n' if status == 2 else said[1:])
    facts = [it for it in said.splitlines() if it not in ("version 0", "end") and not it.startswith("solves ")]
    answer = f"solves {'no' if status else 'yes'}"
    return status, f"{file}: {why if status == 2 else ', '.join([answer, *facts])}\n"


def files_as_each_alone():
    """Files made at random, some cut off or faulty, are answered together as each alone, whatever the number of workers."""
    chance, seen = random.Random(43), set()
    for _ in range(8):
        fleet, files = Fleet(chance), [f"plan{it}" for it in range(chance.randint(2, 12))]
        put("scene", fleet.map.encode()), put("tasks", fleet.scen().encode())
        for file in files:
            goals = [chance.choice([it[-1], fleet.cell(chance)]) for it in fleet.paths]
            fleet.paths, fleet.goals = [it[: chance.randint(1, 9)] for it in fleet.paths], goals
            text = getattr(fleet, chance.choice(("by_time", "by_agent", "by_session")))()
            put(file, text[: chance.choice([len(text)] * 4 + [chance.randint(0, len(text))])].encode())
        is_json, kinds = chance.random() < 0.5, chance.sample(sorted(ASKED), chance.randint(1, 5))
        words = ["check", "--map", "scene", *chance.choice([[], ["--scen", "tasks"]]), "--solves", *kinds, *(["--json"] if is_json else [])]
        asked = chance.sample([*files, "lost"], len(files))
        alone = [row_of(words, it, is_json) for it in asked]
        together = run([*words, "--workers", str(chance.choice([1, 2, 4, 64])), "--paths", *asked])
        want("the lines", together, (max(it[0] for it in alone), "".join(it[1] for it in alone), ""))
        seen |= {it[0] for it in alone}
        remove(*files)
    want("the statuses", seen, {0, 1, 2})
    remove("scene", "tasks")


def tests():
    for test in (rows, standard_input, files_as_each_alone):
        yield f"several_{test.__name__}", test
