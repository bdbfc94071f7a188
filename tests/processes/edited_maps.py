"""Maps and scenarios that are cut off and edited, and lines of a scenario with every choice of fields, beside plain readers.

What the program has read of a map is told by an agent that goes through every cell: its visits are the closed ones. What it has
read of a scenario is told by a path of one cell, which begins at its agent's start, and by the distance 0 of its goal."""
import itertools
import random
import re

from .edits import Edits
from .plain_texts import read_map, read_scen
from .plain_words import Fault
from .running import is_answered, is_fault, put, remove, run, want

LIKELY = b" \t\r\n,#-.@Gxey0123456789"
MAPS = [
    b"type octile\nheight 1\nwidth 1\nmap\n.\n",
    b"type octile\r\nheight 1\r\nwidth 7\r\nmap\r\n.GS@OTW\r\n",
    b"type octile\nheight 3\nwidth 4\nmap\n..@@\n.T.W\nOSG.\n",
    b" type\toctile\nheight 0002\nwidth  10 \nmap\n.....@....\n..@.......  \n\n \n",
    b"type octile\nheight 12\nwidth 1\nmap\n.\n@\nG\nS\nO\nT\nW\n.\n.\n.\n.\n.",
]
MAP_ANSWERS = {"read", "not octile", "bad header in line", "bad size", "missing row", "short row", "long row", "bad letter in row, column", "extra line"}

SIZE = (12, 3)
SCENS = [
    b"version 1\n0 m 12 3 11 2 11 2 0\n",
    b"version 1\n0\tm.map\t12\t3\t0\t0\t2\t1\t3.00000000\n7\tm.map\t12\t3\t11\t2\t10\t0\t3\n",
    b"version 1.0\r\n\r\n 1 m 012 3 5 1 5 1 0 \r\n4294967295 m 12 3 00 2 11 0 x\r\n\t\r\n",
    b"version 1\n0 m 12 3 0 0 0 0 0\n0 m 12 3 1 1 1 1 0\n0 m 12 3 2 2 2 2 0\n3 m 12 3 9 2 9 1 1",
]
SCEN_ANSWERS = {"read", "bad version", "field count in line", "bad number in line, field", "size mismatch in line", "out of map in line, field"}
# Of each field of a task on that map a good word, and words that are bad there or may be.
FIELDS = [
    [b"0", b"x"], [b"m", b"4294967296"], [b"12", b"3", b"12.0"], [b"3", b"2", b"4294967296"], [b"11", b"12", b"-1"], [b"2", b"3", b"y"],
    [b"0", b"4294967295", b"0x"], [b"0", b"3", b"+1"], [b"1", b"none"],
]
# Two tasks, and what the fronts of that text are up to each number of bytes.
TASKS = b"version 1\n0 m 12 3 0 0 2 1 3\n10 n 12 3 11 2 10 0 3\n"
FRONTS = [(8, "bad version"), (10, 0), (27, "field count in line 2"), (29, 1), (49, "field count in line 3"), (51, 2)]


def kind_of(why):
    return re.sub(r" \d+", "", str(why))


def is_map(text, rows):
    """The program reads these rows of the map."""
    width, height = len(rows[0]), len(rows)
    cells = [(x, y) for y in range(height) for x in (range(width) if y % 2 == 0 else reversed(range(width)))]
    lines = ["agent 0 0,0 0,0", "path 0" + "".join(f" {x},{y}" for x, y in cells), f"open {width},0", f"open 0,{height}", "report"]
    status, said, complained = run(["serve", "--map", "edited"], "\n".join(lines).encode())
    visits = [f"visit 0 {time} {x},{y}" for time, (x, y) in enumerate(cells) if not rows[y][x]]
    outside = "refused faulty 0 out-of-map"
    told = [it for it in said.splitlines() if it.split()[0] in ("version", "refused", "blocked", "visit")]
    want(f"the map {text!r}", told, ["version 1", "version 2", outside, outside, "version 2", f"blocked {len(visits)}", *visits])
    want("the status and standard error", (status, complained), (0, ""))


def compare_map(text):
    """Compares two readings of a map, and tells the kind of the answer."""
    put("edited", text)
    try:
        rows = read_map(text)
    except Fault as why:
        want(f"the map {text!r}", run(["serve", "--map", "edited"]), (2, "", f"mapf_desk: map: {why}\n"))
        return kind_of(why)
    is_map(text, rows)
    return "read"


def are_tasks(tasks):
    """The program reads these tasks of the scenario, and no more."""
    words = ["serve", "--map", "open", "--scen", "edited", "--agents"]
    is_fault([*words, "8192"], f"scen: too few tasks, {len(tasks)}")
    lines = "".join(f"path {n} {x},{y}\ndistance {n} {a},{b}\n" for n, ((x, y), (a, b)) in enumerate(tasks))
    is_answered([*words, str(len(tasks))], lines.encode(), "".join(f"version {n + 1}\ndistance 0\n" for n in range(len(tasks))))


def compare_scen(text):
    """Compares two readings of a scenario, and tells the kind of the answer."""
    put("edited", text)
    try:
        tasks = read_scen(text, SIZE)
    except Fault as why:
        want(f"the scenario {text!r}", run(["serve", "--map", "open", "--scen", "edited"]), (2, "", f"mapf_desk: scen: {why}\n"))
        return kind_of(why)
    are_tasks(tasks)
    return "read"


def counted(compare, texts):
    """How many of the texts have each kind of answer."""
    kinds = {}
    for text in texts:
        kind = compare(text)
        kinds[kind] = kinds.get(kind, 0) + 1
    return kinds


def edited(seed, texts):
    edits = Edits(random.Random(seed), LIKELY)
    return (edits.edited(texts) for _ in range(2500))


def edited_maps():
    want("the kinds of answers", set(counted(compare_map, edited(1, MAPS))), MAP_ANSWERS)


def edited_scenarios():
    want("the kinds of answers", set(counted(compare_scen, edited(2, SCENS))), SCEN_ANSWERS)


def lines_of_good_and_bad_fields():
    """256 lines have numbers alone, 64 of them the right size, and 4 of those no place off the map."""
    texts = (b"version 1\n" + b" ".join(words) + b" " for words in itertools.product(*FIELDS))
    wanted = {"read": 4, "bad number in line, field": 5576, "size mismatch in line": 192, "out of map in line, field": 60}
    want("the answers", counted(compare_scen, texts), wanted)


def fronts_of_a_scenario():
    """Each front is read as so many tasks, or has that fault."""
    want("the bytes", len(TASKS), 51)
    tasks = [((0, 0), (2, 1)), ((11, 2), (10, 0))]
    for end in range(len(TASKS) + 1):
        put("edited", TASKS[:end])
        answer = next(it for most, it in FRONTS if end <= most)
        if isinstance(answer, int):
            are_tasks(tasks[:answer])
        else:
            is_fault(["serve", "--map", "open", "--scen", "edited"], f"scen: {answer}")


def with_map(test):
    put("open", b"type octile\nheight 3\nwidth 12\nmap\n" + b"............\n" * 3)
    test()
    remove("open", "edited")


def tests():
    for test in (edited_maps, edited_scenarios, lines_of_good_and_bad_fields, fronts_of_a_scenario):
        yield test.__name__, lambda test=test: with_map(test)
