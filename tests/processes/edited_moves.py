"""Files of moves, as rows of letters and as CSV files, that are cut off and edited: what `check` says beside the plain reader. And random
paths written as such files, which read back as them.

Agents start where the tasks of a scenario have them. The map is closed everywhere, as in edited_paths.py, so that a verdict lists cells.
"""
import random
import re

from .edited_paths import are_judged, compare, is_judged, put_closed, report_of, verdict_by, wrong_paths
from .edits import Edits
from .plain_paths import MOST_SIDE, MOVES, read_paths
from .plain_words import Fault
from .running import put, remove, want

LIKELY = b' \t\r\n,,""#udlrwUDLRW=x0'
# Rows of letters, and CSV files with other columns before and behind that of plans.
TEXTS = [
    b"rrdw\nddr\nulw\n",
    b"U,R,D\r\n\r\nL, L,\tw\r\nw",
    b"\xef\xbb\xbf# two agents\nuu\n # d\nrRdDlLuUwW\n",
    b"solution_plan\nrrd\n\nuw\n",
    b'id,solution_plan,cost\r\n1,"rr\r\nDD\r\nw",4\r\n2,"l,u",2\r\n',
    b'"id",note,"solution_plan"\n"1","a, b\nc","rrd\nw"\n2,x,uul\n',
    b'solution_plan,note\n"rr","said ""u"", d"\nw,\n',
]
# What agents start and go to, and on maps of which sizes.
TASKS = [((0, 0), (2, 1)), ((7, 11), (7, 11)), ((3, 5), (4, 5)), ((0, 11), (0, 9)), ((6, 0), (5, 2)), ((1, 2), (1, 2)), ((7, 0), (6, 0))] * 3
SIZES = [(8, 12)] * 30 + [(8, 2048), (2048, 12)]
ANSWERS = {"read by moves", "bad move in line", "open quote", "no paths", "no form of paths in line", "missing solution"}


def set_out(paths, tasks):
    """Paths of moves from where the agents start."""
    return [[((x + start[0]) % MOST_SIDE, (y + start[1]) % MOST_SIDE) for x, y in path] for path, (start, _) in zip(paths, tasks)]


def reading_of(text, form, size):
    """As that of edited_paths.py, where a scenario says how agents start and which goals they have."""
    try:
        told, _, _, _, paths = read_paths(text, "flipped" if form == "both" else form)
    except Fault as why:
        return verdict_by(str(why)), str(why), "", None, re.sub(r" \d+", "", str(why))
    (starts, goals), paths = zip(*TASKS), set_out(paths, TASKS)
    return wrong_paths(starts, goals, paths, size), None, "", report_of(goals, paths, ""), f"read by {'moves' if told == 'flipped' else told}"


def words_of(size, form):
    words = ["--map", "closed_%d_%d" % size, "--scen", "tasks_%d_%d" % size]
    return (*words, *{"flipped": ["--flip"], "moves": ["--form", "moves"], "both": ["--form", "moves", "--flip"]}.get(form, []))


def edited_moves():
    chance = random.Random(31)
    edits = Edits(chance, LIKELY)
    rows = [(edits.edited(TEXTS), chance.choice([None, None, "moves", "flipped", "both"]), chance.choice(SIZES)) for _ in range(3000)]
    want("the kinds of answers", set(compare(rows, reading_of, words_of)), ANSWERS)


def fronts_of_moves():
    """Every front of each text, where the form is named and where it isn't, and up is before and behind."""
    fronts = [(text[:end], end) for text in TEXTS for end in range(len(text) + 1)]
    compare([(text, form, SIZES[end % 32]) for text, end in fronts for form in (None, "moves", "flipped")], reading_of, words_of)


def walk(chance, start):
    """A path within a small map, and its letters."""
    path, letters = [start], ""
    for _ in range(chance.randrange(1, 9)):
        letter = chance.choice([it for it, (x, y) in MOVES.items() if 0 <= path[-1][0] + x < 8 and 0 <= path[-1][1] + y < 12])
        path.append(tuple(a + b for a, b in zip(path[-1], MOVES[letter])))
        letters += letter
    return path, letters


def row_of(chance, letters, flipped):
    """A row of those moves, with what may stand between them."""
    between = chance.choice([("",), (",",), (", ", ","), ("", " ", "\t", ",", " , ")])
    turned = letters.translate(str.maketrans("ud", "du")) if flipped else letters
    return "".join(chance.choice([it, it.upper()]) + chance.choice(between) for it in turned).rstrip(", \t")


def written_as_rows(chance, rows):
    """The rows, with blank lines and remarks between."""
    end = chance.choice(["\n", "\r\n"])
    lines = [it for row in rows for it in (*chance.choice([[], [], [""], ["# rr"], [" #"]]), chance.choice(["", " "]) + row)]
    return chance.choice(["", "\ufeff"]) + end.join(lines) + chance.choice(["", end])


def written_as_csv(chance, rows):
    """The rows in the fields of a column, one or more in each, between columns of anything else."""
    end, fields = chance.choice(["\n", "\r\n"]), []
    while rows:
        count = chance.randrange(1, len(rows) + 1)
        fields, rows = [*fields, end.join(rows[:count])], rows[count:]
    quoted = lambda text: '"' + text.replace('"', '""') + '"'
    plan = lambda text: text if chance.randrange(2) and not set(text) & set(",\n") else quoted(text)
    other = lambda: chance.choice(["", "7", "uu dd", quoted("uu"), quoted("a, b"), quoted(f"u{end}d"), quoted('as "u, d" says'), quoted("")])
    before, behind = chance.randrange(3), chance.randrange(3)
    names = [chance.choice(["id", '"id"', "solution_plans", "udlr"]) for _ in range(before)] + [chance.choice(["solution_plan", '"solution_plan"'])]
    lines = [names + ["cost"] * behind] + [[*(other() for _ in range(before)), plan(it), *(other() for _ in range(behind))] for it in fields]
    return chance.choice(["", "\ufeff"]) + end.join(",".join(it) for it in lines) + chance.choice(["", end])


def moves_read_back():
    """Random paths are read back from rows and from CSV files, whichever way up is."""
    chance = random.Random(37)
    for way in (written_as_rows, written_as_csv):
        for form in (None, "moves", "flipped"):
            rows = []
            for _ in range(100):
                paths, letters = zip(*(walk(chance, start) for start, _ in TASKS[: chance.randrange(1, 8)]))
                text = way(chance, [row_of(chance, it, form == "flipped") for it in letters])
                rows.append((text.encode(), ("", None, "", report_of([goal for _, goal in TASKS], paths, ""))))
            are_judged(words_of(SIZES[0], form), rows)
            for text, reading in rows[:10]:
                put("edited", text)
                is_judged(f"{text!r} by {form}", [*words_of(SIZES[0], form), "--paths", "edited"], *reading)


def with_files(test):
    for size in set(SIZES):
        put_closed(*size)
        tasks = [(0, "m", *size, *start, *goal, 0) for start, goal in TASKS]
        put("tasks_%d_%d" % size, "".join(" ".join(map(str, it)) + "\n" for it in [("version 1",), *tasks]).encode())
    test()
    remove("edited", *(f"{name}_%d_%d" % size for size in SIZES for name in ("closed", "tasks")))


def tests():
    for test in (edited_moves, fronts_of_moves, moves_read_back):
        yield test.__name__, lambda test=test: with_files(test)
