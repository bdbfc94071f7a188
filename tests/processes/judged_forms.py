"""Random files of paths in every form: the verdict's lines beside the plain programs of forms and of rules, and its object, which Python's
`json` reads: each fact of those lines stands in it, and no other, also with the cells of the file.
"""
import json
import random
import re

from .edited_json import written
from .edited_moves import set_out
from .edited_paths import ends_of, verdict_by, wrong_paths
from .fleets import Fleet, verdict
from .lenient_paths import by_schedule
from .plain import ASKED, Scene, shown, without_last_waits
from .plain_paths import read_paths
from .plain_words import Fault
from .running import put, remove, run, want
from .solvers import moves_text
from .verdicts import TOTALS, agent, entry, told, wrong

LISTS = ["", "", "", "agents=2\n", "starts=(0,0)\n", "goals=(1,0),(0,0)\n"]  # what may stand before the lists of a file by time
# How a fleet is written in each form; those of whom a path may go where no step leads.
FORMS = {
    "time": lambda chance, fleet: (chance.choice(LISTS) + fleet.by_time()).encode(),
    "agent": lambda chance, fleet: fleet.by_agent().encode(),
    "session": lambda chance, fleet: fleet.by_session().encode(),
    "moves": lambda chance, fleet: moves_text(chance, fleet.paths, False).encode(),
    "flipped": lambda chance, fleet: moves_text(chance, fleet.paths, True).encode(),
    "json": lambda chance, fleet: re.sub(rb'("teamSize": *)(\d)', chance.choice([rb"\g<1>\2", rb"\g<1>7"]), written(chance, fleet.paths)),
    "schedule": lambda chance, fleet: b"\n".join(by_schedule(chance, fleet.paths)),
}
JUMPING = ("time", "agent", "session", "schedule")


def spoil(chance, fleet, form):
    """Lets a path go out of the map, begin elsewhere, or make a step that is none where the form can say so; or a goal be another."""
    path, way = chance.choice(fleet.paths), chance.randrange(6)
    if way == 0:
        right, down = chance.choice([(1, 0), (0, 1), (-1, 0), (0, -1)][: 2 if form in JUMPING else 4])
        while 0 <= path[-1][0] < fleet.columns and 0 <= path[-1][1] < fleet.rows:
            path.append((path[-1][0] + right, path[-1][1] + down))
    elif way == 1:
        path[:] = [fleet.cell(chance)]
    elif way < 3 and form in JUMPING:
        path[chance.randrange(len(path))] = chance.randint(0, fleet.columns), chance.randint(0, fleet.rows)
    elif way < 4:
        fleet.goals[0] = fleet.cell(chance)


def lines_apart(told, starts, goals, count, paths, tasks):
    """The lines of what differs: how many there are, and by agent the cells that aren't those of the tasks."""
    due = len(paths) if tasks is None else len(tasks)
    rows = [("paths", len(paths), due), ("agents", count, due), ("starts", starts and len(starts), len(paths)), ("goals", goals and len(goals), len(paths))]
    lines = [f"differs {what} {found} {right}" for what, found, right in rows if found not in (None, right)]
    for number, ends in enumerate((tasks or [])[: len(paths)]):
        cells = [(what, cells[number], end) for what, cells, end in zip(("starts", "goals"), (starts, goals), ends) if number < len(cells or [])]
        lines += [f"differs {what} {number} {shown(cell)} {shown(end)}" for what, cell, end in cells if cell != end]
    return "".join(f"{it}\n" for it in lines)


def verdict_lines(text, form, fleet, mode, kinds, tasks):
    """The lines that `check` prints of a text, of which the tasks are those of the agents; without tasks each path has one."""
    try:
        read = read_paths(text, form)
    except Fault as why:
        return f"{verdict_by(str(why))}solves no\n"
    paths, size = read[-1], (fleet.columns, fleet.rows)
    ends = tasks if tasks is not None else zip(ends_of(read[1], [it[0] for it in paths]), ends_of(read[2], [it[-1] for it in paths]))
    starts, goals = list(zip(*ends)) or ([], [])
    judged = (set_out(paths, tasks) if read[0] in ("moves", "flipped") else list(paths))[: len(starts)]
    judged += [[start] for start in starts[len(judged) :]]
    differs, failing = lines_apart(*read, tasks), wrong_paths(starts, goals, judged, size)
    if failing:
        return f"{failing}{differs}solves no\n"
    scene = Scene(*size, mode)
    scene.closed = frozenset((x, y) for y, row in enumerate(fleet.map.splitlines()[4:]) for x, letter in enumerate(row) if letter == "@")
    scene.agents = {number: (goal, without_last_waits(path)) for number, (goal, path) in enumerate(zip(goals, judged))}
    report = f"version 0\n{scene.report()}"
    return f"{report}{differs}solves {'no' if differs else verdict(report, kinds)}\n"


def cell_of(word):
    return [int(it) for it in word.split(",")]


def number_of(word):
    return None if word == "none" else int(word)


def entry_of(kind, words):
    """The object of an entry by the words of its line behind the kind."""
    cells = [cell_of(it) for it in words if "," in it]
    return entry(kind, int(words[0]), [int(it) for it in words[1:] if "," not in it], *cells)


def difference_of(words):
    what, rest = words[0], words[1:]
    if what == "line":
        return {"what": what, "line": int(rest[0])}
    if "," in rest[-1]:
        return {"what": what, "agent": int(rest[0]), "found": cell_of(rest[1]), "due": cell_of(rest[2])}
    return {"what": what, "found": int(rest[0]), "due": int(rest[1])}


def object_of(said, kinds):
    """The object of a verdict, by its lines, all of which are listed."""
    lines = [it.split() for it in said.splitlines()]
    under = lambda *heads: [it[1:] for it in lines if it[0] in heads]
    solves, found = under("solves") == [["yes"]], {"wrong": [], "differs": [difference_of(it) for it in under("differs")]}
    found["wrong"] = [wrong(int(it[0]), int(it[1]), it[2], *map(cell_of, it[3:])) for it in under("wrong")]
    if ["version", "0"] not in lines:
        return json.loads(told(solves, "no-paths" if under("no") else "wrong-paths" if found["wrong"] else "repeated-list", kinds, **found))
    agents = [agent(int(it[0]), int(it[2]), it[4] == "yes", number_of(it[6]), number_of(it[8])) for it in under("agent")]
    entries = [entry_of(it[0], it[1:]) for it in lines if it[0] in ("vertex", "parked", "edge", "follow", "swap", "cycle")]
    visits = [{"agent": int(it[0]), "time": int(it[1]), "cell": cell_of(it[2])} for it in under("visit")]
    kinds_there = [sum(it["kind"] in names for it in entries) for names in ASKED.values()]
    counts = (len(agents), sum(it["finished"] for it in agents), len(entries), *kinds_there, len(visits))
    totals = [number_of(under(it)[0][0]) for it in TOTALS]
    return json.loads(told(solves, "judged", kinds, counts=counts, totals=totals, agents=agents, entries=entries, visits=visits, **found))


def members_once(pairs):
    """An object, in which no member may stand twice."""
    want("the members", len(dict(pairs)), len(pairs))
    return dict(pairs)


def is_object(said, right):
    """The text is one line of ASCII, and JSON of these members in this order."""
    want("the lines", (said.isascii(), said.count("\n"), said[-1:]), (True, 1, "\n"))
    want("the object", json.dumps(json.loads(said, object_pairs_hook=members_once)), json.dumps(right))


def is_judged(form, chance):
    """One more random file of that form is judged so, in lines and as an object; gives what was seen in them."""
    fleet, mode, kinds = Fleet(chance), chance.choice(["stay", "disappear"]), chance.sample(sorted(ASKED), chance.randint(1, 5))
    tasks, has_tasks = [(path[0], goal) for path, goal in zip(fleet.paths, fleet.goals)], form in ("moves", "flipped") or chance.random() < 0.7
    put("scene", fleet.map.encode()), put("tasks", fleet.scen().encode())
    spoil(chance, fleet, form)
    text = b"" if chance.random() < 0.08 else FORMS[form](chance, fleet)
    put("judged", text)
    many = chance.choice([None, None, chance.randint(0, len(tasks))]) if has_tasks and text else None
    named = ["--flip"] if form == "flipped" else chance.choice([[], ["--form", form]]) if text else []
    words = [*(["--scen", "tasks"] if has_tasks else []), *(["--agents", str(many)] if many is not None else []), *named]
    words = ["check", "--map", "scene", "--paths", "judged", *words, "--mode", mode, "--solves", *kinds]
    right = verdict_lines(text, "flipped" if form == "flipped" else None, fleet, mode, kinds, tasks[:many] if has_tasks else None)
    own = re.sub(r"(\d+),(\d+)", r"\2,\1", right) if form in ("agent", "json") else right
    status = int(right.endswith("solves no\n"))
    for more, lines in (([], right), (["--own-cells"], own)):
        want(f"the verdict on {text!r} by {words}", run([*words, *more]), (status, lines, ""))
        again, printed, complained = run([*words, *more, "--json"])
        want("the status, and the fault", (again, complained), (status, ""))
        is_object(printed, object_of(lines, " ".join(kinds)))
    return {json.loads(printed)["verdict"], *right.split()}


SEEN = {"judged", "wrong-paths", "no-paths", "differs", "visit", "vertex", "follow", "swap", "edge", "parked", "yes", "no", "out-of-map"}
MORE_SEEN = {"time": {"repeated-list", "not-a-step", "starts", "goals", "agents"}, "json": {"starts", "not-from-start"}, "moves": set(), "flipped": set()}


def random_verdicts(form):
    chance = random.Random(41)
    seen = set().union(*(is_judged(form, chance) for _ in range(60)))
    want("what no file has", (SEEN | MORE_SEEN.get(form, {"not-a-step", "not-from-start"})) - seen, set())
    remove("scene", "tasks", "judged")


def tests():
    for form in FORMS:
        yield f"random_verdicts_by_{form}", lambda form=form: random_verdicts(form)
