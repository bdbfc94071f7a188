"""What `draw` prints of random fleets: it is well-formed, and marks what `audit` reports, no more and no fewer.

Where marks, agents and their lines stand is found again from the report's lines and the paths.
"""
import random
from xml.etree import ElementTree

from .fleets import Fleet
from .running import put, remove, run, want

SVG = "{http://www.w3.org/2000/svg}"
MARKS = {"entries": f"{SVG}use", "visits": f"{SVG}rect"}
SIGNS = {"vertex": "V", "parked": "P", "edge": "ED", "follow": "F", "swap": "ST", "cycle": "C", "visit": "X"}  # one of two along a row, and a column


def drawn(*words):
    """The picture, and how many bytes it has."""
    status, said, complained = run(["draw", *words])
    want("what draw says", (status, complained), (0, ""))
    return ElementTree.fromstring(said), len(said)


def reported(*words):
    """The lines of the report's entries, and of its visits."""
    lines = [it for it in run(["audit", *words])[1].splitlines() if it.split()[0] in SIGNS]
    return [it for it in lines if not it.startswith("visit")], [it for it in lines if it.startswith("visit")]


def group(picture, name):
    [found] = [it for it in picture.iter(f"{SVG}g") if it.get("id") == name]
    return found


def times(picture):
    """The groups of entries, each of one time."""
    found = list(group(picture, "entries"))
    want("what is among the entries", {it.tag for it in found} <= {f"{SVG}g"}, True)
    return found


def marks_of(picture, name):
    """The marks of visits, or of entries, which stand in groups behind what lights them up."""
    if name == "visits":
        return list(group(picture, name))
    return [mark for it in times(picture) for mark in it if mark.tag != f"{SVG}set"]


def title(part):
    return part.find(f"{SVG}title").text.rstrip("\n")


def place(part):
    return float(part.get("x")), float(part.get("y"))


def time_of(line):
    words = line.split()
    return int(words[2] if words[0] == "visit" else words[1])


def seconds(time):
    return f"{time * 4 // 10}.{time * 4 % 10}s"


def cell_at(path, time):
    return path[min(time, len(path) - 1)]


def spot(line, paths):
    """The sign of a line's mark, and where it stands."""
    kind, *words = line.split()
    cells = [tuple(map(int, it.split(","))) for it in words if "," in it]
    if kind == "cycle":
        time, *ring = map(int, words)
        cells = [cell_at(paths[ring[at]], time) for at in (0, len(ring) // 2)]
    (x, y), (other_x, other_y) = cells[0], cells[-1]
    return SIGNS[kind][-1 if x == other_x else 0], ((x + other_x) / 2, (y + other_y) / 2)


def are_marked(picture, lines, paths):
    for name, wanted in zip(("entries", "visits"), lines):
        marks = marks_of(picture, name)
        want(f"what marks {name}", {it.tag for it in marks} <= {MARKS[name]}, True)
        want(f"the marks of {name}", [(title(it), (it.get("href", "#X")[1:], place(it))) for it in marks], [(it, spot(it, paths)) for it in wanted])


def goes_along(motion, path):
    """A motion is at each step on the cell of the path."""
    last = len(path) - 1
    want("how long it takes", motion.get("dur"), seconds(last))
    places = [tuple(map(int, it.split(","))) for it in motion.get("values").split(";")]
    keys = motion.get("keyTimes")
    times = [float(it) for it in keys.split(";")] if keys else [at / (len(places) - 1) for at in range(len(places))]
    want("times from 0 to 1, one for each place", (len(times), times[0], times[-1], times), (len(places), 0, 1, sorted(times)))
    for step, (x, y) in enumerate(path):
        part = max(it for it in range(len(times) - 1) if times[it] <= step / last + 1e-5)
        along = (step / last - times[part]) / (times[part + 1] - times[part])
        found = [(1 - along) * a + along * b for a, b in zip(places[part], places[part + 1])]
        right = x - path[0][0], y - path[0][1]
        want(f"step {step}", all(abs(a - b) < 0.01 for a, b in zip(found, right)), True)


def moves(picture, lines, paths, leaves):
    """Each agent goes along its path, a step in 0.4 seconds; each entry is lit for the step of its time."""
    sets = [it.find(f"{SVG}set") for it in times(picture) for _ in it.findall(f"{SVG}use")]
    want("the times of entries", [it.get("begin") for it in sets], [seconds(time_of(it)) for it in lines[0]])
    want("how long entries are lit", {(it.get("dur"), it.get("fill")) for it in sets} <= {(seconds(1), None)}, True)
    for number, (part, path) in enumerate(zip(group(picture, "agents"), paths, strict=True)):
        motion, gone = part.find(f".//{SVG}animateMotion"), part.find(f".//{SVG}set")
        want("who starts where", (title(part), place(part.find(f".//{SVG}use"))), (f"agent {number}", path[0]))
        want("whether it moves", motion is not None, len(path) > 1)
        if motion is not None:
            goes_along(motion, path)
        want("when it is gone", gone if gone is None else gone.get("begin"), seconds(len(path)) if leaves[number] else None)


def stands(picture, time, lines, paths, leaves):
    """The agents are where they are at the time, and what is of that time is lit."""
    for name, wanted in zip(("entries", "visits"), lines):
        groups = times(picture) if name == "entries" else [group(picture, name)]
        lit = [title(mark) for it in groups for mark in it if "lit" in (it.get("class"), mark.get("class"))]
        want(f"what is lit of {name} at {time}", lit, [it for it in wanted if time_of(it) == time])
    there = [(f"agent {it}", cell_at(path, time)) for it, path in enumerate(paths) if not leaves[it] or time < len(path)]
    want(f"who is where at {time}", [(title(it), place(it.find(f".//{SVG}use"))) for it in group(picture, "agents")], there)
    want("what moves", [it.tag for it in picture.iter() if it.tag in (f"{SVG}animateMotion", f"{SVG}animate", f"{SVG}set")], [])


def line_of(path):
    """The line of a path: its turns, without its waits."""
    cells = [it for at, it in enumerate(path) if at == 0 or it != path[at - 1]]
    turned = cells[0]
    text = f"M{turned[0]} {turned[1]}"
    for at, (x, y) in list(enumerate(cells))[1:]:
        before = cells[at - 1]
        way = x - before[0], y - before[1]
        if at + 1 == len(cells) or (cells[at + 1][0] - x, cells[at + 1][1] - y) != way:
            text += f"h{x - turned[0]}" if way[0] else f"v{y - turned[1]}"
            turned = x, y
    return text


def routes(picture):
    """The line, the start and the goal of each agent."""
    for part in group(picture, "routes"):
        start, goal = part.findall(f"{SVG}use")
        yield title(part), part.findall(f"{SVG}path")[-1].get("d"), place(start), place(goal), len(part.findall(f"{SVG}path")) > 1


def settled(path):
    """A path up to where it rests for good."""
    return path[:max((at for at in range(1, len(path)) if path[at] != path[at - 1]), default=0) + 1]


def pictures_by_chance():
    """Random fleets on small maps in both modes: the moving picture, and still ones of some times."""
    chance = random.Random(20190713)
    for _ in range(40):
        fleet, mode = Fleet(chance), chance.choice(("stay", "disappear"))
        put("scene", fleet.map.encode()), put("edits", fleet.journal(mode).encode())
        words = ("--map", "scene", "--journal", "edits", "--mode", mode)
        paths, lines, picture = [settled(it) for it in fleet.paths], reported(*words), drawn(*words)[0]
        leaves = [mode == "disappear" and path[-1] == goal for path, goal in zip(paths, fleet.goals)]
        lacks = [(f"agent {it}", line_of(path), path[0], goal, path[-1] != goal) for it, (path, goal) in enumerate(zip(paths, fleet.goals))]
        want("the lines", list(routes(picture)), lacks)
        are_marked(picture, lines, paths), moves(picture, lines, paths, leaves)
        for time in {0, chance.randint(1, 8), 9}:
            picture, _ = drawn(*words, "--at", str(time))
            are_marked(picture, lines, paths), stands(picture, time, lines, paths, leaves)
    remove("scene", "edits")


def tests():
    yield "pictures_by_chance", pictures_by_chance
