"""The word `draw`: solvers' paths and journals, agents that aren't shown, its size and time, its faults, the pictures of docs/."""
import random

from .checks import FIELD, TASKS
from .faulty_checks import DRAWING_FAULTS, UNDRAWN
from .fleets import Fleet, verdict
from .plain import ASKED
from .pictures import SVG, are_marked, drawn, group, reported, routes, title
from .running import TOP, Wrong, bytes_of, is_answered, is_fault, processor_time, put, remove, run, second, want
from .telling import expected

DEMO = f"{TOP}/demo"
MOST_SECONDS = 4  # of four processors together
MOST_BYTES = 5_000_000

# Words of a run with a fault, and what --verbose adds.
MORE = [
    ("--map map_letter", "map: bad letter in row 0, column 1", "line 5: .x."),
    ("--map m --journal journal_line", "journal: bad line 3", "line 3: entry 00 0 0 1"),
    ("--map m --journal j", "journal: entry 1 refused", "faulty 0 unknown-agent: entry 0 0 0 1;path 0 0,0 1,0 2,0;"),
    ("--map m --paths bad_path", "paths: bad path in line 1", "line 1: path 0 x (expected path AGENT X,Y X,Y ..)"),
    ("--map none", "can't read none", "No such file or directory (os error 2)"),
    ("--map m --scen s --paths jumps", "paths: agent 0 at time 3: out-of-map", "3,0"),
    ("--map m --paths jumps", "paths: moves need --scen", None),
]


def are_faults(word):
    """The faults of a picture, or a page, in their order, and nothing on standard output."""
    put("bad_path", b"path 0 x\n"), put("jumps", b"rrr\n")
    for words, text in DRAWING_FAULTS:
        is_fault([word, *words.split()], text)
    for words, text, more in MORE:
        is_fault([word, *words.split(), "-v"], text if more is None else f"{text}\n  {more}")
    remove("bad_path", "jumps")


def faults():
    are_faults("draw")


def wrong_paths():
    """Where a path isn't one there is no picture; --verbose adds the cells that show it."""
    put("field", FIELD), put("tasks", TASKS)
    for words, paths, text, cells in UNDRAWN:
        put("faulty", paths)
        for word in ("draw", "page"):
            is_fault([word, *words.split(), "--paths", "faulty"], f"paths: {text}")
            more = "" if cells is None else f"\n  {cells}{expected(text)}"
            is_fault([word, *words.split(), "--paths", "faulty", "-v"], f"paths: {text}{more}")
    remove("field", "tasks", "faulty")


def full_device():
    """Standard output takes nothing."""
    with open("/dev/full", "w") as full:
        status, _, complained = run(["draw", "--map", "m"], stdout=full)
    want("what draw says", (status, complained), (2, "mapf_desk: write failed\n"))


def forms_of_paths():
    """One fleet in the three forms, with its tasks and without, is drawn as its journal is."""
    chance = random.Random(3)
    for _ in range(5):
        fleet = Fleet(chance)
        fleet.goals = [it[-1] for it in fleet.paths]
        put("scene", fleet.map.encode()), put("tasks", fleet.scen().encode()), put("edits", fleet.journal("stay").encode())
        right = run(["draw", "--map", "scene", "--journal", "edits"])
        for text in (fleet.by_agent(), fleet.by_session()):
            put("paths", text.encode())
            want("the picture", run(["draw", "--map", "scene", "--paths", "paths"]), right)
            want("the picture of tasks", run(["draw", "--map", "scene", "--paths", "paths", "--scen", "tasks"]), right)
    put("paths", b"solution=\n0:(0,0),(2,0),\n1:(1,0),(2,0),\n2:(2,0),(2,0),\n")
    put("edits", b"path 0 0,0 1,0 2,0\npath 1 2,0 2,0 2,0\n")
    want("a picture by time", run(["draw", "--map", "m", "--paths", "paths"]), run(["draw", "--map", "m", "--paths", "edits"]))
    remove("scene", "tasks", "edits", "paths")


def agents_of_a_scenario():
    """Without paths agents rest at their starts, as many as are asked for; none are where no number is."""
    want("nobody", list(routes(drawn("--map", "m", "--scen", "s")[0])), [])
    want("one", list(routes(drawn("--map", "m", "--scen", "s", "--agents", "1")[0])), [("agent 0", "M0 0", (0, 0), (2, 0), True)])


def some_agents():
    """Agents that aren't shown have no line and no body; the marks and the key are as before."""
    words = ("--map", f"{DEMO}/warehouse.map", "--scen", f"{DEMO}/warehouse.scen", "--paths", f"{DEMO}/warehouse.alone")
    for more in ((), ("--at", "7")):
        whole, part = drawn(*words, *more)[0], drawn(*words, *more, "--agents-shown", "3-5")[0]
        for name in ("routes", "agents"):
            want(f"who is in {name}", [title(it) for it in group(part, name)], ["agent 3", "agent 4", "agent 5"])
            want(f"who was in {name}", [title(it) for it in group(whole, name)], [f"agent {it}" for it in range(60)])
        for name in ("visits", "entries", "rings", "key"):
            want(name, [list(it.itertext()) for it in group(part, name)], [list(it.itertext()) for it in group(whole, name)])


def colours():
    """The heading has the colour of the verdict for the kinds that are named, and for all kinds where none is."""
    chance, seen = random.Random(31), set()
    for _ in range(200):
        fleet = Fleet(chance)
        put("scene", fleet.map.encode()), put("edits", fleet.journal("stay").encode())
        words = ("--map", "scene", "--journal", "edits")
        report = run(["audit", *words])[1]
        for kinds in ([], chance.sample(sorted(ASKED), chance.randint(1, 4))):
            found = {it.get("class") for it in group(drawn(*words, *(["--solves", *kinds] if kinds else []))[0], "key") if it.get("class") in ("good", "bad")}
            right = verdict(report, kinds or ASKED)
            want(f"the colour for {kinds}", found, {"good" if right == "yes" else "bad"})
            seen.add((bool(kinds), right))
    remove("scene", "edits")
    want("what was seen", seen, {(some, right) for some in (True, False) for right in ("yes", "no")})


def walk(chance, side, steps):
    x, y = chance.randrange(side), chance.randrange(side)
    cells = [(x, y)]
    for _ in range(steps):
        across, down = chance.choice(((0, 0), (1, 0), (-1, 0), (0, 1), (0, -1)))
        x, y = min(max(x + across, 0), side - 1), min(max(y + down, 0), side - 1) if across == 0 else y
        cells.append((x, y))
    return cells


def is_small(closed, side):
    """1,000 agents on random walks of 200 cells, on a map of that side, of which that share is closed: 5 MB at most, in 4 seconds
    of processor time, and the marks are the report."""
    chance = random.Random(closed)
    rows = "".join("".join("@" if chance.random() < closed else "." for _ in range(side)) + "\n" for _ in range(side))
    paths = [walk(chance, side, 199) for _ in range(1000)]
    put("scene", f"type octile\nheight {side}\nwidth {side}\nmap\n{rows}".encode())
    lines = [f"agent {n} {it[0][0]},{it[0][1]} {it[-1][0]},{it[-1][1]}\npath {n} " + " ".join(f"{x},{y}" for x, y in it) + "\n" for n, it in enumerate(paths)]
    put("edits", ("journal 2\nmode stay\nentry 0 0 0 2000\n" + "".join(lines) + "end 1\n").encode())
    words = ("--map", "scene", "--journal", "edits")
    most, began = MOST_SECONDS * second(), processor_time()
    picture, size = drawn(*words)
    took = processor_time() - began
    are_marked(picture, reported(*words), paths)
    remove("scene", "edits")
    most = max(most, MOST_SECONDS * second())
    if size > MOST_BYTES or took > most:
        raise Wrong(f"{size} bytes in {took:.1f} s of {most:.1f}")


def large_map():
    """A map of 1,024 x 1,024, of which a fifth is closed: at most 5 MB."""
    chance = random.Random(1024)
    rows = "".join("".join("@" if chance.random() < 0.2 else "." for _ in range(1024)) + "\n" for _ in range(1024))
    put("scene", f"type octile\nheight 1024\nwidth 1024\nmap\n{rows}".encode())
    _, size = drawn("--map", "scene")
    remove("scene")
    want("whether it is small", size <= MOST_BYTES, True)


# The pictures of docs/, and the words that draw them.
PICTURES = {
    "corridor-before": f"--map {DEMO}/corridor.map --scen {DEMO}/corridor.scen --paths {DEMO}/corridor.meeting",
    "corridor-after": f"--map {DEMO}/corridor.map --scen {DEMO}/corridor.scen --paths {DEMO}/corridor.paths",
    "warehouse": f"--map {DEMO}/warehouse.map --scen {DEMO}/warehouse.scen --paths {DEMO}/warehouse.alone",
}


def pictures_of_docs():
    """Each is what the program draws now."""
    for name, words in PICTURES.items():
        want(name, run(["draw", *words.split()])[1], bytes_of(f"{TOP}/docs/{name}.svg").decode())


# Worked pictures: a map, edits, other words, and the file that has the whole text.
SCENES = f"{TOP}/tests/pictures"
WHOLE = [
    (f"{DEMO}/corridor.map", "meeting", "", f"{TOP}/docs/corridor-before.svg"),
    (f"{DEMO}/corridor.map", "meeting", "--at 3", f"{SCENES}/meeting-at-3.svg"),
    (f"{DEMO}/corridor.map", "solved", "", f"{TOP}/docs/corridor-after.svg"),
    (f"{SCENES}/yard.map", "yard", "", f"{SCENES}/yard.svg"),
    (f"{SCENES}/yard.map", "yard", "--at 1", f"{SCENES}/yard-at-1.svg"),
    (f"{SCENES}/yard.map", "yard", "--mode disappear --at 6", f"{SCENES}/yard-left-at-6.svg"),
]


def is_whole(ground, scene, words, file):
    """The journal of these edits is drawn as the file has it."""
    mode, edits = "disappear" if "disappear" in words else "stay", bytes_of(f"{SCENES}/{scene}.edits")
    put("edits", b"journal 2\nmode %s\nentry 0 0 0 %d\n%send 1\n" % (mode.encode(), edits.count(b"\n"), edits))
    is_answered(["draw", "--map", ground, "--journal", "edits", *words.split()], b"", bytes_of(file).decode())
    remove("edits")


def tests():
    for row in WHOLE:
        yield f"draw_{row[1]} {row[2]}".rstrip(), lambda row=row: is_whole(*row)
    for test in (faults, wrong_paths, full_device, forms_of_paths, agents_of_a_scenario, some_agents, colours, large_map, pictures_of_docs):
        yield f"draw_{test.__name__}", test
    # With a fifth of the cells closed there are 39,511 blocked visits, and on the smallest map 29,382 entries, each with its mark.
    for closed, side in ((0, 256), (0.1, 256), (0.2, 256), (0, 128), (0, 100)):
        yield f"draw_1000_agents_on_{side}_where_{closed:.0%}_is_closed", lambda closed=closed, side=side: is_small(closed, side)
