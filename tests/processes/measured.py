"""What `tools/speed` measures, on small fleets and maps: how many entries a fleet has and how many with the edit of one agent, the lines of its
reports, and the distances on large maps. Edits there and back leave all as it was.

Expected values are formulas of the paths of `shapes.py`, or found by plain searches.
"""
from collections import Counter

from . import shapes
from .plain import KINDS, Scene
from .running import is_answered, put, remove, run, want

TURNS = 3  # in which a fleet is edited, and edited back
SIDES = 168, 120  # columns and rows of the large maps
MOST = 1024  # columns and rows of a map of as many cells as there may be


def convoys(rows, agents):
    """Entries of so many convoys of so many agents each, and where the one in the middle of the first waits a step.

    In each of 64 steps each agent but the first of a convoy steps into the cell that the next one leaves: 64 Following for each of them. The
    one that waits has 64 with the one behind it and follows 64 times itself, and loses these 128. Then the one behind it follows it in the
    first step alone, is with it at the 64 times after that (Vertex; it has a step to go at the last of them) and goes with it in the 63 steps
    between (Edge); the one behind these two follows it as well in these 63 steps; and it follows nobody.
    """
    follow = 64 * (agents - 1) * rows
    return {"follow": follow}, {"follow": follow - 128 + 1 + 63, "vertex": 64, "edge": 63}


# Fleets, and what entries they have with the one path and with the other. The two beside a convoy meet nobody. The long path's agent is alone
# in its two cells; where it ends beside them, another rests there, which it follows in the last step and is parked with. Of those apart each
# has two cells to itself, also where it waits first.
FLEETS = [
    ("convoy", 64, lambda: shapes.convoy(64), convoys(1, 64)), ("convoy", 256, lambda: shapes.convoy(256), convoys(1, 256)),
    ("among", 66, lambda: shapes.among(64), convoys(1, 64)), ("among", 258, lambda: shapes.among(256), convoys(1, 256)),
    ("rows", 64, lambda: shapes.rows(1, 64), convoys(1, 64)), ("rows", 256, lambda: shapes.rows(4, 64), convoys(4, 64)),
    ("long", 101, lambda: shapes.long(2001), ({}, {"follow": 1, "parked": 1})), ("apart", 256, lambda: shapes.apart(256), ({}, {})),
]


def reports_after(fleet, steps):
    """The lines of the report after each of some lists of edits, the first of which is of nobody."""
    put("fleet", shapes.map_of(fleet.letters).encode())
    status, said, complained = run(["serve", "--map", "fleet"], "".join(f"{shapes.lines_of(edits)}report\n" for edits in steps).encode())
    remove("fleet")
    want("the end", (status, complained), (0, ""))
    answers, version, reports = said.split("end\n"), 0, []
    for edits, answer in zip(steps, answers):
        accepted = "".join(f"version {version + number}\n" for number in range(1, len(edits) + 1))
        version += len(edits)
        want("the versions", answer.partition("agents")[0], f"{accepted}version {version}\n")
        reports.append(answer[len(accepted) :].split("\n")[1:-1] + ["end"])
    want("how many reports there are", len(reports), len(answers) - 1)
    return reports


def both_ways(fleet):
    """The reports with the one path and with the other, which are the same in each turn, and behind turns in which the agent goes and comes again."""
    again = [("drop", fleet.there[1]), *fleet.coming(fleet.there[1])]
    own, other, *later = reports_after(fleet, [fleet.all_coming(), *[[fleet.there], [fleet.back]] * TURNS, *[again] * TURNS])
    for report, right in zip(later, [own, other] * (TURNS - 1) + [own] * (1 + TURNS), strict=True):
        want("a later report", report, right)
    return own, other


def entries_of(report):
    """How many entries of each kind the report has, as many in all as it says."""
    found = Counter(kind for kind in (line.split()[0] for line in report) if kind in KINDS)
    want("how many conflicts it tells", [it for it in report if it.startswith("conflicts")], [f"conflicts {sum(found.values())}"])
    return found


def entries(fleet, agents, wanted):
    for report, right in zip(both_ways(fleet), wanted, strict=True):
        want("how many agents there are", report[0], f"agents {agents}")
        want("how many entries there are", entries_of(report), right)


def reports_of_a_crowd():
    """60 agents on shortest paths, beside the plain program, over all pairs at all times."""
    fleet = shapes.crowd(60, 16)
    scene = Scene(16, 16, "stay")
    for edit in fleet.all_coming():
        scene.make(edit)
    own = scene.report().split("\n")[:-1]
    scene.make(fleet.there)
    other = scene.report().split("\n")[:-1]
    want("the two reports", both_ways(fleet), (own, other))
    want("whether the other path has other entries", entries_of(own) != entries_of(other), True)


def agent_line(agent, waits, own_goals):
    """An agent that is back at its start after 64 steps, behind a step of waiting perhaps; its goal is there, or the corner."""
    settle, far = 64 + waits, 0 if own_goals else agent % 64 * 2 + agent // 64
    return f"agent {agent} settle {settle} " + (f"goal yes bound 0 gap {settle}" if far == 0 else f"goal no bound {far} gap none")


def lines_of_reports(own_goals):
    """128 agents who meet nobody, each of whom has a line in the report: an edit of one of them changes that line, and totals."""
    own, other = both_ways(shapes.apart(128, own_goals))
    for report, waits in ((own, 0), (other, 1)):
        agents = [agent_line(agent, waits * (agent == 64), own_goals) for agent in range(128)]
        costs = [f"sum {64 * 128 + waits}", f"makespan {64 + waits}", "bounds 0", f"gap {64 * 128 + waits}"]
        # Two rows of 64 agents, who start 0, 2, .. 126 steps from the corner in the first one, and a step more in the second.
        far = ["sum none", "makespan none", f"bounds {2 * 64 * 63 + 64}", "gap none"]
        want("the report", report, ["agents 128", *agents, "conflicts 0", "blocked 0", *(costs if own_goals else far), "end"])
    lines = [number for number, (one, two) in enumerate(zip(own, other)) if one != two and one.startswith("agent ")]
    want("the lines of agents that change", lines, [1 + 64])


def beside(cell):
    x, y = cell
    return (x + 1, y), (x - 1, y), (x, y + 1), (x, y - 1)


def search(letters, goal, closed):
    """The least number of steps from each cell to the goal, where there is a way, by a plain breadth-first search."""
    columns, rows = len(letters[0]), len(letters)
    is_open = lambda cell: 0 <= cell[0] < columns and 0 <= cell[1] < rows and letters[cell[1]][cell[0]] == "." and cell != closed
    ring = [goal] if is_open(goal) else []
    found = dict.fromkeys(ring, 0)
    for cell in ring:
        for near in beside(cell):
            if near not in found and is_open(near):
                found[near] = found[cell] + 1
                ring.append(near)
    return found


def are_told(letters, edits, questions, told):
    """The questions have those answers behind the edits, and with each of some cells closed, and opened again."""
    want("whether each cell that closes changes distances", len(set(told.values())), len(told))
    asked, version = shapes.lines_of(questions), len(edits)
    lines = shapes.lines_of(edits) + asked
    answers = "".join(f"version {it}\n" for it in range(1, version + 1)) + told[None]
    for closed in filter(None, told):
        lines += shapes.lines_of([("close", closed)]) + asked + shapes.lines_of([("open", closed)]) + asked
        answers += f"version {version + 1}\n{told[closed]}version {version + 2}\n{told[None]}"
        version += 2
    put("large", shapes.map_of(letters).encode())
    is_answered(["serve", "--map", "large"], lines.encode(), answers)
    remove("large")


def distances(kind):
    """Each cell of a large map is asked for its distance, before and after a cell closes and opens: one beside the goal, one in the middle."""
    letters = shapes.letters_of(kind, *SIDES)
    cells = [(x, y) for y in range(SIDES[1]) for x in range(SIDES[0])]
    first = next(it for it in beside(shapes.CORNER) if it in search(letters, shapes.CORNER, None))
    told = {}
    for closed in (None, first, shapes.middle_of(letters)):
        found = search(letters, shapes.CORNER, closed)
        told[closed] = "".join(f"distance {found.get(it, 'none')}\n" for it in cells)
    are_told(letters, [("agent", 0, shapes.CORNER, shapes.CORNER)], [("distance", 0, it) for it in cells], told)


def distances_on_most_cells(kind):
    """On a map of as many cells as there may be each fourth cell of each fourth row is asked for its distance, and of each side the last one."""
    letters = shapes.letters_of(kind, MOST, MOST)
    found, places = search(letters, shapes.CORNER, None), [*range(0, MOST, 4), MOST - 1]
    cells = [(x, y) for y in places for x in places]
    told = {None: "".join(f"distance {found.get(it, 'none')}\n" for it in cells)}
    are_told(letters, [("agent", 0, shapes.CORNER, shapes.CORNER)], [("distance", 0, it) for it in cells], told)


def distances_to_many_goals():
    """Cells beside one that closes and opens, and that cell, are asked for the distances to 200 goals, which are those from there."""
    fleet = shapes.held(200, *SIDES)
    middle = fleet.there[1]
    told = {}
    for closed in (None, middle):
        found = [search(fleet.letters, it, closed) for it in (middle, *beside(middle))]
        told[closed] = "".join(f"distance {each.get(goal, 'none')}\n" for each in found for goal in fleet.goals)
    are_told(fleet.letters, fleet.all_coming(), [("distance", agent, it) for it in (middle, *beside(middle)) for agent in range(200)], told)


def tests():
    for name, agents, fleet, wanted in FLEETS:
        yield f"entries_of_{name}_of_{agents}", lambda agents=agents, fleet=fleet, wanted=wanted: entries(fleet(), agents, wanted)
    yield reports_of_a_crowd.__name__, reports_of_a_crowd
    for name, own_goals in (("the_same_goal", False), ("goals_of_their_own", True)):
        yield f"lines_of_reports_with_{name}", lambda own_goals=own_goals: lines_of_reports(own_goals)
    for kind in ("open", "maze", "obstacles"):
        yield f"distances_on_a_large_map_{kind}", lambda kind=kind: distances(kind)
        yield f"distances_on_most_cells_{kind}", lambda kind=kind: distances_on_most_cells(kind)
    yield distances_to_many_goals.__name__, distances_to_many_goals
