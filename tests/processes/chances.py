"""Random scenes and random commits, beside a plain program of the rules (plain.py)."""
import random

from .hosting import Hosted
from .plain import Scene, line_of
from .running import bytes_of, is_answered, put, remove, want

STARTS = [((0, 0), (2, 0)), ((2, 1), (0, 1)), ((1, 0), (1, 1))]  # of agents 0 to 2, with their goals
AGENTS, ROUNDS = 4, 600


def some_cell(chance, size):
    return chance.randrange(size[0]), chance.randrange(size[1])


def walk(chance, size, start, most):
    """Steps and waits from a cell on, so many at most; where a step would leave the map the walk waits."""
    cells = [start]
    for _ in range(chance.randint(0, most)):
        x, y = cells[-1]
        there = chance.choice([(x + 1, y), (x - 1, y), (x, y + 1), (x, y - 1), (x, y)])
        cells.append(there if min(there) >= 0 and there[0] < size[0] and there[1] < size[1] else (x, y))
    return cells


def fronts(chance, size):
    """The first cells of the walks of up to eight agents; by chance four of them go round in a ring, which others may break."""
    ring = [(0, 0), (1, 0), (1, 1), (0, 1)] if min(size) > 1 and chance.random() < 0.25 else []
    return [[cell, ring[(at + 1) % 4]] for at, cell in enumerate(ring)] + [[some_cell(chance, size)] for _ in range(chance.randint(0, 8 - len(ring)))]


def wandering(chance, size):
    """Edits of up to eight agents that walk about, of which some come to their goals, and of a cell that is closed."""
    edits = []
    for agent, front in enumerate(fronts(chance, size)):
        path = front[:-1] + walk(chance, size, front[-1], 8)
        goal = path[-1] if chance.random() < 0.5 else some_cell(chance, size)
        edits += [("agent", agent, path[0], goal), ("path", agent, *path)]
    return edits + [("close", some_cell(chance, size))] * chance.randint(0, 1)


ALL = {"vertex", "parked", "edge", "follow", "swap", "cycle", "visit"}


def audits_of_random_scenes():
    """300 scenes of both modes, each audited by 1, 2, 3, 7 and 64 workers: the report is the plain one."""
    chance, kinds = random.Random(11), set()
    for _ in range(300):
        size, mode = (chance.randint(1, 4), chance.randint(1, 3)), chance.choice(("stay", "disappear"))
        scene, edits = Scene(*size, mode), wandering(chance, size)
        for edit in edits:
            want(f"the fault of {edit}", scene.fault(edit), None)
            scene.make(edit)
        entry = f"entry 0 0 0 {len(edits)}\n" + "".join(map(line_of, edits)) if edits else ""
        put("scene", scene.text().encode()), put("edits", f"journal 2\nmode {mode}\n{entry}end {len(edits) > 0:d}\n".encode())
        report = scene.report()
        kinds |= {it.split()[0] for it in report.splitlines()}
        for workers in (1, 2, 3, 7, 64):
            words = ["audit", "--map", "scene", "--journal", "edits", "--mode", mode, "--workers", str(workers)]
            is_answered(words, b"", f"version {len(edits) > 0:d}\n{report}")
    want("which kinds of lines were met", kinds & ALL, ALL)
    remove("scene", "edits")


class Desk:
    """A scene, and a journal: of each entry its text, and the things that it names."""

    def __init__(self, mode):
        self.scene, self.entries, self.named = Scene(3, 2, mode), [], []
        for agent, (start, goal) in enumerate(STARTS):
            self.scene.make(("agent", agent, start, goal))

    def last_naming(self, thing):
        return max((number for number, named in enumerate(self.named, 1) if thing in named), default=0)

    def refusal(self, base, watch, edits):
        """Why a commit on that base is refused; none where it is accepted, and then it stands."""
        if not edits:
            return "no-edits"
        for thing in [*watch, *map(subject, edits)]:
            last = self.last_naming(thing)
            if last > base:
                return f"stale {len(self.entries)} {line_of(thing)[:-1]} {last}"
        scene = self.scene.copy()
        for index, edit in enumerate(edits):
            fault = scene.fault(edit)
            if fault:
                return f"faulty {index} {fault}"
            scene.make(edit)
        self.scene = scene
        return None

    def enter(self, planner, base, watch, edits):
        lines = [*(("watch", *it) for it in watch), *edits]
        self.entries.append(f"entry {planner} {base} {len(watch)} {len(edits)}\n" + "".join(map(line_of, lines)))
        self.named.append({subject(it) for it in edits} | {("map",) for it in edits if it[0] in ("open", "close")})


def subject(edit):
    return ("cell", edit[1]) if edit[0] in ("open", "close") else ("agent", edit[1])


def some_place(chance):
    """A cell of the map, and seldom one beside it."""
    x, y = some_cell(chance, (3, 2))
    return (3, y) if chance.randrange(24) == 0 else (x, y)


def some_edit(chance, scene, agent):
    """An edit of the agent or of a cell, which is mostly allowed."""
    start, time = scene.place(agent, 0) if agent in scene.agents else (0, 0), chance.randint(0, 1)
    here = scene.agents[agent][1][:time + 1][-1] if agent in scene.agents else start
    kind = chance.choice(["close", "open", "open", "drop", "agent", "agent", "goal", "tail", "tail", "path"])
    return {
        "close": (kind, some_place(chance)), "open": (kind, some_place(chance)), "drop": (kind, agent),
        "agent": (kind, agent, some_place(chance), some_place(chance)), "goal": (kind, agent, some_place(chance)),
        "tail": (kind, agent, time, *walk(chance, (3, 2), here, 4)[1:]), "path": (kind, agent, *walk(chance, (3, 2), start, 4)),
    }[kind]


def twice(chance, scene):
    """The agent goes and comes again, or has two paths one after the other."""
    agent = chance.randrange(AGENTS)
    if chance.random() < 0.5:
        return [("drop", agent), ("agent", agent, some_place(chance), some_place(chance))]
    start = scene.place(agent, 0) if agent in scene.agents else (0, 0)
    return [("path", agent, *walk(chance, (3, 2), start, 4)) for _ in range(2)]


def some_commit(chance, scene):
    """A watch or none, and one edit or several, of which two may be of one agent; seldom no edit."""
    things = [("map",), ("cell", some_place(chance)), *[("agent", chance.randrange(AGENTS))] * 2]
    watch = [chance.choice(things)] if chance.randrange(3) == 0 else []
    edits = twice(chance, scene) if chance.randrange(3) == 0 else []
    return watch, edits + [some_edit(chance, scene, chance.randrange(AGENTS)) for _ in range(chance.randint(0, 2))]


class Gatherer:
    """A planner that begins on the present version, and commits once others may have."""

    def __init__(self, seat, planner):
        self.seat, self.planner, self.base = seat, planner, 0
        self.seat.ask(b"begin", b"base 0")

    def commit(self, desk, watch, edits):
        """Commits what it is told to on its base, and begins anew. Gives the refusal, or none."""
        for line in [*(("watch", *it) for it in watch), *edits]:
            self.seat.ask(line_of(line)[:-1].encode(), b"kept")
        refusal = desk.refusal(self.base, watch, edits)
        if refusal is None:
            desk.enter(self.planner, self.base, watch, edits)
        answer = f"refused {refusal}" if refusal else f"version {len(desk.entries)}"
        self.seat.ask(b"commit", answer.encode())
        self.base = len(desk.entries)
        self.seat.ask(b"begin", f"base {self.base}".encode())
        return refusal


def commits_in(mode):
    """600 commits of three planners, each refused or accepted as the journal says, and after each the plain report. Gives what came of them."""
    chance, desk, counts = random.Random(mode), Desk(mode), {"accepted": 0, "stale": 0, "no-edits": 0, "faulty": 0, "twice": 0, "tails": 0}
    with Hosted(["p1", "p2", "p3"], "--mode", mode, "--scen", "tasks", "--agents", "3", "--save", "kept", ground="scene") as hosted:
        planners = [Gatherer(seat, number) for number, seat in enumerate(hosted.seats(), 1)]
        for _ in range(ROUNDS):
            watch, edits = some_commit(chance, desk.scene)
            refusal = chance.choice(planners).commit(desk, watch, edits)
            counts[refusal.split()[0] if refusal else "accepted"] += 1
            if not refusal:
                counts["twice"] += len(edits) > 1 and subject(edits[0]) == subject(edits[1])
                counts["tails"] += any(it[0] == "tail" for it in edits)
            hosted.operator.ask(b"report\n", f"version {len(desk.entries)}\n{desk.scene.report()}".encode())
        for it in planners:
            it.seat.close()
        hosted.ends(0, b"audit same\n", b"")
    want("the journal", bytes_of("kept").decode(), f"journal 2\nmode {mode}\n{''.join(desk.entries)}end {len(desk.entries)}\n")
    return counts


def random_commits_beside_the_journal_and_the_plain_report():
    """What the journal alone says of stale commits, and the report over all pairs, in both modes."""
    tasks = "".join(f"0 f 3 2 {x} {y} {a} {b} 0\n" for (x, y), (a, b) in STARTS)
    put("scene", Scene(3, 2, "stay").text().encode()), put("tasks", f"version 1\n{tasks}".encode())
    for mode in ("stay", "disappear"):
        counts = commits_in(mode)
        want(f"whether enough of {counts} were accepted", 100 < counts["accepted"] < 500, True)
        want(f"whether each kind is among {counts}", counts["twice"] > 20 and counts["tails"] > 10 and min(counts.values()) > 0, True)
    remove("scene", "tasks", "kept")


def tests():
    for test in (audits_of_random_scenes, random_commits_beside_the_journal_and_the_plain_report):
        yield test.__name__, test
