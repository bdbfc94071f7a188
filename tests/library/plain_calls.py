"""Runs of calls on numbers, and what the plain program of the rules (tests/processes/plain.py) answers to them."""
import random

from processes.plain import ASKED, KINDS, Scene
from processes.plain_questions import named

RUNS, STEPS = 120, 60
BITS = {"vertex": 1, "edge": 4, "follow": 8, "swap": 16, "cycle": 32}


def numbers_of(entry):
    """An entry as eight numbers: none where its kind has no such agent or cell."""
    cells = [it for it in entry[2:] if isinstance(it, tuple)] + [(None, None)] * 2
    agents = [it for it in entry[2:] if not isinstance(it, tuple)]
    return (KINDS.index(entry[0]), entry[1], *agents[:2], *cells[0], *cells[1])


class Plain:
    """A desk by the plain program: each call gives a status and what is told."""

    def __init__(self, chance):
        self.chance, self.limit = chance, chance.choice((5, 40, 1000, 1000, 1000))
        self.scene, self.version = Scene(chance.randint(2, 5), chance.randint(1, 4), chance.choice(("stay", "disappear"))), 0
        self.mode = "disappear" if self.scene.leaving else "stay"

    def make(self, edit):
        """What comes of a commit of an edit, and the scene after it."""
        if self.version == self.limit:
            return "journal-full", None
        fault = self.scene.fault(edit)
        later = self.scene.copy()
        if fault is None:
            later.make(edit)
        return ("done", later) if fault is None else (fault.split()[0], None)

    def edit(self, edit):
        status, later = self.make(edit)
        if status == "done":
            self.scene, self.version = later, self.version + 1

    def beyond(self, agent, cells):
        return agent > 65535 or any(max(it) > 2047 for it in cells)

    def commit(self, agent, cells):
        if self.beyond(agent, cells):
            return "no-such-number", None
        status, later = self.make(("path", agent, *cells))
        if status == "done":
            self.scene, self.version = later, self.version + 1
        return status, self.version if status == "done" else None

    def entries(self, scene, agent):
        return [numbers_of(it) for it in scene.entries() if agent in named(it)]

    def try_path(self, agent, cells):
        if self.beyond(agent, cells):
            return "no-such-number", None
        status, later = self.make(("path", agent, *cells))
        return status, self.entries(later, agent) if status == "done" else None

    def conflicts(self, agent):
        if self.beyond(agent, []):
            return "no-such-number", None
        return ("done", self.entries(self.scene, agent)) if agent in self.scene.agents else ("unknown-agent", None)

    def solves(self, kinds):
        rows, wrong = self.scene.agents.values(), {it for kind in kinds for it in ASKED[kind]}
        done = all(path[-1] == goal for goal, path in rows) and not any(cell in self.scene.closed for _, path in rows for cell in path)
        return "done", done and not any(it[0] in wrong for it in self.scene.entries())

    def distance(self, agent, cell):
        if self.beyond(agent, [cell]):
            return "no-such-number", None
        if agent not in self.scene.agents:
            return "unknown-agent", None
        if not self.scene.holds(cell):
            return "out-of-map", None
        steps = self.scene.distance(cell, self.scene.agents[agent][0])
        return ("no-way", None) if steps is None else ("done", steps)

    def agent(self):
        """Mostly a live agent."""
        live, some = sorted(self.scene.agents), self.chance.random()
        if live and some < 0.85:
            return self.chance.choice(live)
        return self.chance.choice((0, 1, 2, 3, 4)) if some < 0.95 else self.chance.choice((65535, 65536, 4294967295))

    def cell(self):
        columns, rows = self.scene.size
        far = self.chance.random() < 0.05
        return (self.chance.choice((2047, 2048, 4294967295)), 0) if far else (self.chance.randrange(columns), self.chance.randrange(rows + 1))

    def path(self, agent):
        """Mostly a path of the agent on the map, from its start."""
        start = self.scene.agents[agent][1][0] if agent in self.scene.agents and self.chance.random() < 0.9 else self.cell()
        cells, (columns, rows) = [start], self.scene.size
        for _ in range(self.chance.randrange(7)):
            x, y = cells[-1]
            right, down = self.chance.choice(((0, 0), (1, 0), (-1, 0), (0, 1), (0, -1)))
            cells.append((min(max(0, x + right), columns - 1), min(max(0, y + down), rows - 1)))
        if self.chance.random() < 0.1:
            cells[self.chance.randrange(len(cells))] = self.cell()
        return [] if self.chance.random() < 0.03 else cells

    def edited(self):
        """An edit by a line."""
        agent, kind = self.chance.randrange(4), self.chance.choice(("agent",) * 6 + ("goal", "goal", "drop", "close", "open", "open"))
        cells = {"agent": 2, "goal": 1, "drop": 0}
        words = (agent, *(self.cell() for _ in range(cells[kind]))) if kind in cells else (self.cell(),)
        return (kind, *words) if all(max(it) < 2048 for it in words if isinstance(it, tuple)) else ("drop", agent)


def asked(chance, plain):
    """A call, its words, and what the plain program answers to it."""
    kind, agent = chance.choice(("commit",) * 4 + ("try",) * 3 + ("conflicts", "solves", "distance", "version")), plain.agent()
    if kind in ("commit", "try"):
        cells = plain.path(agent)
        return kind, (agent, cells), plain.commit(agent, cells) if kind == "commit" else plain.try_path(agent, cells)
    if kind == "conflicts":
        return kind, (agent,), plain.conflicts(agent)
    if kind == "solves":
        kinds = tuple(chance.sample(sorted(BITS), chance.randrange(6)))
        return kind, (kinds,), plain.solves(kinds)
    if kind == "distance":
        cell = plain.cell()
        return kind, (agent, cell), plain.distance(agent, cell)
    return kind, (), ("done", plain.version)


def turning():
    """Four agents that turn in a ring, of which the last one's path is tried before it is committed."""
    plain, corners, steps = Plain(random.Random(0)), [(0, 0), (1, 0), (1, 1), (0, 1)], []
    plain.scene, plain.mode, plain.limit = Scene(2, 2, "stay"), "stay", 9
    begun = plain.scene.text(), plain.mode, plain.limit
    for agent, (start, end) in enumerate(zip(corners, corners[1:] + corners[:1])):
        edit = "agent", agent, start, end
        plain.edit(edit)
        tried = ("try", (agent, [start, end]), plain.try_path(agent, [start, end]))
        steps += [("edit", edit, None), tried, ("commit", (agent, [start, end]), plain.commit(agent, [start, end]))]
    return begun, [*steps, ("conflicts", (3,), plain.conflicts(3)), ("solves", (("cycle",),), plain.solves(("cycle",)))]


def runs():
    """Runs of edits and calls: the desk to be opened, and for each step its kind, its words, and the answer to a call."""
    yield turning()
    for seed in range(RUNS):
        chance = random.Random(seed)
        plain, steps = Plain(chance), []
        begun = plain.scene.text(), plain.mode, plain.limit
        for _ in range(STEPS):
            if chance.random() < (0.6 if len(plain.scene.agents) < 3 else 0.12):
                edit = plain.edited()
                plain.edit(edit)
                steps.append(("edit", edit, None))
            else:
                steps.append(asked(chance, plain))
        yield begun, steps
