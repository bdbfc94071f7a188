"""A plain program of the rules of docs/RULES.md: edits on a scene, and the text of its report, over all pairs and times.

A cell is a pair of a column and a row. An edit is the words of its line in a session, with numbers and cells for texts.
"""
from itertools import combinations, permutations

MOST_AGENTS, MOST_CELLS = 8192, 131072
KINDS = ("vertex", "parked", "edge", "follow", "swap", "cycle")
# The kinds that a word of `solves` asks for.
ASKED = {"vertex": ("vertex", "parked"), "edge": ("edge",), "follow": ("follow",), "swap": ("swap",), "cycle": ("cycle",)}


def shown(cell):
    return "none" if cell is None else f"{cell[0]},{cell[1]}"


def line_of(edit):
    """The edit as a line of a session."""
    return " ".join(shown(it) if isinstance(it, tuple) else str(it) for it in edit) + "\n"


def is_step(one, other):
    return abs(one[0] - other[0]) + abs(one[1] - other[1]) <= 1


def first_jump(cells):
    """The index of the first cell that is no step from the one before; none where there is no such cell."""
    return next((at for at in range(1, len(cells)) if not is_step(cells[at - 1], cells[at])), None)


def without_last_waits(cells):
    last = len(cells)
    while last > 1 and cells[last - 1] == cells[last - 2]:
        last -= 1
    return cells[:last]


class Scene:
    """A map, a mode, and for each agent a goal and a path."""

    def __init__(self, columns, rows, mode):
        self.size, self.leaving = (columns, rows), mode == "disappear"
        self.closed, self.agents = frozenset(), {}

    def copy(self):
        other = Scene(*self.size, "disappear" if self.leaving else "stay")
        other.closed, other.agents = self.closed, dict(self.agents)
        return other

    def holds(self, cell):
        return cell[0] < self.size[0] and cell[1] < self.size[1]

    def text(self):
        """The map's text, before any cell was closed."""
        columns, rows = self.size
        return f"type octile\nheight {rows}\nwidth {columns}\nmap\n" + ("." * columns + "\n") * rows

    def fault(self, edit):
        """Why the edit is refused, in the words of a session; none where it isn't."""
        kind, *words = edit
        cells = [it for it in words if isinstance(it, tuple)]
        if kind == "agent" and words[0] in self.agents:
            return "agent-taken"
        if kind == "agent" and len(self.agents) == MOST_AGENTS:
            return "too-many-agents"
        if kind in ("drop", "goal", "path", "tail") and words[0] not in self.agents:
            return "unknown-agent"
        if not all(self.holds(it) for it in cells):
            return "out-of-map"
        if kind in ("path", "tail"):
            return self.fault_of_path(kind, words, cells)
        return None

    def fault_of_path(self, kind, words, cells):
        path = self.agents[words[0]][1]
        if kind == "path" and not cells:
            return "empty-path"
        if kind == "path" and cells[0] != path[0]:
            return "not-from-start"
        if kind == "tail" and words[1] >= len(path):
            return "no-such-time"
        whole = path[:words[1] + 1] + cells if kind == "tail" else cells
        if len(whole) > MOST_CELLS:
            return "too-long"
        at = first_jump(whole)
        return None if at is None else f"not-a-step {at}"

    def make(self, edit):
        """Makes a lawful edit."""
        kind, named, *words = edit
        goal, path = self.agents.get(named, (None, None))
        if kind in ("open", "close"):
            self.closed = self.closed - {named} if kind == "open" else self.closed | {named}
        elif kind == "drop":
            del self.agents[named]
        elif kind == "agent":
            self.agents[named] = words[1], [words[0]]
        elif kind == "goal":
            self.agents[named] = words[0], path
        else:
            front = path[:words[0] + 1] if kind == "tail" else []
            self.agents[named] = goal, without_last_waits(front + [it for it in words if isinstance(it, tuple)])

    def distance(self, start, goal):
        """The least number of steps over open cells; none where there is no way."""
        seen, ring, steps = {start}, {start} - self.closed, 0
        while ring and goal not in ring:
            ring = {it for x, y in ring for it in ((x + 1, y), (x - 1, y), (x, y + 1), (x, y - 1))
                    if min(it) >= 0 and self.holds(it) and it not in seen and it not in self.closed}
            seen |= ring
            steps += 1
        return steps if ring else None

    def place(self, agent, time):
        """Where the agent is at the time; none once it has left."""
        goal, path = self.agents[agent]
        if time < len(path):
            return path[time]
        return None if self.leaves(agent) else path[-1]

    def leaves(self, agent):
        goal, path = self.agents[agent]
        return self.leaving and path[-1] == goal

    def meetings(self, time):
        """The Vertex and Parked entries of the time."""
        for a, b in combinations(sorted(self.agents), 2):
            cell, last = self.place(a, time), max(len(self.agents[it][1]) for it in (a, b)) - 1
            if cell is not None and cell == self.place(b, time) and time <= last:
                is_vertex = time < last or self.leaves(a) or self.leaves(b)
                yield ("vertex" if is_vertex else "parked"), time, a, b, cell

    def steps(self, time):
        """The entries of the step from the time on, but for rings."""
        steps = {it: (self.place(it, time), self.place(it, time + 1)) for it in self.agents}
        for a, b in permutations(sorted(steps), 2):
            (here, there), (other, beyond) = steps[a], steps[b]
            if None in (here, there, other, beyond):
                continue
            if a < b and here == other and there == beyond != here:
                yield "edge", time, a, b, here, there
            if there == other != here:
                yield "follow", time, a, b, other
                if a < b and beyond == here:
                    yield "swap", time, a, b, here, other

    def rings(self, time):
        """The Cycle entries of the step: each agent goes where the next one, alone, moves out."""
        movers = {}
        for it in self.agents:
            here, there = self.place(it, time), self.place(it, time + 1)
            if None not in (here, there) and here != there:
                movers.setdefault(here, []).append(it)
        alone = {cell: them[0] for cell, them in movers.items() if len(them) == 1}
        for first in sorted(alone.values()):
            ring = [first]
            while (after := alone.get(self.place(ring[-1], time + 1))) is not None and after not in ring:
                ring.append(after)
            if after == first == min(ring) and len(ring) >= 3:
                yield "cycle", time, *ring

    def entries(self):
        last = max(len(path) for _, path in self.agents.values()) if len(self.agents) > 1 else 0
        found = [it for time in range(last) for part in (self.meetings, self.steps, self.rings) for it in part(time)]
        key = lambda it: (KINDS.index(it[0]), [word[::-1] if isinstance(word, tuple) else (word,) for word in it[1:]])
        return sorted(found, key=key)

    def report(self):
        """The report's text."""
        rows, visits = [], []
        for agent, (goal, path) in sorted(self.agents.items()):
            blocked = [(agent, time, cell) for time, cell in enumerate(path) if cell in self.closed]
            bound, done = self.distance(path[0], goal), path[-1] == goal
            gap = len(path) - 1 - bound if done and not blocked else None
            rows.append((agent, len(path) - 1, done, bound, gap))
            visits += blocked
        entries = self.entries()
        settled = [settle if done else None for _, settle, done, _, _ in rows]
        totals = (whole(sum, settled), whole(lambda them: max(them, default=0), settled),
                  whole(sum, [it[3] for it in rows]), whole(sum, [it[4] for it in rows]))
        said = lambda it: "none" if it is None else it
        lines = [f"agents {len(rows)}"]
        lines += [f"agent {it[0]} settle {it[1]} goal {'yes' if it[2] else 'no'} bound {said(it[3])} gap {said(it[4])}" for it in rows]
        lines += [f"conflicts {len(entries)}", *(line_of(it)[:-1] for it in entries)]
        lines += [f"blocked {len(visits)}", *(line_of(("visit", *it))[:-1] for it in visits)]
        lines += [f"{name} {said(it)}" for name, it in zip(("sum", "makespan", "bounds", "gap"), totals)]
        return "\n".join([*lines, "end", ""])


def whole(of, numbers):
    """What is made of the numbers, where each is given."""
    return None if None in numbers else of(numbers)
