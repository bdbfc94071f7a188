"""Plans one agent's path over cells and time: A* (Hart, Nilsson, Raphael 1968) on the map, with cells that are taken at some times."""
import heapq
from collections import deque


class Map:
    """The open cells of a MovingAI map."""

    def __init__(self, file):
        with open(file) as lines:
            rows = lines.read().split("\n")[4:]
        self.open = {(x, y) for y, row in enumerate(rows) for x, letter in enumerate(row.rstrip()) if letter in ".GS"}

    def beside(self, cell):
        x, y = cell
        return [it for it in ((x + 1, y), (x - 1, y), (x, y + 1), (x, y - 1)) if it in self.open]

    def distances(self, goal):
        """Of each cell from which there is a way, the least number of steps to the goal."""
        found, waiting = {goal: 0}, deque([goal])
        while waiting:
            cell = waiting.popleft()
            for it in self.beside(cell):
                if it not in found:
                    found[it] = found[cell] + 1
                    waiting.append(it)
        return found


def tasks(file, many):
    """The starts and goals of the first tasks of a MovingAI scenario."""
    with open(file) as lines:
        fields = [line.split() for line in lines.read().split("\n")[1:] if line.strip()]
    return [((int(it[4]), int(it[5])), (int(it[6]), int(it[7]))) for it in fields[:many]]


class Taken:
    """Where an agent mustn't be, and when: at a time, or from a time on."""

    def __init__(self):
        self.at, self.since = set(), {}

    def copy(self):
        other = Taken()
        other.at, other.since = set(self.at), dict(self.since)
        return other

    def take(self, cell, time):
        self.at.add((cell, time))

    def take_since(self, cell, time):
        self.since[cell] = min(time, self.since.get(cell, time))

    def take_path(self, cells):
        """The path of another agent, which stays at its end; nobody follows it, and it follows nobody."""
        for time, cell in enumerate(cells):
            for near in (time - 1, time, time + 1):
                self.take(cell, near)
        self.take_since(cells[-1], len(cells) - 2)

    def has(self, cell, time):
        return (cell, time) in self.at or time >= self.since.get(cell, time + 1)

    def frees(self, cell):
        """The first time from which the cell is free for ever; none where it never is."""
        return None if cell in self.since else 1 + max((time for it, time in self.at if it == cell), default=-1)


def plan(ground, distances, start, goal, taken, dear, horizon):
    """A path of fewest steps, those into dear cells counted four times, that can stay at its goal; none where there isn't one."""
    least = taken.frees(goal)
    if least is None or start not in distances:
        return None
    waiting, came = [(distances[start], 0, 0, start)], {}
    seen = {(start, 0)}
    while waiting:
        _, cost, time, cell = heapq.heappop(waiting)
        if cell == goal and time >= least:
            return path_to(came, cell, time)
        if time == horizon:
            continue
        for it in [cell, *ground.beside(cell)]:
            if (it, time + 1) not in seen and it in distances and not taken.has(it, time + 1):
                seen.add((it, time + 1))
                came[it, time + 1] = cell
                more = cost + (4 if it in dear and it != goal else 1)
                heapq.heappush(waiting, (more + distances[it], more, time + 1, it))
    return None


def path_to(came, cell, time):
    cells = [cell]
    while time > 0:
        cell = came[cell, time]
        cells.append(cell)
        time -= 1
    return cells[::-1]
