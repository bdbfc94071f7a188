"""Fleets of seven kinds, each with an edit and the one that takes it back, and maps of three kinds. All agents rest at the ends of their paths.

`measured.py` looks at small ones, and `tools/speed` measures large ones. An edit is the words of its line, as in `plain.py`.
"""
from .plain import line_of

STEPS = 64  # that most agents go
ROW = 1000  # cells that the lane has in each row of the map
RESTING = 100  # agents beside the long path
CORNER = (0, 0)


class Fleet:
    """The paths of agents 0, 1 and so on, their goals (where none are given the corner), two edits, and the map's rows (else all open)."""

    def __init__(self, paths, edits, goals=None, letters=None):
        self.paths, (self.there, self.back) = paths, edits
        self.goals = goals or [CORNER] * len(paths)
        cells = [cell for path in paths for cell in path]
        columns, rows = (1 + max(column) for column in zip(*cells))
        self.letters = letters or ["." * columns] * rows

    def coming(self, agent):
        """The edits by which the agent comes."""
        path = self.paths[agent]
        return [("agent", agent, path[0], self.goals[agent]), ("path", agent, *path)]

    def all_coming(self):
        return [edit for agent in range(len(self.paths)) for edit in self.coming(agent)]


class Chain:
    """Numbers without pattern (Knuth's linear congruential generator), the same ones for a seed whatever Python runs them."""

    def __init__(self, seed):
        self.state = seed

    def roll(self, sides):
        self.state = (self.state * 6364136223846793005 + 1442695040888963407) % (1 << 64)
        return (self.state >> 33) % sides


def map_of(letters):
    """The text of the map of those rows."""
    return f"type octile\nheight {len(letters)}\nwidth {len(letters[0])}\nmap\n" + "".join(f"{it}\n" for it in letters)


def lines_of(edits):
    return "".join(map(line_of, edits))


def lane_cell(place):
    """The cell at that place of a lane that goes along the rows, to the right and to the left in turn."""
    row, column = divmod(place, ROW)
    return (ROW - 1 - column if row % 2 else column), row


def to_and_fro(cell, many):
    """A path of so many cells between that cell and the one at its right."""
    x, y = cell
    return [(x + step % 2, y) for step in range(many)]


def waiting(paths, edited):
    """The edits of an agent that may wait a step before its path."""
    path = paths[edited]
    return ("path", edited, path[0], *path), ("path", edited, *path)


def lane(agents):
    return [[lane_cell(place + step) for step in range(STEPS + 1)] for place in range(agents)]


def convoy(agents):
    """So many agents head to tail along a lane that winds, who all step on 64 times; the one in the middle may wait first."""
    paths = lane(agents)
    return Fleet(paths, waiting(paths, agents // 2))


def among(agents):
    """Such a convoy, and two agents in columns of their own beside the lane, one of whom goes up in each step and the other one down."""
    beside = [[(ROW + number, (number + step) % 2) for step in range(STEPS + 1)] for number in (0, 1)]
    paths = lane(agents) + beside
    return Fleet(paths, waiting(paths, agents // 2))


def rows(count, agents):
    """So many agents head to tail along each of so many rows, who all step on 64 times; the one in the middle of the first row may wait first."""
    paths = [[(place + step, row) for step in range(STEPS + 1)] for row in range(count) for place in range(agents)]
    return Fleet(paths, waiting(paths, agents // 2))


def shortest(chain, start, goal):
    """A shortest path; chance says in each step along which side, where both lead to the goal."""
    (x, y), path = start, [start]
    while (x, y) != goal:
        if y == goal[1] or x != goal[0] and chain.roll(2) == 0:
            x += 1 if x < goal[0] else -1
        else:
            y += 1 if y < goal[1] else -1
        path.append((x, y))
    return path


def crowd(agents, side):
    """So many agents on shortest paths between cells by chance of a square map; the one in the middle may go to another cell.

    By programs that go over all pairs at all times 60 on 16 x 16 have 319 entries, and 317 then; 800 on 64 x 64 have 17,137, and 17,187 then.
    """
    chain, paths, edited = Chain(1), [], agents // 2
    drawn = lambda: (chain.roll(side), chain.roll(side))
    for _ in range(agents):
        start, goal = drawn(), drawn()
        paths.append(shortest(chain, start, goal))
    other = shortest(chain, paths[edited][0], drawn())
    edits = ("path", edited, *other), ("path", edited, *paths[edited])
    return Fleet(paths, edits, letters=["." * side] * side)


def long(cells):
    """An agent whose path has so many cells, among 100 that rest in every second cell of the row; its last cell may be that of the first of them."""
    paths = [to_and_fro(CORNER, cells)] + [[(2 * number, 0)] for number in range(1, RESTING + 1)]
    return Fleet(paths, [("tail", 0, cells - 2, end) for end in ((2, 0), paths[0][-1])])


def apart(agents, own_goals=False):
    """So many agents, 64 in a row, who go to and fro and meet nobody; the one in the middle may wait first. Each may have its start as its goal."""
    paths = [to_and_fro((agent % 64 * 2, agent // 64), STEPS + 1) for agent in range(agents)]
    return Fleet(paths, waiting(paths, agents // 2), [it[0] for it in paths] if own_goals else None)


def middle_of(letters):
    """The first open cell of the middle row, from its middle on."""
    row = len(letters) // 2
    return letters[row].index(".", len(letters[row]) // 2), row


def held(goals, columns, rows):
    """So many agents that rest at goals of their own, open or closed, all over a map of obstacles; an open cell near its middle may close."""
    letters = letters_of("obstacles", columns, rows)
    places = [number * (columns * rows // goals) for number in range(goals)]
    cells, middle = [(place % columns, place // columns) for place in places], middle_of(letters)
    return Fleet([[it] for it in cells], [(word, middle) for word in ("close", "open")], cells, letters)


def goes_left(x, y):
    """Whether the maze's place is joined to the one at its left, and not to the one above."""
    mixed = (x * 2654435761 ^ y * 2246822519) % (1 << 32)
    return ((mixed ^ mixed >> 15) * 3266489917 >> 30) % 4 < 2


def is_open(kind, x, y, drawn):
    """Whether the cell of such a map is open, by a number drawn for it. A maze has corridors of one cell: each place of even column
    and row is joined to the one before it in its row or in its column."""
    if kind == "open" or (x, y) == CORNER:
        return True
    if kind == "obstacles":
        return drawn % 5 != 0
    if x % 2 and y % 2:
        return False
    if x % 2:
        return y == 0 or goes_left(x + 1, y)
    return not y % 2 or x == 0 or not goes_left(x, y + 1)


def letters_of(kind, columns, rows):
    """The rows of a map that is `open`, a `maze`, or of which a fifth are `obstacles`."""
    state, letters = 1, []
    for y in range(rows):
        row = []
        for x in range(columns):
            state = (state * 1664525 + 1013904223) % (1 << 32)
            row.append("." if is_open(kind, x, y, state >> 16) else "@")
        letters.append("".join(row))
    return letters
