"""Agents who come to a session and leave it in every order: their conflicts are those of the worked fleet, written by hand."""
from itertools import permutations

from .plain import ASKED, KINDS, Scene, line_of
from .running import is_answered, put, remove, want
from .texts import EMPTY

TO_THE_MIDDLE = [[(0, 0), (0, 1), (1, 1)], [(2, 2), (2, 2), (2, 1), (1, 1), (2, 1), (1, 1)]]
THROUGH_A_REST = [[(1, 0)], [(0, 0), (1, 0), (2, 0)]]
INTO_ONE_GOAL = [[(0, 0), (1, 0)], [(2, 0), (1, 0)]]
EXCHANGE = [[(0, 0), (1, 0)], [(1, 0), (0, 0)]]
RING = [[(0, 0), (1, 0)], [(1, 0), (1, 1)], [(1, 1), (0, 1)], [(0, 1), (0, 0)]]
WITH_SECOND_MOVER = [*RING, [(0, 0), (1, 0)]]

# The paths of agents 0, 1 and so on to their goals, the mode, and the lines of their conflicts.
FLEETS = [
    (TO_THE_MIDDLE, "stay", ["vertex 3 0 1 1,1", "parked 5 0 1 1,1", "follow 2 1 0 1,1", "follow 4 1 0 1,1"]),
    (TO_THE_MIDDLE, "disappear", []),
    (EXCHANGE, "stay", ["follow 0 0 1 1,0", "follow 0 1 0 0,0", "swap 0 0 1 0,0 1,0"]),
    (RING, "stay", ["follow 0 0 1 1,0", "follow 0 1 2 1,1", "follow 0 2 3 0,1", "follow 0 3 0 0,0", "cycle 0 0 1 2 3"]),
    (WITH_SECOND_MOVER, "stay", ["vertex 0 0 4 0,0", "parked 1 0 4 1,0", "edge 0 0 4 0,0 1,0", "follow 0 0 1 1,0", "follow 0 1 2 1,1",
                                 "follow 0 2 3 0,1", "follow 0 3 0 0,0", "follow 0 3 4 0,0", "follow 0 4 1 1,0"]),
    (THROUGH_A_REST, "stay", ["vertex 1 0 1 1,0", "follow 0 1 0 1,0"]),
    (THROUGH_A_REST, "disappear", []),
    (INTO_ONE_GOAL, "stay", ["parked 1 0 1 1,0"]),
    (INTO_ONE_GOAL, "disappear", ["vertex 1 0 1 1,0"]),
]


def report_of(paths, mode):
    """The plain report of the agents, each at its goal in the end."""
    scene = Scene(3, 3, mode)
    for agent, path in enumerate(paths):
        scene.make(("agent", agent, path[0], path[-1]))
        scene.make(("path", agent, *path))
    return scene.report()


class Talk:
    """A session's lines, and what they are answered."""

    def __init__(self):
        self.lines, self.answers, self.version = "", "", 0

    def say(self, line, answer):
        self.lines += line
        self.answers += answer

    def report(self, text):
        self.say("report\n", f"version {self.version}\n{text}")

    def commit(self, *edits):
        """Commits the edits together."""
        self.say("begin\n", f"base {self.version}\n")
        for edit in edits:
            self.say(line_of(edit), "kept\n")
        self.version += 1
        self.say("commit\n", f"version {self.version}\n")

    def come_and_go(self, paths, order, report, lines):
        """The agents come in that order, and the fleet has that report and those lines; then they leave in the same order."""
        for agent in order:
            path = paths[agent]
            self.commit(("agent", agent, path[0], path[-1]), ("path", agent, *path))
        self.report(report)
        for word, kinds in ASKED.items():
            self.say(f"solves {word}\n", f"solves {'no' if any(it.startswith(kinds) for it in lines) else 'yes'}\n")
        for agent in order:
            self.commit(("drop", agent))
        self.report(EMPTY)


def every_order():
    put("square", Scene(3, 3, "stay").text().encode())
    for paths, mode, lines in FLEETS:
        report = report_of(paths, mode)
        want("the plain conflicts", [it for it in report.splitlines() if it.split()[0] in KINDS], lines)
        talk = Talk()
        talk.report(EMPTY)
        for order in permutations(range(len(paths))):
            talk.come_and_go(paths, order, report, lines)
        is_answered(["serve", "--map", "square", "--mode", mode], talk.lines.encode(), talk.answers)
    remove("square")


def tests():
    yield "every_order", every_order
