#!/usr/bin/env python3
"""Finds paths for the first agents of a scenario, one after the other, against a desk: planner.py MAP SCEN AGENTS

An agent takes the shortest path that keeps away from where the desk said that it meets agents with paths; so it learns until the
desk knows no meeting more.
"""
import heapq
import sys
from pathlib import Path

import mapf_desk

LAST = 400


class Planner:
    def __init__(self, desk):
        self.desk, self.goals = desk, []

    def plan(self, agent):
        goal, start = [tuple(map(int, it.split(","))) for it in self.desk.ask(f"plan {agent}").decode().split()[2:4]]
        self.goals.append(goal)
        self.taken, self.steps = set(), {}
        while True:
            path = self.find(agent, start, goal)
            if not [it for it in self.desk.try_path(agent, path) if self.learns(agent, it)]:
                return self.desk.commit_path(agent, path)

    def way(self, agent, cell):
        """The steps from a cell to the agent's goal; where there is no way, or no such cell, more than there is time for."""
        if cell not in self.steps:
            try:
                steps = self.desk.distance(agent, cell)
            except mapf_desk.Fault:
                steps = None
            self.steps[cell] = LAST if steps is None else steps
        return self.steps[cell]

    def find(self, agent, start, goal):
        """A* over cells and times that aren't taken, to where the agent can stay (Hart, Nilsson, Raphael 1968)."""
        free = max((time + 1 for time, cell in self.taken if cell == goal), default=0)
        came, waiting = {(0, start): None}, [(self.way(agent, start), 0, start)]
        while waiting:
            _, time, cell = heapq.heappop(waiting)
            if cell == goal and time >= free:
                return self.back(came, (time, cell))
            x, y = cell
            for it in (cell, (x + 1, y), (x - 1, y), (x, y + 1), (x, y - 1)):
                after = (time + 1, it)
                if after not in came and after not in self.taken and time + 1 + self.way(agent, it) < LAST:
                    came[after] = (time, cell)
                    heapq.heappush(waiting, (time + 1 + self.way(agent, it), *after))
        return []

    def back(self, came, state):
        cells = []
        while state:
            cells.append(state[1])
            state = came[state]
        return cells[::-1]

    def learns(self, agent, conflict):
        """Where the agent mustn't be, by a conflict with one that has a path: whether it is with one."""
        first, swaps = conflict.agents[0] == agent, conflict.kind == "swap"
        other = conflict.agents[1 if first else 0]
        if other >= agent or conflict.kind not in ("vertex", "parked", "swap"):
            return False
        cell, time = conflict.cells[1 if swaps and first else 0], conflict.time + swaps
        self.taken.update((it, cell) for it in range(time, LAST if not swaps and cell == self.goals[other] else time + 1))
        return True


def main():
    texts, agents = [Path(it).read_bytes() for it in sys.argv[1:3]], int(sys.argv[3])
    with mapf_desk.Desk(*texts, agents=agents) as desk:
        planner = Planner(desk)
        for agent in range(agents):
            planner.plan(agent)
        print(desk.ask("solves vertex swap").decode(), end="")
        return 0 if desk.solves("vertex", "swap") else 1


if __name__ == "__main__":
    sys.exit(main())
