#!/usr/bin/env python3
"""Plans for some agents of a fleet that others plan for too: planner.py NAME MAP SCEN AGENTS FIRST END

It sits at the seat NAME of a desk that `host` shares. It plans for the agents FIRST to END - 1 by A* over cells and
time; of the others it knows what a report says. In each round it reads a report, changes one path that a conflict names,
and commits that with a watch on each agent that the conflict names. Where somebody was faster the commit is refused as
stale, and it begins anew. It ends once the fleet's paths have no conflict.
"""
import os
import random
import sys
import time

from planning import Map, Taken, plan, tasks

sys.path.insert(0, os.path.dirname(os.path.dirname(os.path.abspath(__file__))))
from client import Seat, path_line

KINDS = ("vertex", "parked", "edge", "follow", "swap", "cycle")
HORIZON = 400


def cell_of(word):
    x, y = word.split(",")
    return int(x), int(y)


class Planner:
    def __init__(self, seat, ground, fleet, own):
        self.seat, self.ground, self.fleet, self.own = seat, ground, fleet, own
        self.distances = {agent: ground.distances(fleet[agent][1]) for agent in own}
        self.paths = {agent: [fleet[agent][0]] for agent in own}
        self.taken = {agent: Taken() for agent in own}
        self.chance = random.Random(own[0])

    def look(self):
        """The version, the agents that aren't at their goals, and the conflicts, as a report has them."""
        words = [line.split() for line in self.seat.ask("report")]
        away = [int(it[1]) for it in words if it[0] == "agent" and it[5] == "no"]
        return int(words[0][1]), away, [it for it in words if it[0] in KINDS]

    def learn(self, agent, conflict):
        """Where and when the agent mustn't be, by the conflict; another agent's goal it leaves alone from then on."""
        kind, when, named, cells = conflict[0], int(conflict[1]), conflict[2:4], [cell_of(it) for it in conflict[4:]]
        first = int(named[0]) == agent
        taken = self.taken[agent]
        if kind == "vertex" or kind == "parked":
            taken.take(cells[0], when)
            other = int(named[1] if first else named[0])
            if cells[0] == self.fleet[other][1] and cells[0] != self.fleet[agent][1]:
                taken.take_since(cells[0], when)
        elif kind == "edge":
            taken.take(cells[1], when + 1)
        elif kind == "follow":
            taken.take(cells[0], when + 1 if first else when)
        elif kind == "swap":
            taken.take(cells[1] if first else cells[0], when + 1)

    def replan(self, agent):
        """A new path beside those of this planner's other agents; where there is none, what was learned is forgotten."""
        start, goal = self.fleet[agent]
        dear = {it for other, ends in enumerate(self.fleet) if other != agent for it in ends}
        taken = self.taken[agent].copy()
        for other in self.own:
            if other != agent and len(self.paths[other]) > 1:
                taken.take_path(self.paths[other])
        cells = plan(self.ground, self.distances[agent], start, goal, taken, dear, HORIZON)
        if cells is None:
            self.taken[agent] = Taken()
        return cells

    def commit(self, version, agent, cells, watched):
        """Commits the path on that version, if nobody touched a watched agent since; says whether that went well."""
        if self.seat.ask("begin") != f"base {version}":
            self.seat.ask("cancel")
            return False
        for other in watched:
            self.seat.ask(f"watch agent {other}")
        self.seat.ask(path_line(agent, cells))
        answer = self.seat.ask("commit")
        if answer.startswith("version "):
            self.paths[agent] = cells
            return True
        self.seat.ask("cancel")
        if not answer.startswith("refused stale "):
            raise ValueError(f"agent {agent}: {answer}")
        return False

    def choose(self, away, conflicts):
        """An agent to plan for, and the conflict that it gives way in; of a conflict's agents the last gives way, mostly."""
        for agent in away:
            if agent in self.paths and len(self.paths[agent]) == 1 and self.fleet[agent][0] != self.fleet[agent][1]:
                return agent, None
        mine = []
        for conflict in conflicts:
            named = [int(it) for it in conflict[2:] if "," not in it]
            giving = max(named) if self.chance.random() < 0.8 else self.chance.choice(named)
            if giving in self.paths and conflict[0] != "cycle":
                mine.append((giving, conflict))
        return self.chance.choice(mine) if mine else None

    def work(self):
        """Plans until the fleet's paths have no conflict, and tells how many commits were taken and refused."""
        taken = refused = 0
        while self.seat.ask("solves vertex edge follow swap cycle") != "solves yes":
            version, away, conflicts = self.look()
            chosen = self.choose(away, conflicts)
            if chosen is None:
                time.sleep(0.01)
                continue
            agent, conflict = chosen
            if conflict is not None:
                self.learn(agent, conflict)
            cells = self.replan(agent)
            if cells is None:
                continue
            watched = [it for it in conflict[2:4] if int(it) != agent] if conflict else []
            if self.commit(version, agent, cells, watched):
                taken += 1
            else:
                refused += 1
        return taken, refused


def main():
    name, ground, scenario, agents, first, end = sys.argv[1:]
    planner = Planner(Seat(name), Map(ground), tasks(scenario, int(agents)), range(int(first), int(end)))
    taken, refused = planner.work()
    planner.seat.close()
    print(f"{name}: {taken} commits taken, {refused} refused as stale", file=sys.stderr)


if __name__ == "__main__":
    main()
