"""Pages of a solver's paths in a browser, small and large, beside `check --json` of the same files."""
import json
import random

from .fleets import Fleet
from .plain import ASKED
from .running import put, remove, run, want
from .viewing import KINDS, of_page, show

FLEETS, TIMES, AGENTS = 24, 12, 4
# Agents, columns and rows, steps.
SIZES = ((50, (64, 64), 5000), (300, (128, 128), 400), (1000, (256, 256), 500), (1000, (2048, 512), 200))
GO = "const it = document.getElementById('slider'); it.value = arguments[0]; it.dispatchEvent(new Event('input', { bubbles: true }))"


class Walkers(Fleet):
    """Agents who go straight on for a while, turn now and then, and meet."""

    def __init__(self, chance, many, size, steps):
        self.columns, self.rows = size
        self.map = f"type octile\nheight {size[1]}\nwidth {size[0]}\nmap\n" + ("." * size[0] + "\n") * size[1]
        self.paths = [self.walk(chance, steps) for _ in range(many)]
        self.goals = [it[-1] if chance.random() < 0.8 else self.cell(chance) for it in self.paths]

    def walk(self, chance, steps):
        path, way = [self.cell(chance)], (1, 0)
        while len(path) <= steps:
            way = way if chance.random() < 0.9 else chance.choice(((1, 0), (-1, 0), (0, 1), (0, -1), (0, 0)))
            x, y = path[-1][0] + way[0], path[-1][1] + way[1]
            path.append((min(max(x, 0), self.columns - 1), min(max(y, 0), self.rows - 1)))
        return path


class Checked:
    """The page of a fleet, in a browser, and what `check --json` has of it: its lines, each with its time."""

    def __init__(self, browser, fleet, mode):
        self.browser, self.fleet, self.mode = browser, fleet, mode
        put("seen_map", fleet.map.encode()), put("tasks", fleet.scen().encode()), put("paths", fleet.by_session().encode())
        words = ["--map", "seen_map", "--scen", "tasks", "--paths", "paths", "--mode", mode, "--solves", *sorted(ASKED)]
        self.told = json.loads(run(["check", *words, "--json"])[1])
        status, page, complained = run(["page", *words])
        want("what page says", (status, complained), (0, ""))
        show(browser, page)
        browser.click("#kind-unfinished")
        cell = lambda it: f"{it[0]},{it[1]}"
        line = lambda *parts: " ".join(map(str, parts))
        entries = [(it["time"], line(it["kind"], it["time"], *it["agents"], *map(cell, it.get("cells", ())))) for it in self.told["entries"]]
        self.lines = entries + [(it["time"], line("visit", it["agent"], it["time"], cell(it["cell"]))) for it in self.told["visits"]]

    def counts(self):
        """How many there are of each kind, and of agents that miss their goals."""
        heads, told = [line.split()[0] for _, line in self.lines], self.told["counts"]
        right = {**{it: heads.count(it) for it in (*KINDS, "visit")}, "unfinished": told["agents"] - told["finished"]}
        want("the counts", {it: self.browser.text(f"#count-{it}") for it in right}, {it: str(many) for it, many in right.items()})

    def horizon(self):
        return max(it["settle"] for it in self.told["agents"])

    def goes_to(self, time, agents):
        """What is lit at the time, and where some agents are, whose paths are here."""
        self.browser.script(GO, time)
        want("the time", self.browser.text("#time"), str(time))
        lit = sorted(line for at, line in self.lines if at == time)
        want(f"what is lit at time {time}", sorted(self.browser.texts("#lit li")), lit)
        for agent in agents:
            path, goal = self.fleet.paths[agent], self.fleet.goals[agent]
            last = max((at for at in range(1, len(path)) if path[at] != path[at - 1]), default=0)
            has_left = self.mode == "disappear" and path[-1] == goal and time > last
            x, y = path[min(time, last)]
            self.browser.write("#agent", str(agent))
            where = "has left" if has_left else f"is at {x},{y}"
            want(f"where agent {agent} is", self.browser.text("#picked").split("\n")[0], f"agent {agent} {where} at time {time}")
        return len(lit)


def cleared(test):
    """The test, and its files removed."""
    def made(browser):
        try:
            test(browser)
        finally:
            for name in ("tasks", "paths"):
                remove(name)
    made.__doc__ = test.__doc__
    return of_page(made)


def shows_what_check_has(browser):
    """At each time of random fleets in both modes what `check --json` has of that time is lit, and each agent is where its path says."""
    chance, kinds = random.Random(97), set()
    for number in range(FLEETS):
        fleet = Fleet(chance)
        checked = Checked(browser, fleet, ("stay", "disappear")[number % 2])
        checked.counts()
        for time in range(checked.horizon() + 1):
            checked.goes_to(time, range(len(fleet.paths)) if number % 6 < 2 else ())
        kinds |= {line.split()[0] for _, line in checked.lines}
        want("whether all is of these times", all(at <= checked.horizon() for at, _ in checked.lines), True)
    want("the kinds that were met", {*KINDS, "visit"} - {"cycle"} - kinds, set())


def shows_a_large_fleet(browser, many, size, steps):
    """The same of a large fleet at the first time with an entry, and at some others."""
    chance = random.Random(many + steps)
    checked = Checked(browser, Walkers(chance, many, size, steps), "stay")
    checked.counts()
    want("how far it goes", browser.text("#horizon"), f"of {checked.horizon()}")
    first = min(at for at, _ in checked.lines)
    lit = [checked.goes_to(time, chance.sample(range(many), AGENTS)) for time in (first, *(chance.randrange(steps - 50) for _ in range(TIMES)))]
    want("whether some was lit", sum(lit) > 0, True)


def views():
    yield f"page_{shows_what_check_has.__name__}", cleared(shows_what_check_has)
    for many, (columns, rows), steps in SIZES:
        test = cleared(lambda browser, words=(many, (columns, rows), steps): shows_a_large_fleet(browser, *words))
        yield f"page_of_{many}_agents_on_{columns}_x_{rows}_for_{steps}_steps", test
