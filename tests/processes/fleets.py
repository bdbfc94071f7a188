"""The word `check` over many files of paths: made at random, cut off, edited, large; and in what time and room.

The program writes for each form of one fleet what `audit` writes for a journal of the same edits, and its verdict and
its counts follow from that report by a few lines of Python.
"""
import random

from .memory import MEGA, room_of
from .plain import ASKED
from .running import Wrong, is_fault, is_run, processor_time, put, remove, run, second, want


class Fleet:
    """A map, tasks and paths, made at random; the first cells of the paths are the starts of the tasks."""

    def __init__(self, chance):
        self.columns, self.rows = chance.randint(1, 6), chance.randint(1, 5)
        letters = ["".join(chance.choice("....@") for _ in range(self.columns)) for _ in range(self.rows)]
        self.map = f"type octile\nheight {self.rows}\nwidth {self.columns}\nmap\n" + "".join(f"{it}\n" for it in letters)
        self.paths = [self.path(chance) for _ in range(chance.randint(1, 6))]
        self.goals = [it[-1] if chance.random() < 0.8 else self.cell(chance) for it in self.paths]

    def cell(self, chance):
        return chance.randrange(self.columns), chance.randrange(self.rows)

    def path(self, chance):
        cells = [self.cell(chance)]
        for _ in range(chance.randint(0, 8)):
            x, y = cells[-1]
            near = [(x, y), (x + 1, y), (x - 1, y), (x, y + 1), (x, y - 1)]
            cells.append(chance.choice([(a, b) for a, b in near if 0 <= a < self.columns and 0 <= b < self.rows]))
        return cells

    def scen(self):
        ends = zip(self.paths, self.goals)
        return "version 1\n" + "".join(f"0 f {self.columns} {self.rows} {it[0][0]} {it[0][1]} {x} {y} 0\n" for it, (x, y) in ends)

    def by_time(self):
        last = max(len(it) for it in self.paths)
        rows = [[it[min(time, len(it) - 1)] for it in self.paths] for time in range(last)]
        row = lambda cells: "".join(f"({x},{y})," for x, y in cells)
        head = f"starts={row(rows[0])}\ngoals={row(self.goals)}\nsolution=\n"
        return head + "".join(f"{time}:{row(it)}\n" for time, it in enumerate(rows))

    def by_agent(self):
        return "".join(f"Agent {n}: " + "".join(f"({y},{x})->" for x, y in it) + "\n" for n, it in enumerate(self.paths))

    def by_session(self):
        return "".join(f"path {n} " + " ".join(f"{x},{y}" for x, y in it) + "\n" for n, it in enumerate(self.paths))

    def journal(self, mode):
        added = "".join(f"agent {n} {it[0][0]},{it[0][1]} {x},{y}\n" for n, (it, (x, y)) in enumerate(zip(self.paths, self.goals)))
        return f"journal 2\nmode {mode}\nentry 0 0 0 {2 * len(self.paths)}\n{added}{self.by_session()}end 1\n"


def counts(report):
    """The report without the lines of agents, conflicts and visits, with how many agents are finished and a count of each kind."""
    lines = report.splitlines()
    heads = [it.split()[0] for it in lines]
    kinds = [f"{kind} {sum(heads.count(it) for it in names)}" for kind, names in ASKED.items()]
    dropped = {"agent", "visit", *(it for names in ASKED.values() for it in names)}
    kept = [it for it, head in zip(lines, heads) if head not in dropped]
    finished = sum(it.startswith("agent ") and " goal yes " in it for it in lines)
    return "\n".join([*kept[:2], f"finished {finished}", kept[2], *kinds, *kept[3:]]) + "\n"


def listed(report, kinds):
    """The report with the conflicts of these kinds alone."""
    shown = {it for kind in kinds for it in ASKED[kind]}
    hidden = {it for names in ASKED.values() for it in names} - shown
    lines = [it for it in report.splitlines() if it.split()[0] not in hidden]
    count = sum(it.split()[0] in shown for it in lines)
    return "".join(f"conflicts {count}\n" if it.startswith("conflicts ") else f"{it}\n" for it in lines)


def verdict(report, kinds):
    lines = [it.split() for it in report.splitlines()]
    wrong = {it for kind in kinds for it in ASKED[kind]}
    good = all(it[0] != "agent" or it[5] == "yes" for it in lines) and ["blocked", "0"] in lines
    return "yes" if good and not any(it[0] in wrong for it in lines) else "no"


def round_trip():
    """One fleet in each form is answered alike, as the audit of a journal has it; its counts and the verdict are those of the report."""
    chance, seen = random.Random(7), set()
    for _ in range(40):
        fleet, mode = Fleet(chance), chance.choice(["stay", "disappear"])
        kinds = [chance.choice(list(ASKED)) for _ in range(chance.randint(1, 5))]
        put("trip_map", fleet.map.encode()), put("trip_scen", fleet.scen().encode()), put("trip_journal", fleet.journal(mode).encode())
        status, audited, _ = run(["audit", "--map", "trip_map", "--journal", "trip_journal", "--mode", mode])
        want("the audit", (status, audited[:10]), (0, "version 1\n"))
        report = "version 0\n" + audited[10:]
        said = verdict(report, kinds)
        seen.add(said)
        for form in ("time", "agent", "session"):
            put("trip_paths", getattr(fleet, f"by_{form}")().encode())
            words = ["check", "--map", "trip_map", "--paths", "trip_paths", "--mode", mode, "--solves", *kinds]
            scen = [] if form == "time" else ["--scen", "trip_scen"]
            wanted = (int(said == "no"), f"{report}solves {said}\n", "")
            want(f"the check of {fleet.by_session()!r} by {form}", run([*words, *scen]), wanted)
        want("the counts", run([*words, *scen, "--quiet"])[1], f"{counts(report)}solves {said}\n")
        want("the conflicts that count", run([*words, *scen, "--only"])[1], f"{listed(report, kinds)}solves {said}\n")
    want("the verdicts", seen, {"yes", "no"})
    remove("trip_map", "trip_scen", "trip_journal", "trip_paths")


def is_lawful(text, words):
    """Whatever a file of paths has in it, it is refused in one line, or the verdict is the last line and the status."""
    put("hostile", text)
    status, said, complained = run(["check", "--map", "m", "--paths", "hostile", *words])
    if status == 2:
        want(f"what {text!r} prints", (said, complained.startswith("mapf_desk: "), complained.count("\n")), ("", True, 1))
    else:
        last = {0: ["solves yes"], 1: ["solves no"]}.get(status)
        want(f"the end of {text!r}, of status {status},", (said.splitlines()[-1:], complained), (last, ""))


def hostile_texts():
    """Files of each form that are cut off anywhere, or of which bytes are changed; devices and other files."""
    chance = random.Random(8)
    whole = [b"starts=(0,0),(2,0),\nsolution=\n0:(0,0),(2,0),\n1:(1,0),(2,0),\n", b"Agent 0: (0,0)->(0,1)->\nAgent 1:(0,2)->\n",
             b"# two\npath 0 0,0 1,0\npath 1 2,0\n", b"rrw\nU,l\n", b'id,solution_plan\n1,"r,u"\n']
    for text in whole:
        for end in range(len(text)):
            is_lawful(text[:end], chance.choice([[], ["--scen", "s"], ["--quiet"], ["--form", "agent"]]))
        for _ in range(60):
            edited = bytearray(text)
            for _ in range(chance.randint(1, 3)):
                edited[chance.randrange(len(edited))] = chance.choice(b"0123456789,()->:=\n #A\x00\xff")
            is_lawful(bytes(edited), [])
    for text in (b"\n" * 1000, b"\x00" * 1000, b"(" * 1000, b"Agent 0: " + b"(0,0)->" * 1000, b"9" * 1000, b"path " * 1000, b"=" * 1000):
        is_lawful(text, [])
    is_fault(["check", "--map", "m", "--paths", "m"], "paths: no form of paths in line 1")
    is_run(["check", "--map", "m", "--paths", "/dev/null"], b"", (1, "no paths\nsolves no\n", ""))
    remove("hostile")


def too_many_agents():
    """A file may have 8,192 agents; the line of one more, or a row of more, is told."""
    for agents in (8193, 10000):
        put("crowd", b"solution=\n0:" + b"(0,0)," * agents + b"\n")
        is_fault(["check", "--map", "m", "--paths", "crowd"], "paths: too many agents in line 2")
        for line in ("Agent %d: (0,0)->\n", "path %d 0,0\n"):
            put("crowd", "".join(line % n for n in range(agents)).encode())
            is_fault(["check", "--map", "m", "--paths", "crowd"], "paths: too many agents in line 8193")
    remove("crowd")


def put_pairs(agents, steps, goals=None):
    """A file by time, of agents that each go to and fro between two cells of their own on a map of 128 x 128 open cells.

    Each agent's goal is its last cell, or one of so many in the first row."""
    put("square", b"type octile\nheight 128\nwidth 128\nmap\n" + (b"." * 128 + b"\n") * 128)
    rows = ["".join(f"({n % 64 * 2 + side},{n // 64})," for n in range(agents)) for side in (0, 1)]
    head = "goals=" + "".join(f"({n % goals},0)," for n in range(agents)) + "\n" if goals else ""
    put("pairs", (head + "solution=\n" + "".join(f"{time}:{rows[time % 2]}\n" for time in range(steps + 1))).encode())


def least_time(status, finished, verdict):
    """The least processor time, in seconds, of three checks of that file by one worker."""
    took = []
    for _ in range(3):
        before = processor_time()
        ended, said, _ = run(["check", "--map", "square", "--paths", "pairs", "--quiet", "--workers", "1"])
        took.append(processor_time() - before)
        lines = said.splitlines()
        want("the verdict", (ended, lines[1:4], lines[-1:]), (status, ["agents 8000", f"finished {finished}", "conflicts 0"], [verdict]))
    return min(took)


def speed():
    """8,000 agents of 200 steps, 13 MB, take less than a second where they share ten goals, of whom the first alone is at its own, and
    a few where each has a goal of its own, since the distances to each goal are searched on the whole map."""
    for goals, verdict, seconds in ((10, (1, 1, "solves no"), 1), (None, (0, 8000, "solves yes"), 10)):
        put_pairs(8000, 200, goals)
        before, took = second(), least_time(*verdict)
        most = seconds * max(before, second())
        if took >= most:
            raise Wrong(f"with {goals or 8000} goals it takes {took:.2f} s, and not less than {most:.2f}")
    remove("square", "pairs")


def no_room_for_paths():
    """In too little room a check is a fault of its own; in enough it has its verdict, and prints nothing before."""
    put_pairs(1000, 50)
    seen = set()
    for size in range(2, 60, 2):
        status, said, complained = run(["check", "--map", "square", "--paths", "pairs", "--quiet", "--workers", "1"], preexec_fn=room_of(size * MEGA))
        if status == 2:
            want("what it does", (said, complained), ("", "mapf_desk: out of memory\n"))
        elif status != 127 and status >= 0:  # (at 127 the C library itself wasn't loaded)
            want("the end", (status, said.splitlines()[-1:], complained), (0, ["solves yes"], ""))
        seen.add(status)
    remove("square", "pairs")
    want("whether it ran out of memory, and had enough", {0, 2} <= seen, True)


def tests():
    for test in (round_trip, hostile_texts, too_many_agents, speed, no_room_for_paths):
        yield f"check_{test.__name__}", test
