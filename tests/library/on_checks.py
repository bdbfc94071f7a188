"""Verdicts on solvers' paths, from C, C++ and Python, beside the program's `check`: the status, and each byte."""
import argparse
import json
import random
from pathlib import Path
from typing import NamedTuple, Optional

from processes.running import run, want
from processes.solvers import examples

KINDS = {"vertex": 1, "edge": 4, "follow": 8, "swap": 16, "cycle": 32}  # bits, as the header has them
WORDS = {"flipped moves": ("moves", "--flip")}  # of the forms that the program has by two words
FORMS = (None, "time", "agent", "session", "json", "schedule", "moves", "flipped moves")
MODES = "stay", "disappear"
RANDOM = 400


class Case(NamedTuple):
    map: bytes
    scen: Optional[bytes]
    agents: Optional[int]
    paths: bytes
    form: Optional[str] = None
    kinds: tuple = ("vertex", "swap")
    mode: str = "stay"
    quiet: bool = False
    only: bool = False


def of_row(field, row):
    """The case of a row of tests/solvers.txt, by its words."""
    words = argparse.ArgumentParser()
    for name, how in (("scen", {}), ("agents", {"type": int}), ("form", {}), ("mode", {"default": "stay"}), ("solves", {"nargs": "+", "default": ["vertex", "swap"]})):
        words.add_argument(f"--{name}", **how)
    for name in ("quiet", "only", "flip"):
        words.add_argument(f"--{name}", action="store_true")
    said, _ = words.parse_known_args(row.value("words").split())
    scen = (row.text("scenario") or field.text("scenario")) if said.scen else None
    form = "flipped moves" if said.flip and said.form in (None, "moves") else said.form
    return Case(row.map() or field.map(), scen, said.agents, row.text("paths"), form, tuple(said.solves), said.mode, said.quiet, said.only)


def walk(chance):
    x, y = chance.randrange(5), chance.randrange(4)
    cells = [(x, y)]
    for _ in range(chance.randrange(6)):
        right, down = chance.choice([(0, 0), (1, 0), (-1, 0), (0, 1), (0, -1)])
        x, y = min(4, max(0, x + right)), min(3, max(0, y + down))
        cells.append((x, y))
    return cells


def by_time(walks):
    rows = [[it[min(time, len(it) - 1)] for it in walks] for time in range(max(map(len, walks)))]
    lists = f"agents={len(walks)}\nstarts={','.join(f'({x},{y})' for x, y in rows[0])},\n"
    return lists + "solution=\n" + "".join(f"{time}:{''.join(f'({x},{y}),' for x, y in row)}\n" for time, row in enumerate(rows))


def by_agent(walks):
    return "".join(f"Agent {agent}: {''.join(f'({y},{x})->' for x, y in cells)}\n" for agent, cells in enumerate(walks))


def by_session(walks):
    return "".join(f"path {agent} {' '.join(f'{x},{y}' for x, y in cells)}\n" for agent, cells in enumerate(walks))


def moves_of(walks):
    moves = {(1, 0): "R", (-1, 0): "L", (0, 1): "D", (0, -1): "U", (0, 0): "W"}
    return [",".join(moves[x - a, y - b] for (a, b), (x, y) in zip(it, it[1:])) for it in walks]


def by_json(walks):
    return json.dumps({"teamSize": len(walks), "start": [it[0][::-1] for it in walks], "actualPaths": moves_of(walks)}) + "\n"


def by_moves(walks):
    return "".join(f"{it or 'w'}\n" for it in moves_of(walks))


def by_schedule(walks):
    place = lambda time, cell: f"    - x: {cell[0]}\n      y: {cell[1]}\n      t: {time}\n"
    agents = (f"  agent{agent}:\n" + "".join(place(*it) for it in enumerate(cells)) for agent, cells in enumerate(walks))
    return "statistics:\n  cost: 3\nschedule:\n" + "".join(agents)


def random_case(seed, ground, changed):
    """Paths of up to four agents, now and then of a text with wrong bytes."""
    chance = random.Random(seed)
    walks = [walk(chance) for _ in range(1 + chance.randrange(4))]
    tasks = "".join(f"0\tm\t5\t4\t{it[0][0]}\t{it[0][1]}\t{it[-1][0]}\t{it[-1][1]}\t4\n" for it in walks)
    texts = [ground.encode(), f"version 1\n{tasks}".encode(), chance.choice((by_time, by_agent, by_session, by_json, by_schedule, by_moves))(walks).encode()]
    if seed % 3 == 0:
        texts = [changed(chance, it) for it in texts]
    ground, scen, paths = texts
    agents = chance.choice((None, None, len(walks), chance.randrange(5)))
    form = chance.choice((None, None, *FORMS))
    kinds = tuple(it for it in KINDS if chance.randrange(2)) or ("edge",)
    more = (chance.choice(MODES), chance.randrange(4) == 0, chance.randrange(4) == 0)
    return Case(ground, *((scen, agents) if chance.randrange(3) else (None, None)), paths, form, kinds, *more)


def cases(ground, changed):
    field, *rows = examples()
    yield from (it for it in (of_row(field, row) for row in rows) if it.form in FORMS)
    yield from (random_case(seed, ground, changed) for seed in range(RANDOM))
    most = "".join(f"path {agent} {agent % 5},{agent // 5 % 4}\n" for agent in range(300))
    yield Case(ground.encode(), None, None, most.encode())  # more than 65,536 bytes are printed
    yield from (Case(*wrong) for wrong in ((b"", None, None, b""), (ground.encode(), b"", None, b"path 0 0,0\n"), (b"\xff\0", None, None, b"path 0 0,0\n"),
                (ground.encode(), None, None, b"path 0 0,0 \xff\n"), (ground.encode(), None, None, b"\0")))


def put(case):
    for name, text in (("ground", case.map), ("tasks", case.scen), ("paths", case.paths)):
        Path(name).write_bytes(text or b"")


def checked(case):
    """The status of the program, and what it prints or the fault."""
    put(case)
    words = ["--map", "ground", "--paths", "paths", "--mode", case.mode, "--solves", *case.kinds]
    words += ["--scen", "tasks"] * (case.scen is not None) + ["--agents", str(case.agents)] * (case.agents is not None)
    words += [it for form in [case.form] if form for it in ("--form", *WORDS.get(form, (form,)))] + ["--quiet"] * case.quiet + ["--only"] * case.only
    status, out, complaint = run(["check", *words])
    return (status, out) if status < 2 else (status, complaint.removeprefix("mapf_desk: ").removesuffix("\n"))


def words_of(case, most):
    listing = 2 if case.quiet else int(case.only)
    numbers = (FORMS.index(case.form), sum(KINDS[it] for it in case.kinds), MODES.index(case.mode), listing, most)
    scen, agents = "-" if case.scen is None else "tasks", "-" if case.agents is None else str(case.agents)
    return ["ground", scen, agents, "paths", *map(str, numbers)]


def native(program, all_cases, said, rooms):
    for number, case in enumerate(all_cases):
        status, text = checked(case)
        most = rooms[number % len(rooms)]
        want(f"the answer to {case}", said([program, *words_of(case, most)]), f"{status} {len(text)}\n{text[:most]}".encode())


def c_checks_as_the_program(built, said, ground, changed):
    """Also where there is no room, or not for all of it."""
    native(built("gcc", "checks.c", "checks", "-std=c99"), cases(ground, changed), said, (1 << 20, 100, 1 << 20, 0))


def cpp_checks_as_the_program(built, said, ground, changed):
    native(built("g++", "checks.cpp", "checks_cpp", "-std=c++17"), cases(ground, changed), said, (1 << 20,))


def python_checks_as_the_program(ground, changed):
    import mapf_desk

    for case in cases(ground, changed):
        try:
            verdict = mapf_desk.check(*case)
            found = (0 if verdict.is_solved else 1, verdict.text.decode())
        except mapf_desk.Fault as fault:
            found = (2, str(fault))
        want(f"the answer to {case}", found, checked(case))
