"""Reports as data. docs/PROTOCOL.md has their lines, docs/RULES.md what they mean; times and costs are in steps."""
from __future__ import annotations

from dataclasses import dataclass
from typing import Tuple

from . import exports

Cell = Tuple[int, int]
KINDS = ("vertex", "parked", "edge", "follow", "swap", "cycle")


@dataclass(frozen=True)
class Conflict:
    """A conflict: its kind, its time, the agents in the order of its line, and its cells."""

    kind: str
    time: int
    agents: tuple[int, ...]
    cells: tuple[Cell, ...]


@dataclass(frozen=True)
class Agent:
    """What an agent costs, whether it ends at its goal, the lower bound of its cost, and the gap between them; None for what isn't given."""

    number: int
    settle: int | None
    is_at_goal: bool
    bound: int | None
    gap: int | None


@dataclass(frozen=True)
class Visit:
    """A visit to a cell that is closed."""

    agent: int
    time: int
    cell: Cell


@dataclass(frozen=True)
class Report:
    """A report at a version, and its totals."""

    version: int
    agents: tuple[Agent, ...]
    conflicts: tuple[Conflict, ...]
    visits: tuple[Visit, ...]
    sum: int | None
    makespan: int | None
    bounds: int | None
    gap: int | None


def read_report(text: str) -> Report:
    """The report of the answer to `report`, or to `report AGENT`."""
    lines = [it.split() for it in text.splitlines()]
    agents = tuple(Agent(int(it[1]), _number(it[3]), it[5] == "yes", _number(it[7]), _number(it[9])) for it in lines if it[0] == "agent")
    visits = tuple(Visit(int(it[1]), int(it[2]), _cell(it[3])) for it in lines if it[0] == "visit")
    conflicts = tuple(_conflict(it) for it in lines if it[0] in KINDS)
    totals = {it[0]: _number(it[1]) for it in lines[-5:-1]}
    return Report(int(lines[0][1]), agents, conflicts, visits, totals["sum"], totals["makespan"], totals["bounds"], totals["gap"])


def conflict_of(entry: exports.Conflict) -> Conflict:
    """The conflict of an entry in numbers."""
    places = {"cycle": (), "edge": (entry.cell, entry.other), "swap": (entry.cell, entry.other)}.get(KINDS[entry.kind], (entry.cell,))
    return Conflict(KINDS[entry.kind], entry.time, (entry.first, entry.second), tuple((it.x, it.y) for it in places))


def _number(word: str) -> int | None:
    return None if word == "none" else int(word)


def _cell(word: str) -> Cell:
    column, row = word.split(",")
    return int(column), int(row)


def _conflict(words: list[str]) -> Conflict:
    rest = words[2:]
    return Conflict(words[0], int(words[1]), tuple(int(it) for it in rest if "," not in it), tuple(_cell(it) for it in rest if "," in it))
