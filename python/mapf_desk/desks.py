"""Desks in this process."""
from __future__ import annotations

import ctypes
from types import TracebackType
from typing import Callable, Iterable, Literal, Sequence

from . import exports
from .reports import Cell, Conflict, Report, conflict_of, read_report

Kind = Literal["vertex", "edge", "follow", "swap", "cycle"]
Mode = Literal["stay", "disappear"]
KINDS = ("vertex", "edge", "follow", "swap", "cycle")


class Fault(ValueError):
    """Why no desk is opened, why there is no whole answer, or the refusal of a line."""


class Desk:
    """A desk of one planner, and a session of version 2 over it. A context manager, which closes it at its end. One thread at a time."""

    def __init__(
        self,
        map: str | bytes,
        scen: str | bytes | None = None,
        agents: int = 0,
        mode: Mode = "stay",
        limit: int = 100_000,
        journal: str | bytes | None = None,
    ) -> None:
        """Opens a desk of a map's text, with the first tasks of a scenario, after the entries of a journal of at most `limit`."""
        self._handle, self._room, self._found = exports.Handle(), ctypes.create_string_buffer(4096), (exports.Conflict * 8)()
        leaves = is_leaving(mode)
        for name, number in (("agents", agents), ("limit", limit)):
            if not 0 <= number < 2**32:
                raise Fault(f"{name} {number}")
        texts = [text_bytes(it) for it in (map, scen or b"", journal or b"")]
        words = [it for text in texts for it in (text, len(text))]
        how = (scen is not None, agents, leaves, limit)
        if not exports.open_desk(self._handle, *words[:4], *how, *words[4:], journal is not None):
            why = self._answer().decode()
            self.close()
            raise Fault(why or "out of memory")

    def ask(self, line: str | bytes) -> bytes:
        """The answer to the session's next line, without its line feed."""
        text = text_bytes(line)
        return self._whole(exports.line(self._handle, text, len(text)))

    def version(self) -> int:
        """How many commits the desk has accepted."""
        version = ctypes.c_uint64()
        _done(exports.version(self._handle, version))
        return version.value

    def commit_path(self, agent: int, cells: Iterable[Cell]) -> int:
        """Commits a path of an agent, from its start, and gives the version; a Fault is the refusal's word."""
        version = ctypes.c_uint64()
        _done(exports.commit_path(self._handle, _number(agent), *_path(cells), version))
        return version.value

    def try_path(self, agent: int, cells: Iterable[Cell]) -> tuple[Conflict, ...]:
        """The conflicts that the agent would have after that commit; of a cycle the first two agents are told."""
        words = (_number(agent), *_path(cells))
        return self._filled(lambda *room: exports.try_path(self._handle, *words, *room))

    def conflicts(self, agent: int) -> tuple[Conflict, ...]:
        """The conflicts of an agent, in the order of the report."""
        number = _number(agent)
        found = self._filled(lambda *room: exports.conflicts(self._handle, number, *room))
        return self.report(agent).conflicts if any(it.kind == "cycle" for it in found) else found

    def distance(self, agent: int, cell: Cell) -> int | None:
        """The distance in steps of a cell to the agent's goal, if a way leads there."""
        steps, (column, row) = ctypes.c_uint32(), cell
        status = exports.distance(self._handle, _number(agent), _number(column), _number(row), steps)
        if exports.STATUSES[status] == "no way":
            return None
        _done(status)
        return steps.value

    def solves(self, *kinds: Kind) -> bool:
        """Whether the plans solve by these kinds of conflicts, as `solves("vertex", "swap")`."""
        answer = ctypes.c_bool()
        _done(exports.solves(self._handle, *flags_of_kinds(kinds), answer))
        return answer.value

    def report(self, *agents: int) -> Report:
        """The whole report, or what of it names one of these agents."""
        return read_report(self._accepted(" ".join(map(str, ("report", *agents))), b"version").decode())

    def journal(self) -> bytes:
        """The text of the desk's journal."""
        return self._whole(exports.journal(self._handle))

    def close(self) -> None:
        """Gives back all memory; a closed desk answers no call."""
        exports.close(self._handle)

    def _accepted(self, line: str, word: bytes) -> bytes:
        answer = self.ask(line)
        if not answer.startswith(word):
            raise Fault(answer.decode().strip())
        return answer

    def _filled(self, call: Callable[..., int]) -> tuple[Conflict, ...]:
        count = ctypes.c_size_t()
        _done(call(self._found, len(self._found), count))
        if count.value > len(self._found):
            self._found = (exports.Conflict * (2 * count.value))()
            _done(call(self._found, len(self._found), count))
        return tuple(map(conflict_of, self._found[: count.value]))

    def _whole(self, is_whole: bool) -> bytes:
        if not is_whole:
            raise Fault("out of memory" if self._handle.at else "closed")
        return self._answer()

    def _answer(self) -> bytes:
        length = ctypes.c_size_t()
        if not exports.answer(self._handle, self._room, len(self._room), length):
            return b""
        if length.value > len(self._room):
            self._room = ctypes.create_string_buffer(2 * length.value)
            exports.answer(self._handle, self._room, len(self._room), length)
        return ctypes.string_at(self._room, length.value)

    def __enter__(self) -> Desk:
        return self

    def __exit__(self, kind: type[BaseException] | None, fault: BaseException | None, trace: TracebackType | None) -> None:
        self.close()

    def __del__(self) -> None:
        if hasattr(self, "_handle"):
            self.close()


def text_bytes(text: str | bytes) -> bytes:
    """The text's bytes."""
    return text.encode() if isinstance(text, str) else bytes(text)


def is_leaving(mode: Mode) -> bool:
    """Whether agents leave at their goals."""
    if mode not in ("stay", "disappear"):
        raise Fault(f"mode {mode!r}")
    return mode == "disappear"


def flags_of_kinds(kinds: Sequence[Kind]) -> tuple[bool, ...]:
    """Whether each kind of conflicts is among these, in the library's order."""
    for it in kinds:
        if it not in KINDS:
            raise Fault(f"kind {it!r}")
    return tuple(it in kinds for it in KINDS)


def _done(status: int) -> None:
    if status:
        raise Fault(exports.STATUSES[status])


def _number(number: int) -> int:
    if not 0 <= number < 2**32:
        raise Fault("no such number")
    return number


def _path(cells: Iterable[Cell]) -> tuple[ctypes.Array[exports.Cell], int]:
    pairs = [(_number(column), _number(row)) for column, row in cells]
    return (exports.Cell * len(pairs))(*pairs), len(pairs)
