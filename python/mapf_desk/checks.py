"""Verdicts on the paths that a solver wrote."""
from __future__ import annotations

import ctypes
from dataclasses import dataclass
from typing import Literal, Sequence, get_args

from . import exports
from .desks import Fault, Kind, Mode, flags_of_kinds, is_leaving, text_bytes

NO_NUMBER = 2**32 - 1
Form = Literal["time", "agent", "session", "json", "schedule", "moves", "flipped moves"]
FORMS = (None, *get_args(Form))
FAULT = 2


@dataclass(frozen=True)
class Verdict:
    """Whether the paths solve the problem, and the text of the program's `check`."""

    is_solved: bool
    text: bytes


def check(
    map: str | bytes,
    scen: str | bytes | None,
    agents: int | None,
    paths: str | bytes,
    form: Form | None = None,
    kinds: Sequence[Kind] = ("vertex", "swap"),
    mode: Mode = "stay",
    quiet: bool = False,
    only: bool = False,
) -> Verdict:
    """The verdict on paths, for the first tasks of a scenario, or as many as paths; without one the agents are the paths'. Else a Fault."""
    if form not in FORMS:
        raise Fault(f"form {form!r}")
    if agents is not None and not 0 <= agents < NO_NUMBER:
        raise Fault(f"agents {agents}")
    texts = [text_bytes(it) for it in (map, scen or b"", paths)]
    ground, tasks, routes = ((it, len(it)) for it in texts)
    number = NO_NUMBER if agents is None else agents
    words = (*ground, *tasks, scen is not None, number, *routes, FORMS.index(form), *flags_of_kinds(kinds), is_leaving(mode), quiet, only)
    room, length = ctypes.create_string_buffer(1 << 16), ctypes.c_size_t()
    status = exports.check(*words, room, len(room), length)
    if length.value > len(room):
        room = ctypes.create_string_buffer(length.value)
        status = exports.check(*words, room, len(room), length)
    text = ctypes.string_at(room, length.value)
    if status == FAULT:
        raise Fault(text.decode() or "out of memory")
    return Verdict(status == 0, text)
