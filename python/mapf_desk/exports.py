"""What the library exports, by ctypes. Its header says what each call does."""
from __future__ import annotations

import ctypes
from pathlib import Path


class Handle(ctypes.Structure):
    """A desk: a pointer, which is null where it is closed."""

    _fields_ = [("at", ctypes.c_void_p)]


class Cell(ctypes.Structure):
    _fields_ = [("x", ctypes.c_uint32), ("y", ctypes.c_uint32)]


class Conflict(ctypes.Structure):
    _fields_ = [*((it, ctypes.c_uint32) for it in ("kind", "time", "first", "second")), ("cell", Cell), ("other", Cell)]


# The words of statuses, by their numbers; with 0 the call is done.
STATUSES = ("done", "closed", "out of memory", "no such number", "unknown-agent", "out-of-map", "empty-path", "not-from-start", "not-a-step")
STATUSES += ("too-long", "journal-full", "no way", "refused")

# In the package where it was installed or tools/library made it, else as it is released.
_HERE = Path(__file__).resolve()
_PLACES = (_HERE.with_name("libmapf_desk.so"), _HERE.parent.parent.parent / "release/libmapf_desk.so")
_LIBRARY = ctypes.CDLL(str(next(filter(Path.exists, _PLACES), _PLACES[0])))
_HANDLE, _NUMBER, _LENGTH = ctypes.POINTER(Handle), ctypes.c_uint32, ctypes.c_size_t
_TEXT = (ctypes.c_char_p, _LENGTH)


_PATH = (_NUMBER, ctypes.POINTER(Cell), _LENGTH)
_ROOM = (ctypes.POINTER(Conflict), _LENGTH, ctypes.POINTER(_LENGTH))
_VERSION = ctypes.POINTER(ctypes.c_uint64)


def _exported(name: str, *types, result=ctypes.c_bool, first=(_HANDLE,)):
    call = getattr(_LIBRARY, f"mapf_desk_{name}")
    call.restype, call.argtypes = result, (*first, *types)
    return call


open_desk = _exported("open", *_TEXT, *_TEXT, ctypes.c_bool, _NUMBER, ctypes.c_bool, _NUMBER, *_TEXT, ctypes.c_bool)
line = _exported("line", *_TEXT)
journal = _exported("journal")
answer = _exported("answer", *_TEXT, ctypes.POINTER(_LENGTH))
close = _exported("close")
version = _exported("version", _VERSION, result=_NUMBER)
commit_path = _exported("commit_path", *_PATH, _VERSION, result=_NUMBER)
try_path = _exported("try_path", *_PATH, *_ROOM, result=_NUMBER)
conflicts = _exported("conflicts", _NUMBER, *_ROOM, result=_NUMBER)
solves = _exported("solves", *[ctypes.c_bool] * 5, ctypes.POINTER(ctypes.c_bool), result=_NUMBER)
distance = _exported("distance", *[_NUMBER] * 3, ctypes.POINTER(_NUMBER), result=_NUMBER)
_WORDS = (*_TEXT, *_TEXT, ctypes.c_bool, _NUMBER, *_TEXT, _NUMBER, *[ctypes.c_bool] * 8)
check = _exported("check", *_WORDS, *_TEXT, ctypes.POINTER(_LENGTH), result=_NUMBER, first=())
