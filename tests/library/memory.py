"""The library under valgrind and AddressSanitizer, which have to be silent, and end with nothing of its memory left."""
from pathlib import Path

from on_numbers import line_for_c
from plain_calls import runs
from processes.running import Wrong

VALGRIND = ["valgrind", "-q", "--leak-check=full", "--show-leak-kinds=all", "--error-exitcode=9"]
DESKS = 10000  # desks that are opened and closed


def silent(words, given, said, what):
    """What the program prints is what is wrong, but for the answers where it has some."""
    found = said([*VALGRIND, *words], given).decode(errors="replace")
    if "==" in found or "not so" in found:
        raise Wrong(f"valgrind at {what}: {found[:500]}")


def nothing_is_said(built, said, ground):
    Path("map").write_text(ground)
    wrong, calls = built("gcc", "wrong_numbers.c", "wrong_numbers", "-std=c99"), built("gcc", "calls.c", "calls", "-std=c99")
    numbers = built("gcc", "numbers.c", "numbers", "-std=c99")
    for program in (wrong, built("gcc", "wrong_numbers.c", "wrong_asan", "-std=c99", "-fsanitize=address")):
        if found := said([program]):
            raise Wrong(f"wrong calls: {found.decode()}")
    silent([wrong], b"", said, "wrong calls on numbers")
    silent([calls, str(DESKS)], b"", said, "desks that are opened and closed")
    for number, ((text, mode, limit), steps) in zip(range(5), runs()):
        Path("ground").write_text(text)
        lines = "".join(line_for_c(kind, words, 3) for kind, words, _ in steps)
        silent([numbers, "ground", mode, str(limit)], lines.encode(), said, f"run {number}")
