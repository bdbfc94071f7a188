#!/usr/bin/env python3
"""Runs wrong bodies of the program, each with the test that is to refuse it: a test of tests/program.py, one of crates/test_desks, or a
line of words.

wrong_programs.py [NAME..]     all of crates/*/must-fail/by-tests, or those
All stand in one build that isn't proved, each behind a switch (switch.py). The right program, which is that build with
no switch on, has to pass the same tests; each wrong one has to fail at its own.
The last line is 'N passed, M failed'; status 1 where one failed.
"""
import os
import subprocess
import sys
import tempfile
import time

sys.dont_write_bytecode = True

import switch
from wrong_body import is_called, refused_by_tests

PATIENCE = "20"  # seconds that one run of the program may take


def tried(program, test, wrong=""):
    """The last line of a test of tests/program.py, and what it said before."""
    if is_called(test):
        return called(program, test, wrong)
    words = [sys.executable, f"{switch.TOP}/tests/program.py", program, test]
    env = {**os.environ, "PATIENCE": PATIENCE, switch.WRONG: wrong}
    lines = subprocess.run(words, capture_output=True, text=True, env=env).stdout.splitlines()
    return lines[-1] if lines else "", " ".join(lines[:-1])


def called(program, test, wrong=""):
    """The same of a test of crates/test_desks, which ends the program where it fails."""
    env = {**os.environ, switch.WRONG: wrong, switch.TRIED: test}
    status = subprocess.run([program], capture_output=True, env=env, stdin=subprocess.DEVNULL).returncode
    return f"{int(not status)} passed, {int(status != 0)} failed", f"status {status}"


def told(program, line, wrong=""):
    """What words are read as."""
    words = ["" if it == '""' else it for it in line.split()]
    env = {**os.environ, switch.WRONG: wrong, switch.TOLD: "1"}
    return subprocess.run([program, *words], capture_output=True, text=True, env=env, stdin=subprocess.DEVNULL).stdout.strip()


def right_program(program, bodies):
    """The tests that the right program fails, each with why."""
    for test in dict.fromkeys(it.test for it in bodies):
        last, said = tried(program, test)
        yield f"the right program at {test}", "passes", None if last == "1 passed, 0 failed" else said or last


def wrong_programs(program, bodies):
    for it in bodies:
        last, said = tried(program, it.test, it.name)
        yield it.name, f"refused by {it.test}", None if last == "0 passed, 1 failed" else f"{it.test} says {last} {said}"


def wrong_readers(program, readers):
    lines = switch.read(f"{switch.TOP}/tests/words.txt").splitlines()
    for it in readers:
        words, _, rest = it.test.partition(" => ")
        wrong, _, right = rest.partition(", and not ")
        found = told(program, words), told(program, words, it.name), f"{words} => {right}" in lines
        yield it.name, f"refused by {words!r}", None if found == (right, wrong, True) else f"{words!r} is told as {found}"


def outcomes(names):
    """Builds the wrong bodies, and gives for each what was tried, its end, and why it is another, if it is."""
    wanted = [it for it in refused_by_tests(*switch.CRATES) if not names or it.name in names]
    readers = [it for it in wanted if it.crate == switch.READERS]
    bodies = [it for it in wanted if it.crate != switch.READERS]
    with tempfile.TemporaryDirectory(prefix="desk-") as top:
        switch.copy(top, [it for it in dict.fromkeys(it.test for it in bodies) if is_called(it)])
        for crate in switch.CRATES:
            switch.plant(top, crate)
        program = f"{top}/program"
        why = switch.build(top, program)
        yield "the build", "made", why
        if not why:
            yield from right_program(program, bodies)
            yield from wrong_programs(program, bodies)
            yield from wrong_readers(program, readers)


def main():
    count, passed, began = 0, 0, time.monotonic()
    for name, end, why in outcomes(sys.argv[1:]):
        print(f"{name}: {'FAILED: ' + why if why else end} ({time.monotonic() - began:.0f} s)", flush=True)
        count += 1
        passed += not why
    print(f"{passed} passed, {count - passed} failed")
    return 0 if passed == count else 1


if __name__ == "__main__":
    sys.exit(main())
