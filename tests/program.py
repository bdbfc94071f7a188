#!/usr/bin/env python3
"""Runs the built program as its users do: words, files, pipes and devices. docs/CLI.md and docs/PROTOCOL.md say what is right.

program.py [PROGRAM [TEST..]]     the program that `rt ci` or `./desk --prove` built where none is named; those tests alone
The tests stand in processes/, by topic. The last line is 'N passed, M failed'; status 1 where one failed.
"""
import os
import signal
import subprocess
import sys
import tempfile
from importlib import import_module
from pkgutil import iter_modules

sys.dont_write_bytecode = True

import processes
from processes.running import PATIENCE, TOP, Program, Wrong, kill_all, put
from processes.texts import FILES

# The files of processes/ that list tests.
FILES_THERE = [import_module(f"processes.{it.name}") for it in iter_modules(processes.__path__)]
TOPICS = [it for it in FILES_THERE if hasattr(it, "tests")]

LONGEST = 10 * PATIENCE  # seconds that one test may take, of as many runs as it has


def stopped(*_):
    raise Wrong(f"not done after {LONGEST} seconds")


def tell(line=""):
    """Tells what is tried, in a line that changes, where somebody watches."""
    if sys.stderr.isatty():
        print(f"\r\033[K{line[:100]}", end="", file=sys.stderr, flush=True)


def passes(name, test):
    """Whether the test passes; what it finds wrong is printed."""
    signal.alarm(LONGEST)
    try:
        test()
        return True
    except (Wrong, OSError, subprocess.SubprocessError) as why:
        kill_all()
        tell()
        print(f"{name}: FAILED: {why}", flush=True)
        return False
    finally:
        signal.alarm(0)


def main():
    Program.path = os.path.abspath(sys.argv[1] if len(sys.argv) > 1 else Program.path)
    wanted = sys.argv[2:]
    tests = [it for topic in TOPICS for it in topic.tests() if not wanted or it[0] in wanted]
    if not os.access(Program.path, os.X_OK):
        print(f"there is no program {Program.path}: ./desk --prove builds it\n0 passed, {len(tests)} failed")
        return 1
    signal.signal(signal.SIGALRM, stopped)
    # A shell that starts this in the background has its programs ignore SIGINT and SIGQUIT, nohup has them ignore SIGHUP.
    signal.signal(signal.SIGINT, signal.default_int_handler)
    signal.signal(signal.SIGQUIT, signal.SIG_DFL)
    signal.signal(signal.SIGHUP, signal.SIG_DFL)
    with tempfile.TemporaryDirectory() as folder:
        os.chdir(folder)
        for name, text in FILES.items():
            put(name, text)
        passed = 0
        for number, (name, test) in enumerate(tests, 1):
            tell(f"{number} of {len(tests)}: {name}")
            passed += passes(name, test)
        tell()
        os.chdir(TOP)
    print(f"{passed} passed, {len(tests) - passed} failed")
    return 0 if passed == len(tests) else 1


if __name__ == "__main__":
    sys.exit(main())
