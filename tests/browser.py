#!/usr/bin/env python3
"""Drives the pages of `mapf_desk page` and of demo/live.py in a browser, as a person would: clicks, keys, the wheel, fields.

browser.py [PROGRAM [TEST..]]     the program that `rt ci` or `./desk --prove` built where none is named; those tests alone
It takes Debian's packages chromium and chromium-driver; where they aren't there it says so and leaves the tests out, or with
NO_BROWSER=failed in the environment counts them as failed. The last line is 'N passed, M failed'; status 1 where one failed.
"""
import os
import signal
import sys
import tempfile

sys.dont_write_bytecode = True

from processes import browsing, checked_pages, living, seen_pages, told_apart, used_pages, viewing
from processes.running import PATIENCE, TOP, Program
from program import passes, stopped, tell


def main():
    Program.path = os.path.abspath(sys.argv[1] if len(sys.argv) > 1 else Program.path)
    wanted = sys.argv[2:]
    tests = [it for it in (*viewing.views(), *seen_pages.views(), *used_pages.views(), *told_apart.views(), *checked_pages.views(), *living.views()) if not wanted or it[0] in wanted]
    lacking = browsing.missing()
    if lacking:
        failed = len(tests) if os.environ.get("NO_BROWSER") == "failed" else 0
        print(f"left out: {len(tests)} tests of pages in a browser, since there is no {' and no '.join(lacking)} here\n0 passed, {failed} failed")
        return 1 if failed else 0
    signal.signal(signal.SIGALRM, stopped)
    with tempfile.TemporaryDirectory() as folder:
        os.chdir(folder)
        passed = 0
        for number, (name, test) in enumerate(tests, 1):
            tell(f"{number} of {len(tests)}: {name}")
            passed += passes(name, test)
        tell()
        os.chdir(TOP)
    print(f"{passed} passed, {len(tests) - passed} failed")
    return 0 if passed == len(tests) else 1


if __name__ == "__main__":
    sys.exit(main())
