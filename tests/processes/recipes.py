"""The recipes of the pages that no block of commands has, each run as it stands: the steps of CI of README, and GNU parallel of CLI.md, on this
machine and on others, for which a stand-in of ssh runs what it is sent here.
"""
import contextlib
import os
import re
import shutil
import subprocess
import tempfile

from .documented import blocks_of, text_of
from .running import PATIENCE, TOP, Program, Wrong, bytes_of, put, want

# What a file may have, its status alone, and what stands behind its name in a line of its own.
NONE_OF_THESE = "edge 0, follow 0, swap 0, cycle 0, blocked 0"
SOLVES = ("paths", 0, f"solves yes, agents 2, finished 2, conflicts 0, vertex 0, {NONE_OF_THESE}, sum 18, makespan 10, bounds 12, gap 6")
MEETS = ("meeting", 1, f"solves no, agents 2, finished 2, conflicts 1, vertex 1, {NONE_OF_THESE}, sum 12, makespan 6, bounds 12, gap 0")
EMPTY, BROKEN = (b"", 1, "solves no, no paths"), (b"path 0\n", 2, "paths: no cells in line 1")
# The stand-in of ssh notes the machine, and begins as a login does, in no folder of this shell's and with a SHELL, which parallel runs there.
SSH = b'#!/bin/sh\necho "$1" >> "$MACHINES"\nshift 2\ncd\nSHELL=/bin/sh exec sh -c "$*"\n'


def text_behind(kind):
    """The text of a file of that kind; of a word it is that of the demo's file."""
    return kind[0] if isinstance(kind[0], bytes) else bytes_of(f"{TOP}/demo/corridor.{kind[0]}")


@contextlib.contextmanager
def folder_of_a_reader():
    """A folder with the released program, a copy of the demo's corridor, a home and a stand-in of ssh, and what a run in it is given."""
    with tempfile.TemporaryDirectory() as folder:
        for name in ("release", "demo", "home", "programs", "plans/more"):
            os.makedirs(f"{folder}/{name}")
        os.symlink(Program.path, f"{folder}/release/mapf_desk")
        for name in ("map", "scen", "paths"):
            shutil.copy(f"{TOP}/demo/corridor.{name}", f"{folder}/demo")
        put(f"{folder}/programs/ssh", SSH), put(f"{folder}/machines", b"")
        os.chmod(f"{folder}/programs/ssh", 0o755)
        path = f"{folder}/programs:{os.environ['PATH']}"
        more = {"LC_ALL": "C", "HOME": f"{folder}/home", "PATH": path, "MACHINES": f"{folder}/machines"}
        yield folder, {"cwd": folder, "env": {**os.environ, **more}, "capture_output": True, "text": True, "timeout": PATIENCE, "stdin": subprocess.DEVNULL}


def step_ends(step, files, right):
    """A step ends with that status where the folder has these files, each of a kind."""
    with folder_of_a_reader() as (folder, how):
        for name, kind in files.items():
            put(f"{folder}/{name}", text_behind(kind))
        put(f"{folder}/step", step.encode())
        want(f"the status of {step!r} with {files}", subprocess.run(["bash", "-e", "step"], **how).returncode, right)


def steps_of_ci():
    """Each step of README, run as GitHub's CI runs it, ends by the status of the worst file: of one file, and of a folder, also an empty one."""
    steps = [line.removeprefix("- run: ") for language, text in blocks_of("README.md") if language == "yaml" for line in text.splitlines()]
    want("how many steps README has, and what else YAML would make of them", (len(steps), [it for it in steps if ": " in it or " #" in it]), (2, []))
    for kind in (SOLVES, MEETS, EMPTY, BROKEN):
        step_ends(steps[0], {"demo/corridor.paths": kind}, kind[1])
        for others in ([], [SOLVES], [MEETS], [BROKEN, SOLVES]):
            kinds = [kind, *others]
            step_ends(steps[1], {f"plans/{it}.paths": kind for it, kind in enumerate(kinds)}, max(it[1] for it in kinds))
    step_ends(steps[1], {"plans/notes.txt": BROKEN}, 2)


def recipes():
    """The recipe of CLI.md for several machines, and that for this one alone, which lacks the words that the page says."""
    lines = re.search(r"^    find plans .*\n(?: {8}.*\n)+", text_of("docs/CLI.md"), re.MULTILINE)[0]
    words = re.search(r"without `(--wd [^`]*)`", text_of("docs/CLI.md"))[1]
    want(f"how often the recipe has {words}", lines.count(f" {words} "), 1)
    return lines, lines.replace(f" {words} ", " ")


def files_by_parallel():
    """GNU parallel gives each run some of the files; all have their lines, and those that don't solve come last, each part by name."""
    if lacking := [it for it in ("parallel", "find", "awk", "sort") if not shutil.which(it)]:
        if os.environ.get("NO_BROWSER") == "failed":
            raise Wrong(f"there is no {' and no '.join(lacking)} here")
        print(f"left out: the recipe for thousands of files, since there is no {' and no '.join(lacking)} here", flush=True)
        return
    kinds = [SOLVES, MEETS, EMPTY, BROKEN]
    plans = {f"plans/{'more/' if it % 3 else ''}plan {it}.paths": kinds[0 if it % 2 else it // 2 % 4] for it in range(350)}
    rows = [(name, f"{name}: {plans[name][2]}") for name in sorted(plans)]
    right = [it for solve in (True, False) for name, it in rows if (plans[name] is SOLVES) == solve]
    for recipe, machines in zip(recipes(), ({"one", "two"}, set())):
        with folder_of_a_reader() as (folder, how):
            for name, kind in plans.items():
                put(f"{folder}/{name}", text_behind(kind))
            put(f"{folder}/plans/notes.txt", b"no plan\n")
            how["env"].pop("SHELL", None)  # (which CI doesn't always have)
            ran = subprocess.run(["bash", "-c", recipe], **how)
            want("standard error, and the machines that ran some", (ran.stderr, set(bytes_of(f"{folder}/machines").decode().split())), ("", machines))
            want("the lines", ran.stdout.splitlines(), right)


def tests():
    return [(it.__name__, it) for it in (steps_of_ci, files_by_parallel)]
