#!/usr/bin/env python3
"""Sees that the checker refuses each wrong body of crates/*/must-fail, at the function that it changes, by a goal of its own.

wrong_functions.py PROVED [CRATE..]     all of them, or those of some crates; PROVED is a folder where `rt ci` has proved the crates
The wrong bodies of a crate are planted side by side in one copy of it. Where several change the same function, the others stand
behind it in twins: functions of its contract and its proof, each named after it and its wrong body (PUT__FAULT). Those that
change more than bodies, or a function of a trait that another one changes too, are planted in further copies. What isn't changed
has no body and a hole for its proof, so it is taken at its contract, which `rt ci` has proved; the changed functions are proved
for real, and so is a twin with a right body, which has to be proved. The copies of a crate are checked one after the other, and
each takes over what the ones before it have checked and it has unchanged.
The last line is 'N passed, M failed'; status 1 where one failed.
"""
import os
import re
import shutil
import subprocess
import sys
import tempfile
from concurrent.futures import ThreadPoolExecutor, as_completed
from pathlib import Path

sys.dont_write_bytecode = True

from planting import rounds_of

TOP = Path(__file__).resolve().parent.parent
KIT = Path(subprocess.run(["rt", "doc"], capture_output=True, text=True, check=True).stdout.strip()).parent
# What a proof file says where it names what a change took away: this tells nothing of the contract.
NAMES = re.compile(r"has no field|is not in scope|has no `|not admitted|not checked|(?:module|record) `\S+`(?: \(nearest: .*\))?$")
# The checker's last line where it came to its end.
END = re.compile(r"^only=\d+ holes=\d+$", re.M)
NAMED = "only since a proof file names what went, which says little of the contract"


def libraries():
    """The libraries that each crate of crates.txt uses, by its name."""
    lines = [it.partition("#")[0].partition(":") for it in (TOP / "crates.txt").read_text().splitlines()]
    return {head.split()[0]: below.split() for head, colon, below in lines if colon}


def words_of(crate, proved):
    """The checker's words for a crate, over the libraries that stand proved in that folder."""
    below, found, waiting = libraries(), [], [crate]
    rlib = lambda name: f"{proved}/crates/{name}/out/rlib"
    while waiting:
        for name in below[waiting.pop()]:
            if name in below and name not in found:
                found.append(name)
                waiting.append(name)
    for name in ["std", *below[crate]]:
        yield from ("--extern", f"{name}={rlib(name) if name in below else f'{KIT}/rlibs'}/{name}.rlib")
    for folder in [f"{KIT}/rlibs", *map(rlib, found)]:
        yield from ("-L", f"dependency={folder}")
    yield from ("--antt-project", f"{KIT}/rattle/logic/antt-project.json", "--logic-built", f"{KIT}/logic_built")


def check(copy, proved, room, kept):
    """What the checker says of a copy's changed functions, over what it has kept of the crate's other copies."""
    root = "src/main.rt" if (room / "src/main.rt").exists() else "src/lib.rt"
    words = ["--crate-name", copy.crate, root, *words_of(copy.crate, proved), "--links", f"{copy.crate}=", "--jobs", "1"]
    words += ["--allow-holes", "--incremental", kept]
    for path in copy.tried():
        words += ["--only", "::".join(path)]
    how = {"stdin": subprocess.DEVNULL, "stdout": subprocess.PIPE, "stderr": subprocess.STDOUT, "text": True, "errors": "replace"}
    return subprocess.run([KIT / "bin/rattle", "check", *words], cwd=room, **how).stdout


def told_of(copy, path, said, is_alone=False):
    """What the checker says of a function and of its closures, and the errors in its proof; of what is alone in a copy, in lemmas too."""
    # (a closure's name is its function's with `fn` behind the module's)
    within = "(?:::(?:fn::)?|/(?:fn/)?)"
    lines = re.findall(rf"(?m)^fn {copy.crate}::(?:fn::)?{within.join(path)}(?:::\S*|\+\S*)?: (.*)$", said)
    # (and the proof of one that calls itself stands behind a +)
    own = within.join([*path[:-1], r"\+?" + path[-1]])
    place = r"\S+" if is_alone else rf"(?:fn/)?{own}/\S+"
    return lines, re.findall(rf"(?m)^\./proofs/{place}\.antt:\d+:\d+: error: (.*)$", said)


def refusal(copy, path, said, is_alone=False):
    """By which goal of its own a function is refused, if it is."""
    lines, errors = told_of(copy, path, said, is_alone)
    for line in lines:
        found = re.search(r"`search` did not prove (`[^`]*`)", line)
        if found:
            return found[1]
    if not any(it.startswith("not proved") for it in lines):
        return None
    real = [it for it in errors if not NAMES.search(it)]
    return real[0] if real else f"{NAMED}: {errors[0]}" if errors else None


def heard(copy, proved, top):
    """What the checker says of a copy; once more where it doesn't come to its end, as when it was killed for memory."""
    for _ in range(2):
        shutil.rmtree(top / "crate", ignore_errors=True)
        copy.write(top / "crate")
        said = check(copy, proved, top / "crate", top / "kept")
        if END.search(said):
            break
    return said


def outcomes_of(copies, proved):
    """The outcomes of a crate's copies."""
    with tempfile.TemporaryDirectory(prefix="wrong-") as top:
        return [it for copy in copies for it in outcomes(copy, heard(copy, proved, Path(top)))]


def outcomes(copy, said):
    """For each wrong body of a copy its name, and why it doesn't count as refused, if it doesn't."""
    label = lambda edit: f"{copy.crate}/{edit.name}"
    if not END.search(said):
        why = next((it for it in said.splitlines() if "error: " in it), said.strip()[-300:])
        return [(label(it), "", f"the checker didn't come to its end: {why[:300]}") for it in copy.edits]
    found = []
    lines, _ = told_of(copy, copy.witness.path, said)
    if not lines or refusal(copy, copy.witness.path, said):
        found.append((f"{copy.crate}, {'::'.join(copy.witness.path)} as it is", "", f"not proved: {lines}"))
    for edit in copy.edits:
        by = [(path, refusal(copy, path, said, not edit.is_of_functions)) for path in copy.places(edit)]
        good = next((f"refused at {'::'.join(path)}: {goal[:200]}" for path, goal in by if goal), None)
        why = None if good else f"no goal of its own is refused: {[told_of(copy, path, said) for path in copy.places(edit)]}"
        found.append((label(edit), good, why))
    return found


def processors():
    return len(os.sched_getaffinity(0))


def main():
    proved, *names = sys.argv[1:]
    crates = names or sorted({it.parent.parent.name for it in TOP.glob("crates/*/must-fail/*.edit")})
    passed = failed = 0
    copies = [rounds_of(TOP / "crates" / crate) for crate in crates]
    # (first those that are likely to take longest)
    copies.sort(key=lambda those: -those[0].size * sum(len(it.edits) for it in those))
    with ThreadPoolExecutor(processors()) as pool:
        for done in as_completed([pool.submit(outcomes_of, it, Path(proved).resolve()) for it in copies]):
            for name, good, why in done.result():
                print(f"{name}: {'FAILED: ' + why if why else good}", flush=True)
                passed, failed = passed + (not why), failed + bool(why)
    print(f"{passed} passed, {failed} failed")
    return 1 if failed or not passed else 0


if __name__ == "__main__":
    sys.exit(main())
