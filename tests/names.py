#!/usr/bin/env python3
"""Says which names of names.txt stand nowhere in the repository, and which wrong bodies name a library that their crate doesn't stand
on by its row of crates.txt, or, of the program's, turn a text that doesn't stand once, so that they could not be planted; ends with
status 1 if there is one of these.

A name stands where a test function, an entry of a test's table (`(KIND, "NAME, NAME", ..`) or a wrong body (crates/*/must-fail/NAME.edit) has
it, alone or as a whole part of a longer one that is joined by `_and_`, `_of_` and the like; so does one of the tests with processes, as
tests/program.py runs it, a worked example (`worked: NAME` or `worked: NAME, remark`) too. A wrong body that tests refuse is named in a remark
beside its test: `wrong body NAME`.
"""

import re
import sys
from pathlib import Path

sys.dont_write_bytecode = True

import switch
from program import TOPICS
from wrong_body import BY_TESTS, refused_by_proofs, refused_by_tests
from wrong_functions import libraries

HERE = Path(__file__).resolve().parent
CRATES = HERE.parent / "crates"
TEST = re.compile(r"#\[test\]\s+fn (\w+)")
ENTRY = re.compile(r'\(\s*(?:\w+::)?\w+,\s+"([^"]*)"')
PROCESS = re.compile(r"(?:worked: )?(\w+)(?:, .*)?")
REMARK = re.compile(r"wrong body\s+(?://\s*)?(\w+)")
PATH = re.compile(r"\b(\w+)::")


def own_files(pattern):
    """The files of that form that are written and not made."""
    return [path for path in CRATES.glob(pattern) if "out" not in path.relative_to(CRATES).parts]


def found(pattern, form):
    names = set()
    for path in own_files(pattern):
        names |= set(form.findall(path.read_text()))
    return names


def standing():
    names = {told[1] for topic in TOPICS for name, _ in topic.tests() if (told := PROCESS.fullmatch(name))}
    for form in (TEST, ENTRY, REMARK):
        names |= {word for text in found("test_*/src/**/*.rt", form) for word in re.findall(r"\w+", text)}
    names |= {name for path in (HERE / "processes").glob("*.py") for name in REMARK.findall(path.read_text())}
    return names | {path.stem for path in own_files("*/must-fail/*.edit")}


def stands(name, names):
    whole = re.compile(rf"(?:^|_){name}(?:_|$)")
    return any(whole.search(other) for other in names)


def planted():
    """The texts that wrong bodies plant, each with its crate and the wrong body's name; the program's main crate may name all below it."""
    for crate in sorted(CRATES.iterdir()):
        tested = refused_by_tests(crate.name) if crate.name != switch.PROGRAM else []
        for body in [*refused_by_proofs(crate), *tested]:
            for _, _, text in body.pairs:
                yield crate.name, body.name, text


def foreign():
    """What is said of wrong bodies that name a library which their crate doesn't stand on."""
    below = libraries()
    known = {*below, *(it for row in below.values() for it in row)}
    for crate, name, text in planted():
        for library in sorted({*PATH.findall(text)} & known - {crate, *below[crate]}):
            yield f"{name} names {library}, which the row of {crate} in crates.txt lacks"


def lost():
    """What is said of wrong bodies that tests refuse whose text doesn't stand once in their file, or that stand where none is planted."""
    for path in own_files(f"*/{BY_TESTS}/*.edit"):
        if path.parts[-4] not in switch.CRATES:
            yield f"{path.stem} stands in {path.parts[-4]}, where tests try none"
    for body in refused_by_tests(*switch.CRATES):
        for file, text, _ in body.pairs:
            try:
                switch.place((CRATES / body.crate / file).read_text(), text, file)
            except ValueError as why:
                yield f"{body.name}: {why}"


def main():
    lines = (HERE / "names.txt").read_text().splitlines()
    wanted = [line for line in lines if line and not line.startswith("#")]
    names = standing()
    missing = [name for name in wanted if not stands(name, names)]
    for name in missing:
        print(f"{name} stands nowhere")
    strange = [*foreign(), *lost()]
    for line in strange:
        print(line)
    print(f"{len(wanted) - len(missing)} of {len(wanted)} names stand")
    return 1 if missing or strange else 0


if __name__ == "__main__":
    sys.exit(main())
