#!/usr/bin/env python3
"""Tells how many functions of a crate have no clause, and with -v which: of those, safety and an end alone are proved.

unclaused.py [-v] [CRATE..]     the crates of the program where none is named
A function of an impl has the clauses of the trait's: one of the repository's traits that has none there either is counted too,
one of the kit's traits apart, whatever it has there.
"""
import re
import sys
from pathlib import Path

sys.dont_write_bytecode = True

from functions import CLAUSE, functions_of

CRATES = Path(__file__).resolve().parent.parent / "crates"
PROGRAM = ("desk_cli", "desk_io", "mapf_desk")

TRAIT = re.compile(r"(?ms)^(?:pub(?:\([^)]*\))? )?trait (\w+)[^\n]*\{\n(.*?)^\}")
CLAUSED = re.compile(rf"(?m)^{CLAUSE.pattern}")
DECLARED = re.compile(r"(?ms)^    fn (\w+)(.*?[;{])$")


def declared():
    """What the functions of the repository's traits are declared as, by the names of both."""
    traits = [it for file in CRATES.glob("*/src/**/*.rt") for it in TRAIT.findall(file.read_text())]
    return {(trait, name): text for trait, body in traits for name, text in DECLARED.findall(body)}


def has_clause(crate, function):
    lines = (crate / function.file).read_text().split("\n")[function.first : function.opening + 1]
    return any(CLAUSE.match(line) for line in lines)


def main():
    words = sys.argv[1:]
    names = [it for it in words if it != "-v"] or PROGRAM
    total, of_traits = 0, declared()
    for name in names:
        crate = CRATES / name
        functions = functions_of(crate)
        bare = [it for it in functions if not has_clause(crate, it)]
        of_kit = [it for it in bare if it.trait and (it.trait, it.path[-1]) not in of_traits]
        plain = [it for it in bare if it not in of_kit and not CLAUSED.search(of_traits.get((it.trait, it.path[-1]), ""))]
        total += len(plain)
        print(f"{name}: {len(functions)} functions, {len(plain)} with no clause, {len(of_kit)} of the kit's traits")
        if "-v" in words:
            print("".join(f"  {'::'.join(it.path)}\n" for it in plain), end="")
    print(f"{total} with no clause")


if __name__ == "__main__":
    main()
