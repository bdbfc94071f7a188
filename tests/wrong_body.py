"""Wrong bodies as files, in one form.

A file NAME.edit has a line `file: src/..`, pairs of lines `old: TEXT` and `new: TEXT`, and what refuses the body that has the one in
place of the other. In crates/*/must-fail stand those that the checker refuses, where a line `refused at: F` names a function if the
body changes none. In crates/*/must-fail/by-tests stand those that no contract refuses: `refused by: TEST` names a test of
tests/program.py, or by MODULE::TEST one of crates/test_desks, or a line of words of tests/words.txt. There a text may go on in lines
`more: TEXT`, and where a part of the old text is marked by ‹ and › that part alone is replaced.
"""
from pathlib import Path

CRATES = Path(__file__).resolve().parent.parent / "crates"
BY_TESTS = "must-fail/by-tests"


class WrongBody:
    """A wrong body: its name, its crate, what it changes (file, old text, new text), and where or by what it is refused."""

    def __init__(self, file):
        self.name, self.pairs, self.places, self.test = file.stem, [], [], None
        self.crate = file.relative_to(CRATES).parts[0] if file.is_relative_to(CRATES) else None
        path = old = None
        for line in file.read_text().split("\n"):
            word, _, text = line.partition(":")
            text = text.removeprefix(" ")
            if word == "file":
                path = text.strip()
            elif word == "refused at":
                self.places.append(tuple(text.split("::")))
            elif word == "refused by":
                self.test = text
            elif word == "old":
                old = text
            elif word == "new":
                self.pairs.append((path, old, text))
            elif word == "more" and self.pairs and self.pairs[-1][1] == old:
                self.pairs[-1] = (path, old, f"{self.pairs[-1][2]}\n{text}")
            elif word == "more":
                old = f"{old}\n{text}"
        if not self.pairs or not all(it[0] and it[0].startswith("src/") and it[1] for it in self.pairs):
            raise SystemExit(f"{file}: a wrong body changes a file of src/, by lines 'file: ', 'old: ' and 'new: '")


def refused_by_proofs(crate):
    """The wrong bodies of a crate (its folder) that the checker refuses."""
    return [WrongBody(it) for it in sorted(crate.glob("must-fail/*.edit"))]


def refused_by_tests(*crates):
    """The wrong bodies of crates (their names) that tests refuse."""
    return [WrongBody(it) for crate in crates for it in sorted((CRATES / crate / BY_TESTS).glob("*.edit"))]


def is_called(test):
    """Whether a test is one of crates/test_desks, which is told by its module."""
    return "::" in test
