"""Wrong bodies of a crate, planted side by side in a copy of it, where all other functions have no bodies and one hole for their proofs.

A wrong body of a function that an earlier one changes stands in a twin of it (twins.py); a further copy is made where there can be none.
"""
import shutil
from functools import cached_property
from pathlib import Path

from functions import functions_of, without_bodies
from twins import Twin, twin_of
from wrong_body import refused_by_proofs

PARTS = ("src", "specs", "proofs")
# (one hole for all: the checker prints the goal of each)
HOLE = "pub assumed : ⊥\nassumed = ?\n"
PROOF = """use Rattle.{crate}.proofs.Assumed.{{assumed}}
use Rattle.{crate}.proofs.{path}.Statement.{{statement}}

pub {name}_spec : {{M : Type 1}} → statement M
{name}_spec = absurd assumed
"""


class Edit:
    """A wrong body that the checker refuses, with the functions that it changes."""

    def __init__(self, body):
        self.name, self.pairs, self.paths = body.name, body.pairs, list(body.places)

    def find(self, texts, functions):
        """Finds the functions that it changes, and whether it changes functions alone; then others may stand beside it."""
        self.is_of_functions = True
        for file, old, _ in self.pairs:
            at = texts[file].find(old)
            line = texts[file][:at].count("\n")
            inside = [it.path for it in functions if it.file == file and it.first <= line <= it.last]
            # (a later pair may change what an earlier one wrote)
            if at >= 0:
                self.is_of_functions = self.is_of_functions and bool(inside)
                self.paths += [it for it in inside if it not in self.paths]

    def changed(self, texts):
        """The texts with this body in them, or None where an old text doesn't stand there once."""
        texts = dict(texts)
        for file, old, new in self.pairs:
            if texts[file].count(old) != 1:
                return None
            texts[file] = texts[file].replace(old, new)
        return texts


class Copy:
    """A copy of a crate with some wrong bodies in it."""

    def __init__(self, folder, texts, functions):
        self.folder, self.crate, self.functions, self.edits = folder, folder.name, functions, []
        # (the texts as they are, those with wrong bodies, and wrong bodies that stand behind them)
        self.right, self.texts, self.twins = texts, texts, {}
        self.size = sum(map(len, texts.values()))

    def take(self, edit):
        """Plants a wrong body, in a twin where others change its function, unless it can't stand beside the others here."""
        if self.edits and not all(it.is_of_functions for it in [edit, *self.edits]):
            return False
        texts, is_taken = edit.changed(self.texts), any(path in it.paths for it in self.edits for path in edit.paths)
        if texts is None or is_taken:
            twin = self.twin(edit)
            if not twin:
                return False
            self.twins[edit.name] = twin
        else:
            self.texts = texts
        self.edits.append(edit)
        return True

    def twin(self, edit):
        """A twin with that wrong body, if it changes one function alone, which can have one."""
        inside = next((it for it in self.functions if [it.path] == edit.paths), None)
        return inside and twin_of(self.folder, inside, edit.name, edit.changed(self.right)[inside.file])

    def places(self, edit):
        """The functions that a wrong body changes here."""
        return [self.twins[edit.name].path] if edit.name in self.twins else edit.paths

    @cached_property
    def witness(self):
        """A right twin of a function that isn't changed, of that with the least answers of its own; or that one, if it can have none.
        Where each function is changed, it is a right twin of one of them. (A proof by hand is of no other function's body.)"""
        changed = {path for it in self.edits for path in it.paths}
        unchanged = [it for it in self.functions if it.path not in changed and not self.is_by_hand(it)]
        sizes = [(self.answers(it), it.path, it) for it in unchanged or self.functions]
        least = min([it for it in sizes if it[0]] or sizes)[2]
        return twin_of(self.folder, least, "right", self.right[least.file]) or least

    def is_by_hand(self, function):
        return (self.folder / "proofs" / "/".join(function.path) / "Proof.antt").exists()

    def answers(self, function):
        file = self.folder / "proofs" / "/".join(function.path) / "Answers.antt"
        return file.stat().st_size if file.exists() else 0

    def tried(self):
        return [*{path: 0 for it in self.edits for path in self.places(it)}, self.witness.path]

    def write(self, room):
        """Writes the copy into a folder."""
        for part in PARTS:
            if (self.folder / part).is_dir():
                shutil.copytree(self.folder / part, room / part)
        # (the proof of a function that calls itself stands elsewhere: it is proved)
        taken = [it for it in self.functions if not it.is_recursive and it.path not in self.tried()]
        twins = [it for it in [*self.twins.values(), self.witness] if isinstance(it, Twin)]
        for file, text in self.texts.items():
            behind = [(it.function.last, it.text) for it in twins if it.function.file == file]
            (room / file).write_text(without_bodies(text, [it for it in taken if it.file == file], behind))
        for twin in twins:
            twin.write_proof(self.folder, room)
        for path in {it.path for it in taken}:
            folder = room / "proofs" / "/".join(path)
            shutil.rmtree(folder, ignore_errors=True)
            folder.mkdir(parents=True)
            proof = PROOF.format(crate=self.crate, path=".".join(path), name=path[-1])
            (folder / "Proof.antt").write_text(proof)
        (room / "proofs" / "Assumed.antt").write_text(HOLE)
        with (room / "proofs" / "Lib.antt").open("a") as file:
            file.write("mod Assumed\n")


def rounds_of(folder):
    """Copies of the crate in that folder, which hold all its wrong bodies."""
    texts = {str(it.relative_to(folder)): it.read_text() for it in sorted(folder.glob("src/**/*.rt"))}
    functions, copies = functions_of(folder), []
    for body in refused_by_proofs(folder):
        edit = Edit(body)
        edit.find(texts, functions)
        if edit.changed(texts) is None or not edit.paths:
            raise SystemExit(f"{folder.name}/{body.name}: an old text doesn't stand in its file once, or in no function, and no line 'refused at: ' names one")
        if not any(it.take(edit) for it in copies):
            copies.append(Copy(folder, texts, functions))
            copies[-1].take(edit)
    return copies
