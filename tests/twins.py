"""A wrong body of a function that another wrong body of the same copy changes: it stands behind that one, in a function of its own."""
import re
from typing import NamedTuple

from functions import Function, own_calls


class Twin(NamedTuple):
    """A function with the contract, the attributes and the proof of another, under a name of its own."""

    function: Function  # the other one
    path: tuple
    text: str

    def write_proof(self, folder, room):
        """Writes its proof into a copy: that of the other one in the crate's folder, under the twin's name."""
        old, new = self.function.path[-1], self.path[-1]
        for proof in proofs_of(folder, self.function):
            to = room / "proofs" / "/".join(self.path[:-1]) / proof.name.replace(old, new)
            for file in proof.rglob("*.antt"):
                place = to / file.relative_to(proof)
                place.parent.mkdir(parents=True, exist_ok=True)
                place.write_text(own_names(folder, self.function).sub(new, file.read_text()))


def proofs_of(folder, function):
    """Where its proof may stand in the crate's folder: behind a + where it calls itself."""
    above = folder / "proofs" / "/".join(function.path[:-1])
    return [above / f"{mark}{function.path[-1]}" for mark in ("", "+")]


def modules_above(folder, function):
    """What stands before its name in the names of the modules that its proof makes."""
    return ".".join(["Rattle", folder.name, "proofs", *function.path[:-1], ""])


def own_names(folder, function):
    """Finds its name in its proof, where other functions of that name may be told too."""
    name = function.path[-1]
    if function.is_recursive:
        # (goals about its own calls have its name)
        return re.compile(rf"\b{name}(?=(?:_spec)?\b)")
    return re.compile(rf"\b{name}(?=_spec\b)|(?<={re.escape(modules_above(folder, function))}){name}(?=\.)")


def is_cited(folder, function):
    """Whether what its proof makes is named in the files of other proofs, which would speak of it and not of a twin."""
    names = [f"{modules_above(folder, function)}{it.name}." for it in proofs_of(folder, function)]
    files = [it for part in ("specs", "proofs") for it in folder.glob(f"{part}/**/*.antt")]
    others = [it.read_text() for it in files if not set(proofs_of(folder, function)) & set(it.parents)]
    return any(name in it for it in others for name in names)


def has_proofs_elsewhere(folder, function):
    """Whether a proof of its closures, or of calls of its own that aren't seen here, tells its name in another way."""
    path = function.path
    of_closures = [folder / "proofs" / "/".join([*path[:at], "fn", *path[at:]]) for at in range(len(path))]
    of_calls = proofs_of(folder, function)[1:] if not function.is_recursive else []
    return any(it.exists() for it in [*of_closures, *of_calls])


def ends_an_item(line):
    """Whether a line is the last before an item, and no part of the comments and attributes that the item begins with."""
    return not line.strip() or not line.lstrip().startswith("//") and line.endswith(("{", "}", ";"))


def twin_of(folder, function, fault, text):
    """A twin that is named after a fault, if another function can stand beside this one; the text is that of its file with the fault."""
    lines, first = text.split("\n"), function.first
    while first and not ends_an_item(lines[first - 1]):
        first -= 1
    # (functions that call each other have one proof)
    is_in_cycle = any("#[cycle" in it for it in lines[first : function.first])
    if function.trait or is_in_cycle or has_proofs_elsewhere(folder, function) or is_cited(folder, function):
        return None
    # (no other function has a name in two such parts)
    old, new = function.path[-1], f"{function.path[-1]}__{fault}"
    lines[function.first] = re.sub(rf"\bfn {old}\b", f"fn {new}", lines[function.first], count=1)
    own = "\n".join(lines[first : function.last + 1])
    if function.is_recursive:
        own = own_calls(old, lines[function.first].startswith(" ")).sub(new, own)
    return Twin(function, (*function.path[:-1], new), f"\n\n{own}")
