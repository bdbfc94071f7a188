"""The functions that a crate's sources write: their names, as the checker tells them, and where they stand."""
import re
from pathlib import Path
from typing import NamedTuple

FUNCTION = re.compile(r"( *)(?:pub(?:\([^)]*\))? )?(?:const )?(?:unsafe )?(?:extern \"C\" )?fn (\w+)")
TYPE = re.compile(r"(?m)^(?:pub(?:\([^)]*\))? )?(?:struct|enum|trait) (\w+)")
TRAIT = re.compile(r"(?:pub(?:\([^)]*\))? )?trait (\w+)")
CLAUSE = re.compile(r"\s*(?:requires|ensures|ghost|invariant)")


class Function(NamedTuple):
    path: tuple  # of names below the crate, the last one its own
    file: str  # below the crate's folder
    first: int  # its first line, from 0
    opening: int  # the line that ends in the brace before its body
    last: int
    is_recursive: bool  # it calls itself by its name
    trait: str  # that it stands in or in an impl of, which says what functions stand there


class Owner(NamedTuple):
    """A trait, or the type of an impl."""

    names: list  # that its functions stand below
    trait: str  # or none


def module_of(file):
    """The names of the module that a file of src/ is."""
    names = file.removeprefix("src/").removesuffix(".rt").split("/")
    return [] if names in (["lib"], ["main"]) else names[:-1] if names[-1] == "mod" else names


def head(text):
    """The last name of the type or trait that a text begins with."""
    return re.match(r"(?:&(?:'\w+ )?(?:mut )?)?(?:\w+::)*(\w+)", text.strip())[1]


def without_parameters(text):
    """What stands behind the list of type parameters that an impl's text begins with, if it does."""
    depth = 0
    for at, letter in enumerate(text):
        depth += (letter == "<") - (letter == ">" and text[at - 1] != "-")
        if not depth:
            return text[at + 1 :] if at else text
    return text


def owner_of(line, module, types):
    """What the functions of an impl or a trait stand in, where the line begins one."""
    trait = TRAIT.match(line)
    if trait:
        return Owner([*module, trait[1]], trait[1])
    if not re.match(r"impl\b", line):
        return None
    parts = without_parameters(line.removeprefix("impl")).split(" where ")[0].rstrip("{ ").split(" for ")
    name = head(parts[-1])
    if len(parts) == 1:
        places = types.get(name, [module])
        return Owner([*(module if module in places else places[0]), name], "")
    # (what an impl of `From<T>` or `NamedFile<T>` is called has the name of T in it)
    of = re.search(r"<(?:\w+::)*(\w+)", parts[0])
    return Owner([*module, name + head(parts[0]) + (of[1] if of and head(parts[0]) in ("From", "NamedFile") else "")], head(parts[0]))


def body_of(lines, first, indent):
    """The lines on which the body opens and ends of the function that begins there: none opens where it has no body."""
    opening = None
    for at in range(first, len(lines)):
        line = lines[at].rstrip()
        if opening is not None and line == f"{indent}}}":
            return opening, at
        if opening is None and line.endswith("};" if CLAUSE.match(line) else ";"):
            return None, at
        if opening is None and not CLAUSE.match(line):
            if line.endswith("{}"):
                return at, at
            opening = at if line.endswith("{") else None
    return None, len(lines) - 1


def own_calls(name, is_within):
    """Finds the name where a function calls itself by it, which may stand within a trait or an impl."""
    return re.compile(rf"(?:(?<=\bself\.)|(?<=\bSelf::)){name}(?=\()" if is_within else rf"(?<![\w:.]){name}(?=(?:::<[^>]*>)?\()")


def functions_in(file, text, types):
    module, lines, owner, at = module_of(file), text.split("\n"), None, 0
    while at < len(lines):
        line = lines[at]
        if line and not line.startswith(" "):
            owner = None if line.startswith("}") else owner_of(line, module, types) or owner
        found = FUNCTION.match(line)
        if found and (not found[1] or found[1] == "    " and owner):
            is_test = any("#[test]" in it for it in lines[max(at - 2, 0) : at])
            first = at
            opening, at = body_of(lines, first, found[1])
            if opening is not None and not is_test:
                is_recursive = bool(own_calls(found[2], bool(found[1])).search("\n".join(lines[first + 1 : at])))
                names, trait = owner if found[1] else (module, "")
                yield Function((*names, found[2]), file, first, opening, at, is_recursive, trait)
        at += 1


def without_bodies(text, functions, behind=()):
    """The text of a file with a body for these of its functions that does nothing, and with further texts behind the lines told."""
    lines = text.split("\n")
    for at, more in behind:
        lines[at] += more
    for it in functions:
        for at in range(it.opening + 1, it.last):
            lines[at] = None
        if it.opening < it.last:
            indent = re.match(" *", lines[it.last])[0]
            lines[it.opening] += f"\n{indent}    unreachable!()"
    return "\n".join(it for it in lines if it is not None)


def functions_of(crate):
    """The functions of the crate in that folder."""
    texts = {str(it.relative_to(crate)): it.read_text() for it in sorted(Path(crate).glob("src/**/*.rt"))}
    types = {}
    for file, text in texts.items():
        for name in TYPE.findall(text):
            types.setdefault(name, []).append(module_of(file))
    return [it for file, text in texts.items() for it in functions_in(file, text, types)]
