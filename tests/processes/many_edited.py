"""10,000 files of paths of each form, edited and cut off: what `check` says of many at once beside the plain readers.

What it says of each alone, with all visits, is in edited_paths.py, edited_moves.py and edited_json.py, for fewer.
"""
import random

from . import edited_json, edited_moves, edited_paths
from .edited_paths import are_judged
from .edits import Edits
from .plain_paths import form_of, written
from .running import want

MANY = 10_000


def texts_of(form):
    """The texts of edited_paths.py that are of that form, by the plain reader."""
    return [it for it in edited_paths.TEXTS if form_of(written(it.removeprefix(b"\xef\xbb\xbf"))) == form]


# Sizes of maps, the plain reader, the words of `check`, and what makes the files that these name.
CELLS = (edited_paths.SIZES, edited_paths.reading_of, edited_paths.words_of, edited_paths.with_maps)
MOVES = (edited_moves.SIZES, edited_moves.reading_of, edited_moves.words_of, edited_moves.with_files)
OF_AGENTS = {"bad agent in line", "missing agent", "no paths"}
OF_CELLS = {"bad cell in line", "no cells in line", "no form of paths in line"}
# By each form these four, likely bytes, texts, the forms that are named, and answers that some of the files have.
FORMS = {
    "time": (CELLS, edited_paths.LIKELY, texts_of("time"), [None, "time"], OF_CELLS | {
        "read by time", "bad header in line", "repeated list in line", "missing solution", "bad time in line", "cell count in line", "no paths"}),
    "agent": (CELLS, edited_paths.LIKELY, texts_of("agent"), [None, "agent"], OF_AGENTS | OF_CELLS | {"read by agent"}),
    "session": (CELLS, edited_paths.LIKELY, texts_of("session"), [None, "session"], OF_AGENTS | {"read by session", "bad path in line", "no cells in line"}),
    "moves": (MOVES, edited_moves.LIKELY, edited_moves.TEXTS, [None, None, "moves", "flipped", "both"], edited_moves.ANSWERS),
    "json": (CELLS, edited_json.LIKELY, edited_json.TEXTS, [None, "json"], edited_json.ANSWERS - {"teamSize is no number"}),
    "schedule": (CELLS, edited_paths.LIKELY, texts_of("schedule"), [None, "schedule"], OF_AGENTS | {
        "read by schedule", "bad place in line", "missing place", "missing schedule"}),
}


def many_edited(form):
    """So many files, no two alike, of which a quarter is cut off too, are judged as the plain reader reads them."""
    (sizes, reading_of, words_of, with_files), likely, texts, named, answers = FORMS[form]
    chance, there, groups, kinds = random.Random(53), set(), {}, set()
    edits = Edits(chance, likely)
    while len(there) < MANY:
        text, by, size = edits.edited(texts), chance.choice(named), chance.choice(sizes)
        text = text[: chance.randrange(len(text) + 1)] if chance.randrange(4) == 0 else text
        if text not in there:
            there.add(text)
            *reading, kind = reading_of(text, by, size)
            groups.setdefault(words_of(size, by), []).append((text, reading))
            kinds.add(kind)
    want("the answers that no file has", answers - kinds, set())
    with_files(lambda: [are_judged(*it) for it in groups.items()])


def tests():
    for form in FORMS:
        yield f"many_edited_by_{form}", lambda form=form: many_edited(form)
