"""Lines, words and numbers of docs/FILES.md, for plain readers: slow, and with nothing of the program's."""
import re

BLANKS = b" \t\r"


class Fault(Exception):
    """What a text is refused for: the text of its fault."""


def lines_of(text):
    """The lines of a text. A last one without a line feed counts if it isn't empty."""
    lines = text.split(b"\n")
    return lines if lines[-1] else lines[:-1]


def words_of(line):
    return [word for word in re.split(rb"[ \t\r]", line) if word]


def number(word, most=2**32 - 1, strict=False):
    """The number that decimal digits write, where it is at most that and, if it has to be, without leading zeros; or none."""
    if not word.isdigit() or strict and len(word) > 1 and word[:1] == b"0":
        return None
    return int(word) if int(word) <= most else None


def cell_of(word, strict=False):
    """The column and row of a word `X,Y`, or none."""
    places = [number(it, 2047, strict) for it in word.split(b",")]
    return tuple(places) if len(places) == 2 and None not in places else None
