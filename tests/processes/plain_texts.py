"""Plain readers of maps, scenarios and journals, by docs/FILES.md."""
import functools

from .plain_forms import EDITS, WATCHES, fits
from .plain_words import BLANKS, Fault, lines_of, number, words_of

MOST, MOST_ENTRIES = 4096, 1000000


def labelled(lines, at, label):
    """The number behind the label in that line, where these two words are the line, or none."""
    words = words_of(lines[at]) if at < len(lines) else []
    return number(words[1]) if len(words) == 2 and words[0] == label else None


def size_of(lines):
    """The width and height that the first four lines of a map tell."""
    if not lines or words_of(lines[0]) != [b"type", b"octile"]:
        raise Fault("not octile")
    height, width = labelled(lines, 1, b"height"), labelled(lines, 2, b"width")
    for line, is_good in ((2, height is not None), (3, width is not None), (4, len(lines) > 3 and words_of(lines[3]) == [b"map"])):
        if not is_good:
            raise Fault(f"bad header in line {line}")
    if not 1 <= width <= 2048 or not 1 <= height <= 2048 or width * height > 1048576:
        raise Fault("bad size")
    return width, height


def read_map(text):
    """The rows of a map: of each cell whether it is open."""
    lines = lines_of(text)
    width, height = size_of(lines)
    rows = []
    for row in range(height):
        if row + 4 >= len(lines):
            raise Fault(f"missing row {row}")
        letters = lines[row + 4].rstrip(BLANKS)
        if len(letters) != width:
            raise Fault(f"{'short' if len(letters) < width else 'long'} row {row}")
        for column, letter in enumerate(letters):
            if letter not in b".GS@OTW":
                raise Fault(f"bad letter in row {row}, column {column}")
        rows.append([letter in b".GS" for letter in letters])
    for line in range(height + 4, len(lines)):
        if words_of(lines[line]):
            raise Fault(f"extra line {line + 1}")
    return rows


def read_task(words, size, line):
    if len(words) != 9:
        raise Fault(f"field count in line {line}")
    fields = [number(it) for it in words]
    for field in (1, 3, 4, 5, 6, 7, 8):
        if fields[field - 1] is None:
            raise Fault(f"bad number in line {line}, field {field}")
    if (fields[2], fields[3]) != size:
        raise Fault(f"size mismatch in line {line}")
    for field in (5, 6, 7, 8):
        if fields[field - 1] >= size[(field - 5) % 2]:
            raise Fault(f"out of map in line {line}, field {field}")
    return (fields[4], fields[5]), (fields[6], fields[7])


def read_scen(text, size):
    """The start and the goal of each task of a scenario."""
    lines = lines_of(text)
    if not lines or words_of(lines[0]) not in ([b"version", b"1"], [b"version", b"1.0"]):
        raise Fault("bad version")
    return [read_task(words_of(it), size, line) for line, it in enumerate(lines[1:], 2) if words_of(it)]


@functools.lru_cache(1000)
def counts_of(line):
    """How many watches and edits the first line of an entry announces, or none."""
    words = line.split(b" ")
    if len(words) != 5 or words[0] != b"entry":
        return None
    numbers = [number(it, most, True) for it, most in zip(words[1:], (255, 2**64 - 1, MOST, MOST))]
    return None if None in numbers else numbers[2:]


def heading(lines):
    """How many lines a journal's heading has."""
    version = lines[0] if lines else b""
    if version not in (b"journal 1", b"journal 2"):
        raise Fault("bad line 1")
    if version == b"journal 1":
        return 1
    if len(lines) < 2 or lines[1] not in (b"mode stay", b"mode disappear"):
        raise Fault("bad line 2")
    return 2


def skip(lines, at, watches, edits):
    """Goes over the lines of an entry behind its first one."""
    for number_of in range(watches + edits):
        words = lines[at].split(b" ") if at < len(lines) else []
        is_watch = words[:1] == [b"watch"] and fits(words[1:], WATCHES, True)
        if not (is_watch if number_of < watches else fits(words, EDITS, True)):
            raise Fault(f"bad line {at + 1}")
        at += 1
    return at


def read_journal(text):
    """How many entries a journal has."""
    *lines, rest = text.split(b"\n")
    at, entries = heading(lines), 0
    while True:
        line = lines[at] if at < len(lines) else b""
        if line[:3] == b"end" and line == b"end %d" % entries:
            break
        counts = counts_of(line)
        if counts is None or entries == MOST_ENTRIES:
            raise Fault(f"bad line {at + 1}")
        at = skip(lines, at + 1, *counts)
        entries += 1
    if at + 1 < len(lines) or rest:
        raise Fault(f"bad line {at + 2}")
    return entries
