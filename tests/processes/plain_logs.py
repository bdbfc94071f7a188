"""A plain reader of logs, by docs/PROTOCOL.md: slow, and with nothing of the program's.

A commit line is looked at before the lines of its entry, so of a changed entry the commit line doesn't fit. Of lines behind the last commit
line the first that an entry can't have there doesn't fit; a piece of a line behind the first lines of an entry may be any.
"""
import functools
import re

from .log_texts import digits
from .plain_forms import EDITS, WATCHES, fits
from .plain_texts import counts_of
from .plain_words import Fault

HEAD = (rb"log 1", rb"mode (stay|disappear)", rb"scene [0-9a-f]{64}")


@functools.lru_cache(1000)
def is_watch(line):
    words = line.split(b" ")
    return words[0] == b"watch" and fits(words[1:], WATCHES, True)


@functools.lru_cache(1000)
def is_edit(line):
    return fits(line.split(b" "), EDITS, True)


def is_all(lines, first):
    """Whether the lines, the first of which has that number in the log, are all those of an entry; if not, they are its first ones, or none."""
    counts = counts_of(lines[0]) if lines else (0, 0)
    if counts is None:
        raise Fault(f"bad line {first}")
    watches, edits = counts
    for number, line in enumerate(lines[1:]):
        if number == watches + edits or not (is_watch if number < watches else is_edit)(line):
            raise Fault(f"bad line {first + 1 + number}")
    return len(lines) == 1 + watches + edits


def commit_line(lines, number, check):
    """The commit line of those lines, and its check."""
    check = digits(check + b"".join(it + b"\n" for it in lines))[:16]
    return b"commit %d %s" % (number, check), check


def read_log(text, head=None):
    """How many whole entries a log has, and how many bytes of an unfinished one stand behind them. The log is to have that head, or a front of it
    and no more; where none is named, any."""
    if head is not None and len(text) < len(head) and head.startswith(text):
        return 0, len(text)
    *lines, rest = text.split(b"\n")
    for number, form in enumerate(HEAD):
        if number >= len(lines) or not re.fullmatch(form, lines[number]):
            raise Fault(f"log: bad line {number + 1}")
    begins = b"".join(it + b"\n" for it in lines[: len(HEAD)])
    try:
        count, torn = read_entries(lines, rest, digits(begins)[:16])
    except Fault as why:
        raise Fault(f"log: {why}") from None
    if head is not None and begins != head:
        raise Fault("log: another scene" if lines[1] == head.split(b"\n")[1] else "log: mode differs")
    return count, torn


def read_entries(lines, rest, check):
    """The same of the lines of a log, behind its head of that check, and what stands behind the last of them."""
    count, at = 0, len(HEAD)
    for end in range(at, len(lines)):
        if lines[end].startswith(b"commit "):
            due, check = commit_line(lines[at:end], count + 1, check)
            if lines[end] != due or not is_all(lines[at:end], at + 1):
                raise Fault(f"bad line {end + 1}")
            count, at = count + 1, end + 1
    if is_all(lines[at:], at + 1):
        due, _ = commit_line(lines[at:], count + 1, check)
        if not due.startswith(rest):
            raise Fault(f"bad line {len(lines) + 1}")
    return count, sum(len(it) + 1 for it in lines[at:]) + len(rest)
