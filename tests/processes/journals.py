"""Journals written by hand, cut off, edited beside a plain reader, and as long as they may be: what is read is saved again.

A journal that is read and can't be replayed is refused at an entry, and in another mode for its mode; one that isn't read has a
bad line. So the texts tell which of the three it is, and the file that is saved tells what was read.
"""
import random
import re

from .edits import Edits
from .edited_maps import LIKELY
from .plain_texts import read_journal
from .plain_words import Fault
from .running import bytes_of, is_fault, put, remove, run, want

# One entry, in both versions: planner 1 moves agent 3 from 0,0 to 1,0.
FIRST = b"journal 1\nentry 1 0 0 1\npath 3 0,0 1,0\nend 1\n"
SECOND = b"journal 2\nmode stay\nentry 1 0 0 1\npath 3 0,0 1,0\nend 1\n"
GOOD = [
    FIRST,
    SECOND,
    b"journal 2\nmode disappear\nentry 0 0 0 7\nagent 65535 0,0 2047,2047\ndrop 7\ngoal 7 5,6\npath 7 5,6 5,6\ntail 7 4294967295\nopen 1,2\n"
    b"close 2,1\nentry 255 18446744073709551615 3 1\nwatch agent 12\nwatch cell 3,4\nwatch map\ntail 7 10 9,9 9,9\nend 2\n",
    b"journal 1\nentry 0 0 0 0\nentry 10 1 1 0\nwatch map\nentry 0 2 0 1\ndrop 0\nentry 0 3 0 2\nopen 0,0\nclose 0,0\nend 4\n",
    b"journal 1\nend 0\n",
    b"journal 2\nmode stay\nentry 5 0 2 2\nwatch agent 0\nwatch cell 0,10\npath 1\ntail 1 20 3,3\nend 1\n",
]
# All seven edits and all three watches, as a desk takes them.
TAKEN = [
    b"journal 2\nmode disappear\nentry 0 0 0 7\nagent 65535 0,0 9,9\ngoal 7 5,6\npath 7 0,0 0,1 0,1\ntail 7 0\nopen 1,2\nclose 2,1\ndrop 3\n"
    b"entry 255 1 3 1\nwatch agent 12\nwatch cell 2047,2047\nwatch map\ntail 7 0 1,0 1,0\nend 2\n",
    b"journal 1\nentry 7 0 0 2\nopen 0,0\nclose 0,0\nentry 10 1 1 1\nwatch agent 3\ngoal 5 4,4\nend 2\n",
]
WORDS = ["serve", "--map", "desk_map", "--scen", "desk_scen", "--agents", "8", "--journal", "told", "--save", "kept"]
EMPTY = [(b"journal 1\nend 0\n", "stay"), (b"journal 2\nmode stay\nend 0\n", "stay"), (b"journal 2\nmode disappear\nend 0\n", "disappear")]


def second(text):
    """The text of version 2 of a journal's text."""
    return re.sub(rb"\Ajournal 1\n", b"journal 2\nmode stay\n", text)


def opened(text, mode):
    """What a desk does with a journal in that mode, and what it saves."""
    put("told", text)
    remove("kept")
    did = run([*WORDS, "--mode", mode])
    return did, bytes_of("kept") if did[0] == 0 else None


def is_saved(text, mode, saved):
    want(f"what is done with {text[:1000]!r}", opened(text, mode), ((0, "", ""), saved))


def compare(text):
    """Compares two readings of a journal: tells the first bad line, 0 where there is none, and whether it was replayed."""
    mode, other = ("disappear", "stay") if text.startswith(b"journal 2\nmode disappear\n") else ("stay", "disappear")
    (status, said, complained), saved = opened(text, mode)
    try:
        entries = read_journal(text)
    except Fault as why:
        want(f"the journal {text[:1000]!r}", (status, said, complained), (2, "", f"mapf_desk: journal: {why}\n"))
        return int(str(why).split()[-1]), False
    want(f"{text[:1000]!r} in another mode", opened(text, other), ((2, "", "mapf_desk: journal: mode differs\n"), None))
    if status == 0:
        want(f"what is saved of {text[:1000]!r}", (said, complained, saved), ("", "", second(text)))
        return 0, True
    refused = re.fullmatch(r"mapf_desk: journal: entry (\d+) refused\n", complained)
    want(f"the refusal of {text[:1000]!r}", (status, said, refused is not None and 1 <= int(refused[1]) <= entries), (2, "", True))
    return 0, False


def journal_of_one_entry():
    """Both versions are read alike, and saved as the second."""
    for text in (FIRST, SECOND):
        is_saved(text, "stay", SECOND)


def journal_with_its_mode():
    """A journal is of one mode, of the first version too; an empty one is saved as it is."""
    for text in (FIRST, SECOND):
        put("told", text)
        is_fault([*WORDS, "--mode", "disappear"], "journal: mode differs")
    for text, mode in EMPTY:
        is_saved(text, mode, second(text))
        want("what is compared", compare(text), (0, True))


def all_edits_and_watches():
    """What a desk takes is saved byte for byte; an entry outside of every map and one ahead of all are read, and then refused."""
    for text in TAKEN:
        want("what is compared", compare(text), (0, True))
    far, ahead = GOOD[2].split(b"entry 255")
    for text, why in ((GOOD[2], "entry 1 refused\n  faulty 0 out-of-map: "), (far[: far.index(b"entry")] + b"entry 255" + ahead.replace(b"2\n", b"1\n"),
                      "entry 1 refused\n  ahead 0: ")):
        put("told", text)
        lines = text[text.index(b"entry") :].split(b"entry ")[1].split(b"end")[0].replace(b"\n", b";").decode()
        is_fault([*WORDS, "--mode", "disappear", "-v"], f"journal: {why}entry {lines}")


def prefixes_of_a_journal():
    """Each is no journal, for the line that is cut off or missing."""
    for text in (FIRST, SECOND):
        for end in range(len(text)):
            put("told", text[:end])
            is_fault(WORDS, f"journal: bad line {text.count(10, 0, end) + 1}")


def edited_journals():
    edits, lines, done = Edits(random.Random(3), LIKELY), set(), 0
    for _ in range(2500):
        line, is_done = compare(edits.edited(GOOD + TAKEN * 3))
        lines.add(line)
        done += is_done
    want("the bad lines", lines >= set(range(16)), True)
    want("whether journals are replayed", done > 50, True)


# Some lines, one line so many times, the last line, and the first bad line.
WATCHES, EDITS = b"journal 1\nentry 0 0 4096 0\n", b"journal 2\nmode disappear\nentry 0 0 0 4096\n"
LONG_ENTRIES = [
    (WATCHES, b"watch map\n", 4096, 0), (WATCHES, b"watch map\n", 4095, 4098), (WATCHES, b"watch map\n", 4097, 4099),
    (EDITS, b"open 0,0\n", 4096, 0), (EDITS, b"open 0,0\n", 4095, 4099), (EDITS, b"open 0,0\n", 4097, 4100),
]
LONG_JOURNALS = [(1000000, b"end 1000000\n", 0), (1000000, b"end 1000001\n", 1000002), (1000001, b"end 1000001\n", 1000002)]


def longest_entries():
    for lines, line, times, bad in LONG_ENTRIES:
        want(f"{times} times {line}", compare(lines + line * times + b"end 1\n")[0], bad)


def longest_journals():
    for times, last, bad in LONG_JOURNALS:
        want(f"the bad line before {last}", compare(b"journal 1\n" + b"entry 0 0 0 0\n" * times + last)[0], bad)


def with_scene(test):
    put("desk_map", b"type octile\nheight 10\nwidth 10\nmap\n" + b"..........\n" * 10)
    put("desk_scen", b"version 1\n" + b"0 f 10 10 0 0 9 9 18\n" * 8)
    test()
    remove("desk_map", "desk_scen", "told", "kept")


def tests():
    for test in (journal_of_one_entry, journal_with_its_mode, all_edits_and_watches, prefixes_of_a_journal, edited_journals, longest_entries,
                 longest_journals):
        yield test.__name__, lambda test=test: with_scene(test)
