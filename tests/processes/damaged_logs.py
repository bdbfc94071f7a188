"""A log of 100 entries, cut at each of its bytes or changed in one of them, beside a plain reader: as the reader of crates/demo_texts reads
it, which is the program's, and as sessions open it."""
import random

from .edits import Edits
from .log_texts import OFF, WIDE, head, log_of, many_entries, tear_note
from .plain_logs import read_log
from .plain_words import Fault
from .readings import are_read
from .running import bytes_of, is_answered, is_fault, is_run, put, remove, want

CHANGES, EDITED = 1000, 6000
LIKELY = b"\n\n\n 0123456789abcdef,-"
WORDS = b"entry commit watch agent map cell close open path tail drop goal"


def as_read(text):
    """What crates/demo_texts is to tell of a log, by the plain reader."""
    try:
        count, torn = read_log(text)
    except Fault as why:
        return str(why).removeprefix("log: ")
    return f"{count} entries, {len(text) - torn} bytes"


def is_opened(text, begins):
    """A session that is to have that head opens the log as the plain reader says: of one that is damaged nothing is changed. Whether it is."""
    put("log", text)
    try:
        count, torn = read_log(text, begins)
    except Fault as why:
        is_fault(OFF, why, b"version\n")
        want("the damaged log", bytes_of("log"), text)
        return True
    is_run(OFF, b"version\n", (0, f"version {count}\n", tear_note(torn)))
    want("the log", bytes_of("log"), text[: len(text) - torn] or begins)
    return False


def commits_of(text, begins):
    """Where a log's head and each of its entries end."""
    ends, at = [len(begins)], text.find(b"\ncommit ")
    while at >= 0:
        ends.append(text.index(b"\n", at + 1) + 1)
        at = text.find(b"\ncommit ", at + 1)
    return ends


def whole_at(cut, ends):
    """How many of those ends a cut leaves, and where the last of them is."""
    count = sum(it <= cut for it in ends)
    return count, ends[count - 1] if count else 0


def cut_at_each_byte():
    """The entries that are whole before the cut are read, and where the last of them ends; of a cut within the head its line is bad."""
    text, begins, rows = log_of(many_entries(100)), head(), []
    ends = commits_of(text, begins)
    want("how many ends there are", len(ends), 101)
    for cut in range(len(text) + 1):
        count, end = whole_at(cut, ends)
        right = f"{count - 1} entries, {end} bytes" if count else f"bad line {text.count(10, 0, cut) + 1}"
        if cut % 50 == 0 and count:
            want("what the plain reader tells", as_read(text[:cut]), right)
        rows.append(("log", text[:cut], right))
    are_read(rows)


def cut_and_opened():
    """Sessions open logs that are cut within the head, near the ends of entries, and elsewhere; what is torn is told, and cut off."""
    text, begins = log_of(many_entries(100)), head()
    ends = commits_of(text, begins)
    near = {end + it for end in ends[1::7] for it in (-1, 0, 1)}
    for cut in sorted({*range(0, len(begins), 5), *range(len(begins), len(text), 41), *near} & {*range(len(text) + 1)}):
        count, end = whole_at(cut, ends)
        want("whether the cut log is damaged", is_opened(text[:cut], begins), False)
        want("the log", bytes_of("log"), text[:end] or begins)
        put("log", text[:cut])
        if count and cut % 3 == 0:
            is_run(["serve", "--map", "wide", "--journal", "log"], b"version\n", (0, f"version {count - 1}\n", tear_note(cut - end)))
        elif not count:
            is_fault(["serve", "--map", "wide", "--journal", "log"], f"journal: bad line {text.count(10, 0, cut) + 1}")
        want("the log that was only read", bytes_of("log"), text[:cut])


def changes(text, number):
    """So many texts with one byte changed, each with the place of that."""
    chance = random.Random(1967)
    for _ in range(number):
        place = chance.randrange(len(text))
        byte = chance.choice([it for it in (*range(256), *LIKELY * 8) if it != text[place]])
        yield place, text[:place] + bytes([byte]) + text[place + 1:]


def changed_in_one_byte():
    """A change is told, whichever byte it is of, with the line that doesn't fit; in what a crash left of one more entry it may be a tear."""
    whole, begins = log_of(many_entries(100)), head()
    for torn in (b"", b"entry 0 100 1 1\nwatch map\nclose 8", b"entry 0 100 0 1\nclose 8,0\ncommit 101 "):
        for place, text in changes(whole + torn, CHANGES // 3 + 1):
            is_damaged = is_opened(text, begins)
            want(f"whether a change of byte {place} is told", is_damaged or place >= len(whole), True)
    for place, text in changes(whole, 40):
        put("log", text)
        is_fault(["audit", "--map", "wide", "--journal", "log"], as_read(text).replace("bad", "journal: bad"))
        want("the log", bytes_of("log"), text)


def edited_and_sealed():
    """Edited entries behind true commit lines, and edited ends of logs, are read as the plain reader does."""
    made = list(many_entries(12))
    edits, chance, rows = Edits(random.Random(67), LIKELY * 3 + WORDS), random.Random(76), []
    for number in range(EDITED):
        at = chance.randrange(len(made))
        texts = [*made[:at], edits.edited([made[at]]), *made[at + 1:][:2]]
        text = log_of(texts) if number % 2 else log_of(texts[:at]) + edits.edited([log_of(texts[: at + 1])[len(log_of(texts[:at])):]])
        rows.append(("log", text, as_read(text)))
    told = {"bad" if right.startswith("bad") else "torn" if right != f"{right.split()[0]} entries, {len(text)} bytes" else "whole"
            for _, text, right in rows}
    want("what is told", told, {"bad", "torn", "whole"})
    are_read(rows)


def over_wide(test):
    put("wide", WIDE)
    test()
    remove("log", "wide")


def tests():
    for test in (cut_at_each_byte, cut_and_opened, changed_in_one_byte, edited_and_sealed):
        yield f"log_{test.__name__}", lambda test=test: over_wide(test)
