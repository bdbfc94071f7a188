"""What `mapf_desk` doesn't tell of the texts that it reads, told by the program of crates/demo_texts: each list of a file of paths
with all its cells, a task's bucket, journals as they are upgraded, and the program's words. Worked, cut off, edited beside plain readers, and as long
as they may be.
"""
import os
import random
import subprocess

from . import edited_json, edited_paths, journals
from .edited_maps import LIKELY, SCENS, SIZE, kind_of
from .edits import Edits
from .paths import BY_AGENT, BY_SESSION, LACAM, LENIENT
from .plain_paths import read_paths
from .plain_texts import read_journal, read_scen
from .plain_words import Fault, lines_of, words_of
from .running import PATIENCE, TOP, Program, Wrong, put, remove, want
from .solvers import MOVES, WRITTEN

LACAM_LISTS = "time starts 0,0 2,1 goals 2,0 0,1 agents 2 path 0,0 1,0 2,0 2,0 path 2,1 2,1 1,1 0,1"
# What each text of LENIENT tells before its path.
LENIENT_LISTS = ["", "", "", " starts 0,2047 goals 7,2047", " starts 0,2047", " goals 7,2047", " agents 1"]


def told_of(texts):
    """What the program tells of texts, each with the word of its reader, and its status."""
    put("texts.txt", b"".join(b"%s %d\n%s" % (word.encode(), len(text), text) for word, text in texts))
    if not os.access(Program.readings, os.X_OK):
        raise Wrong(f"there is no program {Program.readings}: `rt ci` builds it")
    ran = subprocess.run([Program.readings], capture_output=True, timeout=PATIENCE)
    remove("texts.txt")
    return ran.stdout.decode(), ran.returncode


def are_read(rows):
    """The texts, each with the word of its reader, are read as those."""
    (said, status), at = told_of([it[:2] for it in rows]), 0
    for word, text, right in rows:
        want(f"what {text[:1000]!r} tells as {word}", said[at : at + len(right) + 1], f"{right}\n")
        at += len(right) + 1
    want("the status, and what is told behind all", (status, said[at:]), (0, ""))


def listed(name, cells):
    return f" {name}" + "".join(f" {x},{y}" for x, y in cells)


def read_lists(text, form):
    """What a file of paths tells by the plain reader, and the kind of the answer."""
    try:
        told, starts, goals, agents, paths = read_paths(text, form)
    except Fault as why:
        return str(why), kind_of(why)
    lists = "".join(listed(name, cells) for name, cells in (("starts", starts), ("goals", goals)) if cells is not None)
    number = "" if agents is None else f" agents {agents}"
    return told + lists + number + "".join(listed("path", it) for it in paths), f"read by {told}"


def compare_lists(rows):
    """Compares two readings of texts, each in a form or none, and gives the kinds of the answers."""
    plain = [(form or "any", text, *read_lists(text, form)) for text, form in rows]
    are_read([it[:3] for it in plain])
    return [it[3] for it in plain]


def files_of_paths_as_lists():
    """The texts of `paths.py` are read alike where their form is named and where it isn't, with the waits at a path's end."""
    two = " path 3,0 4,0 4,1 path 5,2"
    rows = [("time", LACAM, LACAM_LISTS), *(("agent", it, "agent" + two) for it in BY_AGENT), *(("session", it, "session" + two) for it in BY_SESSION)]
    rows += [("time", text, f"time{lists} path 0,2047 7,2047") for text, lists in zip(LENIENT, LENIENT_LISTS, strict=True)]
    are_read([(asked, text, right) for form, text, right in rows for asked in ("any", form)])


def files_of_paths_as_people_write_them():
    are_read(MOVES + WRITTEN)


def lists_of_edited_files_of_paths():
    chance = random.Random(29)
    edits = Edits(chance, edited_paths.LIKELY)
    kinds = compare_lists([(edits.edited(edited_paths.TEXTS), chance.choice([None] * 5 + edited_paths.FORMS[1:])) for _ in range(3000)])
    want("the kinds of answers", set(kinds), edited_paths.ANSWERS)


def lists_of_edited_json():
    """Edited files as JSON, and as many starts and paths as there may be, and one more."""
    edits = Edits(random.Random(46), edited_json.LIKELY)
    rows = [(edits.edited(edited_json.TEXTS), edits.chance.choice([None, "json"])) for _ in range(3000)]
    want("the kinds of answers that no file has", edited_json.ANSWERS - {"teamSize is no number"} - set(compare_lists(rows)), set())
    text = lambda starts, paths: b'{"start":[%s],"actualPaths":[%s]}' % (b",".join([b"[3,4]"] * starts), b",".join([b'"R"'] * paths))
    told = "json starts" + " 4,3" * 8192 + " path 4,3 5,3" * 8192
    are_read([("any", text(8192, 8192), told), ("json", text(8193, 1), "too many agents"), ("json", text(1, 8193), "too many agents")])


def lists_of_fronts_of_files_of_paths():
    compare_lists([(text[:end], form) for text in edited_paths.TEXTS for end in range(len(text) + 1) for form in edited_paths.FORMS])


def lists_of_texts_of_one_byte():
    kinds = compare_lists([(bytes([byte]), form) for byte in range(256) for form in edited_paths.FORMS])
    want("what is read", [it for it in kinds if it.startswith("read")], ["read by moves"] * len(b"udlrwUDLRW"))


# By each form: a text of so many agents in one cell, and of an agent that stays there so many times.
AGENTS = {
    "time": lambda count: b"solution=\n0:" + b"(3,4)," * count,
    "agent": lambda count: b"".join(b"Agent %d: (4,3)->\n" % it for it in range(count)),
    "session": lambda count: b"".join(b"path %d 3,4\n" % it for it in range(count)),
    "moves": lambda count: b"W\n" * count,
    "schedule": lambda count: b"schedule:\n" + b"".join(b"agent%d:\n- x: 3\n  y: 4\n  t: 0\n" % it for it in range(count)),
}
STAYING = {
    "time": lambda count: b"solution=\n" + b"".join(b"%d:(3,4)\n" % it for it in range(count)),
    "agent": lambda count: b"Agent 0:" + b"(4,3)->" * count,
    "session": lambda count: b"path 0" + b" 3,4" * count,
    "moves": lambda count: b"w" * (count - 1),
    "schedule": lambda count: b"schedule:\nagent0:\n" + b"".join(b"- x: 3\n  y: 4\n  t: %d\n" % it for it in range(count)),
}
LINES_TOO_MANY = {"time": 2, "schedule": 32770}


def lists_of_ten_thousand_agents():
    """There may be 8,192 agents, of whom each has one cell, and no more: the line of the next is refused."""
    are_read([("any", b"starts=" + b"(3,4)," * 10000, "too many agents in line 1")])
    for form, text in AGENTS.items():
        fault, path = f"too many agents in line {LINES_TOO_MANY.get(form, 8193)}", " path 0,0 0,0" if form == "moves" else " path 3,4"
        are_read([("any", text(8192), form + path * 8192), ("any", text(8193), fault), ("any", text(10000), fault)])


def lists_of_longest_paths():
    """One agent's path is read with more cells than it may have, which are 131,072."""
    for form, text in STAYING.items():
        cell = " 0,0" if form == "moves" else " 3,4"
        are_read([("any", text(count), f"{form} path" + cell * count) for count in (131072, 131073)])


def read_buckets(text):
    """What a scenario tells by the plain reader."""
    try:
        read_scen(text, SIZE)
    except Fault as why:
        return str(why)
    return "buckets" + "".join(f" {int(words_of(it)[0])}" for it in lines_of(text)[1:] if words_of(it))


def buckets_of_edited_scenarios():
    edits = Edits(random.Random(2), LIKELY)
    texts = [edits.edited(SCENS) for _ in range(2500)]
    rows = [("tasks", text, read_buckets(text)) for text in texts]
    are_read(rows)
    want("whether so many are read", sum(it[2].startswith("buckets") for it in rows) > 200, True)


def upgraded(text, line):
    """What is told of a journal where that is its first bad line, 0 where it has none."""
    mode = "disappear" if text.startswith(b"journal 2\nmode disappear\n") else "stay"
    told = f"bad line {line}\nbad line {line}" if line else f"{mode}\n{journals.second(text).decode()}"
    return "journal", text, told


def first_bad_line(text):
    try:
        read_journal(text)
    except Fault as why:
        return int(str(why).split()[-1])
    return 0


def journals_upgraded_as_they_are_read():
    """Journals by hand, each of their fronts, and edited ones; one that isn't read is refused for the same line."""
    edits = Edits(random.Random(3), LIKELY)
    fronts = [(text[:end], text.count(10, 0, end) + 1) for text in (journals.FIRST, journals.SECOND) for end in range(len(text))]
    edited = [(it, first_bad_line(it)) for it in (edits.edited(journals.GOOD) for _ in range(2500))]
    are_read([upgraded(*it) for it in [(text, 0) for text in journals.GOOD] + [(text, 0) for text, _ in journals.EMPTY] + fronts + edited])
    want("the bad lines", {line for _, line in edited} >= set(range(16)), True)


def longest_journals_upgraded():
    are_read([upgraded(lines + line * times + b"end 1\n", bad) for lines, line, times, bad in journals.LONG_ENTRIES])
    for times, last, bad in journals.LONG_JOURNALS:
        are_read([upgraded(b"journal 1\n" + b"entry 0 0 0 0\n" * times + last, bad)])


def lists_of_words():
    """Each list of words of tests/words.txt is read as it says, all 624 of them."""
    with open(f"{TOP}/tests/words.txt") as file:
        rows = [line.split(" => ", 1) for line in file.read().split("\n") if " => " in line]
    are_read([("words", words.encode(), right) for words, right in rows])
    want("how many lists there are", len(rows), 624)


def tests():
    for test in (files_of_paths_as_lists, files_of_paths_as_people_write_them, lists_of_edited_files_of_paths, lists_of_edited_json,
                 lists_of_fronts_of_files_of_paths,
                 lists_of_texts_of_one_byte, lists_of_ten_thousand_agents, lists_of_longest_paths, buckets_of_edited_scenarios,
                 journals_upgraded_as_they_are_read, longest_journals_upgraded, lists_of_words):
        yield test.__name__, test
