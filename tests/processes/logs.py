"""Logs: what they hold, what a session goes on from, and what every word reads of them. The log's text is made here from docs/PROTOCOL.md alone."""
import os
import random

from .log_texts import OFF, SERVE, WIDE, answers, edits, head, log_of, tear_note
from .running import Wrong, bytes_of, is_answered, is_fault, is_run, put, remove, run, want
from .texts import ADD, MAP, SCEN

# Sessions over one log, one after another: lines, their answers, and the entries that they make.
SESSIONS = [
    (b"close 0,1\nclose 1,1\nclose 2,1\n", answers(1, 3), edits(3)[1]),
    (b"version\n" + ADD + b"begin\nwatch map\npath 0 0,0 1,0 2,0\ndrop 7\ncommit\ncancel\n",
     "version 3\nversion 4\nbase 4\nkept\nkept\nkept\nrefused faulty 1 unknown-agent\ncancelled\n", [b"entry 0 3 0 1\n" + ADD]),
    (b"begin\nwatch map\npath 0 0,0 1,0 2,0\ncommit\nversion\n", "base 4\nkept\nkept\nversion 5\nversion 5\n",
     [b"entry 0 4 1 1\nwatch map\npath 0 0,0 1,0 2,0\n"]),
    (b"drop 7\nbegin\ncommit\nclose 3,1 \nfly\nbegin\nclose 4,1\ncancel\ncommit\npath 0 1,0\nsolves vertex\ndistance 0 0,0\ntail 0 9 9,9\n",
     "refused faulty 0 unknown-agent\nbase 5\nrefused no-edits\nkept\nbad 5 word\nbase 5\nkept\ncancelled\nbad 9 notbegun\n"
     "refused faulty 0 not-from-start\nsolves yes\ndistance 2\nrefused faulty 0 out-of-map\n", []),
]


def logged():
    """The log is the text that docs/PROTOCOL.md says, with what was accepted and nothing else, and is gone on with."""
    put("wide", WIDE)
    entries = []
    for given, answered, more in SESSIONS:
        is_answered(SERVE, given, answered)
        entries += more
        want("the log", bytes_of("log"), log_of(entries))
    remove("log", "wide")


def logged_as_its_journal():
    """Every word reads a log as the journal of its entries, and leaves it as it is; what isn't finished is told, and what is damaged refused."""
    put("wide", WIDE), put("east.in", b"version\n")
    entries = [it for session in SESSIONS for it in session[2]]
    put("journal", b"journal 2\nmode stay\n" + b"".join(entries) + b"end %d\n" % len(entries))
    text = log_of(entries)
    damaged = text.replace(b"close 1,1", b"close 1,0")
    for words in (["audit"], ["draw"], ["page"], ["serve", "--save", "other"], ["host", "--save", "other", "east"]):
        words[1:1] = ["--map", "wide", "--journal"]
        status, said, complained = run([*words[:4], "journal", *words[4:]])
        want("what is read of the journal", (status, complained), (0, ""))
        for torn in (b"", b"entry 0 5 0 1\nclose 8,1\ncommit 6 "):
            put("log", text + torn)
            is_run([*words[:4], "log", *words[4:]], b"", (status, said, tear_note(len(torn))))
            if words[0] == "page":
                is_run([*words[:3], "--log", "log"], b"", (status, said, tear_note(len(torn))))
            want("the log that was only read", bytes_of("log"), text + torn)
            if "other" in words:
                want("what is saved", bytes_of("other"), bytes_of("journal"))
        put("log", damaged)
        is_fault([*words[:4], "log", *words[4:]], "journal: bad line 9", b"version\n")
        if words[0] == "page":
            is_fault([*words[:3], "--log", "log"], "journal: bad line 9")
        want("the damaged log", bytes_of("log"), damaged)
        remove("other")
    remove("log", "journal", "east.in", "east.out", "wide")


def logged_of_a_scene():
    """The head names the mode, and by its digest the map, the scenario and the agents; the map may stand on standard input."""
    is_answered(["serve", "--log", "log"], MAP + ADD, "version 1\n")
    want("the log", bytes_of("log"), log_of([b"entry 0 0 0 1\n" + ADD], head(MAP)))
    is_answered(["serve", "--map", "m", "--log", "log"], b"version\n", "version 1\n")
    is_answered(["serve", "--log", "log"], MAP + b"version\n", "version 1\n")
    remove("log")
    scened = ["serve", "--map", "m", "--scen", "s", "--agents", "1", "--mode", "disappear", "--log", "log", "--sync", "off"]
    is_answered(scened, b"drop 0\n", "version 1\n")
    want("the log", bytes_of("log"), log_of([b"entry 0 0 0 1\ndrop 0\n"], head(MAP, SCEN, 1, b"disappear")))
    is_answered(scened, b"version\n", "version 1\n")
    is_fault(["audit", "--map", "m", "--scen", "s", "--agents", "1", "--journal", "log"], "journal: mode differs")
    remove("log")


def damaged_logs_as_journals():
    """A script that begins as a log does is none; no more is a journal whose first line is that of a log's next version."""
    put("wide", WIDE), put("log", b"log 1\n")
    want("the status of a drill", run(["drill", "--map", "wide", "log"])[0], 0)
    put("log", log_of(edits(2)[1]).replace(b"close 0,1", b"close 0,0"))
    is_fault(["audit", "--map", "wide", "--journal", "log"], "journal: bad line 6")
    put("log", log_of([]).replace(b"log 1", b"log 2"))
    is_fault(["audit", "--map", "wide", "--journal", "log"], "journal: bad line 1")
    remove("log", "wide")


def cut_logs():
    """A log that is cut at any byte has the entries that are whole before the cut; the rest is told, and cut off before more is put there."""
    put("wide", WIDE)
    lines, entries = edits(3)
    text = log_of(entries[:2])
    ends = [len(log_of(entries[:it])) for it in range(3)]
    for cut in range(len(text)):
        put("log", text[:cut])
        count = max(0, sum(it <= cut for it in ends) - 1)
        whole, torn = text[: ends[count]], cut - ends[count] if cut >= ends[0] else cut
        if cut % 5:
            is_run(OFF, b"version\n", (0, f"version {count}\n", tear_note(torn)))
            want("the log", bytes_of("log"), whole)
        else:
            is_run(OFF, lines[count] + b"\n", (0, f"version {count + 1}\n", tear_note(torn)))
            want("the log", bytes_of("log"), log_of(entries[: count + 1]))
        if cut % 17 == 0 and cut >= ends[0]:
            put("log", text[:cut])
            is_run(["serve", "--map", "wide", "--journal", "log"], b"version\n", (0, f"version {count}\n", tear_note(torn)))
            want("the log that was only read", bytes_of("log"), text[:cut])
    remove("log", "wide")


def changed_logs():
    """One changed byte near the log's end is told, whichever it is; so are entries that are left out, twice, exchanged, or not to be committed."""
    put("wide", WIDE)
    entries, chance = edits(6)[1], random.Random(1967)
    text, begins = log_of(entries), head()
    for place in range(len(text) - 60, len(text)):
        changed = text[:place] + bytes([chance.choice([it for it in (*range(256), 10, 10, 32, 48, 99) if it != text[place]])]) + text[place + 1:]
        put("log", changed)
        status, said, complained = run(OFF, b"version\n")
        if (status, said, complained.startswith("mapf_desk: log: bad line ")) != (2, "", True):
            raise Wrong(f"byte {place} as {changed[place]}: {status}, {said!r}, {complained!r}")
        want("the log", bytes_of("log"), changed)
    sealed = [it + b"commit %s\n" % line for it, line in zip(entries, (it.split(b"\n")[0] for it in text.split(b"commit ")[1:]))]
    for fault, changed in (("log: bad line 9", begins + b"".join(sealed[:1] + sealed[2:])),
                           ("log: bad line 12", begins + b"".join(sealed[:2] + sealed[1:])),
                           ("log: bad line 9", begins + b"".join([sealed[0], sealed[2], sealed[1]])),
                           ("log: bad line 8", log_of([entries[0], b"entry 0 1 0 1\nfly\n"])),
                           ("log: bad line 9", log_of([entries[0], entries[1] + entries[2]])), ("log: bad line 7", log_of([entries[0], b""])),
                           ("log: bad line 8", log_of([entries[0], b"entry 0 1 0 1\n"])), ("log: bad line 7", log_of(entries[:1]) + b"\n"),
                           ("log: bad line 1", b"\n" + text), ("log: bad line 1", log_of(entries[:1]).replace(b"\n", b"\r\n")),
                           ("journal: entry 2 refused", log_of([entries[0], b"entry 0 1 0 1\ndrop 7\n"]))):
        put("log", changed)
        is_fault(OFF, fault, b"version\n")
        want("the log", bytes_of("log"), changed)
    remove("log", "wide")


def tests():
    for test in (logged, logged_as_its_journal, logged_of_a_scene, damaged_logs_as_journals, cut_logs, changed_logs):
        yield test.__name__, test
