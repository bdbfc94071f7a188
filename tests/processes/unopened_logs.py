"""Logs that are another's, or can't be opened: that is told before a line is read, and nothing is changed."""
import os
import shutil
import subprocess

from .bounds import MOST_BYTES
from .log_texts import SERVE, WIDE, edits, head, log_of
from .running import PATIENCE, Planner, Program, as_user, bytes_of, is_answered, is_fault, make_large, put, remove, run, want
from .texts import ADD, MAP, SCEN


def logged_nowhere():
    """Where the log can't be one, it stays as it is; beside a journal or a save there is none."""
    put("wide", WIDE)
    for text, line in ((WIDE, 1), (b"log 2\n", 1), (b"log 1\nmode fly\n", 2), (b"log 1\nmode stay\nscene 0\n", 3), (b"journal 2\nmode stay\nend 0\n", 1),
                       (b"\n", 1), (head().upper(), 1), (head()[:30] + head()[30:].upper(), 3), (head()[:-1] + b" \n", 3), (head() + b"\n", 4)):
        put("log", text)
        is_fault(SERVE, f"log: bad line {line}", b"close 0,0\n")
        want("the file", bytes_of("log"), text)
    remove("log")
    for words in (["--journal", "log"], ["--save", "log"]):
        want("the status", run([*SERVE, *words])[0], 2)
        want("whether there is a log", os.path.exists("log"), False)
    remove("wide")


# What is put where, the words that name another scene, and the fault.
OTHERS = [
    ({"other": MAP.replace(b"...", b"..@")}, ["--map", "other"], "another scene"),
    ({"other": MAP + b"\n"}, ["--map", "other"], "another scene"),
    ({"other": SCEN + b"\n"}, ["--map", "m", "--scen", "other", "--agents", "1"], "another scene"),
    ({}, ["--map", "m", "--scen", "s"], "another scene"),
    ({}, ["--map", "m"], "another scene"),
    ({}, ["--map", "m", "--scen", "s", "--agents", "1", "--mode", "disappear"], "mode differs"),
]


def log_of_another_scene():
    """Another map, scenario, number of agents or mode is told; so are words at fault, and files that can't be read, before the log is looked at."""
    for begins, opens in ((head(MAP, SCEN, 1), ["--map", "m", "--scen", "s", "--agents", "1"]), (head(MAP), ["--map", "m"])):
        for entries in ([], [b"entry 0 0 0 1\nclose 1,0\n"]):
            text = log_of(entries, begins)
            put("log", text)
            for files, words, fault in OTHERS:
                for name, held in files.items():
                    put(name, held)
                if words != opens and not (begins == head(MAP) and "disappear" in words):
                    is_fault(["serve", *words, "--log", "log"], f"log: {fault}", b"close 0,0\n")
                    want("the log", bytes_of("log"), text)
            is_answered(["serve", *opens, "--log", "log"], b"version\n", f"version {len(entries)}\n")
    for words, fault in ((["--map", "none"], "can't read none"), (["--map", "m", "--agents", "1"], "--agents needs --scen")):
        is_fault(["serve", *words, "--log", "nowhere/log"], fault, ADD)
    is_fault(["serve", "--log", "log"], "log: another scene", MAP.replace(b"...", b".@.") + b"version\n")
    remove("log", "other")


def log_of_no_desk():
    """Where no desk is opened, its fault is told as without a log, with what more is known, and the log has nothing."""
    for words, given, text in ((["--map", "map_letter"], b"", "map: bad letter in row 0, column 1\n  line 5: .x."),
                               ([], bytes_of("map_letter"), "map: bad letter in row 0, column 1")):
        is_fault(["serve", *words, "--log", "log", "-v"], text, given)
        want("the log", bytes_of("log"), b"")
    folder = os.open(".", os.O_RDONLY)
    is_fault(["serve", "--log", "log", "-v"], "read failed\n  Is a directory (os error 21)", stdin=folder)
    os.close(folder), remove("log")


def log_in_use():
    """A second program is told that the log is in use, by whatever name, as long as the first one lives; others may read it."""
    put("wide", WIDE)
    lines, entries = edits(3)
    first = Planner(*SERVE)
    first.ask(lines[0] + b"\n", b"version 1\n")
    os.symlink("log", "link"), os.link("log", "second")
    for name in ("log", "./log", os.path.abspath("log"), "link", "second"):
        is_fault([*SERVE[:-1], name], "log: in use", b"close 8,0\n")
    is_answered(["serve", "--map", "wide", "--journal", "log"], b"version\n", "version 1\n")
    is_fault(["serve", "--map", "wide", "--save", "log"], "can't write log", b"close 8,0\n")
    first.ask(lines[1] + b"\n", b"version 2\n")
    want("the end", first.end_all(), (0, b"", b""))
    want("the log", bytes_of("log"), log_of(entries[:2]))
    second = Planner(*SERVE[:-1], "link")
    second.ask(b"version\n", b"version 2\n")
    second.process.kill()
    second.end_all()
    is_answered(SERVE, lines[2] + b"\n", "version 3\n")
    want("the log", bytes_of("log"), log_of(entries))
    want("whether the link is one", os.path.islink("link"), True)
    remove("log", "link", "second", "wide")


# Names that no log has, each with the system's reason where there is one.
NO_FILES = [("folder", "Is a directory (os error 21)"), ("nowhere/log", "No such file or directory (os error 2)"), ("pipe", None),
            ("/dev/null", None), ("", "No such file or directory (os error 2)"), ("n" * 256, "File name too long (os error 36)"),
            ("wide/log", "Not a directory (os error 20)")]


def log_that_is_no_file():
    """A folder, a pipe, a device, no name, a name that is too long, and one in a folder that isn't there: the reason is told."""
    put("wide", WIDE), os.mkdir("folder"), os.mkfifo("pipe")
    for name, reason in NO_FILES:
        for sync in ("on", "off"):
            is_fault([*SERVE[:-1], name, "--sync", sync], f"can't write {name}", b"close 0,0\n")
        if reason:
            is_fault([*SERVE[:-1], name, "-v"], f"can't write {name}\n  {reason}", b"close 0,0\n")
    want("what is in the folder", os.listdir("folder"), [])
    os.rmdir("folder"), remove("pipe", "wide")


def log_of_too_many_bytes():
    """A log of more bytes than any file may have isn't looked at."""
    put("wide", WIDE), make_large("log", MOST_BYTES + 1)
    try:
        is_fault([*SERVE, "-v"], f"can't read log\n  more than {MOST_BYTES} bytes")
    finally:
        remove("log", "wide")


def log_that_may_not_be_written():
    """One who may only read the log, or only write it, or may make none in the folder, is told, and it is as it was; who may only read it reads it."""
    os.mkdir("apart"), shutil.copy2(Program.path, "apart/desk"), put("apart/wide", WIDE), put("apart/log", log_of(edits(2)[1]))
    for name, mode in (("", 0o555), ("desk", 0o755), ("wide", 0o644)):
        os.chmod(f"apart/{name}", mode)

    def ran(*words):
        done = subprocess.run(["./desk", *words], cwd="apart", input=b"version\n", capture_output=True, timeout=PATIENCE, preexec_fn=as_user)
        return done.returncode, done.stdout, done.stderr.decode()

    for mode in (0o444, 0o222):
        os.chmod("apart/log", mode)
        for name in ("log", "new"):
            want("the end", ran(*SERVE[:-1], name, "-v"), (2, b"", f"mapf_desk: can't write {name}\n  Permission denied (os error 13)\n"))
        want("the log", bytes_of("apart/log"), log_of(edits(2)[1]))
        if mode == 0o444:
            want("what is read", ran("serve", "--map", "wide", "--journal", "log"), (0, b"version 2\n", ""))
    os.chmod("apart/log", 0o666)
    want("the end", ran(*SERVE), (0, b"version 2\n", ""))
    want("what is there", sorted(os.listdir("apart")), ["desk", "log", "wide"])
    os.chmod("apart", 0o755), shutil.rmtree("apart")


def log_in_another_folder():
    """The folder of a new log's name is opened, to be synced, and no other: so one may be in a folder that can't be read."""
    os.mkdir("apart"), os.mkdir("apart/logs"), shutil.copy2(Program.path, "apart/desk"), put("apart/wide", WIDE)
    for name, mode in (("desk", 0o755), ("wide", 0o644), ("logs", 0o777), ("", 0o711)):
        os.chmod(f"apart/{name}", mode)
    for mode, ended in ((0o777, (0, b"version 0\n")), (0o333, (2, b""))):
        os.chmod("apart/logs", mode)
        done = subprocess.run(["./desk", *SERVE[:-1], f"logs/{mode}"], cwd="apart", input=b"version\n", capture_output=True, timeout=PATIENCE, preexec_fn=as_user)
        want(f"the end where the folder has mode {mode:o}", (done.returncode, done.stdout), ended)
    shutil.rmtree("apart")


def tests():
    for test in (logged_nowhere, log_of_another_scene, log_of_no_desk, log_in_use, log_that_is_no_file, log_of_too_many_bytes, log_that_may_not_be_written,
                 log_in_another_folder):
        yield test.__name__, test
