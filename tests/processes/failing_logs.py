"""Logs that fail: what isn't there isn't answered, nothing more is committed, and the next session goes on with what was answered."""
import errno
import os

from .killed_logs import whole_of
from .log_texts import OFF, SERVE, WIDE, answers, edits, head, log_of, tear_note
from .running import bytes_of, is_answered, is_run, put, remove, room_for, run, want
from .saving import on_a_disk
from .stepping import Stepped

FAILED = "mapf_desk: log: write failed\n"
BEGUN = ["make", "write", "sync", "sync"]  # what is done of a new log before the first line: its head and its name are synced


def reason(error):
    return f"  {os.strerror(error)} (os error {error})\n"


def log_on_a_full_disk():
    """A log that may have so many bytes has all that was answered, and a front of the next entry, which the next session cuts off."""
    put("wide", WIDE)
    lines, entries = edits(3)
    text = log_of(entries[:2])
    given = b"\n".join(lines[:2]) + b"\nversion\n"
    for room in range(len(text) + 1):
        remove("log")
        with room_for(room):
            ended = run([*(SERVE if room % 10 == 0 else OFF), "-v"], given, restore_signals=False)
        count = sum(len(log_of(entries[:it])) <= room for it in range(1, 3))
        if room < len(head()):
            want("the end", ended, (2, "", "mapf_desk: can't write log\n" + reason(errno.EFBIG)))
        elif count < 2:
            want("the end", ended, (2, answers(1, count), FAILED + reason(errno.EFBIG)))
        else:
            want("the end", ended, (0, answers(1, 2) + "version 2\n", ""))
        want("what is there", bytes_of("log"), text[:room])
        if room % 4 == 0:
            torn = room - len(log_of(entries[:count])) if room >= len(head()) else room
            is_run(OFF, lines[count] + b"\n", (0, answers(count + 1, count + 1), tear_note(torn)))
            want("the log", bytes_of("log"), log_of(entries[:count + 1]))
    remove("log", "wide")


def log_on_a_small_disk():
    """On a disk that is full each commit that was answered is there; once there is room, a session goes on with them."""
    put("wide", WIDE)
    lines, entries = edits(200)
    given = b"\n".join(lines) + b"\nversion\n"
    script = ('head -c 4096 /dev/zero > disk/other; "$0" "$@" -v < lines; echo "status $?"; cp disk/log torn; '
              'rm disk/other; "$0" "$@" < more; cp disk/log kept')
    put("lines", given)
    for sync in ("on", "off"):
        count = sum(len(log_of(entries[:it])) <= 4096 for it in range(1, 201))
        put("more", b"version\n%s\n" % lines[count])
        ended = on_a_disk(f"a log on a full disk, with sync {sync}", "size=8k", script, b"", "serve", "--map", "wide", "--log", "disk/log", "--sync", sync)
        if ended:
            torn = bytes_of("torn")
            said = answers(1, count) + f"status 2\nversion {count}\nversion {count + 1}\n"
            complained = FAILED + reason(errno.ENOSPC) + tear_note(len(torn) - len(whole_of(torn)))
            want("the end", ended, (0, said.encode(), complained))
            want("what was there", whole_of(torn), log_of(entries[:count]))
            want("the log", bytes_of("kept"), log_of(entries[:count + 1]))
    remove("lines", "more", "torn", "kept", "wide")


def stepped(words, given, refused=None, error=0):
    """A session with a log, of whose calls that of this number is refused by that error. Gives its calls and its end."""
    session, seen = Stepped(given, words), []
    for number, call in session.calls():
        session.answer(number, error if len(seen) == refused else 0)
        seen.append(call)
    status, said, complained = session.end()
    return seen, (status, said.decode(), complained.decode())


def calls_of_a_log():
    """The head, the name and each entry are synced before more is written; with --sync off nothing is. A log that was there is synced before
    it is gone on with."""
    put("wide", WIDE)
    given = b"\n".join(edits(2)[0]) + b"\nversion\n"
    for sync, begins, then, each in (("on", BEGUN, ["make", "sync"], ["write", "sync"]), ("off", ["make", "write"], ["make"], ["write"])):
        want("the calls", stepped([*SERVE, "--sync", sync], given), (begins + each * 2, (0, "version 1\nversion 2\nversion 2\n", "")))
        want("the calls", stepped([*SERVE, "--sync", sync], b"version\nopen 0,0\n"), (then + each, (0, "version 2\nversion 3\n", "")))
        want("the log", bytes_of("log"), log_of([*edits(2)[1], b"entry 0 2 0 1\nopen 0,0\n"]))
        remove("log")
    remove("wide")


def log_that_is_not_written():
    """Where a write or a sync fails, what it is of isn't answered, and nothing more is written; the next session has what was answered."""
    put("wide", WIDE)
    lines, entries = edits(4)
    given = b"\n".join(lines[:3]) + b"\nversion\n"
    calls = BEGUN + ["write", "sync"] * 3
    for error in (errno.EIO, errno.ENOSPC):
        for at in range(1, len(calls)):
            seen, ended = stepped([*SERVE, "-v"], given, at, error)
            count = max(0, (at - 4) // 2)
            fault = "mapf_desk: can't write log\n" if at < len(BEGUN) else FAILED
            want("the end", ended, (2, answers(1, count), fault + reason(error)))
            want("the calls", seen, calls[:at + 1])
            there = count + (at > 4 and at % 2)
            want("the log", bytes_of("log"), log_of(entries[:there]) if at > 1 else b"")
            is_answered(OFF, b"version\n" + lines[there] + b"\n", answers(there, there + 1))
            want("the log", bytes_of("log"), log_of(entries[:there + 1]))
            remove("log")
    is_run(["serve", "--map", "wide", "--log", "/dev/full"], b"", (2, "", "mapf_desk: can't write /dev/full\n"))
    remove("wide")


def log_that_is_not_gone_on_with():
    """A log that was there whose tear isn't cut off, or that isn't synced, is told before a line is read, and has what it had."""
    put("wide", WIDE)
    text = log_of(edits(2)[1])
    for torn, at in ((b"", 1), (b"entry 0 2", 1), (b"entry 0 2", 2)):
        put("log", text + torn)
        seen, ended = stepped([*SERVE, "-v"], b"close 8,1\n", at, errno.EIO)
        want("the end", ended, (2, "", tear_note(len(torn)) + "mapf_desk: can't write log\n" + reason(errno.EIO)))
        want("the calls", seen, ["make", "sync", "sync"][: at + 1])
        want("what the log has", bytes_of("log")[: len(text)], text)
        is_run(OFF, b"version\n", (0, "version 2\n", tear_note(len(bytes_of("log")) - len(text))))
    remove("log", "wide")


def tests():
    for test in (log_on_a_full_disk, log_on_a_small_disk, calls_of_a_log, log_that_is_not_written, log_that_is_not_gone_on_with):
        yield test.__name__, test
