"""A save, one call of the system at a time: before each call the session is killed, or the call is refused.

The session sets a filter on its own calls as it starts (seccomp, of Linux 5.5 and later): each that makes, writes,
syncs, names or removes a file waits until this script lets it go on. The calls of the save are those from the one on
that makes the temporary file, but for what is written on standard output and standard error.
"""
import ctypes
import errno
import fcntl
import os
import select
import socket
import struct

from .journals import SECOND
from .kills import is_whole
from .saving import FOLDERS, kept_in, own_name
from .running import PATIENCE, Wrong, bytes_of, is_run, put, remove, room_for, start, want
from .texts import ONE_ENTRY

# Calls of x86-64 Linux by their numbers.
CALLS = {1: "write", 74: "sync", 75: "sync", 82: "rename", 264: "rename", 316: "rename", 87: "remove", 263: "remove", 257: "make", 2: "make"}
MAKES = 0x40  # the flag of a call that opens a file, where it also makes it
NO_NEW_PRIVILEGES, SECCOMP, FILTER, LISTENING = 38, 317, 1, 8
RECEIVE, ANSWER, GO_ON = 0xC0502100, 0xC0182101, 1

SAVED = ONE_ENTRY.replace(b"end 1", b"entry 0 1 0 1\ndrop 0\nend 2")
SAVE = ["make", "write", "sync", "rename", "sync"]
TEMPORARY, KEPT = ".kept.0.mapf-new", "kept.0.mapf-kept"
WORDS = ["serve", "--map", "m", "--journal", "kept", "--save", "kept", "-v"]
ELSEWHERE = ["make", "write", "sync"]  # what is done in another folder


def code_of_filter(calls):
    """The filter: these calls are asked about, those that open a file where they make it; all others go on."""
    load, is_equal, has, answer = 0x20, 0x15, 0x45, 6
    asks, lets_go = (answer, 0, 0, 0x7FC00000), (answer, 0, 0, 0x7FFF0000)
    code = []
    for call, name in calls.items():
        code.append((load, 0, 0, 0))
        if name == "make":
            flags = 32 if call == 257 else 24
            code += [(is_equal, 0, 4, call), (load, 0, 0, flags), (has, 0, 1, MAKES), asks, lets_go]
        else:
            code += [(is_equal, 0, 1, call), asks]
    return [*code, lets_go]


def set_filter(sender, calls):
    """What the session does as it starts: it sets the filter, and sends what tells of its calls."""
    code = code_of_filter(calls)
    text = b"".join(struct.pack("HBBI", *it) for it in code)
    library = ctypes.CDLL(None, use_errno=True)

    def begin():
        held = ctypes.create_string_buffer(text, len(text))
        made = ctypes.create_string_buffer(struct.pack("HxxxxxxQ", len(code), ctypes.addressof(held)))
        library.prctl(NO_NEW_PRIVILEGES, 1, 0, 0, 0)
        told = library.syscall(SECCOMP, FILTER, LISTENING, made)
        if told < 0:
            raise OSError(ctypes.get_errno(), "no filter of calls")
        socket.send_fds(sender, [b"."], [told])
        os.close(told)
    return begin


class Stepped:
    """A session that saves, whose calls wait."""

    def __init__(self, lines, words=WORDS, calls=CALLS):
        here, there = socket.socketpair()
        self.names = calls
        with here, there:
            self.process = start(words, preexec_fn=set_filter(there, calls), restore_signals=False)
            self.told = socket.recv_fds(here, 1, 1)[1][0]
        self.process.stdin.write(lines)
        self.process.stdin.close()

    def calls(self):
        """Gives each call that waits, with its name; it goes on or is refused by `answer`."""
        poll = select.poll()
        poll.register(self.told, select.POLLIN)
        while True:
            ready = poll.poll(PATIENCE * 1000)
            if not ready:
                self.process.kill()
                raise Wrong("no call, and no end")
            if not ready[0][1] & select.POLLIN:
                return
            notice = bytearray(80)
            fcntl.ioctl(self.told, RECEIVE, notice)
            number, _, _, call, _, _, first = struct.unpack_from("QIIiIQQ", notice)
            if self.names[call] == "write" and first in (1, 2):
                self.answer(number)
            else:
                yield number, self.names[call]

    def answer(self, number, refused=0):
        reply = struct.pack("QqiI", number, 0, -refused, 0 if refused else GO_ON)
        fcntl.ioctl(self.told, ANSWER, bytearray(reply))

    def end(self):
        os.close(self.told)
        out, err = self.process.stdout.read(), self.process.stderr.read()
        self.process.stdout.close(), self.process.stderr.close()
        return self.process.wait(PATIENCE), out, err


def step(*at, refused=0, words=WORDS):
    """A session saves, and is killed before that call of the save or has those calls refused. Gives the save's calls and its end."""
    put("kept", ONE_ENTRY)
    session, seen = Stepped(b"drop 0\n", words), []
    for number, call in session.calls():
        if seen or call == "make":
            seen.append(call)
        stops = len(seen) - 1 in at and seen[-1:] == [call]
        if stops and not refused:
            session.process.kill()
            session.process.wait(PATIENCE)
            break
        session.answer(number, refused if stops else 0)
    return seen, session.end()


def calls_of_a_save():
    """The new file is written, synced, and takes the name; then the folder is synced. Nothing else is done."""
    seen, ended = step()
    want("the calls", seen, SAVE)
    want("the end", ended, (0, b"version 2\n", b""))
    want("the file", bytes_of("kept"), SAVED)
    want("what is left", left(), [])
    remove("kept")


def left():
    """The temporary file, and the one that is kept, where they are there."""
    return [it for it in (TEMPORARY, KEPT) if os.path.exists(it)]


def killed_before_each_call():
    """The file is the journal before or after, whole, and is read; the next session removes what is left."""
    for at, call in enumerate(SAVE):
        seen, (status, out, complained) = step(at)
        want("the calls", seen, SAVE[: at + 1])
        want("the end", (status, out, complained), (-9, b"" if at == 0 else b"version 2\n", b""))
        want(f"the file before the call {call}", bytes_of("kept"), SAVED if at > SAVE.index("rename") else ONE_ENTRY)
        want("what is left", left(), [TEMPORARY] if 0 < at <= SAVE.index("rename") else [])
        is_whole("kept")
        put("kept", ONE_ENTRY)
        is_run(WORDS, b"drop 0\n", (0, "version 2\n", ""))
        want("the file", bytes_of("kept"), SAVED)
        want("what is left", left(), [])
    remove("kept")


# What is done behind a call of a save that is refused, and whether there was a session.
REFUSED = [([], False), (["remove", *ELSEWHERE], True), (["remove", *ELSEWHERE], True), (["make", "rename"], True), ([], True)]


def refused_at_each_call():
    """A save whose call is refused is told. It leaves the file as it was, and the journal is kept beside it, or in another folder where it
    can't be written there; the last call comes too late for that, and the first one before any line is read."""
    for at, (call, (does, served)) in enumerate(zip(SAVE, REFUSED)):
        own = own_name("kept")
        put(own, ONE_ENTRY)
        seen, ended = step(at, refused=errno.EIO, words=[*WORDS[:-2], own, "-v"])
        kept = {"rename": f"{own}.0.mapf-kept"}.get(call) or (kept_in(FOLDERS[0], own) if "write" in does else None)
        told = f": the journal is in {kept}" if kept else ""
        fault = f"mapf_desk: can't write {own}{told}\n  Input/output error (os error 5)\n".encode()
        want("the end", ended, (2, b"version 2\n" if served else b"", fault))
        want("the calls", (seen[: at + 1], seen[at + 1 :]), (SAVE[: at + 1], does))
        want(f"the file behind the call {call}", bytes_of(own), SAVED if at == len(SAVE) - 1 else ONE_ENTRY)
        want("what is left", [it for it in os.listdir() if "mapf" in it], [kept] if call == "rename" else [])
        if kept:
            want("the journal that is kept", bytes_of(kept), SAVED)
            remove(kept)
        remove(own)
    remove("kept")


# On a full disk: the calls of a save that are refused, what is done behind the first of them, and the folder that has the journal then.
MAKES_LESS = ["remove", "make"]
FULL = [((1,), ["remove", *ELSEWHERE], 0), ((2,), ["remove", *ELSEWHERE], 0), ((1, 3), [*MAKES_LESS, *ELSEWHERE], 1),
        ((1, 4), [*MAKES_LESS, "write", "remove", *ELSEWHERE], 1), ((1, 5), [*MAKES_LESS, "write", "sync", "remove", *ELSEWHERE], 1),
        ((1, 3, 4), [*MAKES_LESS, "make", *ELSEWHERE], 2), ((1, 3, 4, 5), [*MAKES_LESS, "make", "make"], None)]


def kept_elsewhere_on_a_full_disk():
    """Where the disk of the file is full, the journal is kept in the first other folder that takes it, and the fault names it; the file is
    as it was, and nothing else is left anywhere."""
    full = f"  {os.strerror(errno.ENOSPC)} (os error {errno.ENOSPC})\n"
    for at, does, folder in FULL:
        own = own_name("kept")
        put(own, ONE_ENTRY)
        seen, ended = step(*at, refused=errno.ENOSPC, words=[*WORDS[:-2], own, "-v"])
        kept = [kept_in(FOLDERS[folder], own)] if folder is not None else []
        told = "".join(f": the journal is in {it}" for it in kept)
        want("the end", ended, (2, b"version 2\n", f"mapf_desk: can't write {own}{told}\n{full}".encode()))
        want(f"the calls where {at} are refused", seen[at[0] + 1 :], does)
        want("the file", bytes_of(own), ONE_ENTRY)
        want("what is left", [it for other in (".", *FOLDERS) for it in found(other, own)], [os.path.basename(it) for it in kept])
        for file in kept:
            want("the journal that is kept", bytes_of(file), SAVED)
            want("its mode", oct(os.stat(file).st_mode & 0o7777), oct(0o600))
        remove(own, *kept)
    remove("kept")


def found(folder, own):
    """The files of the program's in that folder that are named after the file."""
    return [it for it in os.listdir(folder) if own in it and "mapf" in it]


def a_writer_that_fails():
    """A save with room for so many bytes alone has put these into the new file, and removes it."""
    put("kept", SECOND), put("tasks", b"version 1\n" + b"0 m 3 1 0 0 2 0 2\n" * 4)
    for room in range(len(SECOND)):
        with room_for(room):
            session = Stepped(b"", [*WORDS, "--scen", "tasks", "--agents", "4"])
        taken = []
        for number, call in session.calls():
            if call == "remove" and os.path.exists(TEMPORARY):
                taken.append(bytes_of(TEMPORARY))
            session.answer(number)
        want("the end", session.end(), (2, b"", b"mapf_desk: can't write kept\n  File too large (os error 27)\n"))
        want(f"what is taken of {room} bytes", taken, [SECOND[:room]])
        want("the file", bytes_of("kept"), SECOND)
    remove("kept", "tasks")


def tests():
    for test in (calls_of_a_save, killed_before_each_call, refused_at_each_call, kept_elsewhere_on_a_full_disk, a_writer_that_fails):
        yield test.__name__, test
