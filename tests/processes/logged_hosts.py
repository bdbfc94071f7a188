"""Planners in processes of their own on one desk with a log: what any of them was told is there, once and in its order, by their own records."""
import contextlib
import errno
import math
import os
import random
import select
import signal
import time

from .failing_logs import FAILED, reason
from .hosting import Hosted, Seat
from .killed_logs import whole_of
from .kills import SIGNALS, without_core
from .log_texts import OFF, SERVE, WIDE, answers, edits, entries_in, head, log_of, tear_note
from .running import PATIENCE, Wrong, bytes_of, is_answered, is_fault, is_run, put, remove, room_for, run, start, want
from .saving import on_a_disk
from .stepping import Stepped

HOST = ["host", "--map", "wide", "--log", "log"]
KILLS = 200
NAMES = [f"p{it}" for it in range(1, 9)]
SYNCS = {74: "sync", 75: "sync"}  # the calls of x86-64 Linux that sync a file


def line_of(planner, count):
    """The line of that number, from 0, of a planner: its agent, and then that agent's goals."""
    return b"agent %d 0,0 8,0" % planner if count == 0 else b"goal %d %d,0" % (planner, count % 9)


class Record:
    """A planner's lines, and the versions that it was told of them."""

    def __init__(self, planner, seat, there, ahead):
        self.planner, self.seat, self.there = planner, seat, there
        self.sent, self.told, self.left = there, [], b""
        for _ in range(ahead):
            self.send()

    def send(self):
        try:
            self.seat.send(line_of(self.planner, self.sent) + b"\n")
            self.sent += 1
        except BrokenPipeError:
            pass

    def hear(self, goes_on):
        """Takes what has come; false where no more comes."""
        piece = os.read(self.seat.answers, 65536)
        lines = (self.left + piece).split(b"\n")
        self.left = lines.pop()
        for line in lines:
            word, version = line.split()
            want(f"an answer to {self.seat.name}", word, b"version")
            self.told.append(int(version))
            if goes_on:
                self.send()
        return piece != b""


def hear(records, goes_on, moment, enough=math.inf):
    """The planners go on until the moment, or till so many answers have come, or all."""
    waiting = list(records)
    while waiting and time.monotonic() < moment and sum(len(it.told) for it in records) < enough:
        ready = select.select([it.seat.answers for it in waiting], [], [], max(0, moment - time.monotonic()))[0]
        waiting = [it for it in waiting if it.seat.answers not in ready or it.hear(goes_on)]


def entries_of(entries):
    """The planner and its line of each entry, which has one edit."""
    for entry in entries:
        begins, line = entry.splitlines()
        yield int(begins.split()[1]), line


def is_kept(records, shown):
    """What the planners were told is in the log: each answer's line as the entry of its version, no line twice or out of its order, and none
    that was not sent. Gives how many lines of each planner are there."""
    found = list(entries_of(entries_in(whole_of(bytes_of("log")))))
    for record in records:
        own = [(version, line) for version, (planner, line) in enumerate(found, 1) if planner == record.planner]
        want("the lines that are there", [line for _, line in own], [line_of(record.planner, it) for it in range(len(own))])
        want("whether no more is there than was sent", len(own) <= record.sent, True)
        told = [version for version, _ in own[record.there : record.there + len(record.told)]]
        want(f"what {record.seat.name} was told", record.told, told)
    want("whether what was shown is there", shown <= len(found), True)
    return [sum(planner == it.planner for planner, _ in found) for it in records]


def killed_after(chance, there, sync):
    """A host goes on with a log, and is killed at a moment of the commits of its planners; one more asks for the version all the time."""
    with Hosted(NAMES, "--log", "log", "--sync", sync, ground="wide", preexec_fn=without_core) as hosted:
        operator = hosted.operator.process
        records = [Record(it, seat, there[it - 1], 1 + chance.randrange(3)) for it, seat in enumerate(hosted.seats(), 1)]
        hosted.operator.send(b"version\n" * 40)
        hear(records, True, time.monotonic() + PATIENCE, chance.randrange(24))
        hear(records, True, time.monotonic() + chance.uniform(0, 0.004))
        operator.send_signal(signal.SIGKILL)
        status, out, _ = hosted.end()
        hear(records, False, time.monotonic() + PATIENCE)
        want("the end", status, -signal.SIGKILL)
        shown = [int(it.split()[1]) for it in out.split(b"\n")[:-1]]
        for record in records:
            record.seat.close()
    return is_kept(records, max(shown, default=0)), sum(len(it.told) for it in records)


def killed_hosts_with_a_log():
    """Of 200 hosts of 8 planners that are killed nothing is lost that anybody was told, nothing is there twice, and no planner's order is broken."""
    put("wide", WIDE)
    chance, there, told = random.Random(67), [0] * 8, 0
    for number in range(KILLS):
        if number % 20 == 0:
            remove("log")
            there = [0] * 8
        there, more = killed_after(chance, there, "off" if number % 40 >= 30 else "on")
        told += more
    print(f"killed_hosts_with_a_log: {told} commits were answered")
    want("whether commits were answered", told > KILLS, True)
    is_answered(OFF, b"version\n", f"version {sum(there)}\n") if whole_of(bytes_of("log")) == bytes_of("log") else None
    remove("log", "wide")


def hosted_with_a_log():
    """The log is that of the one journal, with each planner's number; the next host, a session and every word that reads a journal go on with it."""
    put("wide", WIDE)
    with Hosted(["east", "west"], "--log", "log", ground="wide") as hosted:
        east, west = hosted.seats()
        east.ask(b"close 0,1", b"version 1")
        west.ask(b"close 1,1", b"version 2")
        west.ask(b"begin", b"base 2"), west.ask(b"watch map", b"kept"), west.ask(b"open 0,1", b"kept"), west.ask(b"close 3,0", b"kept")
        east.ask(b"version", b"version 2")
        west.ask(b"commit", b"version 3")
        east.ask(b"drop 7", b"refused faulty 0 unknown-agent")
        hosted.operator.ask(b"open 1,1\n", b"version 4\n")
        want("the log", bytes_of("log"), log_of(ENTRIES))
        east.close(), west.close()
        hosted.ends(0, b"audit same\n", b"")
    want("the log", bytes_of("log"), log_of(ENTRIES))
    is_answered(SERVE, b"version\nclose 8,0\n", "version 4\nversion 5\n")
    with Hosted(["east"], "--log", "log", ground="wide") as hosted:
        east, = hosted.seats()
        east.ask(b"version", b"version 5")
        east.ask(b"open 8,0", b"version 6")
        east.close()
        hosted.ends(0, b"audit same\n", b"")
    want("the log", bytes_of("log"), log_of([*ENTRIES, b"entry 0 4 0 1\nclose 8,0\n", b"entry 1 5 0 1\nopen 8,0\n"]))
    remove("log", "wide")


ENTRIES = [b"entry 1 0 0 1\nclose 0,1\n", b"entry 2 1 0 1\nclose 1,1\n", b"entry 2 2 1 2\nwatch map\nopen 0,1\nclose 3,0\n",
           b"entry 0 3 0 1\nopen 1,1\n"]


def hosted_with_no_log():
    """Where the log is another's, damaged, or of another scene, that is told before a planner is let in; a tear is cut off, and told."""
    put("wide", WIDE), put("m9", WIDE.replace(b".........", b"........@", 1)), put("east.in", b"close 0,0\n")
    text = log_of(ENTRIES[:2])
    for held, words, fault in ((text, ["--map", "m9"], "log: another scene"), (text, ["--map", "wide", "--mode", "disappear"], "log: mode differs"),
                               (text.replace(b"close 0", b"close 1"), ["--map", "wide"], "log: bad line 6")):
        put("log", held)
        is_fault(["host", *words, "--log", "log", "east"], fault)
        want("the log", bytes_of("log"), held)
        want("whether a planner was answered", os.path.exists("east.out"), False)
    put("log", text + b"entry 1 2")
    with Hosted(["west"], "--log", "log", ground="wide") as hosted:
        west, = hosted.seats()
        is_fault([*HOST, "east"], "log: in use")
        is_fault(SERVE, "log: in use")
        west.ask(b"version", b"version 2")
        west.close()
        hosted.ends(0, b"audit same\n", tear_note(9).encode())
    want("the log", bytes_of("log"), text)
    is_fault([*HOST, "east", "east"], "a planner named twice, east")
    is_fault([*HOST, "--agents", "1", "east"], "--agents needs --scen")
    remove("log", "wide", "m9", "east.in")


def stopped_host_with_a_log():
    """A host that is stopped while a commit is gathered ends by its signal: what was answered is there, and what was gathered isn't."""
    put("wide", WIDE)
    for count, how in enumerate(SIGNALS):
        with Hosted(["east", "west"], "--log", "log", ground="wide", preexec_fn=without_core) as hosted:
            east, west = hosted.seats()
            west.ask(b"begin", b"base %d" % count), west.ask(b"open 8,0", b"kept")
            east.ask(line_of(1, count), b"version %d" % (count + 1))
            west.ask(b"watch map", b"kept")
            hosted.operator.process.send_signal(how)
            hosted.ends(-how, b"", b"")
            want("what the planners hear", (east.hear(), west.hear()), (None, None))
            east.close(), west.close()
        want("the log", bytes_of("log"), log_of([b"entry 1 %d 0 1\n%s\n" % (it, line_of(1, it)) for it in range(count + 1)]))
    remove("log", "wide")


class Slow:
    """A host whose syncs wait until they are let go on."""

    def __init__(self, names, *words):
        self.names = names
        for name in names:
            remove(f"{name}.in", f"{name}.out")
            os.mkfifo(f"{name}.in"), os.mkfifo(f"{name}.out")
        self.stepped = Stepped(b"", [*HOST, *words, *names], SYNCS)
        self.calls = self.stepped.calls()
        self.let_go(2)  # the head of a new log, and its name
        self.seats = [Seat(it) for it in names]

    def let_go(self, count, refused=0):
        for _ in range(count):
            self.stepped.answer(next(self.calls)[0], refused)

    def is_silent(self, names):
        """None of those planners is answered while a sync waits."""
        waiting = [it.answers for it in self.seats if it.name in names]
        want("who is answered before the sync", select.select(waiting, [], [], 0.2)[0], [])

    def end(self):
        for seat in self.seats:
            with contextlib.suppress(OSError):
                seat.close()
        want("what is synced at the end", list(self.calls), [])
        for name in self.names:
            remove(f"{name}.in", f"{name}.out")
        return self.stepped.end()


def one_sync_for_all():
    """While a sync waits nobody is answered who would show what it is of; one sync then serves all who have committed meanwhile."""
    put("wide", WIDE)
    host = Slow(NAMES)
    first, *others, last = host.seats
    first.send(line_of(1, 0) + b"\n")
    call = next(host.calls)[0]
    for planner, seat in enumerate(others, 2):
        seat.send(line_of(planner, 0) + b"\n")
    last.send(b"begin\nfly\n")
    host.is_silent(NAMES)
    want("the log", bytes_of("log"), log_of([b"entry 1 0 0 1\n" + line_of(1, 0) + b"\n"]))
    host.stepped.answer(call)
    want("the answer behind the sync", first.hear(), b"version 1")
    call = next(host.calls)[0]
    host.is_silent(NAMES[:-1])
    shown = [last.hear()] if select.select([last.answers], [], [], 0)[0] else []
    want("what began before the others had committed", [it for it in shown if it != b"base 1"], [])
    host.stepped.answer(call)
    told = sorted(int(it.hear().split()[1]) for it in others)
    want("the answers behind the next sync", told, list(range(2, 8)))
    want("what begins", (shown or [last.hear()])[0].split()[0], b"base")
    want("what is no line", last.hear(), b"bad 2 word")
    last.ask(b"cancel", b"cancelled")
    status, out, err = host.end()
    want("the end", (status, out, err), (0, b"audit same\n", b""))
    found = sorted(entries_of(entries_in(bytes_of("log"))))
    want("what is there", found, [(it, line_of(it, 0)) for it in range(1, 8)])
    remove("log", "wide")


def hosted_syncs():
    """With --sync off nothing is synced; else nothing is synced twice that one planner commits."""
    put("wide", WIDE), put("east.in", b"\n".join(edits(3)[0]) + b"\n")
    for sync, count in (("on", 5), ("off", 0)):
        stepped = Stepped(b"", [*HOST, "--sync", sync, "east"], SYNCS)
        calls = 0
        for number, _ in stepped.calls():
            stepped.answer(number)
            calls += 1
        want("the end", stepped.end(), (0, b"audit same\n", b""))
        want("how many syncs there are", calls, count)
        want("the answers", bytes_of("east.out").decode(), answers(1, 3))
        remove("log", "east.out")
    remove("wide", "east.in")


def sync_that_fails():
    """Where a sync fails, nobody is answered what it is of, and each session ends at its next line; the next host has what was answered."""
    put("wide", WIDE)
    for error in (errno.EIO, errno.ENOSPC):
        host = Slow(["east", "west", "south"], "-v")
        east, west, south = host.seats
        east.send(line_of(1, 0) + b"\n")
        host.let_go(1)
        want("the answer behind the sync", east.hear(), b"version 1")
        west.send(line_of(2, 0) + b"\n")
        east.send(b"wait 1 60\n")
        host.let_go(1, error)
        want("what is answered behind a sync that fails", (west.hear(), east.hear()), (None, None))
        south.send(b"begin\n" + line_of(3, 0) + b"\n")
        want("what is answered then", south.hear(), None)
        status, out, err = host.end()
        want("the end", (status, out), (2, b""))
        told = [it for it in err.decode().splitlines(keepends=True) if it.endswith("write failed\n") or it.startswith(" ")]
        want("what is told", (sorted(told[:3]), "".join(told[3:])),
             ([f"mapf_desk: {it}: write failed\n" for it in ("east", "south", "west")], FAILED + reason(error)))
        there = [b"entry 1 0 0 1\n%s\n" % line_of(1, 0), b"entry 2 1 0 1\n%s\n" % line_of(2, 0)]
        want("whether what was answered is there", bytes_of("log") in (log_of(there[:1]), log_of(there)), True)
        with Hosted(["east"], "--log", "log", ground="wide") as hosted:
            [seat] = hosted.seats()
            seat.ask(b"version", b"version %d" % len(entries_in(bytes_of("log"))))
            seat.close()
            hosted.ends(0, b"audit same\n", b"")
        remove("log")
    remove("wide")


def hosted_log_on_a_full_disk():
    """A log that may have so many bytes has all that anybody was answered; the rest is cut off by the next session."""
    put("wide", WIDE)
    for planner in (1, 2):
        put(f"p{planner}.in", b"".join(line_of(planner, it) + b"\n" for it in range(3)))
    whole = len(log_of([b"entry 1 0 0 1\n" + line_of(1, 0) + b"\n"] * 6))
    for room in range(0, whole + 40, 7):
        remove("log", "p1.out", "p2.out")
        with room_for(room):
            status, out, err = run([*HOST, "-v", "p1", "p2"], restore_signals=False)
        if room < len(head()):
            want("the end", (status, out, err), (2, "", "mapf_desk: can't write log\n" + reason(errno.EFBIG)))
        else:
            told = {it: [int(line.split()[1]) for line in bytes_of(f"p{it}.out").splitlines()] for it in (1, 2)}
            found = list(entries_of(entries_in(whole_of(bytes_of("log")))))
            for planner, versions in told.items():
                want("what was answered", [found[it - 1] for it in versions], [(planner, line_of(planner, it)) for it in range(len(versions))])
            full = sum(map(len, told.values())) < 6
            want("the end", (status, out, err.endswith(FAILED + reason(errno.EFBIG))), (2, "", True) if full else (0, "audit same\n", False))
    torn = len(bytes_of("log")) - len(whole_of(bytes_of("log")))
    is_run(OFF, b"version\n", (0, f"version {len(found)}\n", tear_note(torn)))
    remove("log", "wide", "p1.in", "p2.in", "p1.out", "p2.out")


def hosted_log_on_a_small_disk():
    """On a disk that is full each commit that a planner was answered is there; once there is room, a session goes on with them."""
    put("wide", WIDE)
    count = 300
    put("lines", b"".join(line_of(1, it) + b"\n" for it in range(count)))
    script = ('cp lines p1.in; head -c 4096 /dev/zero > disk/other; "$0" "$@" -v p1 < /dev/null; echo "status $?"; cat p1.out; cp disk/log torn; rm disk/other; '
              '"$0" serve --map wide --log disk/log < more')
    put("more", b"version\n")
    for sync in ("on", "off"):
        what, words = f"a host's log on a full disk, with sync {sync}", ["host", "--map", "wide", "--log", "disk/log", "--sync", sync]
        ended = on_a_disk(what, "size=8k", script, b"", *words)
        if ended:
            torn = bytes_of("torn")
            there = len(entries_in(whole_of(torn)))
            want("whether the disk was full", 0 < there < count, True)
            said = f"status 2\n{answers(1, there)}version {there}\n"
            complained = "mapf_desk: p1: write failed\n" + FAILED + reason(errno.ENOSPC) + tear_note(len(torn) - len(whole_of(torn)))
            told = "".join(it for it in ended[2].splitlines(keepends=True) if not it.endswith((": has come\n", " lines\n")))
            want("the end", (ended[0], ended[1].decode(), told), (0, said, complained))
    remove("lines", "more", "torn", "wide")


def many_planners_with_a_log():
    """254 planners sit at one desk with a log, and no more; each is told the version that its entry has."""
    put("wide", WIDE)
    names = [f"n{it}" for it in range(1, 256)]
    is_fault([*HOST, *names], "too many planners")
    remove("log")
    for planner, name in enumerate(names, 1):
        put(f"{name}.in", line_of(planner, 0) + b"\n")
    process = start([*HOST, "--sync", "off", *names[:254]])
    want("the end", (*process.communicate(timeout=5 * PATIENCE), process.returncode), (b"audit same\n", b"", 0))
    found = list(entries_of(entries_in(bytes_of("log"))))
    want("how many entries there are", len(found), 254)
    for planner, name in enumerate(names[:254], 1):
        versions = [int(it.split()[1]) for it in bytes_of(f"{name}.out").splitlines()]
        want(f"the entries of {name}", [found[it - 1] for it in versions], [(planner, line_of(planner, 0))])
    remove("log", "wide", *(f"{it}.{end}" for it in names for end in ("in", "out")))


def tests():
    for test in (hosted_with_a_log, hosted_with_no_log, killed_hosts_with_a_log, stopped_host_with_a_log, one_sync_for_all, hosted_syncs,
                 sync_that_fails, hosted_log_on_a_full_disk, hosted_log_on_a_small_disk, many_planners_with_a_log):
        yield test.__name__, test
