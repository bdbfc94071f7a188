"""Planners in processes of their own on one desk: `host` over named pipes, and over files."""
import multiprocessing
import os
import queue
import select
import signal
import subprocess
import threading
import time

from .running import PATIENCE, Planner, Wrong, bytes_of, is_answered, is_fault, is_run, put, remove, run, want


def opened(pipe, how):
    """An end of a pipe; the other end is opened too, before long."""
    ends = []
    thread = threading.Thread(target=lambda: ends.append(os.open(pipe, how)), daemon=True)
    thread.start()
    thread.join(PATIENCE)
    if not ends:
        raise Wrong(f"nobody opened {pipe}")
    return ends[0]


class Seat:
    """A planner's ends of its pipes."""

    def __init__(self, name):
        self.name = name
        self.lines, self.answers, self.left = opened(f"{name}.in", os.O_WRONLY), opened(f"{name}.out", os.O_RDONLY), b""

    def send(self, lines):
        os.write(self.lines, lines)

    def hear(self):
        """The next line of the answers; none where they have ended."""
        while b"\n" not in self.left:
            if not select.select([self.answers], [], [], PATIENCE)[0]:
                raise Wrong(f"{self.name} had no answer before more input came")
            piece = os.read(self.answers, 65536)
            if not piece:
                return None
            self.left += piece
        line, _, self.left = self.left.partition(b"\n")
        return line

    def ask(self, line, answer):
        """Sends a line, and waits for its answer with no more sent."""
        self.send(line + b"\n")
        want(f"the answer to {line!r} of {self.name}", self.hear(), answer)

    def close(self):
        os.close(self.lines), os.close(self.answers)


class Hosted:
    """A desk that hosts planners of those names, each with two new pipes, and the operator here."""

    def __init__(self, names, *words, ground="m", **how):
        self.names = names
        for name in names:
            remove(f"{name}.in", f"{name}.out")
            os.mkfifo(f"{name}.in"), os.mkfifo(f"{name}.out")
        self.operator = Planner("host", "--map", ground, *words, *names, **how)

    def __enter__(self):
        return self

    def __exit__(self, *_):
        """Neither the desk nor its pipes are left behind, however the test ends."""
        process = self.operator.process
        if process.poll() is None:
            process.kill()
            process.wait()
        for name in self.names:
            remove(f"{name}.in", f"{name}.out")

    def seats(self):
        return [Seat(name) for name in self.names]

    def end(self):
        """Ends the operator's session, and the desk, once all planners have; gives status, output and faults."""
        process = self.operator.process
        if process.stdin.closed:
            process.stdin = None
        try:
            out, err = process.communicate(timeout=PATIENCE)
        except subprocess.TimeoutExpired:
            raise Wrong("the desk doesn't end") from None
        return process.returncode, out, err

    def ends(self, status, out, err):
        want("the end", self.end(), (status, out, err))


def one_is_stale():
    """Two planners commit on one version: one is accepted, and the other is refused as stale; each reads what the other did."""
    with Hosted(["east", "west"]) as hosted:
        east, west = hosted.seats()
        east.ask(b"agent 0 0,0 2,0", b"version 1")
        west.ask(b"version", b"version 1")
        east.ask(b"begin", b"base 1")
        west.ask(b"begin", b"base 1")
        east.ask(b"path 0 0,0 1,0", b"kept")
        west.ask(b"watch agent 0", b"kept")
        west.ask(b"agent 1 2,0 2,0", b"kept")
        east.ask(b"commit", b"version 2")
        west.ask(b"commit", b"refused stale 2 agent 0 2")
        west.ask(b"cancel", b"cancelled")
        west.ask(b"tail 0 1 2,0", b"version 3")
        east.ask(b"solves vertex edge follow swap cycle", b"solves yes")
        hosted.operator.ask(b"version\n", b"version 3\n")
        east.close(), west.close()
        hosted.ends(0, b"audit same\n", b"")


def the_operator_goes_first():
    """The end of standard input ends nobody else; what was committed is saved once all have ended."""
    with Hosted(["east"], "--save", "kept") as hosted:
        [east] = hosted.seats()
        hosted.operator.ask(b"close 1,0\n", b"version 1\n")
        hosted.operator.process.stdin.close()
        east.ask(b"version", b"version 1")
        east.ask(b"open 1,0", b"version 2")
        want("whether it is saved yet", os.path.exists("kept"), False)
        east.close()
        hosted.ends(0, b"audit same\n", b"")
        want("the journal", bytes_of("kept"), b"journal 2\nmode stay\nentry 0 0 0 1\nclose 1,0\nentry 1 1 0 1\nopen 1,0\nend 2\n")
        remove("kept")


BROKEN_OFF = 'exec 3> east.in 4< east.out; printf "agent 0 0,0 2,0\\npath 0 0,0 1,0" >&3; read answer <&4; echo $answer; kill -9 $$'


def broken_off_within_a_line():
    """A planner that is killed in the middle of a line: that line commits nothing, what it committed stands, and the other goes on."""
    with Hosted(["east", "west"], "--save", "kept") as hosted:
        killed = subprocess.run(["sh", "-c", BROKEN_OFF], capture_output=True, timeout=PATIENCE)
        want("the planner's end", (killed.returncode, killed.stdout), (-signal.SIGKILL, b"version 1\n"))
        west = Seat("west")
        west.ask(b"version", b"version 1")
        west.ask(b"path 0 0,0 1,0 2,0", b"version 2")
        west.close()
        hosted.ends(2, b"audit same\n", b"mapf_desk: east: ended within a line\n")
    want("the journal", bytes_of("kept"), b"journal 2\nmode stay\nentry 1 0 0 1\nagent 0 0,0 2,0\nentry 2 1 0 1\npath 0 0,0 1,0 2,0\nend 2\n")
    remove("kept")


def answers_unheard():
    """A planner that closes its answers: its session ends by that, what it committed stands, and the other goes on."""
    with Hosted(["east", "west"], "--save", "kept") as hosted:
        east, west = hosted.seats()
        os.close(east.answers)
        east.send(b"agent 0 0,0 2,0\nversion\n")
        west.send(b"version\n")
        want("the version", west.hear() in (b"version 0", b"version 1"), True)
        west.close()
        os.close(east.lines)
        hosted.ends(2, b"audit same\n", b"mapf_desk: east: write failed: Broken pipe (os error 32)\n")
    want("the journal", bytes_of("kept"), b"journal 2\nmode stay\nentry 1 0 0 1\nagent 0 0,0 2,0\nend 1\n")
    remove("kept")


def never_comes():
    """A planner that doesn't come, or opens one pipe alone, is waited for so long; the others are served meanwhile, one that comes late too."""
    with Hosted(["away", "half", "west"], "--wait", "4") as hosted:
        half = opened("half.in", os.O_WRONLY)
        time.sleep(0.5)
        west = Seat("west")
        west.ask(b"close 0,0", b"version 1")
        west.close()
        status, said, complained = hosted.end()
        os.close(half)
        want("the faults", sorted(complained.split(b"\n")), [b"", b"mapf_desk: away: never came", b"mapf_desk: half: never came"])
        want("the end", (status, said), (2, b"audit same\n"))


def told_who_is_awaited():
    """Where that is wanted it is told who comes, whose session ends, and behind the operator's end who hasn't come yet."""
    for flag, stages in ([], []), (["-v"], ["east: 1 line", "east: has come", "operator: 1 line", "west: hasn't come yet"]):
        with Hosted(["east", "west"], "--wait", "4", *flag) as hosted:
            east = Seat("east")
            east.ask(b"version", b"version 0")
            hosted.operator.ask(b"version\n", b"version 0\n")
            hosted.operator.process.stdin.close()
            east.close()
            status, said, complained = hosted.end()
            want("what is told", sorted(complained.decode().splitlines()), [f"mapf_desk: {it}" for it in (*stages, "west: never came")])
            want("the end", (status, said), (2, b"audit same\n"))


def no_files():
    """A planner whose input isn't there, or whose output can't be written. It isn't told as one that hasn't come yet."""
    put("east.in", b"close 0,0\n")
    remove("gone.in")
    is_run(["host", "--map", "m", "gone"], b"", (2, "audit same\n", "mapf_desk: gone: can't open its input: No such file or directory (os error 2)\n"))
    os.mkdir("east.out")
    is_run(["host", "--map", "m", "east"], b"", (2, "audit same\n", "mapf_desk: east: can't open its output: Is a directory (os error 21)\n"))
    os.rmdir("east.out")
    remove("east.in")
    os.mkfifo("west.in"), os.mkfifo("west.out")
    status, said, complained = run(["host", "-v", "--map", "m", "--wait", "2", "gone", "west"])
    want("the end", (status, said), (2, "audit same\n"))
    told = ["gone: can't open its input: No such file or directory (os error 2)", "operator: 0 lines", "west: hasn't come yet", "west: never came"]
    want("what is told", sorted(complained.splitlines()), [f"mapf_desk: {line}" for line in told])
    remove("west.in", "west.out")


def plain_files():
    """Planners whose sessions are files: they are answered into new files."""
    put("east.in", b"agent 0 0,0 2,0\npath 0 0,0 1,0 2,0\n")
    is_answered(["host", "--map", "m", "--save", "kept", "east"], b"", "audit same\n")
    want("the answers", bytes_of("east.out"), b"version 1\nversion 2\n")
    put("west.in", b"tail 0 1 1,0\nfly\n")
    is_answered(["host", "--map", "m", "--journal", "kept", "--limit", "3", "west"], b"", "audit same\n")
    want("the answers", bytes_of("west.out"), b"version 3\nbad 2 word\n")
    remove("east.in", "east.out", "west.in", "west.out", "kept")


COLUMNS, ROWS = 64, 32


def commit_goals(name, agent, many, told):
    """Commits so many goals for an agent, no two alike, each once the one before is answered; tells those that were accepted."""
    seat, accepted = Seat(name), []
    for number in range(many):
        line = b"goal %d %d,%d" % (agent, number % COLUMNS, number // COLUMNS)
        seat.send(line + b"\n")
        if seat.hear().startswith(b"version "):
            accepted.append(line)
    seat.close()
    told.put((agent, accepted))


def accepted_of(names, many):
    """The goals that were accepted of each planner; each is a process of its own."""
    told = multiprocessing.Queue()
    planners = [multiprocessing.Process(target=commit_goals, args=(name, agent, many, told), daemon=True) for agent, name in enumerate(names)]
    for planner in planners:
        planner.start()
    try:
        return dict(told.get(timeout=PATIENCE) for _ in planners)
    except queue.Empty:
        raise Wrong("a planner doesn't end") from None
    finally:
        for planner in planners:
            planner.join(1)
            planner.kill()


def sixteen_planners():
    """16 planners with 2,000 commits each: the journal saved has each accepted one once, in its planner's order, and the audit of it gives the last report."""
    many, names = 2000, [f"p{number}" for number in range(1, 17)]
    put("wide", b"type octile\nheight %d\nwidth %d\nmap\n" % (ROWS, COLUMNS) + (b"." * COLUMNS + b"\n") * ROWS)
    with Hosted(names, "--save", "kept", ground="wide") as hosted:
        for agent in range(len(names)):
            hosted.operator.ask(b"agent %d %d,31 0,0\n" % (agent, agent), b"version %d\n" % (agent + 1))
        accepted = accepted_of(names, many)
        count = sum(len(it) for it in accepted.values())
        hosted.operator.ask(b"version\n", b"version %d\n" % (len(names) + count))
        hosted.operator.send(b"report\n")
        status, report, complained = hosted.end()
    want("the end", (status, complained), (0, b""))
    entries = bytes_of("kept").split(b"entry ")[1:]
    for agent in accepted:
        own = [entry.split(b"\n")[1] for entry in entries if entry.startswith(b"%d " % (agent + 1))]
        want(f"the entries of planner {agent + 1}", own, accepted[agent])
    want("how many entries there are", len(entries), len(names) + count)
    want("whether a tenth was accepted", count > len(names) * many / 10, True)
    status, audited, _ = run(["audit", "--map", "wide", "--journal", "kept"])
    want("the report", (status, audited.encode() + b"audit same\n"), (0, report))
    remove("kept", "wide")


def last_line_of_the_operator():
    """The operator's last line needs its LF, as a planner's does: without it the line is broken off."""
    put("east.in", b"")
    is_run(["host", "--map", "m", "east"], b"close 0,0\nversion", (2, "version 1\naudit same\n", "mapf_desk: operator: ended within a line\n"))
    is_answered(["host", "--map", "m", "east"], b"close 0,0\nversion\n", "version 1\nversion 1\naudit same\n")
    fault = "mapf_desk: operator: ended within a line\n"
    is_run(["host", "--map", "m", "--save", "kept", "east"], b"agent 0 0,0 2,0\ngoal 0 1,0", (2, "version 1\naudit same\n", fault))
    want("the journal", bytes_of("kept"), b"journal 2\nmode stay\nentry 0 0 0 1\nagent 0 0,0 2,0\nend 1\n")
    remove("east.in", "east.out", "kept")


def words_of_host():
    """Mistakes in the words."""
    status, said, complained = run(["host", "--map", "m"])
    want("the end", (status, said), (2, ""))
    want("what is missing", "<NAME>..." in complained, True)
    is_fault(["host", "--map", "m", "--agents", "1", "east"], "--agents needs --scen")
    is_fault(["host", "--map", "gone", "east"], "can't read gone")
    is_fault(["host", "--map", "m", *[str(number) for number in range(256)]], "too many planners")
    is_fault(["host", "--map", "m", "east", "west", "east"], "a planner named twice, east")


def tests():
    named = (one_is_stale, the_operator_goes_first, broken_off_within_a_line, answers_unheard, never_comes, told_who_is_awaited, no_files,
             plain_files)
    for test in (*named, last_line_of_the_operator, sixteen_planners, words_of_host):
        yield test.__name__, test
