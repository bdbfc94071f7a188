"""`host` where memory, stacks or threads are short, and where a planner's input is large."""
import contextlib
import math
import os
import resource
import shutil
import subprocess
import time

from .comings import AUDITED, make_pipes, remove_pipes
from .hosting import Hosted, Seat
from .running import PATIENCE, USER, Program, Wrong, as_user, bytes_of, is_answered, is_run, put, remove, run, want

MOST_LINE = 4 << 20  # bytes, the LF among them
MANY = [f"p{number}" for number in range(1, 256)]
WIDE = b"type octile\nheight 16\nwidth 16\nmap\n" + (b"." * 16 + b"\n") * 16  # a cell for each of them


def agent_of(number):
    """The line that puts a planner's agent into its cell, to stay there."""
    cell = b"%d,%d" % (number % 16, number // 16)
    return b"agent %d %s %s" % (number, cell, cell)


def limited(**sizes):
    """A limit of the system for what is started: of address space, stack, open files or processes."""
    def limit():
        for name, size in sizes.items():
            resource.setrlimit(getattr(resource, f"RLIMIT_{name}"), (size, resource.getrlimit(getattr(resource, f"RLIMIT_{name}"))[1]))

    return limit


def memory_of(process, which="VmRSS:"):
    """The memory that the process holds, in kB."""
    with open(f"/proc/{process.pid}/status") as file:
        return next(int(line.split()[1]) for line in file if line.startswith(which))


def most_memory(process):
    """The most memory that the process has held so far, in kB."""
    return memory_of(process, "VmHWM:")


def line_too_long():
    """A line of 4 MiB is heard; one that is longer ends its session, with no more held than that, and the others go on."""
    remark = b"#" * (MOST_LINE - 1)
    put("north.in", remark + b"\nversion\n"), put("south.in", b"version\n" + remark + b"#\nversion\n")
    told = "mapf_desk: south: line too long\n"
    is_run(["host", "--map", "m", "north", "south"], b"", (2, "audit same\n", told))
    want("the answers", (bytes_of("north.out"), bytes_of("south.out")), (b"version 0\n", b"version 0\n"))
    put("south.in", b"")
    told = "mapf_desk: operator: line too long\n"
    is_run(["host", "--map", "m", "south"], b"version\n" + remark + b"##" + b"\nversion\n", (2, "version 0\naudit same\n", told))
    with Hosted(["east", "west"], "--save", "kept") as hosted:
        east, west = hosted.seats()
        east.ask(b"close 0,0", b"version 1")
        before = most_memory(hosted.operator.process)
        with contextlib.suppress(BrokenPipeError):
            for _ in range(64):
                east.send(b"#" * (1 << 20))
            raise Wrong("a line of 64 MiB is heard")
        want("what was answered", east.hear(), None)
        west.ask(b"open 0,0", b"version 2")
        want("whether little memory was held", most_memory(hosted.operator.process) - before < 32 << 10, True)
        east.close(), west.close()
        hosted.ends(2, b"audit same\n", b"mapf_desk: east: line too long\n")
    want("the journal", bytes_of("kept"), b"journal 2\nmode stay\nentry 1 0 0 1\nclose 0,0\nentry 2 1 0 1\nopen 0,0\nend 2\n")
    remove("kept", "north.in", "north.out", "south.in", "south.out")


def answers_not_read():
    """Who reads no answers is held up once its pipes are full, with no more held than that, and the others go on; then it is answered all."""
    with Hosted(["east", "west"]) as hosted:
        east, west = hosted.seats()
        east.ask(b"version", b"version 0")
        before, sent, commits, waits = most_memory(hosted.operator.process), 0, 0, 0
        os.set_blocking(east.lines, False)
        while waits < 20 and sent < 4 << 20:
            try:
                sent, waits = sent + os.write(east.lines, b"version\n" * 512), 0
            except BlockingIOError:
                commits, waits = commits + 1, waits + 1
                west.ask(b"close 0,0", b"version %d" % commits)
                time.sleep(0.02)
        want("whether the planner is held up", sent < 1 << 20, True)
        want("whether little memory was held", most_memory(hosted.operator.process) - before < 8 << 10, True)
        want("what is answered", {(east.hear() or b"nothing").split()[0] for _ in range(sent // 8)}, {b"version"})
        east.close(), west.close()
        hosted.ends(*AUDITED)


def no_end_by_count():
    """A planner's session may have more lines than one of `serve`, and so may the operator's."""
    lines = b"\n" * 1000001 + b"fly\n"
    put("east.in", lines)
    is_answered(["host", "--map", "m", "east"], lines, "bad 1000002 word\naudit same\n")
    want("the answers", bytes_of("east.out"), b"bad 1000002 word\n")
    remove("east.in", "east.out")


def planners_of_small_stacks(names, stack):
    """So many planners at pipes and the operator commit, though the system gives stacks of so many kB and 1,024 open files."""
    make_pipes(*names)
    put("wide", WIDE)
    with Hosted([], "--save", "kept", *names, ground="wide", preexec_fn=limited(STACK=stack << 10, NOFILE=1024)) as hosted:
        for number, name in enumerate(names, 1):
            seat = Seat(name)
            seat.ask(agent_of(number), b"version %d" % number)
            seat.close()
        hosted.operator.send(agent_of(0) + b"\nreport\n")
        hosted.operator.process.stdin.close()
        status, said, complained = hosted.end()
    want("the end", (status, complained, said.splitlines()[-1]), (0, b"", b"audit same"))
    want("what the operator is answered", said.splitlines()[:3], [b"version %d" % (len(names) + 1)] * 2 + [b"agents %d" % (len(names) + 1)])
    planners = [int(it.split()[0]) for it in bytes_of("kept").split(b"\nentry ")[1:]]
    want("whose the entries are", planners, [*range(1, len(names) + 1), 0])
    remove("kept", "wide")
    remove_pipes(*names)


def many_planners_of_small_stacks():
    planners_of_small_stacks(MANY, 512)


def few_planners_of_smaller_stacks():
    for count, stack in ((16, 160), (64, 300)):
        planners_of_small_stacks(MANY[:count], stack)


def stacks_of(process):
    """The bytes of what is mapped behind pages that nobody may touch, as the stack of a thread is."""
    found, guard = [], None
    with open(f"/proc/{process.pid}/maps") as maps:
        for line in maps:
            span, rights = line.split()[:2]
            first, last = (int(it, 16) for it in span.split("-"))
            if rights.startswith("rw") and guard == first:
                found.append(last - first)
            guard = last if rights.startswith("---") else None
    return found


def stacks_of_sessions():
    """Each session, the operator's too, has a stack of 1 MiB, and hosting one of 4, whatever size the system gives."""
    for size in (512 << 10, 2 << 20):
        with Hosted(["east", "west"], preexec_fn=limited(STACK=size)) as hosted:
            seats = hosted.seats()
            for seat in seats:
                seat.ask(b"version", b"version 0")
            hosted.operator.ask(b"version\n", b"version 0\n")
            stacks = stacks_of(hosted.operator.process)
            # (an allocator may have mapped more of that size)
            want(f"whether {stacks} has them, where {size} bytes are usual", (stacks.count(1 << 20) >= 3, 16 << 20 in stacks), (True, True))
            for seat in seats:
                seat.close()
            hosted.ends(*AUDITED)


OWN = b"".join(b"goal 0 %d,0\n" % it for it in range(16))  # what the operator commits for its own agent


def accepted(said):
    """The planner and the version of each commit that was answered as accepted."""
    answers = {number: bytes_of(f"{name}.out").splitlines()[:2] for number, name in enumerate(MANY, 1) if os.path.exists(f"{name}.out")}
    answers[0] = said.encode().splitlines()[: 1 + OWN.count(b"\n")]
    # (what follows asks for the version, which may be another's)
    return {(number, int(it.split()[1])) for number, lines in answers.items() for it in lines if it.startswith(b"version ")}


def is_whole_where_it_is_saved(said, complained):
    """Each commit that was answered is in the journal, as that planner's, where one was saved; else it is told that it can't be."""
    found = accepted(said)
    if not os.path.exists("kept"):
        return want("what was answered and not saved, where that isn't told", "can't write kept" in complained or found, set())
    entries = bytes_of("kept").split(b"\nentry ")[1:]
    want("what is saved of what was answered", found - {(int(it.split()[0]), number) for number, it in enumerate(entries, 1)}, set())


def least_room():
    """The least address space in which the program begins, in kB."""
    for size in range(512, 1 << 20, 64):
        with contextlib.suppress(subprocess.SubprocessError):
            if run(["--version"], preexec_fn=limited(AS=size << 10))[0] in (0, 2):
                return size
    raise Wrong("the program doesn't begin")


def levels_of_memory():
    """255 planners in many sizes of address space: the host is never ended by a signal, tells what it lacks, and saves what it answered."""
    for number, name in enumerate(MANY, 1):
        put(f"{name}.in", agent_of(number) + b"\ngoal %d 0,0\nversion\n" % number)
    put("wide", WIDE)
    seen, counts = set(), []
    few, many, most = least_room(), 60000, 700000  # kB
    rooms = [int(few * math.pow(many / few, level / 12)) for level in range(12)] + [many + (most - many) * level // 39 for level in range(40)]
    for room in [*rooms, 1 << 20]:
        remove("kept", *(f"{name}.out" for name in MANY))
        words, lines = ["host", "--map", "wide", "--save", "kept", *MANY], agent_of(0) + b"\n" + OWN + b"report\n"
        status, said, complained = run(words, lines, preexec_fn=limited(AS=room << 10))
        want(f"the status at {room} kB", status in (0, 2), True)
        want(f"whether it is told at {room} kB what is lacking", bool(complained), status == 2)
        is_whole_where_it_is_saved(said, complained)
        seen |= {it.split(": ")[-1] for it in complained.splitlines()} | {status}
        counts.append(len(accepted(said)))
    want("what was seen", {0, "no thread", "out of memory"} - seen, set())
    every = 2 * len(MANY) + 1 + OWN.count(b"\n")
    some = any(0 < it < every for it in counts)
    want("whether no commit was accepted in the least room, then some, and at last all", (counts[0], some, counts[-1]), (0, True, every))
    remove("kept", "wide", *(f"{name}.{end}" for name in MANY for end in ("in", "out")))


def threads_of(user):
    """How many threads that user has."""
    count = 0
    for process in os.listdir("/proc"):
        with contextlib.suppress(OSError):
            if process.isdigit() and os.stat(f"/proc/{process}").st_uid == user:
                count += len(os.listdir(f"/proc/{process}/task"))
    return count


@contextlib.contextmanager
def few_threads(count):
    """Within, in a folder of their own, programs of that user have so many threads; gives what starts one."""
    os.mkdir("apart")
    shutil.copy2(Program.path, "apart/desk"), shutil.copy2("m", "apart/m")
    os.chmod("apart", 0o777), os.chmod("apart/desk", 0o755), os.chmod("apart/m", 0o644)
    most = threads_of(USER) + count

    def limit():
        as_user()
        resource.setrlimit(resource.RLIMIT_NPROC, (most, most))

    def ran(*words):
        how = {"cwd": "apart", "stdin": subprocess.DEVNULL, "capture_output": True, "timeout": PATIENCE, "preexec_fn": limit}
        return subprocess.run(["./desk", "host", "--map", "m", "--save", "kept", *words], **how)

    try:
        yield ran
    finally:
        shutil.rmtree("apart")


def told_by(ran):
    """What is told of each planner."""
    return dict(line.split(": ")[1:] for line in ran.stderr.decode().splitlines())


def no_thread():
    """Where no thread starts for a planner, that is told of each, and the others are waited for."""
    names = [f"p{number}" for number in range(12)]
    with few_threads(10) as run_host:
        for name in names:
            for end in ("in", "out"):
                os.mkfifo(f"apart/{name}.{end}"), os.chmod(f"apart/{name}.{end}", 0o666)
        ran = run_host("--wait", "2", *names)
    told = told_by(ran)
    want("who is told of", sorted(set(told) - {"operator"}), sorted(names))
    want("what is told", {"no thread"} <= set(told.values()) <= {"no thread", "never came"}, True)
    want("the end", (ran.returncode, ran.stdout), (2, b"audit same\n"))


def no_thread_for_some_of_many():
    """Of 60 planners with files each is answered, or it is told that it has no thread; so it is of the operator, who comes last."""
    names = [f"n{number}" for number in range(1, 61)]
    with few_threads(20) as run_host:
        for name in names:
            put(f"apart/{name}.in", b"version\n"), os.chmod(f"apart/{name}.in", 0o644)
        ran = run_host(*names)
        answered = [name for name in names if os.path.exists(f"apart/{name}.out") and bytes_of(f"apart/{name}.out") == b"version 0\n"]
    told = told_by(ran)
    want("the end", (ran.returncode, ran.stdout), (2, b"audit same\n"))
    want("who is told of", sorted(told), sorted({*names, "operator"} - set(answered)))
    want("what is told", set(told.values()), {"no thread"})
    want("whether some are answered, by no more threads than there may be", 0 < len(answered) < 20, True)


def tests():
    for test in (line_too_long, answers_not_read, no_end_by_count, many_planners_of_small_stacks, few_planners_of_smaller_stacks,
                 stacks_of_sessions, levels_of_memory, no_thread, no_thread_for_some_of_many):
        yield test.__name__, test
