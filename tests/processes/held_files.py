"""A file that a session is to save its journal in is held from before its first line: by others it is found in use, and what would
make the save fail is told then. What another has beside it, and what killed sessions left, hinders nobody."""
import contextlib
import fcntl
import os
import random
import resource
import shutil
import stat
import subprocess
import threading
import time

from .growing import growths_apart, leave, settle
from .hosting import Hosted
from .running import PATIENCE, USER, Planner, Program, Wrong, as_user, bytes_of, is_answered, is_fault, is_run, put, remove, run, start, want
from .texts import ADD, FILES, JOURNAL, ONE_ENTRY

WORDS = ["serve", "--map", "m", "--save"]


@contextlib.contextmanager
def in_a_folder():
    """What is done within is done in a new folder, with the files that runs name; none but those may be left."""
    before = os.getcwd()
    os.mkdir("apart")
    os.chdir("apart")
    for name in "ms":
        put(name, FILES[name])
    try:
        yield os.getcwd()
    finally:
        os.chdir(before)
        shutil.rmtree("apart")


def rest():
    """What is in the folder beside the files that runs name."""
    return sorted(set(os.listdir()) - {"m", "s"})


def names_of(file):
    """Names of one file in this folder."""
    here = os.getcwd()
    return file, f"./{file}", f"{here}/{file}", f"../{os.path.basename(here)}/{file}"


def in_use_by_another_session():
    """By whatever name, for `host` too, and also where the journal that it goes on from is the file: no line is read. Then it is free."""
    with in_a_folder():
        for journal in ([], ["--journal", "kept"]):
            put("kept", ONE_ENTRY)
            first = Planner(*WORDS, "kept")
            first.ask(ADD, b"version 1\n")
            for name in names_of("kept"):
                is_fault([*WORDS, name, *journal], f"can't write {name}: in use", ADD)
                is_fault(["host", "--map", "m", "--save", name, *journal, "nobody"], f"can't write {name}: in use", ADD)
            is_answered(["audit", "--map", "m", "--journal", "kept", "--workers", "1"], b"", "version 1\n" + RESTS)
            is_answered([*WORDS, "other"], ADD, "version 1\n")
            want("the end", first.end_all(), (0, b"", b""))
            want("the file", bytes_of("kept"), ONE_ENTRY)
            is_answered([*WORDS, "kept", "--journal", "kept"], b"drop 0\n", "version 2\n")
        want("the files", rest(), ["kept", "other"])


RESTS = "agents 1\nagent 0 settle 0 goal no bound 2 gap none\nconflicts 0\nblocked 0\nsum none\nmakespan none\nbounds 2\ngap none\nend\n"


# A name of two lines, the second of which commands a terminal, and how it is shown.
ODD, SHOWN = "k\nx\x1b", "k?x?"


def odd_names_in_one_line():
    """A fault of a file that is in use, or that can't be replaced, is one line, whatever its name."""
    with in_a_folder():
        first = Planner(*WORDS, ODD)
        first.ask(ADD, b"version 1\n")
        is_fault([*WORDS, ODD], f"can't write {SHOWN}: in use", ADD)
        is_fault(["host", "--map", "m", "--save", ODD, "nobody"], f"can't write {SHOWN}: in use", ADD)
        os.mkdir(ODD)
        fault = f"mapf_desk: can't write {SHOWN}: the journal is in {SHOWN}.0.mapf-kept\n"
        want("the end", first.end_all(), (2, b"", fault.encode()))
        want("the journal", bytes_of(f"{ODD}.0.mapf-kept"), ONE_ENTRY)


def in_use_by_a_host():
    with in_a_folder():
        with Hosted(["east"], "--save", "kept") as hosted:
            hosted.operator.ask(ADD, b"version 1\n")
            is_fault([*WORDS, "./kept"], "can't write ./kept: in use", ADD)
            for seat in hosted.seats():
                seat.ask(b"version", b"version 1")
                seat.close()
            hosted.ends(0, b"audit same\n", b"")
        want("the file", bytes_of("kept"), ONE_ENTRY)
        want("the files", rest(), ["kept"])


def names_alike_are_apart():
    """A file is in use by its whole name: temporary files of `plan` and of `plan.0` begin alike."""
    with in_a_folder():
        names = "plan.0", "plan", "plan.0.mapf-new", "lan", ".plan"
        planners = [Planner(*WORDS, name) for name in names]
        for planner in planners:
            planner.ask(ADD, b"version 1\n")
        for name in names:
            is_fault([*WORDS, name], f"can't write {name}: in use", ADD)
        for planner in planners:
            want("the end", planner.end_all(), (0, b"", b""))
        want("the journals", {name: bytes_of(name) for name in names}, {name: ONE_ENTRY for name in names})
        want("the files", rest(), sorted(names))


def folder_that_another_has_locked():
    """While another has the folder locked nothing is made there; a session waits, for 2 seconds, and then finds the file in use."""
    with in_a_folder() as here:
        folder = os.open(here, os.O_RDONLY)
        fcntl.flock(folder, fcntl.LOCK_EX)
        is_fault([*WORDS, "kept"], "can't write kept: in use", ADD)
        planner = Planner(*WORDS, "kept")
        planner.send(ADD)
        time.sleep(0.3)
        want("the files meanwhile", rest(), [])
        os.close(folder)
        planner.ask(b"version\n", b"version 1\nversion 1\n")
        want("the end", planner.end_all(), (0, b"", b""))
        want("the file", bytes_of("kept"), ONE_ENTRY)


def held_before_the_journal_is_read():
    """A session whose journal is still to come has the file already, so that nobody saves there between its reading and its save."""
    with in_a_folder():
        os.mkfifo("slow")
        planner = Planner(*WORDS, "kept", "--journal", "slow")
        until = time.monotonic() + PATIENCE / 6
        while not os.path.exists(".kept.0.mapf-new"):
            if time.monotonic() > until:
                planner.process.kill()
                raise Wrong("the file isn't held while the journal is read")
            time.sleep(0.001)
        is_fault([*WORDS, "kept"], "can't write kept: in use", ADD)
        put("slow", ONE_ENTRY)
        want("the end", planner.end_all(), (0, b"", b""))
        want("the file", bytes_of("kept"), ONE_ENTRY)


# Sessions that save one file at once

COUNT = 400  # the commits of each session, so that it takes a while to write them


def session_of(agent):
    """A session that commits an agent and goals of it, and its journal."""
    edits = [f"agent {agent} 0,0 2,0", *(f"goal {agent} {it % 3},0" for it in range(COUNT))]
    entries = "".join(f"entry 0 {version} 0 1\n{edit}\n" for version, edit in enumerate(edits))
    return "".join(f"{it}\n" for it in edits).encode(), f"journal 2\nmode stay\n{entries}end {len(edits)}\n".encode()


class Reader:
    """Reads the file again and again while others save it, and keeps each content."""

    def __init__(self, file):
        self.file, self.found, self.is_over = file, set(), False
        self.thread = threading.Thread(target=self.read)
        self.thread.start()

    def read(self):
        while not self.is_over:
            with contextlib.suppress(FileNotFoundError):
                self.found.add(bytes_of(self.file))
            time.sleep(0.001)

    def end(self):
        self.is_over = True
        self.thread.join()
        return self.found


def save_at_once(agents, kills):
    """Sessions of those agents save the file `kept` under its names, and some are killed. Gives how each ended."""
    sessions = []
    for agent, name in zip(agents, names_of("kept")):
        process = start([*WORDS, name], stdout=subprocess.DEVNULL)
        sessions.append((agent, name, process))
    threads = [threading.Thread(target=end_one, args=(agent, process)) for agent, _, process in sessions]
    for thread in threads:
        thread.start()
    for agent, _, process in sessions:
        if agent in kills:
            time.sleep(random.random() * 0.012)
            process.kill()
    for thread in threads:
        thread.join(PATIENCE)
    ends = {}
    for agent, name, process in sessions:
        ends[agent] = name, process.wait(PATIENCE), process.stderr.read().decode()
        process.stderr.close()
    return ends


def end_one(agent, process):
    with contextlib.suppress(BrokenPipeError):
        process.stdin.write(session_of(agent)[0])
    with contextlib.suppress(BrokenPipeError):
        process.stdin.close()


def one_of_those_that_saved(rounds, killing):
    """In each round the file is the journal of a session that ended with status 0, or that was killed behind its rename, and it is
    always whole; the others found it in use."""
    counts = [0, 0, 0]
    with in_a_folder():
        put("kept", ONE_ENTRY)
        for number in range(rounds):
            before, agents = bytes_of("kept"), range(1, number % 3 + 3)
            journals = {agent: session_of(agent)[1] for agent in agents}
            reader = Reader("kept")
            ends = save_at_once(agents, {it for it in agents if killing and random.random() < 0.5})
            found = reader.end()
            saved = {journals[agent] for agent, (_, status, _) in ends.items() if status == 0}
            killed = {journals[agent] for agent, (_, status, _) in ends.items() if status == -9}
            for agent, (name, status, complained) in ends.items():
                if status not in (0, -9):
                    want(f"how session {agent} ended", (status, complained), (2, f"mapf_desk: can't write {name}: in use\n"))
                counts[(0, 2, -9).index(status)] += 1
            if not killing:
                want("whether one saved", saved != set(), True)
            want("whether the file is whole", bytes_of("kept") in saved | killed | ({before} if killing or not saved else set()), True)
            want("whether it always was", found - {before} - saved - killed, set())
            if not killing:
                want("the files", rest(), ["kept"])
        is_answered([*WORDS, "kept"], ADD, "version 1\n")
        want("the files behind a last session", rest(), ["kept"])
    want("whether some saved, some found it in use, and some were killed", (counts[0] > 0, counts[1] > 0, counts[2] > 0), (True, True, killing))


def saved_at_once():
    one_of_those_that_saved(300, False)


def saved_at_once_and_killed():
    one_of_those_that_saved(40, True)


# What stands beside the file

def another_file_of_the_name(path):
    put(path, b"precious")


def link_of_the_name(path):
    put("victim", b"precious")
    os.symlink("victim", path)


def dangling_link_of_the_name(path):
    os.symlink("nobody", path)


def hard_link_of_the_name(path):
    os.link("kept", path)


def state_of(path):
    """What a name stands for, and what is in it."""
    found = os.lstat(path)
    inside = {stat.S_IFREG: bytes_of, stat.S_IFLNK: os.readlink, stat.S_IFDIR: os.listdir}.get(stat.S_IFMT(found.st_mode), lambda _: None)
    return found.st_ino, found.st_mode, inside(path)


def files_of_others():
    """Whatever another has under a name like the file's stays as it is, and hinders no save."""
    kinds = [link_of_the_name, dangling_link_of_the_name, os.mkfifo, os.mkdir]
    all_kinds = [another_file_of_the_name, hard_link_of_the_name, *kinds]
    for path, makers in (("kept.new", all_kinds), (".kept.mapf-new", all_kinds), (".kept.0.mapf-new", kinds)):
        for make in makers:
            with in_a_folder():
                put("kept", JOURNAL)
                make(path)
                before = {it: state_of(it) for it in rest() if it != "kept"}
                is_answered([*WORDS, "kept"], ADD, "version 1\n")
                want("the file", bytes_of("kept"), ONE_ENTRY)
                want("what was beside it", {it: state_of(it) for it in rest() if it != "kept"}, before)
    with in_a_folder():
        os.rename("m", "plan.new")
        is_answered(["serve", "--map", "plan.new", "--save", "plan"], ADD, "version 1\n")
        want("the map and the journal", (bytes_of("plan.new"), bytes_of("plan")), (FILES["m"], ONE_ENTRY))


def left_by_killed_sessions():
    """Temporary files that nobody has locked are removed, whatever is in them."""
    with in_a_folder():
        for number in (0, 1, 7):
            put(f".kept.{number}.mapf-new", ONE_ENTRY[: 10 * number])
        put(".kept.x.mapf-new", b"another's"), put(".other.0.mapf-new", b"of another file")
        is_answered([*WORDS, "kept"], ADD, "version 1\n")
        want("the files", rest(), [".kept.x.mapf-new", ".other.0.mapf-new", "kept"])


# What is told before the session

def never_to_be_saved():
    """What would make the save fail is told before a line is read, with the reason."""
    with in_a_folder():
        long = "n" * 250
        for name, reason in (("", "no name"), ("folder/", "no name"), ("nowhere/j", "No such file or directory (os error 2)"),
                             (long, "File name too long (os error 36)"), ("/proc/journal", "No such file or directory (os error 2)")):
            is_fault([*WORDS, name, "-v"], f"can't write {name}\n  {reason}", ADD)
            is_fault(["host", "--map", "m", "--save", name, "nobody"], f"can't write {name}", ADD)
        for size in (244, 252, 255):
            is_fault([*WORDS, "n" * size, "-v"], f"can't write {'n' * size}\n  File name too long (os error 36)", ADD)
        is_answered([*WORDS, long[:243]], ADD, "version 1\n")
        want("the files", rest(), [long[:243]])


def folder_that_takes_no_file():
    """One who may write no file in the folder is told before a line is read; the file is as it was."""
    with in_a_folder() as here:
        shutil.copy2(Program.path, "desk"), put("kept", ONE_ENTRY), put("nobody.in", b"")
        os.chmod("desk", 0o755), os.chmod("m", 0o644), os.chmod(here, 0o555)

        for words in (WORDS, ["host", "--map", "m", "nobody", "--save"]):
            ran = subprocess.run(["./desk", *words, "kept", "-v"], input=ADD, capture_output=True, timeout=PATIENCE, preexec_fn=as_user)
            fault = b"mapf_desk: can't write kept\n  Permission denied (os error 13)\n"
            want("the end", (ran.returncode, ran.stdout, ran.stderr), (2, b"", fault))
        os.chmod(here, 0o755)
        want("the file", bytes_of("kept"), ONE_ENTRY)


def file_of_another_in_a_shared_folder():
    """One who may not replace the file, as another's in a folder like /tmp, is told where the journal is kept; the file is as it was."""
    if USER == os.geteuid():
        print("left out: another user's file in a shared folder, since root alone makes one", flush=True)
        return
    with in_a_folder():
        shutil.copy2(Program.path, "desk"), os.chmod("desk", 0o755), os.chmod("m", 0o644)
        os.mkdir("sticky"), os.chmod("sticky", 0o1777), put("sticky/kept", JOURNAL), os.chmod("sticky/kept", 0o644)
        ran = subprocess.run(["./desk", *WORDS, "sticky/kept"], input=ADD, capture_output=True, timeout=PATIENCE, preexec_fn=as_user)
        fault = b"mapf_desk: can't write sticky/kept: the journal is in sticky/kept.0.mapf-kept\n"
        want("the end", (ran.returncode, ran.stdout, ran.stderr), (2, b"version 1\n", fault))
        want("the file", bytes_of("sticky/kept"), JOURNAL)
        want("the journal", bytes_of("sticky/kept.0.mapf-kept"), ONE_ENTRY)
        want("what is there", sorted(os.listdir("sticky")), ["kept", "kept.0.mapf-kept"])


def permissions_stay():
    """The file's permissions are those that it had; a new one has those of any new file."""
    with in_a_folder():
        for mode in (0o600, 0o640, 0o644, 0o666, 0o700):
            put("kept", ONE_ENTRY)
            os.chmod("kept", mode)
            is_answered([*WORDS, "kept"], ADD, "version 1\n")
            want("the mode", oct(stat.S_IMODE(os.stat("kept").st_mode)), oct(mode))
        for mask in (0o022, 0o077):
            remove("kept")
            is_run([*WORDS, "kept"], ADD, (0, "version 1\n", ""), umask=mask)
            want("the mode", oct(stat.S_IMODE(os.stat("kept").st_mode)), oct(0o666 & ~mask))


# What is kept where the file can't get the journal

def kept_beside_a_folder():
    """Where the name is a folder's by then, the journal is kept whole where the fault says, and nobody takes it from there."""
    with in_a_folder():
        put("kept.0.mapf-kept", b"an earlier one")
        planner = Planner(*WORDS, "kept", "-v")
        planner.ask(ADD, b"version 1\n")
        os.mkdir("kept")
        fault = b"mapf_desk: can't write kept: the journal is in kept.1.mapf-kept\n  Is a directory (os error 21)\n"
        want("the end", planner.end_all(), (2, b"", fault))
        want("the journal", bytes_of("kept.1.mapf-kept"), ONE_ENTRY)
        want("the earlier one", bytes_of("kept.0.mapf-kept"), b"an earlier one")
        os.rmdir("kept")
        is_answered([*WORDS, "kept"], ADD, "version 1\n")
        want("the files", rest(), ["kept", "kept.0.mapf-kept", "kept.1.mapf-kept"])


def kept_beside_what_came_since():
    """Where another has that name too by then, the journal stays in its temporary file, and the fault names that."""
    with in_a_folder():
        planner = Planner(*WORDS, "kept")
        planner.ask(ADD, b"version 1\n")
        os.mkdir("kept"), put("kept.0.mapf-kept", b"precious")
        want("the end", planner.end_all(), (2, b"", b"mapf_desk: can't write kept: the journal is in .kept.0.mapf-new\n"))
        want("the journal", bytes_of(".kept.0.mapf-new"), ONE_ENTRY)
        want("the other file", bytes_of("kept.0.mapf-kept"), b"precious")


# Want of memory

def saves_with_no_page_more(words, end):
    """What has no page more than it holds before its end saves all the same."""
    with in_a_folder(), growths_apart():
        put("east.in", b"")
        planner = Planner(words[0], "--map", "m", "--save", "kept", *words[1:])
        planner.ask(ADD, b"version 1\n")
        settle(planner.process, planner.process.stdin)
        leave(planner.process, 0)
        want("the end", planner.end_all(), end)
        want("the file", bytes_of("kept"), ONE_ENTRY)


def saved_with_no_page_more():
    saves_with_no_page_more(["serve"], (0, b"", b""))


def saved_by_a_host_with_no_page_more():
    """The host then finds no memory to audit."""
    saves_with_no_page_more(["host", "east"], (2, b"", b"mapf_desk: out of memory\n"))


def room_of(size):
    def limit():
        resource.setrlimit(resource.RLIMIT_CORE, (0, 0))
        resource.setrlimit(resource.RLIMIT_AS, (size, size))
    return limit


STACK = 16 << 10  # KiB that a host's stack takes


def saved_in_any_room():
    """A host is given room that grows: no signal ends it, and each commit of the operator that was answered is in the journal; the save takes
    no memory of its own."""
    lines = b"agent 0 0,0 2,0\n" + b"".join(b"path 0 %s\n" % b" ".join([b"0,0"] * (it * 40 + 1)) for it in range(60))
    saved, most = 0, 0
    with in_a_folder():
        for name in "xy":
            put(f"{name}.in", b"")
        for size in (*range(STACK + 4300, STACK + 7900, 200), *range(STACK + 7900, STACK + 9700, 14), *range(STACK + 9700, STACK + 14000, 400)):
            remove("kept")
            status, said, complained = run(["host", "--map", "m", "--save", "kept", "x", "y"], lines, preexec_fn=room_of(size << 10))
            want(f"whether the program ends by itself in room of {size} KiB", status in (0, 2), True)
            accepted = said.count("version ")
            most = max(most, accepted)
            if os.path.exists("kept"):
                saved += 1
                want(f"the entries in room of {size} KiB", bytes_of("kept").split(b"\n")[-2], b"end %d" % accepted)
            else:
                want(f"what was accepted in room of {size} KiB, where it told {complained!r}", accepted, 0)
            want("the files beside", [it for it in rest() if "mapf" in it], [])
    want("whether some were saved, and all was accepted in the largest", (saved > 0, most), (True, 61))


def tests():
    for test in (in_use_by_another_session, odd_names_in_one_line, in_use_by_a_host, names_alike_are_apart, folder_that_another_has_locked,
                 held_before_the_journal_is_read, saved_at_once, saved_at_once_and_killed, files_of_others, left_by_killed_sessions,
                 never_to_be_saved, folder_that_takes_no_file, file_of_another_in_a_shared_folder, permissions_stay, kept_beside_a_folder,
                 kept_beside_what_came_since, saved_with_no_page_more, saved_by_a_host_with_no_page_more, saved_in_any_room):
        yield test.__name__, test
