#!/usr/bin/env python3
"""Tries the desk inside other programs, in C, C++ and Python: tools/library builds it of the crate desk_c.

library.py [ROOM [PROGRAM]]     what tools/library takes, and the program whose sessions have to be those of the library
It takes Debian's packages gcc, g++ and valgrind; where they aren't there its tests count as failed. The last line is 'N passed, M failed'; status 1
where one failed.
"""
import functools
import os
import random
import shutil
import subprocess
import sys
import tempfile
from pathlib import Path

sys.dont_write_bytecode = True
sys.path.insert(1, os.path.join(os.path.dirname(os.path.abspath(__file__)), "library"))

import memory
import on_checks
import on_numbers
from processes.documented import LIBRARY, blocks_of, commands_of, page_runs
from processes.running import TOP, Program, Wrong, run, want

PARTS, OUT = Path(TOP, "tests/library"), Path(TOP, "library/out")
MAP = "type octile\nheight 4\nwidth 5\nmap\n.....\n..@..\n.....\n.....\n"
SESSIONS, LINES, OPENINGS = 2000, 60, 300
ENDINGS = {"c": "c", "cpp": "cpp", "python": "py"}
# Pages that the memory of a process may seem to grow by while 10,000 desks are opened, of which it keeps 2,000 and more where two in three aren't closed.
MOST_PAGES = 300


def cell(chance):
    return f"{chance.randrange(6)},{chance.randrange(5)}"


def path(chance):
    x, y = chance.randrange(5), chance.randrange(4)
    cells = [(x, y)]
    for _ in range(chance.randrange(6)):
        right, down = chance.choice([(0, 0), (1, 0), (-1, 0), (0, 1), (0, -1)])
        x, y = max(0, x + right), max(0, y + down)
        cells.append((x, y))
    return " ".join(f"{x},{y}" for x, y in cells)


def line(chance):
    """A line of version 2, sometimes a wrong one."""
    agent, time = chance.randrange(4), chance.randrange(5)
    edits = (f"agent {agent} {cell(chance)} {cell(chance)}", f"path {agent} {path(chance)}", f"tail {agent} {time} {path(chance)}", f"drop {agent}")
    more_edits = (f"goal {agent} {cell(chance)}", f"open {cell(chance)}", f"close {cell(chance)}")
    gathered = ("begin", "begin", "try", "try", "commit", "cancel", "watch map", f"watch agent {agent}", f"watch cell {cell(chance)}")
    asked = ("version", "report", f"report {agent}", f"plan {agent}", f"cell {cell(chance)}", f"at {time} {cell(chance)}")
    asked += ("wait 0 1", f"changes {chance.randrange(9)}")
    others = (f"distance {agent} {cell(chance)}", "solves vertex swap", "", "# x", "what", "path x", "\xff\x00", f"path 0 {'0,0 ' * chance.randrange(2000)}")
    return chance.choice(edits + edits + more_edits + gathered + asked + others)


def sessions():
    for seed in range(SESSIONS):
        chance = random.Random(seed)
        yield "".join(line(chance) + "\n" for _ in range(LINES)).encode("latin-1")


def said(words, given=b""):
    """What another program prints; it has to end well and to complain of nothing."""
    ended = subprocess.run(words, input=given, stdout=subprocess.PIPE, stderr=subprocess.STDOUT, timeout=600)
    want(f"the status of {words[0]} ({ended.stdout[-300:]!r})", ended.returncode, 0)
    return ended.stdout


def built(compiler, source, to, *more):
    """A program of a test, over the archive: warnings are faults."""
    said([compiler, "-O1", "-Wall", "-Wextra", "-Werror", *more, f"-I{TOP}/library", str(PARTS / source), str(OUT / "libmapf_desk.a"), "-o", to])
    return os.path.abspath(to)


@functools.lru_cache(maxsize=None)
def served(session):
    """What the program answers to a session."""
    status, answers, complaint = run(["serve", "--lines", "2", "--map", "map"], session)
    want("the program's end", (status, complaint), (0, ""))
    return answers.encode()


def c_answers_as_the_program():
    lines = built("gcc", "lines.c", "lines", "-std=c99")
    for session in sessions():
        want(f"the answers to {session!r}", said([lines, "map"], session), served(session))


def python_answers_as_the_program():
    import mapf_desk

    for session in sessions():
        with mapf_desk.Desk(MAP) as desk:
            want(f"the answers to {session!r}", b"".join(map(desk.ask, session[:-1].split(b"\n"))), served(session))


def a_journal_comes_back():
    import mapf_desk

    for session in list(sessions())[:30]:
        Path("journal").unlink(missing_ok=True)
        run(["serve", "--lines", "2", "--map", "map", "--save", "journal"], session)
        with mapf_desk.Desk(MAP) as desk:
            for it in session[:-1].split(b"\n"):
                desk.ask(it)
            journal, report = desk.journal(), desk.ask("report")
        want("the journal", journal, Path("journal").read_bytes())
        with mapf_desk.Desk(MAP, journal=journal) as desk:
            want("the report after the journal", desk.ask("report"), report)


def changed(chance, text):
    """The text, with up to three bytes put in, changed or taken away."""
    bytes_ = bytearray(text)
    for _ in range(chance.randrange(4)):
        at = chance.randrange(len(bytes_))
        bytes_[at : at + chance.randrange(2)] = bytes(chance.choice(b"0129. \t\n@x") for _ in range(chance.randrange(2)))
    return bytes(bytes_)


def opens_as_the_program():
    """Of texts that are right or nearly so a desk is opened as by the program, or refused by the same fault."""
    import mapf_desk

    scen = b"version 1\n0\tm\t5\t4\t0\t0\t4\t0\t4\n0\tm\t5\t4\t0\t1\t4\t1\t4\n"
    journal = b"journal 2\nmode stay\nentry 0 0 0 1\npath 0 0,0 1,0\nend 1\n"
    for seed in range(OPENINGS):
        chance = random.Random(seed)
        names = [it for it in ("scen", "journal") if chance.randrange(3)]
        texts = {it: changed(chance, text) for it, text in (("map", MAP.encode()), ("scen", scen), ("journal", journal)) if it in (*names, "map")}
        agents, mode = (chance.randrange(4) if "scen" in names else 0), chance.choice(("stay", "stay", "disappear"))
        words = ["--mode", mode, *(["--agents", str(agents)] if "scen" in names else [])]
        for it, text in texts.items():
            Path(f"{it}.text").write_bytes(text)
            words += [f"--{it}", f"{it}.text"]
        status, answers, complaint = run(["serve", "--lines", "2", *words], b"report\n")
        try:
            with mapf_desk.Desk(agents=agents, mode=mode, **texts) as desk:
                found = (0, desk.ask("report").decode(), "")
        except mapf_desk.Fault as fault:
            found = (2, "", f"mapf_desk: {fault}\n")
        want(f"what comes of {texts}", found, (status, answers, complaint))


def python_refuses_what_is_wrong():
    import mapf_desk

    scen = Path(TOP, "demo/corridor.scen").read_bytes()
    wrong = {
        "map: not octile": ["type hex\n"],
        "scen: bad version": [MAP, "version 2\n"],
        "scen: size mismatch in line 2": [MAP, scen],
        "journal: bad line 1": [MAP, None, 0, "stay", 9, ""],
        "journal: mode differs": [MAP, None, 0, "stay", 9, "journal 2\nmode disappear\nend 0\n"],
        "limit": [MAP, None, 0, "stay", 0],
        "limit -1": [MAP, None, 0, "stay", -1],
        "mode 'leave'": [MAP, None, 0, "leave"],
    }
    for why, words in wrong.items():
        try:
            mapf_desk.Desk(*words)
            raise Wrong(f"a desk of {words} was opened")
        except mapf_desk.Fault as fault:
            want(f"the fault of {words}", str(fault), why)
    desk = mapf_desk.Desk(MAP)
    desk.close()
    desk.close()
    try:
        desk.ask("version")
        raise Wrong("a closed desk answered")
    except mapf_desk.Fault as fault:
        want("the fault", str(fault), "closed")


def a_report_is_read():
    """Two agents that pass a corridor in opposite directions, worked by hand: they are both in cell 3,0 at time 3."""
    from mapf_desk import Agent, Conflict, Desk, Fault, Report, Visit

    there = [(column, 0) for column in range(7)]
    with Desk("type octile\nheight 1\nwidth 7\nmap\n.......\n") as desk:
        desk.ask("agent 0 0,0 6,0")
        desk.ask("agent 1 6,0 0,0")
        want("the versions", (desk.commit_path(0, there), desk.commit_path(1, there[::-1]), desk.version()), (3, 4, 4))
        meets = Conflict("vertex", 3, (0, 1), ((3, 0),))
        agents = tuple(Agent(it, 6, True, 6, 0) for it in (0, 1))
        want("the report", desk.report(), Report(4, agents, (meets,), (), 12, 6, 12, 0))
        want("what is of agent 1", (desk.conflicts(1), desk.report(1).agents), ((meets,), agents[1:]))
        want("whether it solves", (desk.solves("vertex"), desk.solves("swap")), (False, True))
        desk.ask("close 6,0")
        want("the visit", desk.report().visits, (Visit(0, 6, (6, 0)), Visit(1, 0, (6, 0))))
        for wrong, why in (([], "empty-path"), ([(0, 0), (2, 0)], "not-a-step")):
            try:
                raise Wrong(f"a path {wrong} was committed: {desk.commit_path(0, wrong)}")
            except Fault as fault:
                want("the refusal", str(fault), why)


def wrong_calls_of_c():
    text = said([built("gcc", "calls.c", "calls", "-std=c99")]).decode().split()
    want("what was wrong", text[:-1], ["pages"])
    if int(text[-1]) > MOST_PAGES:
        raise Wrong(f"10,000 desks kept {text[-1]} pages of memory")


def desks_of_cpp():
    want("what was wrong", said([built("g++", "desks.cpp", "desks", "-std=c++17")]), b"")


def a_wheel_is_installed():
    """`pip install ./python` works with no network, and the package that it installs answers."""
    said([sys.executable, "-m", "pip", "install", "--quiet", "--no-index", "--disable-pip-version-check", "--target", "there", f"{TOP}/python"])
    code = f"import mapf_desk; print(mapf_desk.__file__, mapf_desk.Desk({MAP!r}).ask('version').decode(), end='')"
    want("what it answers", said([sys.executable, "-I", "-c", f"import sys; sys.path.insert(0, 'there'); {code}"]).split()[1:], [b"version", b"0"])


def programs_of_the_page():
    """The programs of docs/LIBRARY.md are compiled and run as the page says, and print what it says."""
    programs = [(f"planner.{ENDINGS.get(language)}", text) for language, text in blocks_of(LIBRARY) if language != "console"]
    want("the page's programs", [name for name, _ in programs], [f"planner.{it}" for it in ENDINGS.values()])
    for name, _ in programs:
        want(f"whether one command runs {name}", sum(name in command.split() for command, _ in commands_of(LIBRARY)), 1)
    page_runs(LIBRARY, ("demo", "library", "python"), programs)


def numbers_of_c():
    on_numbers.c_answers_as_the_plain_program(built, said)


def c_checks_as_the_program():
    on_checks.c_checks_as_the_program(built, said, MAP, changed)


def cpp_checks_as_the_program():
    on_checks.cpp_checks_as_the_program(built, said, MAP, changed)


def python_checks_as_the_program():
    on_checks.python_checks_as_the_program(MAP, changed)


def planners():
    """A planner in each language finds paths for 20 agents."""
    words = [f"{TOP}/demo/warehouse.map", f"{TOP}/demo/warehouse.scen", "20"]
    runs = {"C": [built("gcc", "../../library/planner.c", "planner", "-std=c99")], "C++": [built("g++", "../../library/planner.cpp", "planners", "-std=c++17")]}
    os.environ["PYTHONPATH"] = f"{TOP}/python"
    for name, program in {**runs, "Python": [sys.executable, "-B", f"{TOP}/library/planner.py"]}.items():
        want(f"what the planner in {name} prints", said([*program, *words]), b"solves yes\n")


def memory_checked():
    memory.nothing_is_said(built, said, MAP)


TESTS = (
    programs_of_the_page, c_answers_as_the_program, python_answers_as_the_program, a_journal_comes_back, opens_as_the_program,
    python_refuses_what_is_wrong, a_report_is_read, wrong_calls_of_c, desks_of_cpp, a_wheel_is_installed, numbers_of_c,
    on_numbers.python_answers_as_the_plain_program, c_checks_as_the_program, cpp_checks_as_the_program, python_checks_as_the_program, planners,
    memory_checked,
)


def passes(test):
    try:
        test()
        return True
    except (Wrong, OSError, ImportError, subprocess.SubprocessError) as why:
        print(f"{test.__name__}: FAILED: {why}", flush=True)
        return False


def main():
    room, program = sys.argv[1:2], sys.argv[2:3]
    Program.path = os.path.abspath(program[0] if program else Program.path)
    missing = [it for it in ("gcc", "g++", "ar", "valgrind") if not shutil.which(it)]
    why = f"there is no {' and no '.join(missing)}" if missing else None
    if not missing and subprocess.run([f"{TOP}/tools/library", *room]).returncode:
        why = "tools/library built none"
    if why:
        print(f"no test of the library: {why}\n0 passed, {len(TESTS)} failed")
        return 1
    sys.path.insert(0, f"{TOP}/python")
    with tempfile.TemporaryDirectory() as folder:
        os.chdir(folder)
        Path("map").write_text(MAP)
        passed = sum(map(passes, TESTS))
        os.chdir(TOP)
    print(f"{passed} passed, {len(TESTS) - passed} failed")
    return 0 if passed == len(TESTS) else 1


if __name__ == "__main__":
    sys.exit(main())
