"""Drills of many scripts, and audits of many agents, as large as a test may be; scripts too many, or with faults of two kinds."""
import re
import threading

from .memory import MEGA, room_of
from .running import PATIENCE, is_answered, is_fault, is_run, put, remove, run, start, want

COUNTED = "  {}: {} accepted, 0 refused, 0 bad\n"
CORRIDORS = b"type octile\nheight 3\nwidth 7\nmap\n.......\n.@@.@@.\n.......\n"
BACK_AT_THREE = "blocked 0\nsum 24\nmakespan 3\nbounds 0\ngap 24\nend\naudit same\n"  # each waits a step beside its start, which is its goal


def scripts_are_counted_before_the_map_is_read():
    """Scripts that are one too many are refused before what stands in the map is looked at."""
    for count, text in ((256, "too many scripts"), (255, "map: not octile")):
        is_fault(["drill", "--map", "none_at_all", *["none_at_all"] * count], text)


def to_and_fro(agent):
    """200 edits of an agent that nobody else names: 66 times a path, another goal and another tail; and a report."""
    x, y = agent % 7, 0 if agent < 4 else 2
    beside = 5 if x == 6 else x + 1
    rounds = "".join(f"path {agent} {x},{y} {beside},{y} {x},{y}\ngoal {agent} {number % 7},{y}\ntail {agent} 1 {beside},{y} {x},{y}\n" for number in range(66))
    return f"agent {agent} {x},{y} {x},{y}\n{rounds}goal {agent} {x},{y}\nreport\n".encode()


def eight_planners_fifty_times():
    """50 drills of eight scripts with 200 commits each, all of which are accepted."""
    scripts = [f"planner{agent}" for agent in range(8)]
    put("corridors", CORRIDORS)
    for agent, script in enumerate(scripts):
        put(script, to_and_fro(agent))
    for _ in range(50):
        status, said, complained = run(["drill", "--map", "corridors", *scripts, "-v"])
        want("the end", (status, complained), (0, "".join(COUNTED.format(it, 201) for it in scripts)))
        want("the first lines", said.split("\n")[:2], ["version 1600", "agents 8"])
        want("the last lines", said[-len(BACK_AT_THREE):], BACK_AT_THREE)
    remove("corridors", *scripts)


RESTS = "".join(f"agent {agent} settle 0 goal no bound 2 gap none\n" for agent in range(4))
PARKED = "".join(f"parked 0 {one} {other} 0,0\n" for one in range(4) for other in range(one + 1, 4))
FOUR_AT_REST = f"agents 4\n{RESTS}conflicts 6\n{PARKED}blocked 0\nsum none\nmakespan none\nbounds 8\ngap none\nend\n"


def threads_that_commit_and_read():
    """One, two and four scripts with 1,000 commits each, of the goals of agents that no other script names, and a report after each."""
    put("tasks", b"version 1\n" + b"0 m 3 1 0 0 2 0 2\n" * 4)
    for count in (1, 2, 4):
        scripts = [f"script{number}" for number in range(1, count + 1)]
        for number, script in enumerate(scripts, 1):
            put(script, "".join(f"goal {number % 4} {1 + at % 2},0\nreport\n" for at in range(1000)).encode())
        counts = "".join(COUNTED.format(it, 2000) for it in scripts)
        words = ["drill", "--map", "m", "--scen", "tasks", "--agents", "4", "-v", *scripts]
        is_run(words, b"", (0, f"version {count}000\n{FOUR_AT_REST}audit same\n", counts))
        remove(*scripts)
    remove("tasks")


def scripts_run_at_once():
    """Of scripts that run beside each other, one makes commits of the other stale; one behind the other, none would be.

    The wrong body drill_one_after_another misses.
    """
    put("gathers", b"agent 0 0,0 0,0\n" + b"begin\nwatch map\ngoal 0 1,0\ncommit\ncancel\n" * 5000)
    put("closes", b"close 2,0\nopen 2,0\n" * 10000)
    for _ in range(10):
        status, said, complained = run(["drill", "--map", "m", "-v", "gathers", "closes"])
        want("the end", (status, said.splitlines()[-1]), (0, "audit same"))
        accepted, refused, bad = map(int, re.fullmatch(r"  gathers: (\d+) accepted, (\d+) refused, (\d+) bad", complained.splitlines()[0]).groups())
        want("how many lines were heard", (accepted + refused + bad, bad), (25001, 5000 - refused))
        if refused:
            break
    want("whether a commit became stale", refused > 0, True)
    remove("gathers", "closes")


def first_of_two_faulty_scripts():
    """One script has a line too many, the other a line that there is no memory for: whichever ends first, the first in the words' order is told."""
    put("lines", b"agent 0 0,0 0,0\n" + b"\n" * 1000000)
    put("line", b"agent 1 0,0 0,0\n" + b"#" * (128 * MEGA))
    counts = {it: COUNTED.format(it, 1) for it in ("lines", "line")}
    for scripts, fault in ((["lines", "line"], "too many lines"), (["line", "lines"], "out of memory")):
        wanted = (2, "", f"mapf_desk: {fault}\n" + "".join(counts[it] for it in scripts))
        is_run(["drill", "--map", "m", *scripts, "-v"], b"", wanted, preexec_fn=room_of(400 * MEGA, stack=8 * MEGA))
    remove("lines", "line")


AGENTS = range(4096)  # 64 in a row of the map, each in the left one of two cells
STARTS = [(2 * (agent % 64), agent // 64) for agent in AGENTS]


def line_of_report(agent):
    """An agent that is back at its start at time 64; its goal is the corner, where only agent 0 starts."""
    end = "goal yes bound 0 gap 64" if agent == 0 else f"goal no bound {sum(STARTS[agent])} gap none"
    return f"agent {agent} settle 64 {end}\n"


def put_fleet():
    """A wide map, and a journal of two entries: 4,096 agents that never meet, and their paths to and fro."""
    agents = "".join(f"agent {agent} {x},{y} 0,0\n" for agent, (x, y) in zip(AGENTS, STARTS))
    paths = "".join(f"path {agent} {x},{y}" + f" {x + 1},{y} {x},{y}" * 32 + "\n" for agent, (x, y) in zip(AGENTS, STARTS))
    put("wide", b"type octile\nheight 64\nwidth 128\nmap\n" + (b"." * 128 + b"\n") * 64)
    put("fleet", f"journal 2\nmode stay\nentry 0 0 0 4096\n{agents}entry 0 1 0 4096\n{paths}end 2\n".encode())


# An agent starts 2(k mod 64) + k div 64 steps from the corner: over 64 rows of 64 agents 64 times 2,016, three times.
TOTALS = "conflicts 0\nblocked 0\nsum none\nmakespan none\nbounds 387072\ngap none\nend\n"
OTHERS = "".join(map(line_of_report, AGENTS[1:])) + TOTALS


def time_of_a_large_audit():
    """4,096 agents that go to and fro 64 times and never meet, audited by one, two and four workers."""
    put_fleet()
    wanted = "version 2\nagents 4096\n" + line_of_report(0) + OTHERS
    for workers in (1, 2, 4, 4, 2, 1):
        is_answered(["audit", "--map", "wide", "--journal", "fleet", "--workers", str(workers)], b"", wanted)
    remove("wide", "fleet")


def turn(number):
    """Agent 0 gets a path of one cell, or back its long one, a question is asked and the report is read; the lines, and how their answers begin."""
    last = 64 * (number % 2)
    lines = "path 0" + " 0,0 1,0" * (last // 2) + " 0,0\nsolves vertex edge follow swap cycle\nreport\n"
    return lines, f"version {number + 3}\nsolves no\nversion {number + 3}\nagents 4096\nagent 0 settle {last} goal yes bound 0 gap {last}\n".encode()


def ten_thousand_readings():
    """Ten thousand commits of one agent's path among 4,096, each with a question and a whole report behind it: some 2 GB, in ten times the time of a run at most.

    The wrong body report_over_all_pairs isn't done in that time.
    """
    put_fleet()
    put("turns", "".join(turn(number)[0] for number in range(10000)).encode())
    with open("turns", "rb") as turns:
        process = start(["serve", "--map", "wide", "--journal", "fleet", "--limit", "10002"], stdin=turns)
    clock, others = threading.Timer(10 * PATIENCE, process.kill), OTHERS.encode()
    clock.start()
    for number in range(10000):
        first = turn(number)[1]
        want(f"the first answers of turn {number}", process.stdout.read(len(first)), first)
        want(f"whether turn {number} goes on as the others do", process.stdout.read(len(others)) == others, True)
    rest = process.communicate()
    clock.cancel()
    want("the end", (process.returncode, *rest), (0, b"", b""))
    remove("wide", "fleet", "turns")


def tests():
    named = (scripts_are_counted_before_the_map_is_read, eight_planners_fifty_times, threads_that_commit_and_read, scripts_run_at_once,
             first_of_two_faulty_scripts, ten_thousand_readings, time_of_a_large_audit)
    for test in named:
        yield test.__name__, test
