"""What --verbose adds on standard error, and what is told there on a terminal, and of stated costs."""
import os
import pty

from .running import is_fault, put, remove, run, want

# Words, and what the second line on standard error says where the first word is --verbose or -v.
REASONS = [
    ("serve --map none", "No such file or directory (os error 2)"),
    ("serve --map .", "Is a directory (os error 21)"),
    ("drill --map m one none", "No such file or directory (os error 2)"),
    ("serve --map m --save nowhere/j", "No such file or directory (os error 2)"),
    ("serve --map m --save .", "not a file"),
    ("serve --map map_octile", "line 1: type tile"),
    ("serve --map map_header", "line 3: wide 3"),
    ("audit --map map_letter", "line 5: .x."),
    ("audit --map map_short", "line 5: .."),
    ("drill --map map_long one", "line 5: ...."),
    ("serve --map map_extra", "line 6: more"),
    ("audit --map m --scen scen_version", "line 1: version 2"),
    ("audit --map m --scen scen_fields", "line 2: 0 m 3 1 0 0 2 0"),
    ("serve --map m --scen scen_number", "line 2: 0 m 3 1 0 -1 2 0 2"),
    ("serve --map m --scen scen_size", "line 2: 0 m 4 1 0 0 2 0 2"),
    ("drill --map m --scen scen_outside one", "line 2: 0 m 3 1 3 0 2 0 2"),
    ("audit --map m --journal journal_line", "line 3: entry 00 0 0 1"),
    ("audit --map m --journal m", "line 1: type octile"),
    ("audit --map m --scen s --agents 1 --journal journal_mode", "line 2: mode disappear"),
    ("serve --map m --scen s --agents 1 --journal journal_entry", "faulty 0 not-a-step 1: entry 0 0 0 1;path 0 0,0 2,0;"),
    ("serve --map m --scen s --agents 1 --limit 1 --journal journal_two", "journal-full 1: entry 0 1 0 1;drop 0;"),
    ("audit --map m --scen s --agents 1 --journal journal_second", "faulty 0 unknown-agent: entry 0 1 0 1;drop 9;"),
    ("check --map m --paths none", "No such file or directory (os error 2)"),
    ("check --map map_letter --paths p", "line 5: .x."),
    ("check --map m --scen scen_fields --paths p", "line 2: 0 m 3 1 0 0 2 0"),
    ("check --map m --paths one", "line 1: agent 0 0,0 0,0 (expected 0:(X,Y),.., Agent 0: (ROW,COLUMN)->.., path 0 X,Y .., {JSON}, schedule: or moves udlrw)"),
    ("audit --map m --journal j", "faulty 0 unknown-agent: entry 0 0 0 1;path 0 0,0 1,0 2,0;"),
]

# What should stand where a line of paths has a fault, by the first two words of that.
EXPECTED = {
    "no form": "0:(X,Y),.., Agent 0: (ROW,COLUMN)->.., path 0 X,Y .., {JSON}, schedule: or moves udlrw",
    "bad header": "a number of agents",
    "repeated list": "that once",
    "bad time": "the next time T, as T:(X,Y),(X,Y),..",
    "bad agent": "Agent N: (ROW,COLUMN)->.. or agentN:, each N once",
    "bad place": "a line each of - x: X, y: Y and t: T, the next time",
    "bad path": "path AGENT X,Y X,Y ..",
    "bad cell": "a cell, as (3,0)",
    "bad move": "u, d, l, r or w",
    "bad JSON": "JSON",
    "no cells": "a cell at least", "cell count": "as many cells as at time 0", "too many": "8192 agents at most",
}
# Words, the paths, and the second line.
EXPECTATIONS = [
    ("--map m", b"\n\nhello, you\xff\n\n", f"line 3: hello, you? (expected {EXPECTED['no form']})"),
    ("--map m", b"agents=two\nsolution=\n0:(0,0)\n", "line 1: agents=two (expected a number of agents)"),
    ("--map m", b"solution=\n1:(0,0)\n", "line 2: 1:(0,0) (expected the next time T, as T:(X,Y),(X,Y),..)"),
    ("--map m", b"Agent 0 (1 --> 1): (0,0)->\n", "line 1: Agent 0 (1 --> 1): (0,0)-> (expected Agent N: (ROW,COLUMN)->.. or agentN:, each N once)"),
    ("--map m", b"path 0 0,0\npath 1 0;0\n", "line 2: path 1 0;0 (expected path AGENT X,Y X,Y ..)"),
    ("--map m", b"0:(0,0);(1,0)\n", "line 1: 0:(0,0);(1,0) (expected a cell, as (3,0))"),
    ("--map m", b'{"start":[[0,0]],\n"actualPaths":["R",]}\n', 'line 2: "actualPaths":["R",]} (expected JSON)'),
    ("--map m", b"schedule:\n  agent0:\n    - x: 0\n      y: 0\n      t: 1\n", "line 5:       t: 1 (expected a line each of - x: X, y: Y and t: T, the next time)"),
    ("--map m", b"schedule:\n  robot:\n    - x: 0\n", "line 2:   robot: (expected Agent N: (ROW,COLUMN)->.. or agentN:, each N once)"),
    ("--map m --scen s", b"rr\nrxr\n", "line 2: rxr (expected u, d, l, r or w)"),
    ("--map m", b"path 0\n", "line 1: path 0 (expected a cell at least)"),
    ("--map m", b"0:(0,0)\n1:(0,0),(1,0)\n", "line 2: 1:(0,0),(1,0) (expected as many cells as at time 0)"),
    ("--map m", b"Agent 8192: (0,0)->\n", "line 1: Agent 8192: (0,0)-> (expected 8192 agents at most)"),
    ("--map m", b"path 0 " + b"x" * 500, f"line 1: path 0 {'x' * 385} (expected path AGENT X,Y X,Y ..)"),
]
# Paths whose fault names no line, and has no second one.
NO_EXPECTATIONS = [
    ("--map m", b'{"start":[[0]],"actualPaths":["r"]}', "bad start of agent 0"),
    ("--map m", b'{"start":[[0,0]],"actualPaths":["rx"]}', "bad move 1 of agent 0"),
    ("--map m --scen s", b'solution_plan\n"rr', "open quote"),
    ("--map m", b"path 2 0,0\n", "missing agent 1"),
]

# Words of a check, the costs before the paths, and the notes: the paths are of one agent, of sum 2 and makespan 2.
NOTES = [
    ("", b"soc=5\n", "note: soc=5 but sum is 2\n"),
    ("", b"makespan=3\n", "note: makespan=3 but makespan is 2\n"),
    ("", b"soc=0\nsoc_lb=2\nmakespan=4294967295\nmakespan_lb=7\n", "note: soc=0 but sum is 2\nnote: makespan=4294967295 but makespan is 2\n"),
    ("--json", b"agents=1\r\n\r\n soc= 3\r\n# a remark\nmakespan=2\n", "note: soc=3 but sum is 2\n"),
    ("-v --quiet --solves edge", b"makespan=1\nsoc=1\n", "note: soc=1 but sum is 2\nnote: makespan=1 but makespan is 2\n"),
    ("", b"soc=2\nmakespan=02\n", ""),
    ("", b"seed 7\nsoc=9\n[info] soc=8\nmakespan=3\n", "note: soc=9 but sum is 2\nnote: makespan=3 but makespan is 2\n"),
    ("", b"\xef\xbb\xbfsoc=9\n", "note: soc=9 but sum is 2\n"),
    ("", b"cost: 2\nmakespan: 3\nsoc=7\n", "note: makespan=3 but makespan is 2\n"),
    ("", b"cost: 2.5\n cost: none\ncosts: 3\nmakespan:\n", ""),
    ("", b"soc=\nmakespan=none\nmsoc=9\nSOC=9\nsum_of_loss=9\n", ""),
]
PLANS = {"by_time": b"solution=\n0:(0,0)\n1:(1,0)\n2:(2,0)\n", "rows_alone": b"0:(0,0)\n1:(1,0)\n2:(2,0)\n", "by_agent": b"Agent 0: (0,0)->(0,1)->(0,2)\n",
         "by_schedule": b"schedule:\nagent0:\n" + b"".join(b"- x: %d\n  y: 0\n  t: %d\n" % (it, it) for it in range(3))}
# Words, whole files, and the notes: without a report there are none.
NOTED = [
    ("--map m --scen s", b"soc=1\nmakespan=1\nsolution=\n0:(0,0)\n1:(1,0)\n", "note: soc=1 but sum is none\nnote: makespan=1 but makespan is none\n"),
    ("--map m --scen s --agents 1", b"soc=9\nagents=2\nsolution=\n0:(0,0)\n1:(1,0)\n2:(2,0)\n", "note: soc=9 but sum is 2\n"),
    ("--map m", b"soc=9\nsolution=\n0:(0,0)\n1:(2,0)\n", ""),
    ("--map m", b"soc=9\nsolved=0\nsolution=\n", ""),
    ("--map m", b"soc=9\nagents=1\nagents=1\n", ""),
    ("--map m", b"solution=\n0:(0,0)\nsoc=9\nmakespan=9\n", ""),
    ("--map m", b"statistics:\n  cost: 4\n  makespan: 0\n  runtime: 0.5\nschedule:\n  agent0:\n    - x: 0\n      y: 0\n      t: 0\n", "note: soc=4 but sum is 0\n"),
    ("--map m", b"schedule:\nagent0:\n- x: 0\n  y: 0\n  t: 0\nstatistics:\n  cost: 9\n", ""),
]

# Words whose fault has nothing more to tell.
NO_REASONS = ["audit --map m --agents 1", "drill --map map_size one", "audit --map m --scen s --agents 2"]


def is_reason(words, more):
    """--verbose says more in a second line, and changes nothing else."""
    plain = run(words)
    want("how many lines", plain[2].count("\n"), 1)
    for flag in ("--verbose", "-v"):
        for all_words in ([*words[:1], flag, *words[1:]], [flag, *words]):
            want("what it does", run(all_words), (plain[0], plain[1], plain[2] + more))


def expected(text):
    """What --verbose says should stand where a text of paths has that fault; nothing where the fault names no line."""
    return "" if " in line " not in text else f" (expected {EXPECTED[' '.join(text.split()[:2])]})"


def expectations():
    """The second line of --verbose, whole, once for each of its expectations; where the fault names no line there is none."""
    for words, paths, line in EXPECTATIONS:
        put("faulty", paths)
        told = run(["check", *words.split(), "--paths", "faulty", "-v"])[2].partition("\n")[2]
        want(f"what is told of {paths[:100]!r}", told, f"  {line}\n")
    for words, paths, fault in NO_EXPECTATIONS:
        put("faulty", paths)
        is_fault(["check", *words.split(), "--paths", "faulty", "-v"], f"paths: {fault}")
    remove("faulty")


def notes():
    """Costs in the head of a file that aren't those of the report are told on standard error; nothing else changes by them."""
    for name, plan in PLANS.items():
        put("plan", plan)
        for words, head, right in NOTES:
            put("stated", head + plan)
            status, said, _ = run(["check", "--map", "m", *words.split(), "--paths", "plan"])
            want(f"the check of {head!r} {name}", run(["check", "--map", "m", *words.split(), "--paths", "stated"]), (status, said, right))
    for words, text, right in NOTED:
        put("stated", text)
        want(f"what is told of {text!r}", run(["check", *words.split(), "--paths", "stated"])[2], right)
    remove("plan", "stated")


def faults_without_more():
    for words in NO_REASONS:
        is_reason(words.split(), "")


ONE, TWO = "  one: 1 accepted, 0 refused, 0 bad\n", "  two: 1 accepted, 0 refused, 0 bad\n"
MIXED = "  mixed: 10 accepted, 3 refused, 4 bad\n"
COUNTS = ONE + MIXED + TWO + "  none_at_all: 0 accepted, 0 refused, 0 bad\n"


def scripts_counted():
    """--verbose tells of each script how its lines were answered, in the scripts' order, and changes nothing else."""
    scripts = ["one", "mixed", "two", "none_at_all"]
    plain = run(["drill", "--map", "m", *scripts])
    want("what it does plainly", (plain[0], plain[1].split("\n")[:2], plain[2]), (0, ["version 3", "agents 3"], ""))
    want("what it does", run(["drill", "--map", "m", "-v", *scripts]), (plain[0], plain[1], COUNTS))
    want("what it does", run(["--verbose", "drill", *scripts, "--map", "m"]), (plain[0], plain[1], COUNTS))
    want("what it does", run(["-v", "drill", "-v", *scripts, "--map", "m"]), (plain[0], plain[1], COUNTS))


def scripts_counted_behind_a_fault():
    """The counts follow the lines of a fault."""
    counts = ONE.replace("one", "two") + ONE.replace("one", "long")
    want("a script's fault", run(["drill", "--map", "m", "-v", "two", "long"]), (2, "", "mapf_desk: too many lines\n" + counts))


def counts_of_no_script():
    """Where no script was served, nothing is counted; where the report isn't taken, they were served."""
    with open("/dev/full", "wb") as full:
        _, _, complained = run(["drill", "--map", "m", "-v", "one"], stdout=full)
    want("standard error", complained, "mapf_desk: write failed\n  No space left on device (os error 28)\n" + ONE)
    is_fault(["drill", "--map", "m", "-v", *["one"] * 256], "too many scripts")
    is_fault(["drill", "--map", "m", "-v", "--agents", "1", "one"], "--agents needs --scen")
    is_fault(["drill", "--map", "map_size", "-v", "one"], "map: bad size")
    is_fault(["drill", "--map", "none", "-v", "one"], "can't read none\n  No such file or directory (os error 2)")


def reasons_of_a_full_device():
    """Where standard output takes no more, the system's reason is told, however much it was to take."""
    told = "mapf_desk: write failed\n  No space left on device (os error 28)\n"
    fleet = "--map m --scen sixty --agents 60"
    put("sixty", b"version 1\n" + b"0 m 3 1 0 0 2 0 2\n" * 60)
    put("east.in", b"")
    for words in ("--version", "audit --map m", f"audit {fleet}", f"drill {fleet} one", "check --map m --paths p", f"draw {fleet}",
                  "host --map m east"):
        with open("/dev/full", "wb") as full:
            status, _, complained = run(["-v", *words.split()], stdout=full)
        want("the status", status, 2)
        want(f"what is told of {words}", told in complained, True)
    remove("sixty", "east.in", "east.out")


def stages():
    """Audits, drills and checks tell on a terminal what they are at, and nothing elsewhere."""
    for words, said in ((["audit", "--map", "m"], 2), (["drill", "--map", "m", "one", "two"], 2),
                        (["check", "--map", "m", "--paths", "p"], 2), (["serve", "--map", "m"], 0)):
        terminal, inside = pty.openpty()
        status, out, _ = run(words, stderr=inside)
        os.close(inside)
        told = os.read(terminal, 65536) if said else b""
        os.close(terminal)
        want("how many stages", told.count(b"mapf_desk: "), said)
        want("whether the files come first", told.startswith(b"mapf_desk: reading the files"), said > 0)
        elsewhere = run(words)
        want("all else", (status, out, ""), elsewhere)


def tests():
    for words, more in REASONS:
        yield f"reason: {words}", lambda words=words, more=more: is_reason(words.split(), f"  {more}\n")
    yield "verdict_notes", notes
    for test in (expectations, faults_without_more, scripts_counted, scripts_counted_behind_a_fault, counts_of_no_script, reasons_of_a_full_device, stages):
        yield test.__name__, test
