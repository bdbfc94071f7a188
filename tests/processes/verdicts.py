"""How `check --json` writes a verdict: objects by hand. What it writes of random files is in judged_forms.py."""
import json

from .checks import COMES, FIELD, RING, SWAP, TASKS, TOGETHER
from .plain import ASKED
from .running import is_fault, is_run, put, remove

COUNTED = ("agents", "finished", "conflicts", "vertex", "edge", "follow", "swap", "cycle", "blocked")
TOTALS = ("sum", "makespan", "bounds", "gap")


def told(solves, verdict, kinds="vertex swap", *, counts=None, totals=None, wrong=(), differs=(), **lists):
    """An object as FILES.md has it: its members in order, without blanks."""
    members = {"solves": solves, "verdict": verdict, "kinds": {it: it in kinds.split() for it in ASKED}}
    if verdict == "judged":
        members |= {"counts": dict(zip(COUNTED, counts, strict=True)), "totals": dict(zip(TOTALS, totals, strict=True))}
        members |= {it: lists[it] for it in ("agents", "entries", "visits") if it in lists}
    return json.dumps({**members, "wrong": list(wrong), "differs": list(differs)}, separators=(",", ":")) + "\n"


def agent(number, settle, finished, bound, gap):
    return {"agent": number, "settle": settle, "finished": finished, "bound": bound, "gap": gap}


def entry(kind, time, agents, *cells):
    return {"kind": kind, "time": time, "agents": agents, "cells": list(cells)}


def wrong(number, time, why, *cells):
    return {"agent": number, "time": time, "why": why, "cells": list(cells)}


SWAP_COUNTS, SWAP_TOTALS = (2, 2, 3, 0, 0, 2, 1, 0, 0), (2, 1, 2, 0)
SWAP_AGENTS = [agent(0, 1, True, 1, 0), agent(1, 1, True, 1, 0)]
SWAPS = [entry("follow", 0, [0, 1], [1, 0]), entry("follow", 0, [1, 0], [0, 0]), entry("swap", 0, [0, 1], [0, 0], [1, 0])]
TOGETHER_AGENTS = [agent(0, 2, True, 2, 0), agent(1, 1, True, 1, 0), agent(2, 2, True, 4, None)]
CLOSED = {"counts": (3, 3, 3, 2, 1, 0, 0, 0, 1), "totals": (5, 2, 7, None), "agents": TOGETHER_AGENTS}
WALLED = {"counts": (1, 1, 0, 0, 0, 0, 0, 0, 1), "totals": (2, 2, None, None), "agents": [agent(0, 2, True, None, None)], "entries": []}
TURNS = [entry("follow", 0, [0, 1], [3, 0]), entry("follow", 0, [1, 2], [3, 1]), entry("follow", 0, [2, 3], [2, 1]),
         entry("follow", 0, [3, 0], [2, 0]), entry("cycle", 0, [0, 1, 2, 3])]
ONE = {"agents": [agent(0, 2, True, 2, 0)], "entries": [], "visits": [], "counts": (1, 1, 0, 0, 0, 0, 0, 0, 0), "totals": (2, 2, 2, 0)}
LISTS = b"agents=3\nstarts=(1,0),(0,0)\ngoals=(1,0),(2,0),(0,0)\nsolution=\n0:(0,0)\n1:(1,0)\n2:(2,0)\n"
LISTS_APART = [{"what": "agents", "found": 3, "due": 1}, {"what": "starts", "found": 2, "due": 1}, {"what": "goals", "found": 3, "due": 1},
               {"what": "starts", "agent": 0, "found": [1, 0], "due": [0, 0]}, {"what": "goals", "agent": 0, "found": [1, 0], "due": [2, 0]}]
JUMPS = b"Agent 0: (0,0)->(2,0)->\nAgent 1: (0,2)->\nAgent 2: (2,3)->(2,9)->\n"

# Words, the paths, and the object.
WORKED = [
    ("--map field", SWAP, told(False, "judged", counts=SWAP_COUNTS, totals=SWAP_TOTALS, agents=SWAP_AGENTS, entries=SWAPS, visits=[])),
    ("--map field --quiet", SWAP, told(False, "judged", counts=SWAP_COUNTS, totals=SWAP_TOTALS)),
    ("--map field --quiet --only", SWAP, told(False, "judged", counts=SWAP_COUNTS, totals=SWAP_TOTALS)),
    ("--map field --only", SWAP, told(False, "judged", counts=SWAP_COUNTS, totals=SWAP_TOTALS, agents=SWAP_AGENTS, entries=SWAPS[2:], visits=[])),
    ("--map field --only --solves vertex edge cycle", SWAP,
     told(True, "judged", "vertex edge cycle", counts=SWAP_COUNTS, totals=SWAP_TOTALS, agents=SWAP_AGENTS, entries=[], visits=[])),
    ("--map field --own-cells", SWAP, told(False, "judged", counts=SWAP_COUNTS, totals=SWAP_TOTALS, agents=SWAP_AGENTS, entries=SWAPS, visits=[])),
    ("--map field --solves cycle follow", RING,
     told(False, "judged", "follow cycle", counts=(4, 4, 5, 0, 0, 4, 0, 1, 0), totals=(4, 1, 4, 0), agents=[agent(it, 1, True, 1, 0) for it in range(4)],
          entries=TURNS, visits=[])),
    ("--map field", TOGETHER,
     told(False, "judged", **CLOSED, visits=[{"agent": 2, "time": 1, "cell": [1, 1]}],
          entries=[entry("vertex", 0, [0, 1], [0, 0]), entry("vertex", 1, [0, 1], [1, 0]), entry("edge", 0, [0, 1], [0, 0], [1, 0])])),
    ("--map field --own-cells --only --solves edge", TOGETHER,
     told(False, "judged", "edge", **CLOSED, entries=[entry("edge", 0, [0, 1], [0, 0], [0, 1])], visits=[{"agent": 2, "time": 1, "cell": [1, 1]}])),
    ("--map m", COMES,
     told(False, "judged", counts=(2, 2, 2, 1, 0, 1, 0, 0, 0), totals=(1, 1, 1, 0), agents=[agent(0, 0, True, 0, 0), agent(1, 1, True, 1, 0)],
          entries=[entry("parked", 1, [0, 1], [1, 0]), entry("follow", 0, [1, 0], [1, 0])], visits=[])),
    ("--map m --scen s", b"path 0 0,0 1,0\n",
     told(False, "judged", counts=(1, 0, 0, 0, 0, 0, 0, 0, 0), totals=(None, None, 2, None), agents=[agent(0, 1, False, 2, None)], entries=[], visits=[])),
    ("--map walled", b"path 0 0,0 1,0 2,0\n", told(False, "judged", **WALLED, visits=[{"agent": 0, "time": 1, "cell": [1, 0]}])),
    ("--map walled --own-cells", b"Agent 0: (0,0)->(0,1)->(0,2)", told(False, "judged", **WALLED, visits=[{"agent": 0, "time": 1, "cell": [0, 1]}])),
    ("--map m --scen s", LISTS, told(False, "judged", **ONE, differs=LISTS_APART)),
    ("--map m --scen s --agents 1", b"path 0 0,0 1,0 2,0\npath 1 0,0\n", told(False, "judged", **ONE, differs=[{"what": "paths", "found": 2, "due": 1}])),
    ("--map m --scen s --agents 0", b"path 0 0,0\n",
     told(False, "judged", counts=(0,) * 9, totals=(0, 0, 0, 0), agents=[], entries=[], visits=[], differs=[{"what": "paths", "found": 1, "due": 0}])),
    ("--map field --scen tasks", JUMPS,
     told(False, "wrong-paths",
          wrong=[wrong(0, 1, "not-a-step", [0, 0], [0, 2]), wrong(1, 0, "not-from-start", [0, 2], [2, 0]), wrong(2, 1, "out-of-map", [9, 2])])),
    ("--map field --scen tasks --own-cells --quiet --solves edge", JUMPS,
     told(False, "wrong-paths", "edge",
          wrong=[wrong(0, 1, "not-a-step", [0, 0], [2, 0]), wrong(1, 0, "not-from-start", [2, 0], [0, 2]), wrong(2, 1, "out-of-map", [2, 9])])),
    ("--map m --scen s --agents 1", b"starts=(1,0)\nsolution=\n0:(0,0),(0,0)\n1:(2,0),(0,0)\n",
     told(False, "wrong-paths", wrong=[wrong(0, 1, "not-a-step", [0, 0], [2, 0])],
          differs=[{"what": "paths", "found": 2, "due": 1}, {"what": "starts", "found": 1, "due": 2}, LISTS_APART[3]])),
    ("--map m", b"path 0" + b" 0,0" * 131073, told(False, "wrong-paths", wrong=[wrong(0, 131072, "too-long", [0, 0])])),
    ("--map m", b"", told(False, "no-paths")),
    ("--map m --quiet --solves follow", b"agents=1\nsolved=0\nsolution=\n", told(False, "no-paths", "follow")),
    ("--map m --only", b"agents=1\n\nagents=1\n", told(False, "repeated-list", differs=[{"what": "line", "line": 3}])),
]


def objects():
    """Each object is whole, byte for byte, and its status is that of the verdict."""
    for name, text in (("field", FIELD), ("tasks", TASKS), ("walled", b"type octile\nheight 1\nwidth 3\nmap\n.@.\n")):
        put(name, text)
    for words, paths, right in WORKED:
        put("judged", paths)
        is_run(["check", *words.split(), "--paths", "judged", "--json"], b"", (int(right.startswith('{"solves":false')), right, ""))
    put("judged", b"path 0 x\n")
    is_fault(["check", "--map", "m", "--paths", "judged", "--json"], "paths: bad path in line 1")
    remove("field", "tasks", "walled", "judged")


def tests():
    yield "verdict_objects", objects
