"""Files of paths, written by hand: what is read of them, and why others are refused.

On a map that is closed everywhere a verdict lists each cell of each path as a visit.
"""
from .edited_paths import put_closed, verdict_by
from .faulty_paths import FAULTS_BY_AGENT, FAULTS_BY_MOVES, FAULTS_BY_SCHEDULE, FAULTS_BY_SESSION, FAULTS_BY_TIME, FRONTS, NO_CELLS, NO_PATHS
from .running import is_fault, is_run, put, remove

# As LaCAM's program prints it, and the verdict.
LACAM = (b"agents=2\nmap_file=corridor.map\nsolver=planner\nsolved=1\nsoc=5\nsoc_lb=4\nmakespan=3\nmakespan_lb=2\nsum_of_loss=5\n"
         b"sum_of_loss_lb=4\ncomp_time=0\nseed=0\nstarts=(0,0),(2,1),\ngoals=(2,0),(0,1),\nsolution=\n"
         b"0:(0,0),(2,1),\n1:(1,0),(2,1),\n2:(2,0),(1,1),\n3:(2,0),(0,1),\n")
LACAM_REPORT = """version 0
agents 2
agent 0 settle 2 goal yes bound none gap none
agent 1 settle 3 goal yes bound none gap none
conflicts 0
blocked 7
visit 0 0 0,0
visit 0 1 1,0
visit 0 2 2,0
visit 1 0 2,1
visit 1 1 2,1
visit 1 2 1,1
visit 1 3 0,1
sum 5
makespan 3
bounds none
gap none
end
solves no
"""

# Texts of two paths, by agent (as the programs of CBS, EECBS and PBS print it, as that of MAPF-LNS2 does, with blanks), and
# as lines of a session; and the verdict.
BY_AGENT = [
    b"Agent 0: (0,3)->(0,4)->(1,4)->\nAgent 1: (2,5)->\n",
    b"Agent 0:(0,3)->(0,4)->(1,4)->\nAgent 1:(2,5)->\n",
    b"\r\n Agent 00:\t (0,3)->(00,04)->(1,4)\r\n\r\nAgent 1: (2,5) \n\n",
    b"# by me\nAgent 0: (0,3)->(0,4)->(1,4)->\n # two\nAgent 1: (2,5)->\n#",
    b"\xef\xbb\xbfAgent 0: (0,3)->(0,4)->(1,4)->\r\nAgent 1: (2,5)->\r\n",
    b"Agent 1: (2,5)->\nAgent 0: (0,3)->(0,4)->(1,4)->\n",
    b"Agent 2: (2,5)->\n\nAgent 1: (0,3)->(0,4)->(1,4)->\n",
    b"EECBS: Succeed,0.01,2\n2\nagent 0: x\nAgent 0: (0,3)->(0,4)->(1,4)->\nAgent 1: (2,5)->\nDone in 0.01 s\nsolution=\n0:(0,0)\n",
    b"Agent  0 : ( 0 , 3 )  ->\t(0, 4)(1 ,4)\nAgent 1 :(\t2,5\t)->\t\n",
]
BY_SESSION = [
    b"path 0 3,0 4,0 4,1\npath 1 5,2\n",
    b"# as=planned\n\npath 0 3,0 4,0 4,1\n  #path 0 1,1\npath 1 5,2",
    b"\r\n\tpath\t00 03,0  4,00 0004,1 \r\n#\r\n path 01 5,2\r\n\r\n#x\n",
    b"#Agent 0:(1,1)\npath 0 3,0 4,0 4,1\npath 00001 5,2\n# end",
    b"\xef\xbb\xbfpath 0 3,0 4,0 4,1\r\npath 1 5,2\r\n",
    b"path 1 5,2\npath 0 3,0 4,0 4,1\n",
    b"path 2 5,2\n# from one\npath 1 3,0 4,0 4,1\n",
]
# And as a schedule: as libMultiRobotPlanning prints it, as Python sorts its keys, in another order and from 1.
BY_SCHEDULE = [
    b"statistics:\n  cost: 2\n  makespan: 2\n  runtime: 0.000352\n  highLevelExpanded: 1\n  lowLevelExpanded: 3\nschedule:\n  agent0:\n"
    b"    - x: 3\n      y: 0\n      t: 0\n    - x: 4\n      y: 0\n      t: 1\n    - x: 4\n      y: 1\n      t: 2\n"
    b"  agent1:\n    - x: 5\n      y: 2\n      t: 0\n",
    b"cost: 2\nschedule:\n  agent0:\n  - t: 0\n    x: 3\n    y: 0\n  - t: 1\n    x: 4\n    y: 0\n  - t: 2\n    x: 4\n    y: 1\n"
    b"  agent1:\n  - t: 0\n    x: 5\n    y: 2\nstatus: done\n",
    b"\xef\xbb\xbf# by me\r\n\r\nschedule:\r\nagent2:\r\n- x:5\r\ny:2\r\n# home\r\nt:00\r\nagent1:\r\n- y: 0\r\n\tx: \t3\r\n t: 0\r\n-  t: 1\r\n"
    b"x: 4\r\ny: 0\r\n\r\n- x: 4\r\ny: 01\r\nt: 2",
    b"seed 7\nagent9:\nschedule: {}\nagent 1 :\n- x: 5\ny: 2\nt: 0\nagent 0:\n- x: 3\ny: 0\nt: 0\n- x: 4\ny: 0\nt: 1\n- x: 4\ny: 1\nt: 2\nend\n",
]
TWO_REPORT = """version 0
agents 2
agent 0 settle 2 goal yes bound none gap none
agent 1 settle 0 goal yes bound none gap none
conflicts 0
blocked 4
visit 0 0 3,0
visit 0 1 4,0
visit 0 2 4,1
visit 1 0 5,2
sum 2
makespan 2
bounds none
gap none
end
solves no
"""

# Texts of one agent at 0,2047 and then at 7,2047.
LENIENT = [
    b"solution=\n0:(0,2047)\n1:(7,2047)",
    b"solution=\r\n0:(0,2047),\r\n1:(7,2047),\r\n\r\n \t\n",
    b"\n\n a=b \n\n solution= \n 0:(00,2047) \n\n01:(7,002047),\t\n\n",
    b"goals=(7,2047)\n=\nstarts=(0,2047),\nsolution=\n0:(0,2047)\n1:(7,2047)\n",
    b"starts=(0,2047),\nstart=(1,1\n=starts=\nsolution=\n0:(0,2047)\n1:(7,2047)\n",
    b"Goals=\ngoals=(7,2047)\nsolution=1\nsolution=\n0:(0,2047)\n1:(7,2047)\n",
    b"agents=\t01 \nsolved=0\nsolution=\n0:(0,2047)\n1:(7,2047)\n",
]
MORE_LENIENT = [
    b"0:(0,2047),\n1:(7,2047),\n",
    b"\xef\xbb\xbf0:(0,2047)\r\n1:(7,2047)\r\n",
    b"\n\n0:(0,2047)\n1:(7,2047)\nsolution=\n",
    b"solution=0\n0:(0,2047)\n1:(7,2047)\n",
    b"# a remark\nsolution=\n#\n0:(0,2047)\n # another\n1:(7,2047)\n#",
    b"#=\nsolution=\n0:(0,2047)\n1:(7,2047)\n",
    b"log\n50\nagents 2\nsolution=\n0:(0,2047)\n1:(7,2047)\n",
    b"[info] read\nagents=1\nlog\n0:(0,2047)\n1:(7,2047)\n",
    b"solution=\n0:(0,2047)\n1:(7,2047)\nsoc=x\ndone: 2 s\nAgent 0: (0,0)\nagents=9\n",
    b"0 : (0,2047)\n1\t:(7,2047)\n",
    b"0: (0,2047)\n1:\t(7,2047) ,\n",
    b"0:( 0,2047 )\n1:(7 ,\t2047)\n",
]
# The same of two agents, of whom one stays.
TWO_BY_TIME = [b"0:(3,0),(5,2)\n1:(4,0),(5,2)\n2:(4,1),(5,2)", b"0:(3,0)(5,2)\n1:(4,0) (5,2),\n2: (4,1) , ( 5 , 2 ) ,"]

def words_of(name, form):
    return ["check", "--map", name, "--paths", "told", *(["--form", form] if form else [])]


def are_told(texts, form, size, report):
    """The texts are read alike where their form is named and where it isn't."""
    name = put_closed(*size)
    for text in texts:
        put("told", text)
        for asked in (None, form):
            is_run(words_of(name, asked), b"", (1, report, ""))
    remove("told", name)


def texts_of_paths_by_time():
    """No step goes from the first cell to the second; a map of one column less lacks it, and one of one row less both."""
    for size, why in (((8, 2048), "1 not-a-step 0,2047 7,2047"), ((7, 2048), "1 out-of-map 7,2047"), ((8, 2047), "0 out-of-map 0,2047")):
        name = put_closed(*size)
        for text in LENIENT + MORE_LENIENT:
            put("told", text)
            is_run(words_of(name, None), b"", (1, f"wrong 0 {why}\nsolves no\n", ""))
        remove("told", name)


def are_refused(rows):
    for text, form, why in rows:
        put("told", text)
        if verdict_by(why):
            is_run(words_of("m", form), b"", (1, f"{verdict_by(why)}solves no\n", ""))
        else:
            is_fault(words_of("m", form), f"paths: {why}")
    remove("told")


TESTS = {
    "paths_by_time": lambda: are_told([LACAM], "time", (3, 2), LACAM_REPORT),
    "paths_by_agent": lambda: are_told(BY_AGENT, "agent", (6, 3), TWO_REPORT),
    "paths_by_session": lambda: are_told(BY_SESSION, "session", (6, 3), TWO_REPORT),
    "paths_by_time_without_a_head": lambda: are_told(TWO_BY_TIME, "time", (6, 3), TWO_REPORT),
    "texts_of_paths_by_time": texts_of_paths_by_time,
    "faults_of_paths_by_time": lambda: are_refused(FAULTS_BY_TIME),
    "faults_of_paths_by_agent": lambda: are_refused(FAULTS_BY_AGENT),
    "faults_of_paths_by_session": lambda: are_refused(FAULTS_BY_SESSION),
    "faults_of_paths_by_moves": lambda: are_refused(FAULTS_BY_MOVES),
    "paths_by_schedule": lambda: are_told(BY_SCHEDULE, "schedule", (6, 3), TWO_REPORT),
    "faults_of_paths_by_schedule": lambda: are_refused(FAULTS_BY_SCHEDULE),
    "lines_that_are_no_paths": lambda: are_refused([(it, form, "bad path in line 1") for it in NO_PATHS for form in (None, "session")]),
    "words_that_are_no_cells": lambda: are_refused(
        [(front + word + b"\n", form, f"bad cell {cell} in line {line}") for word, cell in NO_CELLS for front, line, form in FRONTS]),
}


def tests():
    yield from TESTS.items()
