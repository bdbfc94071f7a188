"""The word `check`: solvers' files of paths in each form, their reports by hand, their faults, and its statuses.

What many files are checked for, and in what time and room, is in fleets.py.
"""
from .faulty_checks import FAULTS, OTHER_FAULTS, WRONG
from .running import TOP, is_fault, is_run, put, remove, run, want
from .telling import expected
from .texts import ARRIVED, EMPTY, LEFT, RESTING, STAYED

DEMO = f"{TOP}/demo/corridor"

FIELD = b"type octile\nheight 3\nwidth 4\nmap\n....\n.@..\n....\n"
TASKS = b"version 1\n0 f 4 3 0 0 2 0 2\n0 f 4 3 0 2 0 2 0\n0 f 4 3 3 2 0 2 3\n"
FILES = {"field": FIELD, "tasks": TASKS}

# Two exchange cells; their starts and goals stand in the file.
SWAP = b"agents=2\nstarts=(0,0),(1,0),\ngoals=(1,0),(0,0),\nsolution=\n0:(0,0),(1,0),\n1:(1,0),(0,0),\n"
SWAPPED = ("agents 2\nagent 0 settle 1 goal yes bound 1 gap 0\nagent 1 settle 1 goal yes bound 1 gap 0\nconflicts 3\nfollow 0 0 1 1,0\n"
           "follow 0 1 0 0,0\nswap 0 0 1 0,0 1,0\nblocked 0\nsum 2\nmakespan 1\nbounds 2\ngap 0\nend\n")
# Two go along one edge, and a third one through the closed cell.
TOGETHER = b"Agent 0: (0,0)->(0,1)->(0,2)->\nAgent 1:(0,0)->(0,1)\n\nAgent 2: (1,0)->(1,1)->(1,2)->\n"
CROSSED = ("agents 3\nagent 0 settle 2 goal yes bound 2 gap 0\nagent 1 settle 1 goal yes bound 1 gap 0\nagent 2 settle 2 goal yes bound 4 gap none\n"
           "conflicts 3\nvertex 0 0 1 0,0\nvertex 1 0 1 1,0\nedge 0 0 1 0,0 1,0\nblocked 1\nvisit 2 1 1,1\nsum 5\nmakespan 2\nbounds 7\ngap none\nend\n")
# Four go round, each into the cell of the next one.
RING = b"# a ring\npath 0 2,0 3,0\npath 1 3,0 3,1\n\npath 2 3,1 2,1\npath 3 2,1 2,0\n"
TURNED = ("agents 4\n" + "".join(f"agent {n} settle 1 goal yes bound 1 gap 0\n" for n in range(4)) + "conflicts 5\nfollow 0 0 1 3,0\n"
          "follow 0 1 2 3,1\nfollow 0 2 3 2,1\nfollow 0 3 0 2,0\ncycle 0 0 1 2 3\nblocked 0\nsum 4\nmakespan 1\nbounds 4\ngap 0\nend\n")
# One comes to where another rests.
COMES = b"path 0 1,0\npath 1 0,0 1,0\n"
SHORT = "agents 1\nagent 0 settle 1 goal no bound 2 gap none\nconflicts 0\nblocked 0\nsum none\nmakespan none\nbounds 2\ngap none\nend\n"
TWO = ARRIVED.replace("agents 1", "agents 2").replace("conflicts", "agent 1 settle 0 goal yes bound 0 gap 0\nconflicts")
THREE = ("agents 3\nagent 0 settle 2 goal yes bound 2 gap 0\nagent 1 settle 0 goal yes bound 0 gap 0\nagent 2 settle 0 goal no bound 3 gap none\n"
         "conflicts 0\nblocked 0\nsum none\nmakespan none\nbounds 5\ngap none\nend\n")


def quiet(agents, finished, conflicts, kinds, blocked, totals):
    names = ("vertex", "edge", "follow", "swap", "cycle")
    counts = "".join(f"{name} {count}\n" for name, count in zip(names, kinds))
    return f"agents {agents}\nfinished {finished}\nconflicts {conflicts}\n{counts}blocked {blocked}\n" + "sum {}\nmakespan {}\nbounds {}\ngap {}\nend\n".format(*totals)


def unlisted(report):
    """The report without its conflicts."""
    return report[: report.index("conflicts")] + "conflicts 0\n" + report[report.index("blocked") :]


# Name, further words, the paths, the report, and whether they solve the problem.
WORKED = [
    ("swap_by_time", "--map field", SWAP, SWAPPED, "no"),
    ("swap_that_does_not_count", "--map field --solves vertex edge cycle", SWAP, SWAPPED, "yes"),
    ("swap_that_counts_alone", "--map field --solves swap", SWAP, SWAPPED, "no"),
    ("followers_that_count", "--map field --solves follow", SWAP, SWAPPED, "no"),
    ("swap_counted", "--map field --quiet", SWAP, quiet(2, 2, 3, (0, 0, 2, 1, 0), 0, (2, 1, 2, 0)), "no"),
    ("swap_listed_alone", "--map field --only", SWAP, SWAPPED.replace("conflicts 3\nfollow 0 0 1 1,0\nfollow 0 1 0 0,0\n", "conflicts 1\n"), "no"),
    ("no_swap_listed", "--map field --solves vertex edge cycle --only", SWAP, unlisted(SWAPPED), "yes"),
    ("together_by_agent", "--map field", TOGETHER, CROSSED, "no"),
    ("visits_listed_and_no_conflicts", "--map field --solves swap --only", TOGETHER, unlisted(CROSSED), "no"),
    ("closed_cells_always_count", "--map field --solves cycle", TOGETHER, CROSSED, "no"),
    ("together_counted", "--map field --quiet", TOGETHER, quiet(3, 3, 3, (2, 1, 0, 0, 0), 1, (5, 2, 7, "none")), "no"),
    ("ring_by_session", "--map field", RING, TURNED, "yes"),
    ("ring_that_counts", "--map field --solves cycle", RING, TURNED, "no"),
    ("ring_that_counts_among_others", "--map field --solves vertex cycle vertex edge", RING, TURNED, "no"),
    ("ring_counted", "--map field --quiet", RING, quiet(4, 4, 5, (0, 0, 4, 0, 1), 0, (4, 1, 4, 0)), "yes"),
    ("counted_whatever_is_listed", "--map field --quiet --only", RING, quiet(4, 4, 5, (0, 0, 4, 0, 1), 0, (4, 1, 4, 0)), "yes"),
    ("cells_as_the_file_has_them", "--map field --own-cells", TOGETHER, CROSSED.replace("1,0", "0,1"), "no"),
    ("cells_by_time_as_ever", "--map field --own-cells", SWAP, SWAPPED, "no"),
    ("cells_of_a_session_as_ever", "--map field --own-cells --only", RING, unlisted(TURNED), "yes"),
    ("parked_by_session", "--map m", COMES, STAYED, "no"),
    ("parked_listed_as_vertex", "--map m --only", COMES, STAYED.replace("conflicts 2", "conflicts 1").replace("follow 0 1 0 1,0\n", ""), "no"),
    ("parked_that_does_not_count", "--map m --mode stay --solves swap", COMES, STAYED, "yes"),
    ("parked_counts_as_vertex", "--map m --quiet --solves vertex", COMES, quiet(2, 2, 2, (1, 0, 1, 0, 0), 0, (1, 1, 1, 0)), "no"),
    ("left_before_it_comes", "--map m --mode disappear", COMES, LEFT, "yes"),
    ("ends_are_start_and_goal", "--map m", b"solution=\n0:(0,0)\n1:(1,0)\n2:(2,0)", ARRIVED, "yes"),
    ("tasks_of_a_scenario", "--map m --scen s", b"path 0 0,0 1,0 2,0", ARRIVED, "yes"),
    ("not_at_the_goal_of_its_task", "--map m --scen s", b"path 0 0,0 1,0", SHORT, "no"),
    ("not_at_the_goal_that_the_file_tells", "--map m", b"goals=(2,0)\nsolution=\n0:(0,0),\n1:(1,0),\n", SHORT, "no"),
    ("scenario_before_what_the_file_tells", "--map m --scen s", b"goals=(1,0)\nsolution=\n0:(0,0),\n1:(1,0),\n",
     SHORT + "differs goals 0 1,0 2,0\n", "no"),
    ("as_many_tasks_as_paths", "--map field --scen tasks", b"path 0 0,0 1,0 2,0", ARRIVED, "yes"),
    ("an_agent_without_a_path", "--map field --scen tasks --agents 2", b"path 0 0,0 1,0 2,0", TWO + "differs paths 1 2\n", "no"),
    ("an_agent_without_a_path_and_elsewhere", "--map field --scen tasks --agents 3", b"path 0 0,0 1,0 2,0", THREE + "differs paths 1 3\n", "no"),
    ("a_path_too_many", "--map m --scen s --agents 1", b"path 0 0,0 1,0 2,0\npath 1 0,0\n", ARRIVED + "differs paths 2 1\n", "no"),
    ("a_path_too_many_off_the_map", "--map m --scen s --agents 1", b"path 0 0,0\npath 1 9,9 0,0\n", RESTING + "differs paths 2 1\n", "no"),
    ("paths_of_no_agent", "--map m --scen s --agents 0", b"path 0 0,0\n", EMPTY + "differs paths 1 0\n", "no"),
    ("more_paths_and_agents_told_than_asked_for", "--map m --scen s --agents 1 --form time",
     b"Agent count=2\nagents=2\nstarts=(0,0)\nsolution=\n0:(0,0),(1,0),\n", RESTING + "differs paths 2 1\ndiffers agents 2 1\ndiffers starts 1 2\n", "no"),
    ("starts_and_goals_of_the_scenario", "--map m --scen s", b"starts=(0,0)\ngoals=(2,0)\nsolution=\n0:(0,0),\n1:(1,0),\n2:(2,0),\n", ARRIVED, "yes"),
    ("another_start_than_the_scenario", "--map m --scen s", b"starts=(1,0)\nsolution=\n0:(0,0),\n1:(1,0),\n2:(2,0),\n",
     ARRIVED + "differs starts 0 1,0 0,0\n", "no"),
    ("fewer_agents_than_the_file_tells", "--map m --scen s", b"agents=2\nsolution=\n0:(0,0)\n1:(1,0)\n2:(2,0)\n", ARRIVED + "differs agents 2 1\n", "no"),
    ("as_many_agents_as_the_file_tells", "--map m --scen s --agents 1", b"agents= 01\nsolution=\n0:(0,0)\n1:(1,0)\n2:(2,0)\n", ARRIVED, "yes"),
    ("fewer_agents_told_than_asked_for", "--map field --scen tasks --agents 2", b"agents=1\nsolution=\n0:(0,0)\n1:(1,0)\n2:(2,0)\n",
     TWO + "differs paths 1 2\ndiffers agents 1 2\n", "no"),
    ("fewer_paths_than_agents_told", "--map field --scen tasks --agents 2", b"agents=2\nsolution=\n0:(0,0)\n1:(1,0)\n2:(2,0)\n",
     TWO + "differs paths 1 2\n", "no"),
    ("more_starts_than_paths", "--map m --scen s", b"starts=(0,0),(1,0)\ngoals=(2,0)\nsolution=\n0:(0,0)\n1:(1,0)\n2:(2,0)\n",
     ARRIVED + "differs starts 2 1\n", "no"),
    ("more_goals_than_paths", "--map m", b"goals=(2,0),(1,0)\nsolution=\n0:(0,0)\n1:(1,0)\n2:(2,0)\n", ARRIVED + "differs goals 2 1\n", "no"),
    ("fewer_lists_than_paths", "--map field", b"agents=1\nstarts=(0,0)\ngoals=(1,0)\nsolution=\n0:(0,0),(1,0),\n1:(1,0),(0,0),\n",
     SWAPPED + "differs agents 1 2\ndiffers starts 1 2\ndiffers goals 1 2\n", "no"),
    ("numbers_and_cells_that_differ", "--map field --solves cycle --scen tasks",
     b"agents=3\nstarts=(0,0),(1,2),(3,2)\ngoals=(2,0)\nsolution=\n0:(0,0),(0,2)\n1:(1,0),(0,1)\n2:(2,0),(0,0)\n",
     "agents 2\nagent 0 settle 2 goal yes bound 2 gap 0\nagent 1 settle 2 goal no bound 0 gap none\nconflicts 0\nblocked 0\n"
     "sum none\nmakespan none\nbounds 2\ngap none\nend\ndiffers agents 3 2\ndiffers starts 3 2\ndiffers goals 1 2\ndiffers starts 1 1,2 0,2\n", "no"),
    ("finished_counted", "--map field --scen tasks --agents 3 --quiet", b"path 0 0,0 1,0 2,0",
     quiet(3, 2, 0, (0, 0, 0, 0, 0), 0, ("none", "none", 5, "none")) + "differs paths 1 3\n", "no"),
    ("waits_at_the_end", "--map m --scen s", b"Agent 0: (0,0)->(0,1)->(0,2)->(0,2)->(0,2)->", ARRIVED, "yes"),
    ("named_form", "--map m --form time", b"Agent count=1\nsolution=\n0:(0,0),\n1:(1,0),\n2:(2,0),\n", ARRIVED, "yes"),
    ("named_form_by_agent", "--map m --form agent", b"Agent 0: (0,0)->(0,1)->(0,2)", ARRIVED, "yes"),
    ("named_form_of_a_session", "--map m --form session", b"path 0 0,0 1,0 2,0", ARRIVED, "yes"),
    ("one_worker", "--map field --workers 1", RING, TURNED, "yes"),
    ("more_workers_than_agents", "--map field --workers 64", RING, TURNED, "yes"),
    ("more_is_told_of_faults_alone", "--map field -v", RING, TURNED, "yes"),
]

def is_checked(words, paths, report, solved):
    put("worked", paths)
    is_run(["check", *words.split(), "--paths", "worked"], b"", (0 if solved == "yes" else 1, f"version 0\n{report}solves {solved}\n", ""))
    remove("worked")


def are_wrong():
    """Paths that aren't any, and a text without paths, are no solution, and no fault of the run; there is no report of them."""
    for words, paths, said in WRONG:
        put("wrong", paths)
        for more in ([], ["-v"]):
            is_run(["check", *words.split(), "--paths", "wrong", *more], b"", (1, f"{said}\nsolves no\n", ""))
    remove("wrong")


def are_faults():
    """Each fault of a text of paths is told in one line, and with --verbose in a second one its line and what was expected; nothing is printed."""
    for words, paths, text, told in FAULTS:
        put("faulty", paths)
        all_words = ["check", *words.split(), "--paths", "faulty"]
        is_fault(all_words, f"paths: {text}")
        line = f"line {text.split()[-1]}: " if " in line " in text else ""
        is_fault([*all_words, "-v"], f"paths: {text}" if told is None else f"paths: {text}\n  {line}{told}{expected(text)}")
    remove("faulty")


def other_faults():
    """Of the files the map is read first, then the scenario, then the paths."""
    for words, text in OTHER_FAULTS:
        is_fault(["check", *words.split()], text)


def standard_input():
    """A dash stands for standard input, which may be a pipe or a file."""
    for word, words in (("check", []), ("draw", []), ("page", ["--title", "p"])):
        named = run([word, "--map", "m", *words, "--paths", "p"])
        want(f"what {word} reads of a pipe", run([word, "--map", "m", *words, "--paths", "-"], b"path 0 0,0 1,0 2,0\n"), named)
        with open("p", "rb") as paths:
            want(f"what {word} reads of a file", run([word, "--map", "m", *words, "--paths=-"], stdin=paths), named)
    put("-", b"path 0 0,0\n")
    want("what a file of that name is", run(["check", "--map", "m", "--paths", "./-"])[0], 0)
    remove("-")


def demo_check():
    """The recipe for authors of solvers: the same plans in each form."""
    with open(f"{DEMO}.answers") as answers:
        report = answers.read().split("version 5\n")[2].split("end\n")[0] + "end\n"
    for form in ("paths", "by-agent", "by-session"):
        words = ["check", "--map", f"{DEMO}.map", "--paths", f"{DEMO}.{form}"]
        for more in ([], ["--scen", f"{DEMO}.scen"]):
            want(f"what {form} is", run([*words, *more]), (0, f"version 0\n{report}solves yes\n", ""))


def with_files(test):
    for name, text in FILES.items():
        put(name, text)
    test()


def tests():
    for name, words, paths, report, solved in WORKED:
        yield f"check_{name}", lambda it=(words, paths, report, solved): with_files(lambda: is_checked(*it))
    for test in (are_wrong, are_faults, other_faults, standard_input, demo_check):
        yield f"check_{test.__name__}", lambda test=test: with_files(test)
