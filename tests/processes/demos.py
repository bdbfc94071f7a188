"""The recipes of demo/, run as they are written."""
import os
import random
import signal
import subprocess
import sys

from .chances import AGENTS, STARTS, Desk, some_edit
from .plain import Scene, line_of
from .running import PATIENCE, Program, TOP, Wrong, bytes_of, is_answered, is_fault, put, remove, run, want

DEMO = f"{TOP}/demo"


def demo_session():
    is_answered(["serve", "--map", f"{DEMO}/corridor.map"], bytes_of(f"{DEMO}/corridor.session"), bytes_of(f"{DEMO}/corridor.answers").decode())


def demo_drill():
    status, said, _ = run(["drill", "--map", f"{DEMO}/corridor.map", f"{DEMO}/east.script", f"{DEMO}/west.script"])
    want("the status", status, 0)
    report = bytes_of(f"{DEMO}/corridor.answers").decode().split("solves yes\n")[1].split("end\n")[0] + "end\n"
    want("the report", said, report + "audit same\n")


CLIENT = """agent 0 0,0 6,0 -> version 1
agent 1 6,0 0,0 -> version 2
path 0 0,0 1,0 2,0 3,0 4,0 5,0 6,0 -> version 3
path 1 6,0 5,0 4,0 3,0 2,0 1,0 0,0 -> version 4
solves vertex swap -> solves no
in the way: vertex 3 0 1 3,0
commit -> version 5
solves vertex swap -> solves yes
"""


def demo_client():
    """The client of demo/ drives a live desk."""
    words = [sys.executable, f"{DEMO}/client.py", Program.path, f"{DEMO}/corridor.map"]
    ran = subprocess.run(words, capture_output=True, timeout=PATIENCE, text=True)
    want("standard output", ran.stdout, CLIENT)
    want("the status", ran.returncode, 0)


ASKED = """import sys
from client import Desk
desk = Desk(*sys.argv[1:])
for line in ("", " \\t\\r", "# of nobody", "\\t#", "\\v", "report\\t", "version"):
    print(desk.ask(line))
print(desk.close())
"""
HEARD = ["version 0", "agents 0", "conflicts 0", "blocked 0", "sum 0", "makespan 0", "bounds 0", "gap 0", "end"]


def demo_client_asks_remarks():
    """Of a line that has no answer the client waits for none, and hears those of the next lines."""
    words = [sys.executable, "-B", "-c", ASKED, Program.path, "serve", "--map", f"{DEMO}/corridor.map"]
    ran = subprocess.run(words, capture_output=True, timeout=PATIENCE, text=True, cwd=DEMO)
    want("what it hears", ran.stdout.splitlines(), [*["None"] * 4, "bad 5 word", str(HEARD), "version 0", "0"])
    want("how it ends", (ran.returncode, ran.stderr), (0, ""))


KEPT = """import sys
from client import Desk, Report
desk = Desk(*sys.argv[1:])
report, again = Report(desk), 0
for number, line in enumerate(sys.stdin):
    desk.ask(line[:-1])
    if number % 3 == 0:
        again += report.version is None or desk.ask(f"changes {report.version}")[0].startswith("refused forgotten ")
        report.refresh()
        if report.text() != desk.ask("report"):
            print("differs after", line)
print(again, desk.close())
"""


def demo_client_keeps_a_report():
    """What the client keeps of a report by `changes` alone is the report, while others' edits come and go; if the desk keeps few changes the
    client takes the whole report now and then, and else once."""
    chance = random.Random(30)
    put("scene", Scene(3, 2, "stay").text().encode())
    for mode, words, most in (("stay", (), 1), ("disappear", (), 1), ("stay", ("--history", "9"), 200)):
        desk, lines = Desk(mode), [line_of(("agent", agent, *it)) for agent, it in enumerate(STARTS)]
        for _ in range(300):
            edit = some_edit(chance, desk.scene, chance.randrange(AGENTS))
            desk.refusal(len(desk.entries), [], [edit])
            lines.append(line_of(edit))
        words = [sys.executable, "-B", "-c", KEPT, Program.path, "serve", "--map", os.path.abspath("scene"), "--mode", mode, "--lines", "2", *words]
        ran = subprocess.run(words, input="".join(lines), capture_output=True, timeout=PATIENCE, text=True, cwd=DEMO)
        want("how it ends", (ran.returncode, ran.stderr, ran.stdout.split()[-1:]), (0, "", ["0"]))
        again = int(ran.stdout.split()[0])
        want("how often the whole report was taken", most == 1 == again or 1 < again < most, True)
    remove("scene")


def demo_fleet():
    """Four planners of demo/planners plan for one fleet at once, until nothing is in the way of anyone."""
    words = [sys.executable, f"{DEMO}/planners/fleet.py", Program.path]
    fleet = subprocess.Popen(words, stdout=subprocess.PIPE, stderr=subprocess.PIPE, text=True, start_new_session=True)
    try:
        said, complained = fleet.communicate(timeout=3 * PATIENCE)
    except subprocess.TimeoutExpired:
        os.killpg(fleet.pid, signal.SIGKILL)
        raise Wrong("the fleet has no end") from None
    lines = said.split("\n")
    want("the end", (fleet.returncode, lines[0], lines[2], lines[-2]), (0, "solves yes", "conflicts 0", "audit same"))
    want("how many planners tell", complained.count(" commits taken, "), 4)


def demos_called_wrongly():
    """A demo that is told nothing says what it wants; planners whose host ends at once end too."""
    for script, usage in (("client.py", "client.py DESK MAP\n"), ("planners/fleet.py", "fleet.py DESK [AGENTS PLANNERS]\n")):
        ran = subprocess.run([sys.executable, f"{DEMO}/{script}"], capture_output=True, timeout=PATIENCE, text=True)
        want("how it ends", (ran.returncode, ran.stdout, ran.stderr), (1, "", usage))
    ran = subprocess.run([sys.executable, f"{DEMO}/planners/fleet.py", "/bin/false"], capture_output=True, timeout=PATIENCE, text=True)
    want("how it ends", (ran.returncode, ran.stdout), (1, ""))


def demo_audit():
    """The report from scratch is the one of a session, byte for byte."""
    words = ["--map", f"{DEMO}/warehouse.map", "--scen", f"{DEMO}/warehouse.scen", "--agents", "100"]
    audited, served = run(["audit", *words]), run(["serve", *words], b"report\n")
    want("the audit", audited, served)
    want("how many lines it has", audited[1].count("\nagent "), 100)


# Columns and rows of the maps, each of which has a scenario of so many tasks.
SIZES = {"open": (32, 32), "warehouse": (52, 35), "random": (48, 48)}
TASKS = 120


def demo_maps():
    """Each map has its size, and its scenario as many tasks, each between open cells; the least ways are as long as the scenario says."""
    for name, (columns, rows) in SIZES.items():
        words = ["serve", "--map", f"{DEMO}/{name}.map", "--scen", f"{DEMO}/{name}.scen", "--agents"]
        status, said, complained = run([*words, str(TASKS)], f"open {columns},0\nopen 0,{rows}\nopen {columns - 1},{rows - 1}\nreport\n".encode())
        lines = said.splitlines()
        want(f"the end of {name}", (status, complained), (0, ""))
        want(f"the edges of {name}", lines[:3], ["refused faulty 0 out-of-map", "refused faulty 0 out-of-map", "version 1"])
        lengths = [it.split()[8].removesuffix(".00000000") for it in bytes_of(f"{DEMO}/{name}.scen").decode().splitlines()[1:]]
        want(f"the bounds of {name}", [it.split()[7] for it in lines if it.startswith("agent ")], lengths)
        want(f"who of {name} begins on a closed cell", "blocked 0" in lines, True)
        is_fault([*words, str(TASKS + 1)], f"scen: too few tasks, {TASKS}")


def tests():
    for test in (demo_maps, demo_session, demo_drill, demo_client, demo_client_asks_remarks, demo_client_keeps_a_report,
                 demo_fleet, demos_called_wrongly, demo_audit):
        yield test.__name__, test
