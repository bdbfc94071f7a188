#!/usr/bin/env python3
"""A fleet of 40 agents on a warehouse map, among four planners in processes of their own: fleet.py DESK [AGENTS PLANNERS]

It makes two pipes for each planner, starts `DESK host` and the planners (planner.py), and waits until the fleet's paths
have no conflict. Then it asks the desk, as its operator, what they cost. Status 0 where the desk says that all is solved.
"""
import os
import subprocess
import sys
import tempfile
import time

HERE = os.path.dirname(os.path.abspath(__file__))
DEMO = os.path.dirname(HERE)
MAP, SCEN = f"{DEMO}/warehouse.map", f"{DEMO}/warehouse.scen"


def failed_of(planners, host):
    """The planners that failed, when all have ended; where the host ends before them, they are ended too."""
    while any(it.poll() is None for it in planners):
        if host.poll() is not None:
            for it in planners:
                it.kill()
        time.sleep(0.05)
    return [it for it in planners if it.returncode]


def main():
    if len(sys.argv) not in (2, 4):
        sys.exit("fleet.py DESK [AGENTS PLANNERS]")
    desk, agents, planners = sys.argv[1], *[int(it) for it in sys.argv[2:] or (40, 4)]
    with tempfile.TemporaryDirectory() as folder:
        names = [f"{folder}/{number}" for number in range(1, planners + 1)]
        for name in names:
            os.mkfifo(f"{name}.in"), os.mkfifo(f"{name}.out")
        words = [desk, "host", "--map", MAP, "--scen", SCEN, "--agents", str(agents), "--wait", "60", *names]
        host = subprocess.Popen(words, stdin=subprocess.PIPE, stdout=subprocess.PIPE, text=True)
        shares = [agents * number // planners for number in range(planners + 1)]
        run = [sys.executable, f"{HERE}/planner.py"]
        plans = [
            subprocess.Popen([*run, name, MAP, SCEN, str(agents), str(first), str(end)])
            for name, first, end in zip(names, shares, shares[1:])
        ]
        failed = failed_of(plans, host)
        said, _ = host.communicate("solves vertex edge follow swap cycle\nreport\n")
    lines = said.split("\n")
    for line in lines:
        if line.split(" ")[0] in ("solves", "version", "conflicts", "sum", "makespan", "bounds", "gap", "audit"):
            print(line)
    return 0 if host.returncode == 0 and lines[0] == "solves yes" and not failed else 1


if __name__ == "__main__":
    sys.exit(main())
