#!/usr/bin/env python3
"""Drives a live desk from a program: client.py DESK MAP, as client.py ./desk demo/corridor.map

It sends a line, reads its answer, and goes on by what it read. Each line is answered by one line, but for blank lines
and remarks, which have no answer, and `report`, `changes` and `try`, whose answers end with the line `end`, unless refused.
The classes below need nothing else: copy them.
"""
import re
import subprocess
import sys


class Session:
    """A planner's session: its lines go to the desk, and the answers come back."""

    def __init__(self, lines, answers):
        self.lines, self.answers = lines, answers

    def ask(self, line):
        """The answer to a line; of `report`, `changes` and `try`, all its lines. None of a blank line or a remark."""
        self.lines.write(line + "\n")
        self.lines.flush()
        word = re.split("[ \t\r]+", line.strip(" \t\r"))[0]
        if not word or word.startswith("#"):
            return None
        answer = [self.hear()]
        if word not in ("report", "changes", "try"):
            return answer[0]
        while answer[-1] != "end" and answer[0].startswith(("version ", "would ")):
            answer.append(self.hear())
        return answer

    def hear(self):
        line = self.answers.readline()
        if not line.endswith("\n"):
            raise EOFError("the desk has ended this session")
        return line[:-1]

    def close(self):
        self.lines.close()
        self.answers.close()


class Desk(Session):
    """A desk in a process of its own, for one planner."""

    def __init__(self, *words):
        self.process = subprocess.Popen(words, stdin=subprocess.PIPE, stdout=subprocess.PIPE, text=True)
        super().__init__(self.process.stdin, self.process.stdout)

    def close(self):
        """Ends the session, and tells its status."""
        self.lines.close()
        return self.process.wait()


class Seat(Session):
    """A seat at a desk that other planners share: the pipes NAME.in and NAME.out of `host`."""

    def __init__(self, name):
        super().__init__(open(f"{name}.in", "w"), open(f"{name}.out"))


# The first words of a report's lines that come and go, in the order of the report.
ORDER = ("agent", "vertex", "parked", "edge", "follow", "swap", "cycle", "visit")


def order(line):
    """Where a line stands among those of a report."""
    words = line.split()
    return ORDER.index(words[0]), [int(it) for it in words[1:] if it.isdigit()]


class Report:
    """A desk's report, kept by what has changed in it: a session of version 2 of lines."""

    def __init__(self, session):
        self.session, self.version, self.lines, self.totals = session, None, {}, []

    def refresh(self):
        """Takes in what has changed; at first, and where the desk has forgotten that, the whole report."""
        told = ["refused"] if self.version is None else self.session.ask(f"changes {self.version}")
        if told[0].startswith("refused"):
            self.lines, told = {}, self.session.ask("report")
        self.version, self.totals = int(told[0].split()[1]), told[-5:]
        for line in told[1:-5]:
            self.take(line)

    def take(self, line):
        """One line of the answer. An agent has one line, so a new one takes the place of the old one."""
        entry = line.removeprefix("gone ")
        head, number = entry.split()[:2]
        place = f"agent {number}" if head == "agent" else entry
        if entry != line:
            del self.lines[place]
        elif head in ORDER:
            self.lines[place] = entry

    def text(self):
        """The lines of the report, as `report` is answered."""
        parts = [[it for it in self.lines.values() if it.split()[0] in words] for words in (ORDER[:1], ORDER[1:-1], ORDER[-1:])]
        counted = [line for name, part in zip(("agents", "conflicts", "blocked"), parts) for line in (f"{name} {len(part)}", *sorted(part, key=order))]
        return [f"version {self.version}", *counted, *self.totals]


def path_line(agent, cells):
    return f"path {agent} " + " ".join(f"{x},{y}" for x, y in cells)


def main():
    if len(sys.argv) != 3:
        sys.exit("client.py DESK MAP")
    desk = Desk(sys.argv[1], "serve", "--map", sys.argv[2])
    east = [(x, 0) for x in range(7)]
    for line in ("agent 0 0,0 6,0", "agent 1 6,0 0,0", path_line(0, east), path_line(1, east[::-1])):
        print(line, "->", desk.ask(line))
    print("solves vertex swap ->", desk.ask("solves vertex swap"))
    for entry in desk.ask("report"):
        if entry.split()[0] in ("vertex", "parked", "edge", "follow", "swap", "cycle"):
            print("in the way:", entry)
    # Both change in one commit, or neither does.
    desk.ask("begin")
    desk.ask(path_line(0, east[:2] + [(1, 0), (1, 0)] + east[2:]))
    desk.ask(path_line(1, east[:2:-1] + [(3, 1)] * 3 + east[3::-1]))
    print("commit ->", desk.ask("commit"))
    print("solves vertex swap ->", desk.ask("solves vertex swap"))
    return desk.close()


if __name__ == "__main__":
    sys.exit(main())
