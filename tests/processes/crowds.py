"""A planner of `host` whose agents crowd in one cell, so that there are far more conflicts than lines: what that costs, and whom."""
import os
import threading
import time

from .growing import leave
from .hosting import Hosted
from .running import PATIENCE, Wrong, bytes_of, put, remove, want
from .scarcity import memory_of

STEPS = 100  # in which the agents stay in one cell, before all go to the next one
SQUARE = b"type octile\nheight 2\nwidth 2\nmap\n..\n..\n"
CROWDED = b" ".join([b"0,0"] * STEPS + [b"1,0"])
BYTES = 40, 100  # that a conflict takes, at least and at most
AHEAD = 8  # lines that a crowd which commits on has sent at least, and nobody has answered
MOST_A_RECORD = 64  # bytes that a record of what came or went takes
PAGES = 1024  # that the host may have more, of 4 kB each: a third of what the crowd's conflicts take


def conflicts_of(agents):
    """Of each two agents one at each time in the first cell, one of the step that both make, and one for resting in one cell."""
    return agents * (agents - 1) // 2 * (STEPS + 2)


def crowd_in(seat, agents, kinds):
    """Those agents come and stay in the crowd, with a question behind each; the kinds of its answers are counted."""
    lines = b"".join(b"agent %d 0,0 1,0\npath %d %s\nsolves vertex\n" % (it, it, CROWDED) for it in agents)

    def tell():
        for at in range(0, len(lines), 4096):
            seat.send(lines[at : at + 4096])

    telling = threading.Thread(target=tell, daemon=True)
    telling.start()
    for _ in range(3 * len(agents)):
        count(kinds, seat.hear())
    telling.join(PATIENCE)


def commit_on(seat, beside, versions, kinds):
    """The crowd commits on, some lines always ahead of their answers, until the planner beside it has had so many versions; how many lines."""
    sent, heard, end = 0, 0, time.monotonic() + PATIENCE
    while beside.kinds[b"version"] < versions and time.monotonic() < end:
        seat.send(AHEAD * (b"path 10 %s\n" % CROWDED))
        sent += AHEAD
        for _ in range(sent - heard - AHEAD):
            count(kinds, seat.hear())
        heard = sent - AHEAD
    for _ in range(sent - heard):
        count(kinds, seat.hear())
    return sent


def count(kinds, answer):
    """Counts an answer by its first word; a refusal by the whole."""
    word = answer if answer is None or answer.startswith(b"refused") else answer.split()[0]
    kinds[word] = kinds.get(word, 0) + 1


class Beside:
    """A planner that commits goals of its own agent, each once the one before is answered, until it is told to end."""

    def __init__(self, seat):
        self.seat, self.kinds, self.longest, self.is_over, self.fault = seat, {}, 0, False, None
        seat.send(b"agent 9 0,1 1,1\n")
        count(self.kinds, seat.hear())
        self.thread = threading.Thread(target=self.commit, daemon=True)
        self.thread.start()

    def commit(self):
        try:
            while not self.is_over:
                began = time.monotonic()
                self.seat.send(b"goal 9 %d,1\n" % (began * 100 % 2))
                count(self.kinds, self.seat.hear())
                self.longest = max(self.longest, time.monotonic() - began)
                time.sleep(0.002)
        except (OSError, Wrong) as why:
            self.fault = why

    def end(self):
        """How many answers of which kinds it had."""
        self.is_over = True
        self.thread.join(PATIENCE)
        want("what went wrong beside the crowd", self.fault, None)
        return self.kinds


def crowded(*words):
    """The bytes that a conflict takes in a crowd at a host with those words, and the longest wait of another planner for its commit."""
    with Hosted(["crowd", "west"], "--limit", "1000000", *words, ground="square") as hosted:
        crowd, west = hosted.seats()
        beside, kinds, held = Beside(west), {}, []
        for agents in (range(10, 60), range(60, 110)):
            crowd_in(crowd, agents, kinds)
            held.append(memory_of(hosted.operator.process))
        more = commit_on(crowd, beside, 21, kinds)
        others = beside.end()
        crowd.send(b"report 10\n")
        heard = [crowd.hear() for _ in range(4)]
        want("how many conflicts an agent has", heard[3], b"conflicts %d" % (99 * (STEPS + 2)))
        hosted.operator.process.stdin.close()
        while crowd.hear() != b"end":
            pass
        want("what the crowd is answered", (set(kinds), kinds[b"version"]), ({b"version", b"solves"}, 200 + more))
        want("what the other planner is answered", (set(others), others[b"version"] > 20), ({b"version"}, True))
        crowd.close(), west.close()
        hosted.ends(0, b"audit same\n", b"")
    return (held[1] - held[0]) * 1024 / (conflicts_of(100) - conflicts_of(50)), beside.longest


def crowd_in_one_cell():
    """Memory grows by the conflicts, and by the records of those that came, where they are kept; the commits of another planner go on
    meanwhile, and each is answered."""
    put("square", SQUARE)
    (conflict, longest), (both, _) = crowded("--history", "0"), crowded()
    print(f"crowd_in_one_cell: {conflict:.0f} bytes a conflict, {both - conflict:.0f} a record; another's commit took {1000 * longest:.0f} ms at most")
    want(f"whether {conflict:.0f} bytes a conflict are usual", BYTES[0] < conflict < BYTES[1], True)
    want(f"whether {both - conflict:.0f} bytes a record are usual", 0 < both - conflict <= MOST_A_RECORD, True)
    remove("square")


def crowd_without_memory():
    """Where there is no memory for the crowd's conflicts, questions are refused for that; commits go on, another planner's too, and each that
    was accepted is saved."""
    put("square", SQUARE)
    env = {**os.environ, "GLIBC_TUNABLES": "glibc.malloc.arena_max=1"}  # (so no thread has room set aside)
    with Hosted(["crowd", "west"], "--limit", "1000000", "--save", "kept", ground="square", env=env) as hosted:
        crowd, west = hosted.seats()
        beside, kinds = Beside(west), {}
        leave(hosted.operator.process, PAGES)
        crowd_in(crowd, range(10, 60), kinds)
        commit_on(crowd, beside, 6, kinds)
        others = beside.end()
        want("what the crowd is answered", set(kinds), {b"version", b"solves", b"refused memory"})
        want("what the other planner is answered", (set(others) - {b"refused memory"}, others[b"version"] > 5), ({b"version"}, True))
        west.send(b"goal 9 0,0\n")
        count(others, west.hear())
        crowd.ask(b"solves vertex", b"refused memory")
        crowd.close(), west.close()
        hosted.ends(2, b"", b"mapf_desk: out of memory\n")
    want("how many entries are saved", bytes_of("kept").count(b"\nentry "), kinds[b"version"] + others[b"version"])
    remove("square", "kept")


def tests():
    for test in (crowd_in_one_cell, crowd_without_memory):
        yield test.__name__, test
