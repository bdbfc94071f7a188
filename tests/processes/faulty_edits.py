"""Edits that are refused, one and several, and those at the limits, in sessions over a corridor of three cells."""
from .running import is_answered
from .texts import ADD, ARRIVED, RESTING

# Edits of the corridor with one agent, which is to go to its other end, and why they are refused.
FAULTY = [
    ("agent 0 0,0 0,0", "agent-taken"),
    ("agent 1 3,0 0,0", "out-of-map"),
    ("drop 7", "unknown-agent"),
    ("goal 0 0,1", "out-of-map"),
    ("path 0", "empty-path"),
    ("path 0 1,0", "not-from-start"),
    ("path 0 0,0 0,0 2,0", "not-a-step 2"),
    ("tail 0 1", "no-such-time"),
    ("tail 0 0 2,0", "not-a-step 1"),
    ("open 0,1", "out-of-map"),
    ("close 3,0", "out-of-map"),
]
SEVEN = ["agent 1 1,0 2,0", "close 1,0", "path 0 0,0 1,0", "goal 0 1,0", "drop 0", "open 0,0", "goal 0 0,0"]
# What a report says of the corridor that is as it was.
SAME = f"version 1\n{RESTING}"


def answered(lines, answers, version=1):
    """These lines over the corridor with its agent have these answers; then it is still the corridor, through which the agent goes to its goal."""
    going, gone = "path 0 0,0 1,0 2,0\nreport\n", f"version {version + 1}\n" * 2 + ARRIVED
    is_answered(["serve", "--map", "m"], ADD + (lines + going).encode(), f"version 1\n{answers}{gone}")


def each_edit_fault():
    """The scene is what it was, behind each refusal alone and behind all of them."""
    for line, why in FAULTY:
        answered(f"{line}\nreport\n", f"refused faulty 0 {why}\n{SAME}")
    answered("".join(f"{line}\nreport\n" for line, _ in FAULTY), "".join(f"refused faulty 0 {why}\n{SAME}" for _, why in FAULTY))


def all_or_none():
    """Six edits are lawful, and none of them is made, since the seventh has a fault."""
    lines = "".join(f"{it}\n" for it in ["begin", *SEVEN, "commit", "cancel", "report"])
    answered(lines, "base 1\n" + "kept\n" * 7 + "refused faulty 6 unknown-agent\ncancelled\n" + SAME)


def larger_limits():
    """A path may have 131,072 cells, and a scene 8,192 agents; not one more is taken. Agent 0 rests where it starts meanwhile."""
    lines = "".join(f"path 0{' 0,0' * many}\nreport\n" for many in (65537, 131072, 131073))
    same = [SAME.replace("1", str(version), 1) for version in (2, 3, 3)]
    answered(lines, f"version 2\n{same[0]}version 3\n{same[1]}refused faulty 0 too-long\n{same[2]}", 3)
    agents = "".join(f"agent {number} 0,0 0,0\n" for number in range(1, 8193))
    answers = "".join(f"version {number}\n" for number in range(1, 8193)) + "refused faulty 0 too-many-agents\n"
    is_answered(["serve", "--map", "m"], ADD + agents.encode(), answers)


def tests():
    for test in (each_edit_fault, all_or_none, larger_limits):
        yield test.__name__, test
