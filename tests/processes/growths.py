"""Want of memory at one line of a session, growth by growth: the line is refused and has no effect, or the session ends by it."""
from .growing import FULL, growths_apart, served, until_enough
from .running import run, want
from .texts import MAP, RESTING


def answers(rows):
    return "".join(answer or "" for _, answer in rows)


def lawful_ends(words, rows, at):
    """What may come where there is no memory for a line: the session ends by that where the line, or the map, can't be held; else the
    line is refused, and has no effect on all others."""
    before = answers(rows[:at])
    lawful = [(2, before, FULL)]
    if rows[at][1] is not None:
        blanked = "".join(line for line, _ in rows[:at] + [("\n", "")] + rows[at + 1 :])
        status, said, complained = run(words, blanked.encode())
        want("what a blank line leaves as it was", (status, said[: len(before)], complained), (0, before, ""))
        lawful.append((0, f"{before}refused memory\n{said[len(before):]}", ""))
    return lawful


def refused_lines(words, rows, tried):
    """The numbers of the lines that are refused for want of memory at first, of those that are tried; from 1."""
    refused, lines = set(), [line.encode() for line, _ in rows]
    for at in tried:
        parts = b"".join(lines[:at]), lines[at], b"".join(lines[at + 1 :])
        seen = until_enough(lines[at], lambda pages, parts=parts: served(words, *parts, pages), (0, answers(rows), ""))
        lawful = lawful_ends(words, rows, at) if seen else []
        for it in seen:
            want(f"whether {it} is lawful where there is no memory for {lines[at]}", it in lawful, True)
        refused |= {at + 1} if seen else set()
    return refused


THREE = [(f"{line}\n", None) for line in MAP.decode().splitlines()]
WIDE = [("type octile\n", None), ("height 8\n", None), ("width 2048\n", None), ("map\n", None)] + [("." * 2048 + "\n", None)] * 8

# Name, words, lines with their answers (the lines of a map have none), and the lines that take memory. A map's text is held until it is
# whole: it grows within its first page at the lines behind the first one, and beyond its pages at some rows of a wide map.
SESSIONS = [
    ("gathered_commit_in_a_session", ["serve", "--map", "m"], [
        ("agent 0 0,0 2,0\n", "version 1\n"), ("begin\n", "base 1\n"), ("watch map\n", "kept\n"), ("path 0 0,0 1,0 2,0\n", "kept\n"),
        ("commit\n", "version 2\n"), ("jump 1\n", "bad 6 word\n"), ("commit\n", "bad 7 notbegun\n"),
        ("path 0 0,0 2,0\n", "refused faulty 0 not-a-step 1\n"), ("distance 0 0,0\n", "distance 2\n"), ("solves vertex edge\n", "solves yes\n"),
    ], {1, 3, 4, 5, 8, 9}),
    ("meets_a_resting_agent", [], [
        *THREE, ("agent 0 1,0 1,0\n", "version 1\n"), ("agent 1 0,0 2,0\n", "version 2\n"), ("path 1 0,0 1,0 2,0\n", "version 3\n"),
        ("report\n", "version 3\nagents 2\nagent 0 settle 0 goal yes bound 0 gap 0\nagent 1 settle 2 goal yes bound 2 gap 0\nconflicts 2\n"
         "vertex 1 0 1 1,0\nfollow 0 1 0 1,0\nblocked 0\nsum 2\nmakespan 2\nbounds 2\ngap 0\nend\n"),
    ], {1, 5, 6, 7, 8, 9}),
    ("goal_cell_closed", [], [
        *THREE, ("agent 0 0,0 2,0\n", "version 1\n"), ("path 0 0,0 1,0 2,0\n", "version 2\n"), ("solves vertex\n", "solves yes\n"),
        ("close 2,0\n", "version 3\n"),
        ("report\n", "version 3\nagents 1\nagent 0 settle 2 goal yes bound none gap none\nconflicts 0\nblocked 1\nvisit 0 2 2,0\n"
         "sum 2\nmakespan 2\nbounds none\ngap none\nend\n"),
    ], {1, 5, 6, 7, 8, 9, 10}),
    ("all_or_none_and_refusal_order", ["serve", "--map", "m", "--limit", "3"], [
        ("agent 0 0,0 2,0\n", "version 1\n"), ("report\n", "version 1\n" + RESTING), ("begin\n", "base 1\n"), ("close 1,0\n", "kept\n"),
        ("goal 0 1,0\n", "kept\n"), ("path 0 0,0 2,0\n", "kept\n"), ("commit\n", "refused faulty 2 not-a-step 1\n"), ("cancel\n", "cancelled\n"),
        ("report\n", "version 1\n" + RESTING), ("begin\n", "base 1\n"), ("commit\n", "refused no-edits\n"), ("cancel\n", "cancelled\n"),
        ("goal 0 1,0\n", "version 2\n"), ("goal 0 0,0\n", "version 3\n"), ("goal 0 1,0\n", "refused journal-full 3\n"),
    ], {1, 2, 4, 6, 7, 9, 13, 14, 15}),
    ("rows_of_a_wide_map", [], [*WIDE, ("version\n", "version 0\n")], {1, 5, 6, 8, 12, 13}),
]


def each_line(words, rows, takes):
    """The lines that take memory are refused, and the others never are.

    The wrong body always_out_of_memory answers nothing else, with ample memory too.
    """
    with growths_apart():
        want("the lines that take memory", refused_lines(words, rows, range(len(rows))), takes)


def lists_longer_than_a_page():
    """The lists of a gathering grow as they get longer: where there is no memory for that, the line alone is refused."""
    rows = [("begin\n", "base 0\n"), *[("goal 0 1,0\n", "kept\n")] * 130, *[("watch map\n", "kept\n")] * 600, ("version\n", "version 0\n")]
    with growths_apart():
        edits = refused_lines(["serve", "--map", "m"], rows, range(60, 70))
        watches = refused_lines(["serve", "--map", "m"], rows, range(640, 650))
    want("how many growths of longer lists are refused", (len(edits), len(watches)), (1, 1))


def tests():
    for name, *session in SESSIONS:
        yield name, lambda session=session: each_line(*session)
    yield "lists_longer_than_a_page", lists_longer_than_a_page
