"""The calls on numbers, from C and from Python, beside the plain program of the rules (plain_calls.py)."""
from pathlib import Path

from plain_calls import BITS, numbers_of, runs
from processes.plain import line_of
from processes.running import want

STATUSES = ("done", "closed", "out-of-memory", "no-such-number", "unknown-agent", "out-of-map", "empty-path", "not-from-start", "not-a-step")
STATUSES += ("too-long", "journal-full", "no-way", "refused")
UNSEEN = 77  # what stands where a call tells nothing


def line_for_c(kind, words, most):
    flat = lambda cells: " ".join(f"{x} {y}" for x, y in cells)
    if kind == "edit":
        return f"line {line_of(words)}"
    if kind in ("commit", "try"):
        return f"{kind} {f'{most} ' if kind == 'try' else ''}{words[0]} {flat(words[1])}\n"
    if kind == "conflicts":
        return f"conflicts {most} {words[0]}\n"
    if kind == "solves":
        return f"solves {sum(BITS[it] for it in words[0])}\n"
    return f"distance {words[0]} {words[1][0]} {words[1][1]}\n" if kind == "distance" else "version\n"


def line_of_c(kind, answer, most):
    status, told = answer
    number = STATUSES.index(status)
    if kind in ("try", "conflicts"):
        entries = [" ".join("-" if it is None else str(it) for it in one) for one in told or []]
        return f"{number} {len(told)}{''.join(f'; {it}' for it in entries[:most])}" if status == "done" else f"{number}"
    if kind == "solves":
        return f"{number} {int(told)}"
    return f"{number} {UNSEEN if told is None else told}"


def c_answers_as_the_plain_program(built, said):
    """The entries that there is room for, the count of all, and nothing behind them."""
    program = built("gcc", "numbers.c", "numbers", "-std=c99")
    for seed, ((ground, mode, limit), steps) in enumerate(runs()):
        Path("ground").write_text(ground)
        most = seed % 5
        lines = "".join(line_for_c(kind, words, most) for kind, words, _ in steps)
        wanted = [line_of_c(kind, answer, most) for kind, _, answer in steps if kind != "edit"]
        found = said([program, "ground", mode, str(limit)], lines.encode()).decode().splitlines()
        calls = [it for it in steps if it[0] != "edit"]
        for call, one, right in zip(calls, found, wanted):
            want(f"the answer to {call[:2]} in run {seed}", one, right)
        want("how many answers there are", len(found), len(wanted))


def told_by(desk, kind, words):
    """What the Python package tells."""
    import mapf_desk

    calls = {"commit": desk.commit_path, "try": desk.try_path, "conflicts": desk.conflicts, "distance": desk.distance, "version": desk.version}
    try:
        told = desk.solves(*words[0]) if kind == "solves" else calls[kind](*words)
    except mapf_desk.Fault as fault:
        return str(fault).replace(" ", "-"), None
    return ("no-way", None) if told is None else ("done", told)


def entry_of(conflict):
    return (conflict.kind, conflict.time, *conflict.agents, *conflict.cells)


def python_answers_as_the_plain_program():
    import mapf_desk

    for seed, ((ground, mode, limit), steps) in enumerate(runs()):
        with mapf_desk.Desk(ground, mode=mode, limit=limit) as desk:
            for kind, words, answer in steps:
                if kind == "edit":
                    desk.ask(line_of(words).strip())
                    continue
                status, told = told_by(desk, kind, words)
                if kind in ("try", "conflicts") and status == "done":
                    told = [numbers_of(entry_of(it)) for it in told]
                want(f"the answer to {kind} {words} in run {seed}", (status, told), answer)
