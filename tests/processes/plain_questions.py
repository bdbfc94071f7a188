"""The questions of version 2 of session lines, asked of a plain scene (plain.py), as docs/PROTOCOL.md defines their answers.

A question is the words of its line, with numbers and cells for texts. An answer is its lines.
"""
from .plain import line_of, shown


def named(entry):
    """The agents that an entry names."""
    return {it for it in entry[2:] if not isinstance(it, tuple)}


def cut(scene, version, agents):
    """Of each list of the report what names one of the agents, and the totals of all."""
    if not agents <= set(scene.agents):
        return ["refused unknown-agent"]
    lines = scene.report().splitlines()
    of_them = lambda word: [it for it in lines if it.split()[0] == word and int(it.split()[1]) in agents]
    entries = [line_of(it)[:-1] for it in scene.entries() if named(it) & agents]
    rows, visits = of_them("agent"), of_them("visit")
    return [f"version {version}", f"agents {len(rows)}", *rows, f"conflicts {len(entries)}", *entries, f"blocked {len(visits)}", *visits, *lines[-5:]]


def plan(scene, agent):
    if agent not in scene.agents:
        return "refused unknown-agent"
    goal, path = scene.agents[agent]
    return f"plan {agent} {' '.join(map(shown, (goal, *path)))}"


def standing(scene, time, cell):
    agents = [it for it in sorted(scene.agents) if scene.place(it, time) == cell]
    return " ".join(map(str, ("at", len(agents), *agents)))


def lists_of(scene):
    """The three lists of the report, each with the line of its count before it, and the totals."""
    lines, lists = scene.report().splitlines(), []
    for line in lines[:-5]:
        if line.split()[0] in ("agents", "conflicts", "blocked"):
            lists.append((line, []))
        else:
            lists[-1][1].append(line)
    return lists, lines[-5:]


def changes(scene, version, later):
    """What changed since that version, up to the later scene: what went and what came of each list, in its order, and the later totals."""
    (old, _), (new, totals), lines = lists_of(scene), lists_of(later), [f"since {version}"]
    for (_, before), (count, after) in zip(old, new):
        gone = [it for it in before if it not in after]
        if count.startswith("agents"):
            gone = [f"agent {it}" for it in sorted(scene.agents) if it not in later.agents]
        lines += [count, *(f"gone {it}" for it in gone), *(it for it in after if it not in before)]
    return lines + totals


def records(scene, later):
    """How many lines of agents, entries and visits went and came from the one scene to the other."""
    (old, _), (new, _) = lists_of(scene), lists_of(later)
    return sum(len(set(before) ^ set(after)) for (_, before), (_, after) in zip(old, new))


def answer(scene, version, question):
    """The lines that a question is answered; a wait ends with the version."""
    kind, *words = question
    if kind == "report" and not words:
        return [f"version {version}", *scene.report().splitlines()]
    if kind == "report":
        return cut(scene, version, set(words))
    if kind == "plan":
        return [plan(scene, words[0])]
    if kind == "wait":
        return [f"version {version}"]
    if not scene.holds(words[-1]):
        return ["refused out-of-map"]
    if kind == "cell":
        return [f"cell {'closed' if words[0] in scene.closed else 'open'}"]
    return [standing(scene, *words)]
