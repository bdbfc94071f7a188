"""A plain reader of files of paths, by docs/FILES.md."""
import re

from .plain_json import MOST_AGENTS, MOST_SIDE, MOVES, by_json
from .plain_words import BLANKS, Fault, cell_of, number, words_of

CELL = re.compile(rb"\([ \t\r]*([0-9]+)[ \t\r]*,[ \t\r]*([0-9]+)[ \t\r]*\)")
SCHEDULE = re.compile(rb"schedule:([ \t\r]*\{\})?")
ROW_OF_MOVES = re.compile(rb"[udlrw][udlrw, \t\r]*", re.IGNORECASE)


def written(text):
    """The lines that say something, with their numbers: those that aren't blank, and no remarks."""
    lines = [(n, it.strip(BLANKS)) for n, it in enumerate(text.split(b"\n"), 1)]
    return [it for it in lines if it[1] and it[1][:1] != b"#"]


def numbered(text):
    """The number at the front of a text and what stands behind its colon, or none."""
    label, colon, rest = text.partition(b":")
    told = number(label.strip(BLANKS))
    return (told, rest) if colon and told is not None else None


def cells(line, text, join, turned):
    """The cells of a list, where `join` may stand behind each; turned where the row stands first."""
    found, rest = [], text.strip(BLANKS)
    while rest:
        told = CELL.match(rest)
        place = told and cell_of(b",".join(told.groups()))
        if not place:
            raise Fault(f"bad cell {len(found)} in line {line}")
        found.append(place[::-1] if turned else place)
        rest = rest[told.end() :].lstrip(BLANKS).removeprefix(join).lstrip(BLANKS)
    return found


def row_of(line, text, count=None):
    """A list by time, of as many cells as that, where a number is told."""
    row = cells(line, text, b",", False)
    if not row:
        raise Fault(f"no cells in line {line}")
    if len(row) > MOST_AGENTS:
        raise Fault(f"too many agents in line {line}")
    if count not in (None, len(row)):
        raise Fault(f"cell count in line {line}")
    return row


def hear(told, line, text):
    """One more line before the paths, of which the lists of starts and goals, the number of agents and `solved=0` are read."""
    key, sign, rest = text.partition(b"=")
    if sign and key in (b"starts", b"goals", b"agents"):
        if key in told:
            raise Fault(f"repeated list in line {line}")
        told[key] = number(rest.lstrip(BLANKS)) if key == b"agents" else row_of(line, rest)
        if told[key] is None:
            raise Fault(f"bad header in line {line}")
    elif text == b"solved=0":
        told["unsolved"] = True


def rows_of(lines):
    """The rows of the times from 0, up to the last line that begins with a digit; behind that may be a log."""
    last = max((at for at, (_, text) in enumerate(lines) if text[:1].isdigit()), default=0)
    rows = []
    for line, text in lines[: last + 1]:
        told = numbered(text)
        if told is None or told[0] != len(rows):
            raise Fault(f"bad time in line {line}")
        rows.append(row_of(line, told[1], len(rows[0]) if rows else None))
    return rows


def by_time(lines):
    """What is told before the first time, and the paths."""
    told = {}
    for at, (line, text) in enumerate(lines):
        if text == b"solution=" or numbered(text):
            return told, list(zip(*rows_of(lines[at + (text == b"solution=") :])))
        hear(told, line, text)
    raise Fault("no paths" if "unsolved" in told else "missing solution")


def path_by_agent(line, text):
    told = numbered(text[6:]) if text.startswith(b"Agent ") else None
    if told is None:
        raise Fault(f"bad agent in line {line}")
    if told[0] >= MOST_AGENTS:
        raise Fault(f"too many agents in line {line}")
    return told[0], cells(line, told[1], b"->", True)


def path_by_session(line, text):
    words = words_of(text)
    agent = number(words[1], 65535) if len(words) > 1 and words[0] == b"path" else None
    path = [cell_of(it) for it in words[2:]]
    if agent is None or None in path:
        raise Fault(f"bad path in line {line}")
    if agent >= MOST_AGENTS:
        raise Fault(f"too many agents in line {line}")
    return agent, path


def in_order(told):
    """The paths of agents from 0, or from 1."""
    for agent in range(1, max(told, default=0)):
        if agent not in told:
            raise Fault(f"missing agent {agent}")
    return [path for _, path in sorted(told.items())]


def by_agents(lines, path_of):
    """The paths of agents who come in any order, from 0 or from 1."""
    told = {}
    for line, text in lines:
        agent, path = path_of(line, text)
        if not path or agent in told:
            raise Fault(f"{'bad agent' if path else 'no cells'} in line {line}")
        told[agent] = path
    return in_order(told)


def by_agent(lines):
    """The lines from the first of an agent to the last; before and behind may be a log."""
    those = [at for at, (_, text) in enumerate(lines) if text.startswith(b"Agent ")] or [0]
    return by_agents(lines[those[0] : those[-1] + 1], path_by_agent)


def scheduled_agent(text):
    """The agent of a line `agentN:`, or none."""
    told = numbered(text[5:]) if text.startswith(b"agent") else None
    return told[0] if told and not told[1] else None


def place_told(text, place, time):
    """The key and the number of one more line of an agent's place at that time, of which some are told already; or none."""
    pair = text if place else text[2:].lstrip(BLANKS) if text.startswith(b"- ") else b""
    key, colon, value = pair.partition(b":")
    told = number(value.strip(BLANKS))
    if not colon or key in place or told is None:
        return None
    due = told == time if key == b"t" else key in (b"x", b"y") and told < MOST_SIDE
    return (key, told) if due else None


def by_schedule(lines):
    """The paths behind the line `schedule:`, up to the last line of an agent or of a place; behind that may be a log."""
    begun = [at for at, (_, text) in enumerate(lines) if SCHEDULE.fullmatch(text)]
    if not begun:
        raise Fault("missing schedule")
    lines, told, agent, place = lines[begun[0] + 1 :], {}, None, {}
    last = [at for at, (_, text) in enumerate(lines) if scheduled_agent(text) is not None or text.startswith((b"- ", b"x:", b"y:", b"t:"))] or [-1]
    for at, (line, text) in enumerate(lines):
        is_whole = not place and (agent is None or told[agent])
        if at > last[-1] and is_whole:
            break
        named, time = scheduled_agent(text), 0 if agent is None else len(told[agent])
        if named is not None and is_whole:
            if named >= MOST_AGENTS or named in told:
                raise Fault(f"{'bad agent' if named < MOST_AGENTS else 'too many agents'} in line {line}")
            agent, told[named] = named, []
            continue
        pair = place_told(text, place, time) if named is None and agent is not None else None
        if not pair:
            raise Fault(f"bad agent in line {line}" if agent is None else f"bad place {time} in line {line}")
        place[pair[0]] = pair[1]
        if len(place) == 3:
            told[agent].append((place[b"x"], place[b"y"]))
            place = {}
    if place or agent is not None and not told[agent]:
        raise Fault(f"missing place {len(told[agent])}")
    return in_order(told)


def fields_of(line):
    """The fields of a head line; a comma in quotes parts none."""
    fields, quoted = [b""], False
    for byte in line:
        quoted ^= byte == ord('"')
        fields = [*fields, b""] if byte == ord(",") and not quoted else [*fields[:-1], fields[-1] + bytes([byte])]
    return fields


def plans_in(line):
    """The column of plans in a head line, or none."""
    names = [it.strip(BLANKS) for it in fields_of(line)]
    return next((at for at, it in enumerate(names) if it in (b"solution_plan", b'"solution_plan"')), None)


def column_of(text, column):
    """The text of one column of a CSV file, line by line. Within quotes no comma and no line's end parts two fields, and two quotes are one."""
    lines, field, quoted = [b""], 0, False
    for before, byte in zip(b" " + text, text):
        if byte == ord('"'):
            quoted = not quoted
            lines[-1] += b'"' if quoted and before == byte and field == column else b""
        elif byte == ord("\n"):
            lines, field = [*lines, b""], field if quoted else 0
        elif byte == ord(",") and not quoted:
            field += 1
        elif field == column:
            lines[-1] += bytes([byte])
    if quoted:
        raise Fault("open quote")
    return b"\n".join(lines)


def path_of_moves(line, text, flipped):
    """A path from 0,0, whose columns and rows go round."""
    path = [(0, 0)]
    for move in re.sub(rb"[, \t\r]", b"", text).decode("latin-1").lower():
        if move not in MOVES:
            raise Fault(f"bad move {len(path) - 1} in line {line}")
        x, y = MOVES[move]
        path.append(((path[-1][0] + x) % MOST_SIDE, (path[-1][1] + (-y if flipped else y)) % MOST_SIDE))
    return path


def by_moves(lines, text, flipped):
    column, paths = plans_in(lines[0][1]) if lines else None, []
    for line, row in lines if column is None else written(column_of(text, column))[1:]:
        if len(paths) == MOST_AGENTS:
            raise Fault(f"too many agents in line {line}")
        paths.append(path_of_moves(line, row, flipped))
    return paths


def form_of(lines):
    """The form that the first line tells which tells one; JSON is told by the first line alone."""
    if lines and lines[0][1].startswith(b"{"):
        return "json"
    for _, text in lines:
        if text.startswith(b"Agent "):
            return "agent"
        if words_of(text)[0] == b"path":
            return "session"
        if text == b"solution=" or numbered(text):
            return "time"
        if SCHEDULE.fullmatch(text) or text == b"statistics:":
            return "schedule"
        if ROW_OF_MOVES.fullmatch(text) or plans_in(text) is not None:
            return "moves"
    if any(b"=" in text for _, text in lines):
        return "time"
    raise Fault(f"no form of paths in line {lines[0][0]}" if lines else "no paths")


def read_paths(text, form=None):
    """The form of a text, its starts, its goals and its number of agents where it tells them, and its paths: of moves from 0,0."""
    text = text.removeprefix(b"\xef\xbb\xbf")
    lines, told = written(text), {}
    form = form or form_of(lines)
    if form == "time":
        told, paths = by_time(lines)
    elif form in ("moves", "flipped"):
        paths = by_moves(lines, text, form == "flipped")
    elif form == "json":
        told[b"starts"], told[b"agents"], paths = by_json(text)
    elif form == "schedule":
        paths = by_schedule(lines)
    else:
        paths = by_agent(lines) if form == "agent" else by_agents(lines, path_by_session)
    if not paths:
        raise Fault("no paths")
    return form, told.get(b"starts"), told.get(b"goals"), told.get(b"agents"), paths
