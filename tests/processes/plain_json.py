"""A plain reader of paths as JSON, by docs/FILES.md, and where a text is no object of JSON: the first byte that may not stand there."""
import json
import re

from .plain_words import Fault

MOST_AGENTS = 8192
MOST_SIDE = 2048  # columns or rows; moves go on from the last to the first
DEEPEST = 127  # lists and objects that stand within another
MOVES = {"u": (0, -1), "d": (0, 1), "l": (-1, 0), "r": (1, 0), "w": (0, 0)}
# The longest front of each that may stand, and the whole.
TEXT = re.compile(rb'"(?:[^"\\\x00-\x1f]|\\["\\/bfnrt]|\\u[0-9a-fA-F]{4})*(\\(?:u[0-9a-fA-F]{0,3})?)?')
POWER = rb"(?:[eE](?:[+-]?[0-9]*)?)?"
FRONT = re.compile(rb"-?(?:(?:0|[1-9][0-9]*)(?:\.(?:[0-9]+" + POWER + rb")?|" + POWER + rb"))?")
NUMBER = re.compile(rb"-?(?:0|[1-9][0-9]*)(?:\.[0-9]+)?(?:[eE][+-]?[0-9]+)?")


class Broken(Exception):
    """Where a text goes wrong."""


def blanks(text, at):
    return at + len(text[at:]) - len(text[at:].lstrip(b" \t\r\n"))


def due(text, at, mark):
    """Behind blanks and that byte."""
    at = blanks(text, at)
    if text[at : at + 1] != mark:
        raise Broken(at)
    return at + 1


def behind_text(text, at):
    front = TEXT.match(text, at)
    if not front:
        raise Broken(at)
    if front[1] or text[front.end() : front.end() + 1] != b'"':
        raise Broken(front.end())
    return front.end() + 1


def behind_list(text, at, end, item):
    """Behind the items and what ends them, where the opening bracket stands before."""
    if text[blanks(text, at) :][:1] == end:
        return blanks(text, at) + 1
    while True:
        at = blanks(text, item(text, blanks(text, at)))
        if text[at : at + 1] != b",":
            return due(text, at, end)
        at += 1


def behind_member(text, at):
    at = due(text, behind_text(text, at), b":")
    return behind_value(text, blanks(text, at))


def behind_value(text, at):
    """Behind the value that begins there."""
    first = text[at : at + 1]
    if first == b"{":
        return behind_list(text, at + 1, b"}", behind_member)
    if first == b"[":
        return behind_list(text, at + 1, b"]", behind_value)
    if first == b'"':
        return behind_text(text, at)
    for word in (b"true", b"false", b"null"):
        if first == word[:1]:
            same = next((n for n in range(len(word)) if text[at + n : at + n + 1] != word[n : n + 1]), len(word))
            if same < len(word):
                raise Broken(at + same)
            return at + same
    end = FRONT.match(text, at).end()
    if end == at or not NUMBER.fullmatch(text, at, end):
        raise Broken(end)
    return end


def broken_at(text):
    """Where a text that is no object of JSON goes wrong: its line from 1, and how many bytes of that stand before."""
    try:
        at = blanks(text, 0)
        if text[at : at + 1] != b"{":
            raise Broken(at)
        at = blanks(text, behind_value(text, at))
    except Broken as why:
        (at,) = why.args
    return text.count(b"\n", 0, at) + 1, at - (text.rfind(b"\n", 0, at) + 1)


class Members(list):
    """The members of an object, each with its key."""


def is_plain(value, depth=0):
    """Whether no text has half of a surrogate pair, no number is beyond all floats, and no list or object stands too deep."""
    if isinstance(value, str):
        return not re.search("[\ud800-\udfff]", value)
    if isinstance(value, float):
        return abs(value) != float("inf")
    if not isinstance(value, list):
        return True
    inner = [it for member in value for it in member] if isinstance(value, Members) else value
    return depth < DEEPEST and all(is_plain(it, depth + 1) for it in inner)


def number_in(text):
    """An integer of JSON; -0 and long ones are floats."""
    return float(text) if text == "-0" or len(text) > 30 else int(text)


def refuse(word):
    raise ValueError(word)


def object_in(text):
    """The members of the object that a text is, of which the last one of a name counts."""
    try:
        value = json.loads(text.decode(), object_pairs_hook=Members, parse_int=number_in, parse_constant=refuse)
    except ValueError:
        value = None
    if not isinstance(value, Members) or not is_plain(value):
        raise Fault("bad JSON in line %d, column %d" % broken_at(text))
    return dict(value)


def is_below(value, most):
    return type(value) is int and 0 <= value < most


def start_in(value, agent):
    """The cell of a list whose first two are a row and a column."""
    if type(value) is not list or len(value) < 2 or not all(is_below(it, MOST_SIDE) for it in value[:2]):
        raise Fault(f"bad start of agent {agent}")
    return value[1], value[0]


def path_in(value, agent, start):
    """The path of moves from a start."""
    path = [start]
    for move in re.sub("[, \t\r]", "", value).lower() if type(value) is str else "-":
        if move not in MOVES:
            raise Fault(f"bad move {len(path) - 1} of agent {agent}")
        path.append(tuple((a + b) % MOST_SIDE for a, b in zip(path[-1], MOVES[move])))
    return path


def listed(items, read):
    """Each of the items as it is read, in their order, by its agent."""
    found = []
    for agent, it in enumerate(items):
        if agent == MOST_AGENTS:
            raise Fault("too many agents")
        found.append(read(it, agent))
    return found


def by_json(text):
    """The starts, the number of agents, and the paths."""
    members = object_in(text)
    model, size = members.get("actionModel", "MAPF"), members.get("teamSize", 0)
    if model != "MAPF":
        raise Fault("actionModel MAPF_T turns robots" if model == "MAPF_T" else "actionModel isn't MAPF")
    if not is_below(size, 2**32):
        raise Fault("teamSize is no number")
    if type(members.get("start")) is not list:
        raise Fault("start is no list")
    starts = listed(members["start"], start_in)
    told = members.get("actualPaths", members.get("plannerPaths"))
    if type(told) is not list:
        raise Fault("no list actualPaths or plannerPaths")
    paths = listed(told, lambda value, agent: path_in(value, agent, starts[agent] if agent < len(starts) else (0, 0)))
    return starts, members.get("teamSize"), paths
