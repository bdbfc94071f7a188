"""Files of paths as JSON, as written for robots that don't turn, cut off and edited: what `check` says beside the plain reader. And random
paths written as such files, with anything beside them that JSON lets stand, which read back as them.
"""
import json
import random
import re

from .edited_paths import SIZES, are_judged, compare, is_judged, report_of, with_maps
from .edits import Edits
from .lenient_paths import walk
from .plain_json import MOVES
from .running import put, remove, want

LIKELY = b' \t\r\n{}[],,::""\\-+.eE0123456789trufalsnUDLRWFx'
# As the League of Robot Runners writes it; laid out, with members that say nothing; planned paths; what differs; twice, and escaped.
TEXTS = [
    b'{"actionModel":"MAPF","teamSize":2,"start":[[0,0,"E"],[2,3,"E"]],"actualPaths":["R,R","U,W"]}\n',
    b'\xef\xbb\xbf\r\n{\r\n "version" : "2024", "AllValid": "Yes",\r\n "teamSize": 1,\r\n "start": [[1, 2]],\r\n "plannerPaths": ["r d,d"],\r\n'
    b' "errors": [[0, -1, 2.5e+1, "late"], {}], "tasks": null, "done": true\r\n}\r\n\r\n',
    b'{"start":[[0,2047,"N"],[11,7,"S"],[5,0,"W"]],"plannerPaths":["W"],"actualPaths":["","l,L,u",",D"],"events":[[[0,1,"assigned"]],[]]}',
    b'{\n  "teamSize": 3,\n  "start": [\n    [0, 0], [1, 1]\n  ],\n  "actualPaths": ["R,U", "W"]\n}\n',
    b'{"teamSize":9,"start":[[1,1]],"actualPaths":["R"],"teamSize":1,"te\\u0061m":"\\ud83d\\ude00 \\n\xc3\xa9","n":[1E3,-0,0.25,1e-400]}',
    b'{"actionModel":"MAPF_T","teamSize":1,"start":[[0,0,"E"]],"actualPaths":["F,R"]}\n',
    b'{"teamSize":0,"start":[],"actualPaths":[]}',
]
ANSWERS = {
    "read by json", "bad JSON in line, column", "actionModel MAPF_T turns robots", "actionModel isn't MAPF", "teamSize is no number", "start is no list",
    "bad start of agent", "no list actualPaths or plannerPaths", "bad move of agent", "no paths", "no form of paths in line",
}


def edited_json():
    chance = random.Random(43)
    edits = Edits(chance, LIKELY)
    rows = [(edits.edited(TEXTS), chance.choice([None, "json"]), chance.choice(SIZES)) for _ in range(1500)]
    want("the kinds of answers that no file has", ANSWERS - {"teamSize is no number"} - set(compare(rows)), set())


def fronts_of_json():
    """Every front of each text, where the form is named and where it isn't."""
    compare([(text[:end], chosen, SIZES[end % 4]) for text in TEXTS for end in range(len(text) + 1) for chosen in (None, "json")])


def other_values():
    """A member, an item or a value within one is another value, or isn't there."""
    chance, rows = random.Random(44), []
    values = [None, True, False, 0, 1, 2, 8, -1, 2047, 2048, 2**32 - 1, 2**32, 2**64, 1.0, "", "R", "MAPF", "MAPF_T", "x", [], [0], [0, 0], [[0, 0]], ["W"], {}]
    for _ in range(600):
        told = {"actionModel": "MAPF", "teamSize": 2, "start": [[0, 0, "E"], [2, 3]], "actualPaths": ["R,R", "U,W"], "plannerPaths": ["W"]}
        for _ in range(chance.randrange(1, 3)):
            name = chance.choice(sorted(told))
            place = chance.choice([told, told[name]]) if isinstance(told[name], list) and told[name] else told
            key = name if place is told else chance.randrange(len(place))
            if place is told and chance.randrange(3) == 0:
                del told[key]
            else:
                place[key] = chance.choice(values)
        rows.append((json.dumps(told).encode(), None, SIZES[0]))
    want("the kinds of answers", set(compare(rows)), ANSWERS - {"no form of paths in line", "bad JSON in line, column"})


def deep_json():
    """Lists that stand as deep as they may, and deeper; a text that is no UTF-8, and halves of pairs."""
    plain = b'{"start":[[0,0]],"actualPaths":["W"],"x":%s}'
    inner = [b"[" * n + b"]" * n for n in (125, 126, 127, 128)] + [b"[" * 200, b'"\xff"', b'"\\ud800"', b'"\\udc00\\ud800"', b'"\\ud800\\udc00"', b"1e308", b"-1e309"]
    want("the kinds of answers", compare([(plain % it, None, SIZES[0]) for it in inner]), [
        *["read by json"] * 2, *["bad JSON in line, column"] * 6, *["read by json"] * 2, "bad JSON in line, column"])


def letters_of(path):
    names = {by: name for name, by in MOVES.items()}
    return [names[x - a, y - b] for (a, b), (x, y) in zip(path, path[1:])]


def written(chance, paths):
    """The paths as JSON, with members of other names between."""
    moves = [chance.choice([",", "", ", "]).join(chance.choice([it, it.upper()]) for it in letters_of(path)) for path in paths]
    starts = [[path[0][1], path[0][0], *chance.choice([[], ["E"], ["N", 1]])] for path in paths]
    name = chance.choice(["actualPaths", "plannerPaths"])
    members = [("start", starts), (name, moves), *chance.choice([[], [("teamSize", len(paths))]]), *chance.choice([[], [("actionModel", "MAPF")]])]
    members += [("plannerPaths", ["D"])] * (name == "actualPaths" and chance.randrange(2))
    members += chance.choices([("sumOfCost", 3), ("errors", [[1, -2.5, None, {"a": [True]}]]), ("{", "}]\",\n\u00e9"), ("start ", [[9]])], k=chance.randrange(4))
    text = json.dumps(dict(chance.sample(members, len(members))), indent=chance.choice([None, 1, "\t"]), ensure_ascii=chance.random() < 0.5)
    return (chance.choice(["", "\ufeff", "\n \t"]) + text.replace("\n", chance.choice(["\n", "\r\n"])) + chance.choice(["", "\n", "\r\n\n"])).encode()


def json_read_back():
    """Random paths are read back, where the form is named and where it isn't."""
    chance, rows = random.Random(45), []
    for _ in range(300):
        paths = [walk(chance) for _ in range(chance.randrange(1, 7))]
        rows.append((written(chance, paths), ("", None, "", report_of([it[-1] for it in paths], paths, ""))))
    words = ["--map", "closed_%d_%d" % SIZES[0]]
    for text, reading in rows[:30]:
        put("edited", text)
        is_judged(text, [*words, "--paths", "edited"], *reading)
    are_judged(words, rows)
    are_judged([*words, "--form", "json"], rows)


def tests():
    for test in (edited_json, fronts_of_json, other_values, deep_json, json_read_back):
        yield test.__name__, lambda test=test: with_maps(test)
