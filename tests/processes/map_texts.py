"""Texts of maps and scenarios that are read or refused, each with what is told of it, written by hand."""
from .edited_maps import are_tasks, is_map
from .running import is_fault, put, remove, want

LETTERS = b"type octile\r\nheight 1\r\nwidth 7\r\nmap\r\n.GS@OTW\r\n"
OPEN, SEVEN = [[True] * 3], [[True] * 3 + [False] * 4]

# Maps that are read, and of each cell of a row whether it is open.
MAPS = [
    (LETTERS, SEVEN),
    (b"type octile\nheight 1\nwidth 7\nmap\n...@@@@\n", SEVEN),
    (b"type octile\nheight 1\nwidth 3\nmap\n...\n\n\n", OPEN),
    (b"type octile\nheight 1\nwidth 3\nmap\n...", OPEN),
    (b" type\toctile \r\n\theight  0001\nwidth 3\t\nmap\n... \t\r\n \n", OPEN),
]
FAULTY_MAPS = [
    (b"", "not octile"),
    (b"type tile\n", "not octile"),
    (b"\ntype octile\n", "not octile"),
    (b"type octile\n", "bad header in line 2"),
    (b"type octile\nwidth 3\n", "bad header in line 2"),
    (b"type octile\nheight 4294967296\n", "bad header in line 2"),
    (b"type octile\nheight +1\n", "bad header in line 2"),
    (b"type octile\nheight 1\nwidth 3 3\n", "bad header in line 3"),
    (b"type octile\nheight 0\nwidth 3\n", "bad header in line 4"),
    (b"type octile\nheight 0\nwidth 3\nmap\n", "bad size"),
    (b"type octile\nheight 4294967295\nwidth 3\nmap\n", "bad size"),
    (b"type octile\nheight 2048\nwidth 513\nmap\n", "bad size"),
    (b"type octile\nheight 1\nwidth 2\nmap\n.x\n", "bad letter in row 0, column 1"),
    (b"type octile\nheight 1\nwidth 2\nmap\n...\n", "long row 0"),
    (b"type octile\nheight 1\nwidth 2\nmap\n .\n", "bad letter in row 0, column 0"),
    (b"type octile\nheight 2\nwidth 3\nmap\n...\n..", "short row 1"),
    (b"type octile\nheight 2\nwidth 3\nmap\n...\n", "missing row 1"),
    (b"type octile\nheight 2\nwidth 3\nmap\n\n...\n", "short row 0"),
    (b"type octile\nheight 1\nwidth 3\nmap\n...\nx\n", "extra line 6"),
    (b"type octile\nheight 1\nwidth 3\nmap\n...\n \t\r\n...", "extra line 7"),
]
# What the fronts of LETTERS are up to each number of bytes.
FRONTS = [(10, "not octile"), (20, "bad header in line 2"), (29, "bad header in line 3"), (34, "bad header in line 4"), (37, "missing row 0"),
          (43, "short row 0"), (46, None)]

# Scenarios for a map of 3 x 2 cells, and their tasks.
SCENS = [
    (b"version 1.0", []),
    (b"version 1\r\n\r\n", []),
    (b"version 1\n\n0 m 3 2 0 0 2 1 x\n \t\n7 m 003 2 1 1 1 1 x\r\n", [((0, 0), (2, 1)), ((1, 1), (1, 1))]),
]
FAULTY_SCENS = [
    (b"", "bad version"),
    (b"version 2\n", "bad version"),
    (b"version 1.00\n", "bad version"),
    (b"version 1\n0 m 3 2 3 0 2 1 1\n", "out of map in line 2, field 5"),
    (b"version 1\n0 m 3 2 0 2 3 1 1\n", "out of map in line 2, field 6"),
    (b"version 1\n0 m 3 2 0 0 3 2 1\n", "out of map in line 2, field 7"),
    (b"version 1\n0 m 3 2 0 0 2 2 1\n", "out of map in line 2, field 8"),
    (b"version 1\n0 m 3 2 0 -1 2 1 1\n", "bad number in line 2, field 6"),
    (b"version 1\n4294967296 m 4 2 0 x 2 1 1\n", "bad number in line 2, field 1"),
    (b"version 1\n0 m 3 2 0 0 2 1\n", "field count in line 2"),
    (b"version 1\n0 m 3 2 0 0 2 1 1 1\n", "field count in line 2"),
    (b"version 1\n0 m 3 2 0 0 2 1 1\n\n0 m 3 2 0 0 2 1", "field count in line 4"),
    (b"version 1\n0 m 4 2 0 0 2 1 1\n", "size mismatch in line 2"),
    (b"version 1\n0 m 3 3 9 0 2 1 1\n", "size mismatch in line 2"),
]


def is_refused(text, words, why):
    put("edited", text)
    is_fault(["serve", *words, "edited"], why)


def maps_by_their_texts():
    for text, rows in MAPS:
        put("edited", text)
        is_map(text, rows)
    for text, why in FAULTY_MAPS:
        is_refused(text, ["--map"], f"map: {why}")


def prefixes_of_a_map():
    """Each front is refused for that, or is the whole map."""
    want("the bytes", len(LETTERS), FRONTS[-1][0])
    for end in range(len(LETTERS) + 1):
        why = next(it for most, it in FRONTS if end <= most)
        if why:
            is_refused(LETTERS[:end], ["--map"], f"map: {why}")
        else:
            put("edited", LETTERS[:end])
            is_map(LETTERS[:end], SEVEN)


def scenarios_by_their_texts():
    put("open", b"type octile\nheight 2\nwidth 3\nmap\n...\n...\n")
    for text, tasks in SCENS:
        put("edited", text)
        are_tasks(tasks)
    for text, why in FAULTY_SCENS:
        is_refused(text, ["--map", "open", "--scen"], f"scen: {why}")


def tidied(test):
    test()
    remove("open", "edited")


def tests():
    for test in (maps_by_their_texts, prefixes_of_a_map, scenarios_by_their_texts):
        yield test.__name__, lambda test=test: tidied(test)
