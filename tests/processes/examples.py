"""The worked examples of tests/worked, texts by hand: each has a name, and sections of lines under a key.

In these lines `\\t`, `\\r`, `\\n`, `\\\\` and `\\xff` stand for those bytes, `{3 TEXT}` for TEXT three times, and a `\\` at a line's end
for no line feed there.
"""
import os
import re

from .running import TOP, Wrong, want

WORKED = f"{TOP}/tests/worked"
KEYS = {"map", "mode", "limit", "version", "session", "answers", "journal", "scenario", "agents", "input", "lines", "script", "upgrade", "printed"}
REPEATED = re.compile(r"\{(\d+) ([^}]*)\}")
ESCAPED = re.compile(r"\\(?:x([0-9a-f]{2})|([trn\\]))")
ESCAPES = {"t": "\t", "r": "\r", "n": "\n", "\\": "\\"}


def written_out(line):
    """The bytes that a line of an example stands for."""
    text, end = (line[:-1], "") if line.endswith("\\") else (line, "\n")
    text = ESCAPED.sub(lambda it: chr(int(it[1], 16)) if it[1] else ESCAPES[it[2]], text)
    return (REPEATED.sub(lambda it: it[2] * int(it[1]), text) + end).encode("latin-1")


class Example:
    """A worked example: its name, and of each section its key, the value behind that, and its lines as they are written."""

    def __init__(self, text):
        self.name, *parts = re.split(r"\n-- ", text)
        self.sections = []
        for part in parts:
            heading, _, lines = part.partition("\n")
            key, _, value = heading.partition(" ")
            self.sections.append((key, value, lines.splitlines()))

    def are_known(self):
        want(f"what is unknown in {self.name}", {key for key, _, _ in self.sections} - KEYS, set())

    def texts(self, key):
        """The texts of all sections under that key."""
        return [b"".join(map(written_out, lines)) for it, _, lines in self.sections if it == key]

    def text(self, key):
        """The text under that key; none where no section has it."""
        return next(iter(self.texts(key)), None)

    def wanted(self, key):
        """The text under a key that an example of its kind has to have."""
        text = self.text(key)
        if text is None:
            raise Wrong(f"{self.name} says nothing of {key}")
        return text.decode()

    def value(self, key):
        """What stands behind that key; none where no section has it."""
        return next((value for it, value, _ in self.sections if it == key), None)

    def map(self):
        """The map's text, of which an example may give the rows alone."""
        text = self.text("map")
        if text is None or self.value("map") == "text":
            return text
        rows = text.split(b"\n")[:-1]
        return b"type octile\nheight %d\nwidth %d\nmap\n" % (len(rows), len(rows[0])) + text


def examples():
    """The examples of all files; what stands before the first one of a file is a remark."""
    for file in sorted(os.listdir(WORKED)):
        if file.endswith(".txt"):
            with open(f"{WORKED}/{file}", encoding="ascii", newline="\n") as opened:
                yield from map(Example, re.split(r"\n== ", opened.read().rstrip("\n"))[1:])
