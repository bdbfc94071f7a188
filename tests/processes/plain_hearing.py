"""What the lines of a session are answered, by docs/PROTOCOL.md, as far as that hangs on no agent and no path."""
from .plain_forms import asked_by
from .plain_texts import labelled
from .plain_words import lines_of, words_of
from .running import want

MOST = 4096
NO_MORE = "no more answers"


def map_lines(lines):
    """How many lines the map has that a session begins with."""
    height, width = labelled(lines, 1, b"height"), labelled(lines, 2, b"width")
    is_header = None not in (height, width) and len(lines) > 3 and words_of(lines[3]) == [b"map"]
    return 4 + height if is_header and height <= 2048 else 4


def parted(text):
    """The text of the map, and that of the session behind it."""
    lines = lines_of(text)
    end = sum(len(it) + 1 for it in lines[: map_lines(lines)])
    return text[:end], text[end:]


class Hearing:
    """The answers of a session, heard one after the other."""

    def __init__(self, answers, limit):
        want("the end of the answers", answers[-1:] in ("", "\n"), True)
        self.answers, self.limit = iter(answers.splitlines()), limit
        self.version, self.gathered = 0, None

    def next(self):
        return next(self.answers, NO_MORE)

    def hear(self, answer):
        want("an answer", self.next(), answer)

    def hear_one(self, starts):
        answer = self.next()
        want(f"whether {answer!r} begins with one of {starts}", answer.startswith(starts), True)

    def hear_report(self):
        self.hear_one(("agents ",))
        while (line := self.next()) != "end":
            want("whether the report goes on", line != NO_MORE, True)

    def hear_commit(self, edits):
        """Hears the answer to a commit of so many edits, and tells whether it was accepted."""
        if self.version >= self.limit or not edits:
            self.hear(f"refused journal-full {self.limit}" if self.version >= self.limit else "refused no-edits")
            return False
        answer = self.next()
        if answer.startswith("refused faulty "):
            return False
        self.version += 1
        want("the answer to a commit", answer, f"version {self.version}")
        return True

    def hear_kept(self, line, at):
        """Hears that a watch or an edit is kept, unless there are then too many."""
        if self.gathered[at] == MOST:
            return self.hear(f"bad {line} full")
        self.gathered[at] += 1
        return self.hear("kept")

    def hear_gathering(self, line, asks):
        if asks in ("watch", "edit"):
            self.hear_kept(line, ("watch", "edit").index(asks))
        elif asks == "commit":
            self.gathered = None if self.hear_commit(self.gathered[1]) else self.gathered
        else:
            self.hear("cancelled")
            self.gathered = None

    def hear_line(self, line, asks):
        """Hears the answer to the line of that number, which asks for that."""
        if asks in ("bad word", "bad shape"):
            self.hear(f"bad {line} {asks[4:]}")
        elif asks == "begin":
            self.hear(f"base {self.version}")
            self.gathered = [0, 0]
        elif asks in ("watch", "edit", "commit", "cancel"):
            if self.gathered is not None:
                self.hear_gathering(line, asks)
            elif asks == "edit":
                self.hear_commit(1)
            else:
                self.hear(f"bad {line} notbegun")
        elif asks in ("version", "report"):
            self.hear(f"version {self.version}")
            if asks == "report":
                self.hear_report()
        elif asks == "distance":
            self.hear_one(("distance ", "refused unknown-agent", "refused out-of-map"))
        elif asks == "solves":
            self.hear_one(("solves yes", "solves no"))


def hear_all(session, answers, limit):
    """The answers are those to the session's lines, in their order, and no more. Tells how many lines it has."""
    hearing, lines = Hearing(answers, limit), lines_of(session)
    for line, text in enumerate(lines, 1):
        hearing.hear_line(line, asked_by(text))
    want("what else is answered", hearing.next(), NO_MORE)
    return len(lines)
