"""A worked session at every level that one reaches: behind a map, over a desk, from its journal, by an audit, through windows, as a drill."""
import contextlib

from .hosting import Hosted
from .plain import Scene
from .running import Wrong, bytes_of, is_answered, put, remove, want

WORKERS = (1, 2, 3, 64)
EDITS = ("agent", "drop", "goal", "path", "tail", "open", "close")


@contextlib.contextmanager
def at(level):
    """What is wrong within is told with the level, a journal that isn't to be read too."""
    try:
        yield
    except (Wrong, LookupError, ValueError) as why:
        raise Wrong(f"{level}: {why}") from None


def word_of(text):
    """A word of an edit's line: a cell or a number."""
    return tuple(map(int, text.split(","))) if "," in text else int(text)


def plain_report(map_text, mode, journal):
    """What a session is told last whose journal that is, by the plain program of the rules."""
    rows = map_text.decode().split("\n")[4:-1]
    scene = Scene(len(rows[0]), len(rows), mode)
    scene.closed = frozenset((x, y) for y, row in enumerate(rows) for x, letter in enumerate(row) if letter not in ".GS")
    lines = [it.split(" ") for it in journal.decode().splitlines()]
    for kind, *words in lines:
        if kind in EDITS:
            edit = (kind, *map(word_of, words))
            want(f"the fault of {edit}", scene.fault(edit), None)
            scene.make(edit)
    return f"version {lines[-1][1]}\n{scene.report()}"


class Session:
    """A worked session: its lines, the answers, and once it is over a desk the report of the scene that it leaves."""

    def __init__(self, example, words):
        self.map, self.text, self.answers = example.map(), example.text("session"), example.wanted("answers")
        self.count = self.text.count(b"\n") + (self.text[-1:] not in (b"", b"\n"))
        self.mode, self.limit = example.value("mode") or "stay", example.value("limit")
        self.scene, self.over_map = words, words[2:]  # behind `--map FILE`
        self.bounds = ["--limit", self.limit] if self.limit else []
        self.version = ["--lines", example.value("version") or "1"]
        self.journal, self.report = example.text("journal"), ""

    def going_on(self):
        """The session with a report behind it, and a bad line that tells how many there were, with the answers."""
        end = b"" if self.text[-1:] in (b"", b"\n") else b"\n"
        return self.text + end + b"report\n!\n", f"{self.answers}{self.report}bad {self.count + 2} word\n"

    def heard(self, words, front=b""):
        """The session is answered, to a last line without its end too; so is one that goes on."""
        is_answered(words, front + self.text, self.answers)
        lines, answers = self.going_on()
        is_answered(words, front + lines, answers)


def is_saved_again(session):
    want("the journal saved again", bytes_of("worked_again"), session.journal)
    remove("worked_again")


def over_a_desk(session):
    """Its journal is the example's, if that has one, and tells the plain report."""
    words = ["serve", *session.scene, *session.bounds, *session.version]
    remove("worked_kept", "worked_again")
    is_answered([*words, "--save", "worked_kept"], session.text, session.answers)
    kept = bytes_of("worked_kept")
    want("the journal", kept, kept if session.journal is None else session.journal)
    session.journal, session.report = kept, plain_report(session.map, session.mode, kept)
    session.heard(words)


def behind_a_map(session):
    session.heard(["serve", *session.over_map, *session.bounds, *session.version], session.map)


def from_its_journal(session):
    """Another session begins where the journal ends, and saves the same; an audit by any number of workers tells the same report."""
    words = [*session.scene, "--journal", "worked_kept"]
    is_answered(["serve", *words, *session.bounds, "--save", "worked_again"], b"report\n", session.report)
    is_saved_again(session)
    for workers in WORKERS:
        is_answered(["audit", *words, "--workers", str(workers)], b"", session.report)


def through_windows(session, workers):
    """The operator has the session, and a planner at its pipes asks for the report behind it, both over one shared desk, which is audited at its end.

    On another such desk a planner at its files has the session, and goes on.
    """
    words = ["-v", *session.scene[2:], *session.bounds, *session.version, "--save", "worked_again", "--workers", str(workers)]
    with Hosted(["east"], *words, ground=session.scene[1]) as hosted:
        hosted.operator.send(session.text + (b"\n" if session.text[-1:] not in (b"", b"\n") else b""))
        hosted.operator.process.stdin.close()
        count = b"1 line" if session.count == 1 else b"%d lines" % session.count
        want("the operator's end", hosted.operator.process.stderr.readline(), b"mapf_desk: operator: %s\n" % count)
        [east] = hosted.seats()
        east.send(b"report\n")
        heard = [east.hear() or b"" for _ in range(session.report.count("\n"))]
        want("the report", b"\n".join([*heard, b""]).decode(), session.report)
        east.close()
        hosted.ends(0, session.answers.encode() + b"audit same\n", b"mapf_desk: east: has come\nmapf_desk: east: 1 line\n")
    is_saved_again(session)
    lines, answers = session.going_on()
    put("west.in", lines)
    is_answered(["host", *session.scene, *session.bounds, *session.version, "west"], b"", "audit same\n")
    want("the planner's answers", bytes_of("west.out").decode(), answers)
    remove("west.in", "west.out")


def as_a_drill(session, workers):
    """The session is a drill's only script. A drill has no limit to its journal but that of all."""
    is_answered(["drill", *session.scene, *session.version, "--workers", str(workers), "worked_script"], b"", f"{session.report}audit same\n")


def levels(example, words):
    """The session of the example is answered as written at each level, and reported alike."""
    session = Session(example, words)
    for level in (over_a_desk, behind_a_map, from_its_journal):
        with at(level.__name__):
            level(session)
    put("worked_script", session.text)
    for workers in WORKERS if session.limit else (4,):
        with at("through_windows"):
            through_windows(session, workers)
    for workers in () if session.limit else WORKERS:
        with at("as_a_drill"):
            as_a_drill(session, workers)
    remove("worked_script", "worked_kept")
