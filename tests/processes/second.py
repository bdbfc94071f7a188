"""Version 2 of session lines: its questions in random sessions of serve, drill and host, beside a plain program."""
import random

from .chances import AGENTS, STARTS, some_commit, some_place
from .hosting import Hosted
from .plain import Scene, line_of
from .plain_histories import Kept
from .plain_questions import answer, changes
from .running import is_answered, is_run, put, remove, run, want

TASKS = "".join(f"0 f 3 2 {x} {y} {a} {b} 0\n" for (x, y), (a, b) in STARTS)
GROUND = ["--scen", "tasks", "--agents", "3"]


def with_ground(test):
    put("scene", Scene(3, 2, "stay").text().encode()), put("tasks", f"version 1\n{TASKS}".encode())
    test()
    remove("scene", "tasks")


def some_question(chance, version, longest):
    """A question, mostly of what is there; a wait is over at once where only others would commit meanwhile."""
    agent = lambda: chance.randrange(AGENTS)
    return chance.choice([
        ("report", *(agent() for _ in range(chance.randint(1, 3)))), ("report", agent()), ("report",), ("plan", agent()), ("cell", some_place(chance)),
        ("at", chance.randint(0, 6), some_place(chance)), ("at", chance.choice((0, 4294967295)), some_place(chance)),
        ("changes", chance.choice((0, version, version + 1, 2**64 - 1, *[max(0, version - chance.randint(1, 9))] * 4))),
        chance.choice([("wait", version + chance.randint(0, 2), longest), ("wait", max(0, version - 1), 86400 if version else longest), ("wait", 2**64 - 1, longest)]),
    ])


class Session:
    """A session of a planner over a plain desk: the answers to lines."""

    def __init__(self, desk, planner):
        self.desk, self.planner, self.gathered = desk, planner, None

    def commit(self, base, watch, edits):
        refusal = self.desk.refusal(base, watch, edits)
        if refusal is None:
            self.desk.enter(self.planner, base, watch, edits)
        return f"refused {refusal}" if refusal else f"version {len(self.desk.entries)}"

    def try_out(self):
        """What the commit of what is gathered would be answered, and would change; the desk stays as it is."""
        scene, version = self.desk.scene, len(self.desk.entries)
        refusal = self.desk.refusal(*self.gathered)
        later, self.desk.scene = self.desk.scene, scene
        return [f"refused {refusal}"] if refusal else [f"would {version + 1}", *changes(scene, version, later)]

    def gather(self, line):
        """Keeps an edit or a watch, or commits what is gathered."""
        base, watch, edits = self.gathered
        if line[0] == "watch":
            watch.append(line[1:])
        elif line[0] != "commit":
            edits.append(line)
        else:
            said = self.commit(base, watch, edits)
            self.gathered = self.gathered if said.startswith("refused") else None
            return said
        return "kept"

    def hear(self, line):
        """The lines of the answer."""
        version = len(self.desk.entries)
        if line[0] == "changes":
            return self.desk.since(line[1])
        if line[0] in ("report", "plan", "cell", "at", "wait"):
            return answer(self.desk.scene, version, line)
        if line[0] == "begin":
            self.gathered = [version, [], []]
            return [f"base {version}"]
        if line[0] == "cancel":
            self.gathered = None
            return ["cancelled"]
        if line[0] == "try":
            return self.try_out()
        return [self.gather(line) if self.gathered else self.commit(version, [], [line])]


def some_lines(chance, session, longest):
    """A few lines: a question, an edit, or one that gathers; what was refused is let go."""
    watch, edits = some_commit(chance, session.desk.scene)
    if chance.random() < 0.6:
        return [some_question(chance, len(session.desk.entries), longest)]
    if session.gathered:
        tries = [("try",)] * chance.randint(0, 1)
        return [*tries, *(("watch", *it) for it in watch), *edits, *tries, ("commit",), ("begin",), *[("cancel",)] * chance.randint(0, 1)]
    return [("begin",)] if chance.random() < 0.3 else edits[:1]


def conversation(chance, session, rounds, longest):
    """Lines of a session, and those of their answers."""
    for _ in range(rounds):
        for line in some_lines(chance, session, longest):
            yield line_of(line), session.hear(line)


def random_sessions():
    """60 sessions of serve with 80 steps each, in both modes and with several histories: each answer is the plain one. Nobody else commits, so
    no wait takes time."""
    chance, met = random.Random(22), set()
    for number in range(60):
        mode, most = chance.choice(("stay", "disappear")), chance.choice((0, 1, 12, 40, 1000000))
        said = list(conversation(chance, Session(Kept(mode, most), 0), 80, 86400))
        given, answers = "".join(it for it, _ in said), [line for _, lines in said for line in lines]
        met |= {it.split(" ")[0] for it in answers} | {" ".join(it.split()[:2]) for it in answers}
        words = ["serve", "--map", "scene", *GROUND, "--mode", mode, "--lines", "2", *[f"--history={most}"] * (most < 1000000)]
        is_answered(words, given.encode(), "".join(f"{it}\n" for it in answers))
    wanted = {"vertex", "parked", "follow", "swap", "visit", "plan", "at 0", "at 1", "at 2", "cell open", "cell closed",
              "would", "since", "refused ahead", "refused forgotten", "gone agent", "gone vertex", "gone visit", "refused unknown-agent", "refused out-of-map", "refused faulty", "refused no-edits"}
    want("what was not met", wanted - met, set())


def words_of_version_1():
    """In version 1, with `--lines 1` or without, the words of version 2 are unknown, and a report of some agents has too many words."""
    lines = b"plan 0\ncell 0,0\nat 0 0,0\nwait 0 0\nreport 0\nwait\ntry\nchanges 0\nchanges\nversion\n"
    bad = "bad 1 word\nbad 2 word\nbad 3 word\nbad 4 word\nbad 5 shape\nbad 6 word\nbad 7 word\nbad 8 word\nbad 9 word\nversion 0\n"
    for words in ([], ["--lines", "1"]):
        is_answered(["serve", "--map", "m", *words], lines, bad)
        put("script", lines)
        want("the counts", run(["drill", "-v", "--map", "m", *words, "script"])[2], "  script: 1 accepted, 0 refused, 9 bad\n")
    put("script.in", b"")
    is_answered(["host", "--map", "m", "--lines", "1", "script"], lines, f"{bad}audit same\n")
    remove("script", "script.in", "script.out")


SHAPES = b"plan\nplan 0 1\nplan x\nplan 65536\ncell\ncell 0\ncell 0,0 1,1\ncell 2048,0\nat 0\nat 0,0\nat x 0,0\nat 4294967296 0,0\nat 0 0,0 1\n" \
         b"wait\nwait 0\nwait 0 0 0\nwait 0 86401\nwait 0 x\nwait x 0\nwait 18446744073709551616 0\nreport x\nreport 0 x\nreport 65536\ntry 0\n" \
         b"changes\nchanges x\nchanges 0 0\nchanges 0 x\nchanges -1\nchanges +0\nchanges 18446744073709551616\nchanges 0,0\n"
GOOD = b"# plan\n\nplan 00\ncell 2047,2047\nat 4294967295 0,0\nwait 18446744073709551615 86400\nwait 00 00\nreport 0 0\nchanges 18446744073709551615\n\tchanges  00\n"


def shapes_and_ranges():
    """Words that don't fit are told before anything is asked; numbers may have leading zeros, and remarks have no answer."""
    bad = "".join(f"bad {line} shape\n" for line in range(1, SHAPES.count(b"\n") + 1))
    is_answered(["serve", "--map", "m", "--lines", "2"], SHAPES, bad)
    answers = "refused unknown-agent\nrefused out-of-map\nat 0\nversion 0\nversion 0\nrefused unknown-agent\nrefused ahead 0\n"
    answers += "version 0\nsince 0\nagents 0\nconflicts 0\nblocked 0\nsum 0\nmakespan 0\nbounds 0\ngap 0\nend\n"
    is_answered(["serve", "--map", "m", "--lines", "2"], GOOD, answers)
    want("the status of another version", [run([*it, "--lines", "0"])[0] for it in (["serve"], ["drill", "--map", "m", "one"], ["host", "--map", "m", "a"])], [2] * 3)


def drills_with_questions():
    """Scripts with questions leave what their edits leave, and each line is counted as the plain program answers it."""
    chance = random.Random(5)
    for _ in range(20):
        session = Session(Kept("stay"), 1)
        said = list(conversation(chance, session, 40, 0))
        put("script", "".join(it for it, _ in said).encode())
        refused = sum(lines[0].startswith("refused") for _, lines in said)
        report = f"version {len(session.desk.entries)}\n{session.desk.scene.report()}audit same\n"
        words = ["drill", "--map", "scene", *GROUND, "--lines", "2", "-v", "script"]
        is_run(words, b"", (0, report, f"  script: {len(said) - refused} accepted, {refused} refused, 0 bad\n"))
    remove("script")


def hosted_questions():
    """The operator and three planners commit and ask by turns, in version 2, which is the usual one of host: each answer is the plain one."""
    chance, desk, tried = random.Random(8), Kept("stay"), set()
    with Hosted(["p1", "p2", "p3"], *GROUND, ground="scene") as hosted:
        sessions, operator = [(seat, Session(desk, number)) for number, seat in enumerate(hosted.seats(), 1)], Session(desk, 0)
        for _ in range(400):
            seat, session = chance.choice(sessions)
            for line in some_lines(chance, session, 0):
                seat.send(line_of(line).encode())
                answers = session.hear(line)
                tried |= {answers[0].rstrip("0123456789 ")[:13]} if line == ("try",) else set()
                for said in answers:
                    want(f"an answer to {line}", seat.hear(), said.encode())
            question = some_question(chance, len(desk.entries), 0)
            hosted.operator.ask(line_of(question).encode(), "".join(f"{it}\n" for it in operator.hear(question)).encode())
        for seat, _ in sessions:
            seat.close()
        hosted.ends(0, b"audit same\n", b"")
    want("whether trials were let pass and refused as stale", tried >= {"would", "refused stale"}, True)


def tests():
    for test in (random_sessions, drills_with_questions, hosted_questions):
        yield test.__name__, lambda test=test: with_ground(test)
    for test in (words_of_version_1, shapes_and_ranges):
        yield test.__name__, test
