"""What a planner at a shared desk sees of it, kept piece by piece: its scene and its report, by what changes."""
import itertools

LISTED = ("vertex", "parked", "edge", "follow", "swap", "cycle", "visit")
HEADS = ("agents", "agent", "conflicts", *LISTED[:6], "blocked", "visit", "sum", "makespan", "bounds", "gap", "end")
NOBODY = 65535  # an agent that nobody has
TRIES = 10
AT_ONCE = 250  # lines, which any pipe holds
LOOKS, CELLS = 8, 32_768  # after as many looks all paths were asked for; cells that a look asks for in turn
HEAD, ROW, AGENT = range(3)  # what the pieces of a scene are: the lines before the map's rows, a row, an agent's two lines


def place_of(line):
    """Where a line stands in a report, and no other one does: by its head, then by its numbers."""
    head, *words = line.split(" ")
    many = 1 if head == "agent" else len(words) if head in LISTED else 0
    return HEADS.index(head), tuple(tuple(map(int, it.split(","))) for it in words[:many])


def named(place):
    """The agents, and of a visit the map's row, that the line at that place of a report names: their places in the scene."""
    head, words = HEADS[place[0]], place[1]
    agents = [(AGENT, *it) for it in (words[:1] if head in ("agent", "visit") else words[1:]) if len(it) == 1]
    return [*agents, (ROW, words[-1][1])] if head == "visit" else agents


def agent_of(answer):
    """The two lines of the agent whose plan is answered; none where it isn't there."""
    words = answer.split(" ", 4)
    return f"agent {words[1]} {words[3]} {words[2]}\npath {' '.join([words[1], *words[3:]])}" if words[0] == "plan" else None


class Watcher:
    """Keeps a picture of what a desk has: its report by `changes`, and the paths and cells that these or the entries of its log name. Without
    a log all cells are asked for in turn where `try` tells of edits of the map, and at each version all agents: a way round of the same
    length changes nothing of the report. The rows are the map's that the desk began with."""

    def __init__(self, seat, rows, picture, log=None):
        self.seat, self.size, self.picture, self.version = seat, (len(rows[0]), len(rows)), picture, None
        # The places of the scene where something may have changed, in the order in which they are asked for: of a row at which columns.
        self.edited, self.doubts = None, {}
        # Of each place of the scene the last answer.
        self.told = {(HEAD, 0): f"type octile\nheight {len(rows)}\nwidth {len(rows[0])}\nmap", **{(ROW, y): row for y, row in enumerate(rows)}}
        # `try` then tells of each edit of the map since: it makes the commit stale.
        self.ask_all(["begin", "watch map", f"drop {NOBODY}"])
        self.log, self.read = log and open(log, encoding="ascii"), 0  # up to which of its entries it is read

    def ask_all(self, lines):
        """The answers to lines, each of which has one of one line."""
        answers = []
        for at in range(0, len(lines), AT_ONCE):
            some = lines[at:at + AT_ONCE]
            self.seat.lines.write("".join(f"{it}\n" for it in some))
            self.seat.lines.flush()
            answers += [self.seat.hear() for _ in some]
        return answers

    def is_behind(self, seconds):
        """Whether there is something to look at, at the latest after so long."""
        return bool(self.doubts) or self.seat.ask(f"wait {self.version} {seconds}") != f"version {self.version}"

    def hear_report(self):
        """What changed in the report; all of it at first, and where the desk can't tell what changed."""
        answer, told = [""] if self.version is None else self.seat.ask(f"changes {self.version}"), {}
        if not answer[0].startswith("version "):
            told = dict.fromkeys(self.picture.texts["report"].places)
        while not answer[0].startswith("version "):
            answer = self.seat.ask("report")
        before, self.version = self.version, int(answer[0].split()[1])
        if self.log:
            self.read_log()
        elif before != self.version:
            self.doubts |= dict.fromkeys(it for it in self.picture.texts["scene"].places if it[0] == AGENT)
        for line in answer[1:]:
            if line.startswith("gone "):
                told[place_of(line[5:])] = None
            elif not line.startswith("since "):
                told[place_of(line)] = line
        return told

    def read_log(self):
        """Doubts the agents and cells that the log's entries name, up to the version."""
        while self.read < self.version:
            word, thing, *_ = self.log.readline().split(None, 2)
            if word in ("open", "close"):
                x, y = map(int, thing.split(","))
                self.doubts[ROW, y] = {*self.doubts.get((ROW, y), ()), x}
            elif word in ("agent", "drop", "goal", "path", "tail"):
                self.doubts[AGENT, int(thing)] = None
            elif word == "commit":
                self.read = int(thing)

    def hear_edits(self):
        """Doubts all cells if one was opened or closed."""
        edited = self.seat.ask("try")[0].split(" ")[3:]
        if edited != self.edited:
            self.doubts = dict.fromkeys(((ROW, y) for y in range(self.size[1])), range(self.size[0])) | self.doubts
            self.edited = edited

    def questions(self, place):
        kind, number = place
        return [f"plan {number}"] if kind == AGENT else [f"cell {x},{number}" for x in self.doubts[place]]

    def answered(self, place, answers):
        """What is at that place of the scene, by the answers to its questions."""
        if place[0] == AGENT:
            return next(answers)
        row = list(self.told[place])
        for x in self.doubts[place]:
            row[x] = "." if next(answers) == "cell open" else "@"
        return "".join(row)

    def hear_scene(self, places):
        """What is at those of these places of the scene now where it isn't as it was told last."""
        answers, found = iter(self.ask_all([line for place in places for line in self.questions(place)])), {}
        for place in places:
            told = self.answered(place, answers)
            if told != self.told.get(place):
                self.told[place] = told
                found[place] = agent_of(told) if place[0] == AGENT else told
        return found

    def is_whole(self, report, scene):
        """Whether each agent of the report is in the scene."""
        has = lambda place: report.get(place, self.picture.texts["report"].at.get(place))
        return not any(piece is None and has(place_of(f"agent {number}")) for (_, number), piece in scene.items())

    def due(self, told, is_first):
        """The places of the scene that are asked for now: those that the report names, and some where there is doubt, at first all."""
        agents, rows = ([it for it in self.doubts if it[0] == kind] for kind in (AGENT, ROW))
        if not is_first:
            agents = agents[:max(AT_ONCE, len(self.picture.texts["scene"].places) // LOOKS)]
            rows = rows[:max(1, CELLS // self.size[0])]
        return {it for place in told for it in named(place) if it[0] == AGENT or it in self.doubts}.union(agents, rows)

    def look(self):
        """Takes into the picture what has changed up to a version; if others commit each time that it looks, up to one of several.
        Says whether that version is a new one."""
        report, before = {}, self.version
        scene = dict(self.told) if before is None else {}
        for number in itertools.count():
            told = self.hear_report()
            if not self.log:
                self.hear_edits()
            places = self.due(told, before is None)
            report, scene = {**report, **told}, {**scene, **self.hear_scene(places)}
            self.doubts = {it: columns for it, columns in self.doubts.items() if it not in places}
            is_one = self.seat.ask("version") == f"version {self.version}"
            if self.is_whole(report, scene) and (is_one or number >= TRIES):
                break
        self.picture.change(self.version, report=report, scene=scene)
        return self.version != before
