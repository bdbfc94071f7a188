"""`demo/live.py`: while planners commit, pages in browsers show what they committed, as a plain scene (plain.py) has it."""
import importlib
import json
import os
import random
import signal
import socket
import subprocess
import sys
import threading
import time

from .browsing import Browser
from . import shapes
from .chances import some_edit, walk
from .hosting import Seat
from .pages import text_of
from .plain import Scene, line_of
from .plain_questions import answer, changes
from .running import PATIENCE, STARTED, TOP, Program, Wrong, put, remove, second, want
from .viewing import HEADS, is_drawn, view

DEMO = "LIVE_DEMO"  # in the environment the folder whose demo/ is run in place of the repository's
LIVE = f"{os.environ.get(DEMO, TOP)}/demo/live.py"
NAMES = ["north", "east", "south", "west"]
COMMITS, BURST = 40, 150
LARGE, SIDE, ROUNDS = 1000, 128, 20  # a fleet that has some 10,000 conflicts, and how many commits of it are followed
SIZE, WALLS, LITTLE = (2048, 512), 12, 10_000  # the largest map, how many walls are built on it, and as many bytes as one may cost
SHOWN = (*HEADS, "unfinished")
TOTALS = ("sum", "makespan", "bounds", "gap")
SEEN = """
const text = (id) => document.getElementById(id).textContent;
const [kinds, totals] = arguments;
return ['live', 'scene', 'report', 'verdict', 'about', 'listed', ...kinds.map((it) => 'count-' + it), ...totals.map((it) => 'total-' + it)].map(text);"""


def right(scene, version, report=None):
    """What a page is to show of the scene and its report, by the plain program: both texts, the verdict, how many there are of each, the totals."""
    report = report or scene.report()
    lines = report.splitlines()
    heads = [it.split()[0] for it in lines]
    counts = {it: heads.count(it) for it in HEADS}
    counts["unfinished"] = sum(" goal no " in it for it in lines)
    wrong = [it for it in ("vertex", "parked", "swap", "visit", "unfinished") if counts[it]]
    verdict = "\u2717 does not solve (vertex, swap)" if wrong else "\u2713 solves (vertex, swap)"
    about = f"{len(scene.agents)} agents, {scene.size[0]} x {scene.size[1]} cells, mode stay"
    listed = f"{sum(counts[it] for it in wrong)} of {sum(counts.values())}"
    totals = [it.split()[1] for it in lines[-5:-1]]
    return [f"\u25cf live, version {version}", text_of(scene), report, verdict, about, listed, *(str(counts[it]) for it in SHOWN), *totals]


def a_while():
    """A second; on a machine that does more than it can at once so much longer."""
    return second() * max(1, os.getloadavg()[0] / os.cpu_count())


class Live:
    """A host that live.py runs and shows, for four planners."""

    def __init__(self, scene, *words, names=NAMES, host=()):
        put("live_map", scene.text().encode())
        self.names, self.scene, self.version = names, scene, 0
        self.leave()
        for name in names:
            os.mkfifo(f"{name}.in"), os.mkfifo(f"{name}.out")
        words = [sys.executable, "-B", LIVE, *words, Program.path, "host", "--map", "live_map", *host, *names]
        self.process = subprocess.Popen(words, stdin=subprocess.DEVNULL, stdout=subprocess.PIPE, stderr=subprocess.PIPE, text=True)
        STARTED.add(self.process)
        told = self.process.stderr.readline()
        if not told.startswith("live.py: http://127.0.0.1:"):
            raise Wrong(f"live.py tells {told!r}")
        self.url = told.split()[1]

    def __enter__(self):
        self.seats = [Seat(name) for name in self.names]
        return self

    def __exit__(self, *_):
        if self.process.poll() is None:
            self.process.terminate()
            self.process.wait()
        self.leave()

    def leave(self):
        for name in self.names:
            remove(f"{name}.in", f"{name}.out")

    def commit(self, planner, edit):
        """A planner commits an edit, which is lawful."""
        self.version += 1
        self.seats[planner].ask(line_of(edit)[:-1].encode(), b"version %d" % self.version)
        self.scene.make(edit)

    def commit_at_once(self, planner, edits):
        """A planner makes one commit of lawful edits."""
        self.version += 1
        lines, seat = shapes.lines_of([("begin",), *edits, ("commit",)]).encode(), self.seats[planner]
        seat.send(lines)
        want("the last answer", [seat.hear() for _ in lines.splitlines()][-1], b"version %d" % self.version)
        for edit in edits:
            self.scene.make(edit)

    def report(self, planner):
        """The report that a planner's session is answered."""
        seat, lines = self.seats[planner], []
        seat.send(b"report\n")
        want("the version of the report", seat.hear(), b"version %d" % self.version)
        while lines[-1:] != [b"end"]:
            lines.append(seat.hear())
        return b"\n".join([*lines, b""]).decode()

    def is_shown(self, *browsers, report=None, began=None):
        """Each browser shows the scene, and that report of it, within a second."""
        began, wanted = began or time.monotonic(), right(self.scene, self.version, report)
        for browser in browsers:
            while (found := browser.script(SEEN, SHOWN, TOTALS)) != wanted:
                if time.monotonic() - began > a_while():
                    for seen, it in zip(found, wanted):
                        want("what is shown a second later", seen, it)

    def shows_its_version(self, browser):
        browser.until(f"it shows version {self.version}", lambda: browser.text("#live") == f"\u25cf live, version {self.version}")

    def hosts(self):
        """The host's process."""
        with open(f"/proc/{self.process.pid}/task/{self.process.pid}/children") as file:
            return [int(it) for it in file.read().split()]

    def bytes(self):
        """How many bytes live.py has read and written."""
        with open(f"/proc/{self.process.pid}/io") as file:
            return sum(int(it.split()[1]) for it in file if it.startswith(("rchar", "wchar")))

    def costs(self):
        """How many threads live.py has, and files open."""
        return [len(os.listdir(f"/proc/{self.process.pid}/{it}")) for it in ("task", "fd")]

    def ends(self, status, out):
        said, _ = self.process.communicate(timeout=PATIENCE)
        want("the end", (self.process.returncode, said), (status, out))


def lawful(chance, scene):
    """An edit that the scene can have."""
    while scene.fault(edit := some_edit(chance, scene, chance.randrange(5))):
        pass
    return edit


def follows_commits():
    """Four planners commit in turn: the page shows each commit within a second, whatever it edits; its closed cells are drawn."""
    chance, kinds = random.Random(82), set()
    with Live(Scene(3, 2, "stay")) as live, Browser() as browser:
        browser.go(live.url)
        live.is_shown(browser)
        for number in range(COMMITS):
            edit = lawful(chance, live.scene)
            live.commit(number % 4, edit)
            live.is_shown(browser)
            kinds |= {edit[0], *(it.split()[0] for it in live.scene.report().splitlines())}
            if edit[0] in ("open", "close"):
                want(f"whether {edit[1]} is drawn as a wall", is_drawn(browser, "--wall", edit[1], 0.47), edit[1] in live.scene.closed)
        want("what the page complains of", browser.complaints(), [])
        for seat in live.seats:
            seat.close()
        live.ends(0, "audit same\n")
    want("what was met", {"open", "close", "drop", "agent", "goal", "tail", "path", *HEADS} - {"cycle"} - kinds, set())


def follows_bursts():
    """Four planners commit as fast as they can, each for its agent: a page shows what they come to within a second."""
    chance = random.Random(79)
    with Live(Scene(8, 5, "stay")) as live, Browser() as browser:
        browser.go(live.url)
        for agent in range(4):
            live.commit(agent, ("agent", agent, (0, agent), (7, agent)))
        edits = [[("path", agent, *walk(chance, (8, 5), (0, agent), 30)) for _ in range(BURST)] for agent in range(4)]
        planners = [threading.Thread(target=commit_all, args=(live.seats[agent], edits[agent])) for agent in range(4)]
        for it in planners:
            it.start()
        for it in planners:
            it.join()
        for own in edits:
            live.scene.make(own[-1])
        live.version += 4 * BURST
        live.is_shown(browser)


class Listener:
    """One that hears all that browsers are sent."""

    def __init__(self, url):
        self.many, self.socket = 0, socket.create_connection(("127.0.0.1", int(url.split(":")[2][:-1])))
        self.socket.sendall(b"GET /changes HTTP/1.1\r\nHost: 127.0.0.1\r\n\r\n")
        threading.Thread(target=self.hear, daemon=True).start()

    def hear(self):
        while piece := self.socket.recv(65536):
            self.many += len(piece)


def other_way(chance, fleet, scene):
    """An agent goes another way, as long as its own or not, or rests a while on it, or a cell closes."""
    agent = chance.randrange(LARGE)
    path, kind = fleet.paths[agent], chance.randrange(4)
    if kind == 0:
        return "close", chance.choice([it for it in path if it not in scene.closed] or [(0, 0)])
    if kind == 1:
        return "path", agent, *shapes.shortest(shapes.Chain(chance.randrange(99)), path[0], fleet.goals[agent])
    end = (chance.randrange(SIDE), chance.randrange(SIDE)) if kind == 2 else path[-1]
    return "path", agent, *[path[0]] * chance.randint(0, 3), *shapes.shortest(shapes.Chain(chance.randrange(99)), path[0], end)


def is_lit(browser, time, report):
    """That is lit which the report has of the time, of the kinds that count."""
    words = [(it, it.split()) for it in report.splitlines()]
    lines = [line for line, it in words if it[0] in ("vertex", "parked", "swap") and it[1] == str(time) or it[0] == "visit" and it[2] == str(time)]
    want("the time", browser.text("#time"), str(time))
    want(f"what is lit at time {time}", sorted(browser.texts("#lit li")), sorted(lines))
    return len(lines)


def follows_a_large_fleet():
    """1,000 agents who meet some 10,000 times: within a second of each commit the page shows the report that another session has then; it is sent
    no more than what changed."""
    chance, fleet, lit = random.Random(89), shapes.crowd(LARGE, SIDE), 0
    with Live(Scene(SIDE, SIDE, "stay")) as live, Browser() as browser:
        browser.go(live.url)
        live.commit_at_once(0, fleet.all_coming())
        report = live.report(1)
        want("whether it has many conflicts", report.count("\n") > 10_000, True)
        browser.until("it is shown", lambda: browser.script(SEEN, SHOWN, TOTALS) == right(live.scene, live.version, report))
        listener = Listener(live.url)
        browser.until("all of it is sent", lambda: listener.many > len(report))
        time.sleep(2)
        whole = listener.many
        for number in range(ROUNDS):
            live.commit(number % 4, other_way(chance, fleet, live.scene))
            began = time.monotonic()
            live.shows_its_version(browser)
            lasted, report = time.monotonic() - began, live.report((number + 1) % 4)
            live.is_shown(browser, report=report, began=began)
            want("whether it is shown within a second", lasted < 1 or lasted < a_while(), True)
            lit += is_lit(browser, number, report)
            browser.press("right")
        time.sleep(2)
        sent = listener.many - whole
        want("whether much was lit", lit > 10 * ROUNDS, True)
        want(f"whether it is sent little ({sent} of {whole} bytes)", sent < whole / 4, True)
        want("what the page complains of", browser.complaints(), [])


# Counts the cells that are painted on the map, and the letters that come into the scene's text.
COUNTED = """
const [columns, rows] = arguments, fill = CanvasRenderingContext2D.prototype.fillRect;
Object.assign(window, { painted: 0, written: 0 });
CanvasRenderingContext2D.prototype.fillRect = function (x, y, across, down) {
  if (this.canvas.width === columns && this.canvas.height === rows) { window.painted += across * down; }
  fill.call(this, x, y, across, down);
};
const count = (changed) => changed.addedNodes.forEach((it) => { window.written += it.data.length; });
new MutationObserver((all) => all.forEach(count)).observe(document.getElementById('scene'), { childList: true });"""
ROW = "return document.getElementById('scene').textContent.split('\\n')[4 + arguments[0]]"


def follows_a_large_map():
    """On the largest map a wall on nobody's path costs as little as another commit: live.py neither asks for the map again nor sends it,
    and the page paints that cell alone, and puts that row alone into its text."""
    chance, (columns, rows) = random.Random(83), SIZE
    with Live(Scene(*SIZE, "stay"), names=NAMES[:1]) as live, Browser() as browser:
        browser.go(live.url)
        live.commit(0, ("agent", 0, (0, 0), (9, 0)))
        live.shows_its_version(browser)
        listener = Listener(live.url)
        browser.until("all of it is sent", lambda: listener.many > columns * rows)
        browser.press(*"+" * 10)
        browser.script(COUNTED, *SIZE)
        for number in range(WALLS):
            x, y = cell = (columns // 2 + chance.randint(-9, 9), rows // 2 + chance.randint(-9, 9))
            is_closed, before, sent = cell in live.scene.closed, live.bytes(), listener.many
            live.commit(0, ("open" if is_closed else "close", cell))
            row = "".join("@" if (it, y) in live.scene.closed else "." for it in range(columns))
            browser.until("the text has it", lambda: browser.script(ROW, y) == row)
            live.shows_its_version(browser)
            want(f"whether {cell} is drawn as a wall", is_drawn(browser, "--wall", cell, 0.47), not is_closed)
            want("how many cells were painted", browser.script("return window.painted"), number + 1)
            want("how many letters were written", browser.script("return window.written"), (number + 1) * (columns + 1))
            costs = (listener.many - sent, live.bytes() - before)
            want(f"whether it costs little: {costs} bytes sent, and read and written", max(costs) < LITTLE, True)
        want("what the page complains of", browser.complaints(), [])


def goes_on_from_a_log():
    """A host that has a log is shown by that: what its entries did before, and what others do."""
    chance, scene, version = random.Random(97), Scene(3, 2, "stay"), 0
    try:
        for _ in range(2):
            with Live(scene, host=("--log", "live_log")) as live, Browser() as browser:
                live.version = version
                browser.go(live.url)
                for number in range(12):
                    live.is_shown(browser)
                    live.commit(number % 4, lawful(chance, live.scene))
                live.is_shown(browser)
                for seat in live.seats:
                    seat.close()
                live.ends(0, "audit same\n")
                version = live.version
    finally:
        remove("live_log")


def tells_where_they_are():
    """A line that stays is told at the cells where its agents are now: of one that misses its goal, and of a ring."""
    ring = [(0, 0), (1, 0), (1, 1), (0, 1)]
    turned = lambda *turns: [("path", agent, *(ring[(agent + it) % 4] for it in turns)) for agent in range(4)]
    with Live(Scene(4, 3, "stay")) as live, Browser() as browser:
        browser.go(live.url)
        live.commit_at_once(0, [("agent", 4, (2, 1), (0, 2)), *(("agent", it, ring[it], ring[(it + 2) % 4]) for it in range(4))])
        live.commit_at_once(1, [("path", 4, (2, 1), (3, 1)), *turned(0, 0, 1, 2)])
        live.is_shown(browser)
        browser.click("#kind-cycle")
        want("where they are", browser.texts(".row"), ["t 1not at goal4  at 3,1", "t 1cycle0 1 2 3  at 0,0", "t 2cycle0 1 2 3  at 1,0"])
        live.commit_at_once(2, [("path", 4, (2, 1), (2, 2)), *turned(0, 1, 2, 2)])
        live.shows_its_version(browser)
        want("where they are now", browser.texts(".row"), ["t 0cycle0 1 2 3  at 0,0", "t 1not at goal4  at 2,2", "t 1cycle0 1 2 3  at 1,0"])


def commit_all(seat, edits):
    for edit in edits:
        seat.send(line_of(edit).encode())
        if not seat.hear().startswith(b"version "):
            return


def unread():
    """Browsers that ask what changes and don't read it, megabytes of it, hold up neither planners nor another browser; closed, they cost nothing."""
    with Live(Scene(2, 1, "stay")) as live, Browser() as browser:
        browser.go(live.url)
        live.commit(0, ("agent", 0, (0, 0), (1, 0)))
        live.shows_its_version(browser)
        alone, deaf = live.costs(), [socket.socket() for _ in range(3)]
        for it in deaf:
            it.setsockopt(socket.SOL_SOCKET, socket.SO_RCVBUF, 4096)
            it.connect(("127.0.0.1", int(live.url.split(":")[2][:-1])))
            it.sendall(b"GET /changes HTTP/1.1\r\nHost: 127.0.0.1\r\n\r\n")
        browser.until("they cost something", lambda: live.costs() > alone)
        for number in range(16):
            path = [(0, 0), *[(1, 0), (0, 0)] * (50_000 + number), (1, 0)]
            live.commit(number % 4, ("path", 0, *path))
            began = time.monotonic()
            live.shows_its_version(browser)
            want("its end", browser.text("#horizon"), f"of {len(path) - 1}")
            want("whether it's shown within a second", time.monotonic() - began < a_while(), True)
        for it in deaf:
            it.close()
        browser.until("they cost nothing once they have gone", lambda: live.costs() == alone)


def two_browsers():
    """A browser that comes later shows all, both show what comes then, and one that goes away leaves neither thread nor file behind; of a
    host without a log."""
    chance = random.Random(67)
    with Live(Scene(3, 2, "stay"), host=("--save", "live_saved")) as live, Browser() as one:
        one.go(live.url)
        for number in range(12):
            live.commit(number % 4, lawful(chance, live.scene))
        live.is_shown(one)
        time.sleep(2)
        alone = live.costs()
        with Browser() as other:
            other.go(live.url)
            live.is_shown(one, other)
            for number in range(12):
                live.commit(number % 4, lawful(chance, live.scene))
                live.is_shown(one, other)
            want("whether the other costs something", live.costs() > alone, True)
        one.until("it costs nothing once it has gone", lambda: live.costs() == alone)
        for number in range(4):
            live.commit(number, lawful(chance, live.scene))
            live.is_shown(one)
        one.go(live.url)
        live.is_shown(one)
    remove("live_saved")


def keeps_the_view():
    """What a person looks at stays when others commit: the time, the view, the agent, the line that is marked, the filters; what is told of them is new."""
    with Live(Scene(8, 5, "stay")) as live, Browser() as browser:
        browser.go(live.url)
        row = lambda y: [(x, y) for x in range(8)]
        for edit in (("agent", 0, (0, 0), (7, 0)), ("path", 0, *row(0)), ("agent", 1, (7, 0), (0, 0)), ("path", 1, *row(0)[::-1])):
            live.commit(0, edit)
        live.is_shown(browser)
        browser.press("+", "+")
        browser.click("#kind-unfinished")
        browser.click(".row:nth-child(1)")
        seen, texts = view(browser), lambda: [browser.text(it) for it in ("#time", "#chosen", "#picked", "#listed")]
        marked, nobody = "marked at time 3: agent 0, agent 1", "Click an agent, or give its number."
        want("what is told", texts(), ["3", marked, nobody, "1 of 3"])
        live.commit(1, ("agent", 2, (0, 3), (7, 3)))
        live.shows_its_version(browser)
        want("what is told with one more", texts(), ["3", marked, nobody, "1 of 4"])
        browser.write("#agent", "1")
        browser.write("#from", "3")
        want("what is told of one", texts(), ["3", "", "agent 1 is at 4,0 at time 3\nfrom 7,0 to its goal 0,0\nsettles at 7, bound 7, gap 0", "1 of 4"])
        live.commit(2, ("path", 1, *row(0)[:4:-1], (5, 1), (4, 1), *row(0)[4::-1]))
        live.commit(3, ("close", (7, 4)))
        live.shows_its_version(browser)
        want("what is told now", texts(), ["3", "", "agent 1 is at 5,1 at time 3\nfrom 7,0 to its goal 0,0\nsettles at 9, bound 7, gap 2", "0 of 2"])
        want("the view", view(browser), seen)
        live.commit(0, ("drop", 1))
        live.shows_its_version(browser)
        want("what is told without it", texts(), ["3", "", nobody, "0 of 1"])
        want("what the page complains of", browser.complaints(), [])


def tells_the_end():
    """The page says how the host ended, and keeps what it has: in order, killed, or with live.py, which leaves no process and no pipe."""
    chance = random.Random(71)
    for how, status, out, why in (("close", 0, "audit same\n", "the host has ended with status 0"), ("kill", 137, "", "the host was killed by signal 9"),
                                  ("interrupt", 130, "", "live.py has ended"), ("terminate", 143, "", "live.py has ended")):
        with Live(Scene(3, 2, "stay")) as live, Browser() as browser:
            browser.go(live.url)
            for number in range(6):
                live.commit(number % 4, lawful(chance, live.scene))
            live.is_shown(browser)
            [host] = live.hosts()
            with open(f"/proc/{host}/cmdline") as words:
                pipes = os.path.dirname(words.read().split("\0")[-2])
            if how == "close":
                for seat in live.seats:
                    seat.close()
            elif how == "kill":
                os.kill(host, signal.SIGKILL)
            else:
                live.process.send_signal(signal.SIGINT if how == "interrupt" else signal.SIGTERM)
            live.ends(status, out)
            browser.until("the page says so", lambda: browser.text("#live") == f"\u25a0 {why}, at version {live.version}")
            want("what it shows", browser.script(SEEN, SHOWN, TOTALS)[1:], right(live.scene, live.version)[1:])
            want("what is left", (os.path.exists(f"/proc/{host}"), os.path.exists(pipes)), (False, False))


def views():
    for test in (follows_commits, follows_bursts, follows_a_large_fleet, follows_a_large_map, goes_on_from_a_log, tells_where_they_are,
                 unread, two_browsers, keeps_the_view, tells_the_end):
        yield f"live_{test.__name__}", test


class PlainSeat:
    """A seat at a plain scene, whose desk tells what changed since as many versions."""

    def __init__(self, scene, history):
        self.versions, self.history, self.answers, self.asked = [scene.copy()], history, [], []
        self.lines = self

    def write(self, lines):
        self.answers += [it for line in lines.splitlines() for it in self.ask(line)]

    def flush(self):
        pass

    def hear(self):
        return self.answers.pop(0)

    def ask(self, line):
        scene, version = self.versions[-1], len(self.versions) - 1
        kind, *words = line.split()
        self.asked.append(kind)
        if kind == "changes" and version - int(words[0]) > self.history:
            return [f"refused forgotten {version - self.history}"]
        if kind == "changes":
            return [f"version {version}", *changes(self.versions[int(words[0])], int(words[0]), scene)]
        if kind == "try":
            edited = [at for at in range(1, version + 1) if self.versions[at].closed != self.versions[at - 1].closed]
            return [f"refused stale {version} map {edited[-1]}" if edited else "refused faulty 0 unknown-agent"]
        if kind in ("begin", "watch", "drop"):
            return ["kept"]
        question = [kind, *(tuple(map(int, it.split(","))) if "," in it else int(it) for it in words)]
        return f"version {version}" if kind in ("version", "wait") else answer(scene, version, question)


class PlainBrowser:
    """What a browser makes of what it is sent."""

    def __init__(self, picture):
        self.picture, self.many, self.texts, self.wholes = picture, -1, {}, 0

    def reads(self, scene, version):
        """By what is sent it has the texts of that scene."""
        events, self.many, _ = self.picture.events_after(self.many, 0)
        for event in events.decode().split("\n\n")[:-1]:
            news = json.loads(event.removeprefix("data: "))
            self.wholes += news["whole"]
            for name, (gone, came) in (it for it in news.items() if it[0] in ("scene", "report")):
                self.texts[name] = [] if news["whole"] else [it for at, it in enumerate(self.texts[name]) if at not in gone]
                for at, piece in came:
                    self.texts[name].insert(at, piece)
            want("the version", news["version"] <= version, True)
        want("the scene", "\n".join([*self.texts["scene"], ""]), text_of(scene))
        want("the report", "\n".join([*self.texts["report"], ""]), scene.report())


def keeps_by_changes():
    """By a plain program: live.py asks for the report once, and where the desk has forgotten what changed. Browsers have the right texts by
    what they are sent, which is what changed, but at first, and where they are far behind. With a log and without."""
    sys.path.insert(0, f"{TOP}/demo")
    picture, watching = map(importlib.import_module, ("picture", "watcher"))
    picture.BYTES_KEPT = 3000
    try:
        for log in (None, "plain_log"):
            for history, watching.AT_ONCE, watching.CELLS in ((1000, 250, 6), (1000, 2, 3), (2, 250, 3)):
                is_kept_by_changes(watching, picture.Picture(), history, log)
    finally:
        remove("plain_log")


def is_kept_by_changes(watching, picture, history, log):
    """The same of a desk that tells what changed since as many versions, and keeps that log; its last entry may not be shown yet."""
    chance, seat, written = random.Random(73), PlainSeat(Scene(3, 2, "stay"), history), open(log or os.devnull, "w")
    watcher = watching.Watcher(seat, ["...", "..."], picture, log)
    watcher.look()
    near, far = PlainBrowser(picture), PlainBrowser(picture)
    for number in range(200):
        for _ in range(chance.randint(1, 3)):
            scene, version = seat.versions[-1].copy(), len(seat.versions)
            edit = lawful(chance, scene)
            written.write(f"entry 1 {version - 1} 1 1\nwatch map\n{line_of(edit)}commit {version} 0123456789abcdef\n")
            written.flush()
            if history > 2 and chance.randrange(4) == 0:
                watcher.look()
            scene.make(edit)
            seat.versions.append(scene)
        while watcher.is_behind(0):
            watcher.look()
        near.reads(scene, len(seat.versions) - 1)
        if number % 20 == 9 or chance.randrange(9) == 0:
            far.reads(scene, len(seat.versions) - 1)
    written.close()
    want("whether it asks for the report where it must", seat.asked.count("report") > 20 if history == 2 else seat.asked.count("report") == 1, True)
    want("whether all is sent where it must be", (near.wholes, far.wholes > 1), (1, True))
    want("whether it asks for what the log names alone", seat.asked.count("try"), 0 if log else seat.asked.count("version"))


def called_wrongly():
    """Words that aren't live.py's are told; a fault of the host's words is the host's."""
    for words, complaint in (([], "usage: live.py [--port N] [--solves KINDS] DESK host ..\n"), ([Program.path, "serve"], "it runs `host`"),
                             ([Program.path, "host", "--lines", "1", "a"], "with lines of version 2")):
        ran = subprocess.run([sys.executable, "-B", LIVE, *words], capture_output=True, timeout=PATIENCE, text=True)
        want("how it ends", (ran.returncode, ran.stdout, complaint in ran.stderr), (2, "", True))
    ran = subprocess.run([sys.executable, "-B", LIVE, Program.path, "host", "--map", "gone", "a"], capture_output=True, timeout=PATIENCE, text=True)
    want("how it ends", (ran.returncode, ran.stdout, ran.stderr), (2, "", "mapf_desk: can't read gone\n"))
    for words in (["--port", "99999", Program.path, "host", "--map", "m", "a"], ["gone", "host", "--map", "m", "a"]):
        ran = subprocess.run([sys.executable, "-B", LIVE, *words], capture_output=True, timeout=PATIENCE, text=True)
        want("how it ends", (ran.returncode, ran.stdout, ran.stderr[:9], ran.stderr.count("\n")), (1, "", "live.py: ", 1))


def tests():
    for test in (keeps_by_changes, called_wrongly):
        yield f"live_{test.__name__}", test
