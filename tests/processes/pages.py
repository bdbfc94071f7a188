"""The word `page`: its text to the byte, of random scenes beside the plain program of the rules; its size and time, and its faults."""
import html
import random

from .chances import wandering
from .drawing import are_faults
from .fleets import Fleet
from .plain import ASKED, Scene, line_of, shown
from .running import TOP, Wrong, bytes_of, processor_time, put, remove, run, second, want

DEMO = f"{TOP}/demo"
MOST_SECONDS = 2  # of all processors together
MOST_BYTES = 6_000_000
TITLES = ["a plan", "", "</title><script>alert(1)</script>", "a & b < c > d", '"quoted\' --> <!-- &amp;', "Überblick \u4e2d\u6587"]


def part(name):
    return bytes_of(f"{TOP}/page/{name}").decode()


def page_of(title, kinds, mode, scene, report):
    """The page, as docs/CLI.md says."""
    style, body, script = map(part, ("style.css", "body.html", "page.js"))
    asked = "".join(f" {it}" for it in ASKED if it in kinds)
    return (f"<!doctype html>\n<html lang='en'>\n<head>\n<meta charset='utf-8'>\n<title>{html.escape(title, quote=False)}</title>\n"
            f"<meta name='viewport' content='width=device-width, initial-scale=1'>\n<style>\n{style}</style>\n{body}"
            f"<script type='text/plain' id='scene' data-mode='{mode}'>{scene}</script>\n"
            f"<script type='text/plain' id='report' data-solves='{asked}'>{report}</script>\n"
            f"<script>\n{script}</script>\n</body>\n</html>\n")


def text_of(scene):
    """The text of a plain scene: its map with the cells that are closed now, and two lines for each agent."""
    columns, rows = scene.size
    letters = "".join("".join("@" if (x, y) in scene.closed else "." for x in range(columns)) + "\n" for y in range(rows))
    lines = [(("agent", number, path[0], goal), ("path", number, *path)) for number, (goal, path) in sorted(scene.agents.items())]
    return f"type octile\nheight {rows}\nwidth {columns}\nmap\n{letters}" + "".join(line_of(it) for pair in lines for it in pair)


def by_chance():
    """60 random scenes of both modes, with some title and some kinds: the page is that of the plain report, to the byte."""
    chance = random.Random(37)
    for number in range(60):
        size, mode = (chance.randint(1, 5), chance.randint(1, 4)), chance.choice(("stay", "disappear"))
        scene, edits = Scene(*size, mode), wandering(chance, size)
        for edit in edits:
            scene.make(edit)
        entry = f"entry 0 0 0 {len(edits)}\n" + "".join(map(line_of, edits)) if edits else ""
        put("scene", scene.text().encode()), put("edits", f"journal 2\nmode {mode}\n{entry}end {len(edits) > 0:d}\n".encode())
        title, kinds = TITLES[number % len(TITLES)], chance.sample(sorted(ASKED), chance.randint(1, 5))
        words = ["--map", "scene", "--journal", "edits", "--mode", mode, "--title", title, "--solves", *kinds]
        want("the page", run(["page", *words]), (0, page_of(title, kinds, mode, text_of(scene), scene.report()), ""))
    remove("scene", "edits")


def usual_words():
    """Without other words the title is the map's file, and the kinds are those of the classical problem; a scenario gives agents."""
    whole = "type octile\nheight 1\nwidth 3\nmap\n...\n"
    put("m<3", whole.encode())
    report = lambda *lines: "\n".join([*lines, "end", ""])
    empty = report("agents 0", "conflicts 0", "blocked 0", "sum 0", "makespan 0", "bounds 0", "gap 0")
    want("a page of a map", run(["page", "--map", "m<3"]), (0, page_of("m<3", ("vertex", "swap"), "stay", whole, empty), ""))
    put("tasks", b"version 1\n0 m 3 1 0 0 2 0 2\n")
    one = report("agents 1", "agent 0 settle 0 goal no bound 2 gap none", "conflicts 0", "blocked 0", "sum none", "makespan none", "bounds 2", "gap none")
    words = ["--map", "m<3", "--scen", "tasks", "--agents", "1"]
    want("a page of a scenario", run(["page", *words]), (0, page_of("m<3", ("vertex", "swap"), "stay", f"{whole}agent 0 0,0 2,0\npath 0 0,0\n", one), ""))
    remove("m<3", "tasks")


def forms_of_paths():
    """One fleet as a solver's paths and as a journal makes one page."""
    chance = random.Random(41)
    for _ in range(5):
        fleet = Fleet(chance)
        put("scene", fleet.map.encode()), put("tasks", fleet.scen().encode()), put("edits", fleet.journal("stay").encode())
        right = run(["page", "--map", "scene", "--journal", "edits"])
        want("the status", right[0], 0)
        for text in (fleet.by_agent(), fleet.by_session(), fleet.by_time()):
            put("paths", text.encode())
            want("the page of paths", run(["page", "--map", "scene", "--paths", "paths", "--scen", "tasks"]), right)
    remove("scene", "tasks", "edits", "paths")


def faults():
    are_faults("page")
    with open("/dev/full", "w") as full:
        status, _, complained = run(["page", "--map", "m"], stdout=full)
    want("what page says where nothing is taken", (status, complained), (2, "mapf_desk: write failed\n"))


def walks(chance, size, many, steps):
    """Edits of agents that go straight on for a while and turn now and then."""
    for agent in range(many):
        path, way = [tuple(map(chance.randrange, size))], (1, 0)
        while len(path) <= steps:
            x, y = path[-1]
            way = way if chance.random() < 0.9 else chance.choice(((1, 0), (-1, 0), (0, 1), (0, -1)))
            path.append(tuple(min(max(at, 0), most - 1) for at, most in zip((x + way[0], y + way[1]), size)))
        yield f"agent {agent} {shown(path[0])} {shown(path[-1])}\npath {agent} {' '.join(map(shown, path))}\n"


def large_page():
    """1,000 agents of 500 steps on a map of 256 x 256: at most 6 MB, made in 2 seconds of all processors together."""
    chance, side = random.Random(43), 256
    put("scene", (f"type octile\nheight {side}\nwidth {side}\nmap\n" + ("." * side + "\n") * side).encode())
    put("edits", ("journal 2\nmode stay\nentry 0 0 0 2000\n" + "".join(walks(chance, (side, side), 1000, 500)) + "end 1\n").encode())
    most, began = MOST_SECONDS * second(), processor_time()
    status, page, complained = run(["page", "--map", "scene", "--journal", "edits"])
    took, size = processor_time() - began, len(page.encode())
    remove("scene", "edits")
    want("what page says", (status, complained), (0, ""))
    if size > MOST_BYTES or took > max(most, MOST_SECONDS * second()):
        raise Wrong(f"{size} bytes in {took:.1f} s of {most:.1f}")


def tests():
    for test in (by_chance, usual_words, forms_of_paths, faults, large_page):
        yield f"page_{test.__name__}", test
