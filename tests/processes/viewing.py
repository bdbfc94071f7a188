"""The page of `page` in a browser: what it shows of random fleets is what the report says, found again from its lines by Python."""
import os
import random
import time

from .browsing import Browser
from .chances import wandering
from .plain import ASKED, Scene, line_of
from .pages import part, walks
from .running import Wrong, put, remove, run, second, want

KINDS = ("vertex", "parked", "edge", "follow", "swap", "cycle")
HEADS = (*KINDS, "visit")
SCENES, CLICKS = 24, 100
PARTS = "PAGE_PARTS"  # in the environment a folder with the parts that pages have in place of their own


def show(browser, page):
    """Opens the page."""
    for name in ("style.css", "body.html", "page.js") if PARTS in os.environ else ():
        with open(f"{os.environ[PARTS]}/{name}", encoding="ascii") as file:
            page = page.replace(part(name), file.read())
    put("seen.html", page.encode())
    browser.open("seen.html")


class Shown:
    """A random scene whose page is open in a browser, with what `audit` reports of it."""

    def __init__(self, browser, chance, size, kinds, edits=None):
        self.browser, self.kinds, self.mode = browser, kinds, chance.choice(("stay", "disappear"))
        self.scene = Scene(*size, self.mode)
        made = wandering(chance, size) if edits is None else edits
        for edit in made:
            self.scene.make(edit)
        put("seen_map", self.scene.text().encode())
        put("seen_journal", f"journal 2\nmode {self.mode}\nentry 0 0 0 {len(made)}\n{''.join(map(line_of, made))}end 1\n".encode())
        words = ["--map", "seen_map", "--journal", "seen_journal", "--mode", self.mode]
        status, page, complained = run(["page", *words, "--solves", *kinds])
        want("what page says", (status, complained), (0, ""))
        self.report = run(["audit", *words])[1].splitlines()
        show(browser, page)

    def entries(self, *heads):
        """The report's lines of entries and visits, with their times, or of some kinds of them."""
        words = [(it, it.split()) for it in self.report]
        return [(int(it[2] if it[0] == "visit" else it[1]), line) for line, it in words if it[0] in (heads or HEADS)]

    def horizon(self):
        return max((len(path) - 1 for _, path in self.scene.agents.values()), default=0)

    def lit(self):
        return sorted(self.browser.texts("#lit li"))

    def listed(self):
        """The lines of the list, each once, by scrolling through it."""
        found, top = {}, 0
        while True:
            rows, end = self.browser.script(
                "const list = document.getElementById('list'); list.scrollTop = arguments[0]; list.dispatchEvent(new Event('scroll'));"
                "return [Array.from(document.querySelectorAll('.row'), (it) => [it.id, it.title]), list.scrollHeight - list.clientHeight]", top)
            found.update(rows)
            if top >= end:
                return [found[f"row-{at}"] for at in range(len(found))]
            top += 200


def all_kinds():
    return sorted(ASKED)


def of_page(test):
    """A test with a browser, and of the files that it leaves."""
    def made():
        try:
            with Browser() as browser:
                test(browser)
                want("what the page complains of", browser.complaints(), [])
        finally:
            for name in ("seen_map", "seen_journal", "seen.html"):
                remove(name)
    made.__doc__ = test.__doc__
    return made


# Whether a pixel of the canvas has a colour of the style, and how the canvas lies: both for the scripts below.
PROBE = """
const canvas = document.getElementById('map'), seen = canvas.dataset, scale = seen.scale * window.devicePixelRatio;
const probe = document.createElement('canvas').getContext('2d');
const colour = (name) => {
  probe.fillStyle = getComputedStyle(document.documentElement).getPropertyValue(name).trim();
  probe.fillRect(0, 0, 1, 1);
  return probe.getImageData(0, 0, 1, 1).data;
};
const has = (wanted, x, y, across, down) => {
  const found = canvas.getContext('2d').getImageData((x - seen.left) * scale, (y - seen.top) * scale, across, down).data;
  for (let at = 0; at < found.length; at += 4) {
    if ([0, 1, 2].every((it) => Math.abs(found[at + it] - wanted[it]) < 6)) { return true; }
  }
  return false;
};
"""

# Whether a colour is drawn within a distance, in cells, of the middle of a cell.
HAS_COLOUR = PROBE + """
const [name, x, y, far] = arguments, size = Math.ceil(2 * far * scale);
return has(colour(name), x + 0.5 - far, y + 0.5 - far, size, size);"""

# At how many of 24 places of the ring round a cell it is drawn.
RING = PROBE + """
const [x, y] = arguments, ink = colour('--ink'), far = Math.max(0.74, 10 / seen.scale);
const turns = Array.from({ length: 24 }, (_, at) => at * Math.PI / 12);
const place = (turn) => [x + 0.5 + far * Math.cos(turn) - 1.5 / scale, y + 0.5 + far * Math.sin(turn) - 1.5 / scale];
return turns.filter((turn) => has(ink, ...place(turn), 3, 3)).length;"""


def is_drawn(browser, name, cell, far):
    browser.drawn()
    return browser.script(HAS_COLOUR, name, *cell, far)


def agents_are_in_their_cells(shown, time):
    """Each agent is told to be in the cell that the rules say, and drawn there."""
    for agent in shown.scene.agents:
        cell = shown.scene.place(agent, time)
        where = "has left" if cell is None else f"is at {cell[0]},{cell[1]}"
        shown.browser.write("#agent", str(agent))
        want(f"what is told of agent {agent}", shown.browser.text("#picked").split("\n")[0], f"agent {agent} {where} at time {time}")
        if cell is not None:
            want(f"agent {agent} is drawn at time {time}", is_drawn(shown.browser, f"--c{agent % 5}", cell, 0.36), True)
    shown.browser.click("#nobody")


def lit_is_what_the_report_has(browser):
    """At each time of random fleets in both modes that is lit which the report has of that time, and nothing else; agents are where they are."""
    chance, seen = random.Random(5), set()
    for number in range(SCENES):
        shown = Shown(browser, chance, (chance.randint(2, 6), chance.randint(2, 4)), all_kinds())
        found = shown.entries()
        browser.click("#kind-unfinished")
        for time in range(shown.horizon() + 1):
            want("the time", browser.text("#time"), str(time))
            lit = sorted(line for at, line in found if at == time)
            want(f"what is lit at time {time}", shown.lit(), lit)
            want(f"how much is lit at time {time}", browser.text("#lit-count"), str(len(lit)) if lit else "nothing")
            want(f"marks are drawn at time {time}", is_drawn(browser, "--mark", (shown.scene.size[0] / 2 - 0.5, shown.scene.size[1] / 2 - 0.5), 5), bool(lit))
            if number % 4 == 0:
                agents_are_in_their_cells(shown, time)
            browser.press("right")
        seen |= {line.split()[0] for _, line in found}
    want("the kinds that were lit", seen, set(HEADS))


def crowd(chance, size, many, steps):
    """Edits of agents that walk about on a map, of which some come to their goals, and of some closed cells."""
    edits = []
    for agent in range(many):
        path = [(chance.randrange(size[0]), chance.randrange(size[1]))]
        for _ in range(steps):
            x, y = path[-1]
            near = [(x, y), (x + 1, y), (x - 1, y), (x, y + 1), (x, y - 1)]
            path.append(chance.choice([(a, b) for a, b in near if 0 <= a < size[0] and 0 <= b < size[1]]))
        goal = path[-1] if chance.random() < 0.8 else (0, 0)
        edits += [("agent", agent, path[0], goal), ("path", agent, *path)]
    return edits + [("close", (chance.randrange(size[0]), chance.randrange(size[1]))) for _ in range(3)]


def cells_of(shown, line):
    """The cells of the line's entry: those that it names, or of a cycle those that its agents leave."""
    words = line.split()
    named = [tuple(map(int, it.split(","))) for it in words if "," in it]
    return named or [shown.scene.place(int(it), int(words[1])) for it in words[2:]]


def agents_of(line):
    words = line.split()
    return [int(words[1])] if words[0] == "visit" else [int(it) for it in words[2:] if "," not in it]


def clicks_go_to_conflicts(browser):
    """A click on each of 100 random lines goes to its time, centres it and marks who is in it, in the text and in the picture."""
    chance = random.Random(9)
    shown = Shown(browser, chance, (12, 9), all_kinds(), crowd(chance, (12, 9), 20, 40))
    browser.click("#kind-unfinished")
    lines = shown.listed()
    want("the lines of the list", sorted(lines), sorted(line for _, line in shown.entries()))
    times = dict((line, time) for time, line in shown.entries())
    for line in chance.sample(lines, CLICKS):
        browser.script("document.getElementById('list').scrollTop = arguments[0]", 26 * lines.index(line) - 80)
        browser.until(f"{line} is in the list", lambda: line in browser.script("return Array.from(document.querySelectorAll('.row'), (it) => it.title)"))
        browser.drawn()
        browser.click(f".row[title='{line}']")
        want(f"the time behind a click on {line}", browser.text("#time"), str(times[line]))
        want("the line that is chosen", browser.script("return Array.from(document.querySelectorAll('.row.chosen'), (it) => it.title)"), [line])
        who = ", ".join(f"agent {it}" for it in agents_of(line))
        want("who is marked", browser.text("#chosen"), f"marked at time {times[line]}: {who}")
        is_centred(browser, cells_of(shown, line))
        for agent in agents_of(line):
            cell = shown.scene.place(agent, times[line])
            want(f"agent {agent} of {line} has a ring", browser.script(RING, *cell) > 8, True)


def is_centred(browser, cells):
    """The middle of the cells is in the middle of the canvas."""
    browser.drawn()
    middle = [sum(it[side] for it in cells) / len(cells) + 0.5 for side in (0, 1)]
    found = browser.script("const it = document.getElementById('map'), at = it.dataset; return [at.left, at.top, at.scale, it.clientWidth, it.clientHeight].map(Number)")
    seen = [found[side] + found[3 + side] / found[2] / 2 for side in (0, 1)]
    if max(abs(one - other) for one, other in zip(seen, middle)) > 0.01:
        raise Wrong(f"{middle} isn't in the middle of the picture, which is {seen}")


def verdicts_and_counts(browser):
    """The verdict for the kinds that are asked for, the counts by kind and the totals are those of the report."""
    chance, seen = random.Random(13), set()
    for _ in range(SCENES):
        kinds = chance.sample(all_kinds(), chance.randint(1, 5))
        shown = Shown(browser, chance, (chance.randint(1, 6), chance.randint(1, 4)), kinds)
        counted = {it: len(shown.entries(it)) for it in HEADS}
        away = sum(it.startswith("agent ") and " goal no " in it for it in shown.report)
        wrong = sum(counted[it] for kind in kinds for it in ASKED[kind]) + counted["visit"] + away
        asked = ", ".join(it for it in ASKED if it in kinds)
        want("the verdict", browser.text("#verdict"), f"\u2717 does not solve ({asked})" if wrong else f"\u2713 solves ({asked})")
        want("its colour", browser.script("return document.getElementById('verdict').className"), "bad" if wrong else "good")
        want("the counts", {it: browser.text(f"#count-{it}") for it in (*HEADS, "unfinished")}, {it: str(many) for it, many in {**counted, "unfinished": away}.items()})
        totals = dict(it.split() for it in shown.report[-5:-1])
        want("the totals", {it: browser.text(f"#total-{it}") for it in totals}, totals)
        on = {it for it in HEADS if it == "visit" or any(it in ASKED[kind] for kind in kinds)}
        want("the kinds that are shown", {it for it in HEADS if browser.script(f"return document.getElementById('kind-{it}').checked")}, on)
        seen.add(bool(wrong))
    want("the verdicts that were seen", seen, {True, False})


def filters(browser):
    """The list has what is of the kinds, the times and the agent that are asked for, and no more; also agents that aren't at their goals."""
    chance = random.Random(17)
    shown = Shown(browser, chance, (9, 7), all_kinds(), crowd(chance, (9, 7), 9, 25))
    away = [it for it in shown.report if it.startswith("agent ") and " goal no " in it]
    ends = {line: int(line.split()[3]) for line in away}
    times = {**{line: time for time, line in shown.entries()}, **ends}
    who = lambda line: [int(line.split()[1])] if line.startswith("agent ") else agents_of(line)
    kind = lambda line: "unfinished" if line.startswith("agent ") else line.split()[0]
    for _ in range(25):
        hidden = set(chance.sample((*HEADS, "unfinished"), chance.randint(0, 6)))
        least, most, agent = chance.choice((None, chance.randint(0, 20))), chance.choice((None, chance.randint(5, 30))), chance.choice((None, chance.randrange(9)))
        for it in hidden:
            browser.click(f"#kind-{it}")
        for field, value in (("#from", least), ("#to", most), ("#agent", agent)):
            browser.write(field, "" if value is None else str(value))
        right = [it for it in times if kind(it) not in hidden and (least is None or least <= times[it]) and (most is None or times[it] <= most)
                 and (agent is None or agent in who(it))]
        found = shown.listed()
        want("the list", sorted(found), sorted(right))
        want("its order", [times[it] for it in found], sorted(times[it] for it in right))
        want("how long it is", browser.text("#listed"), f"{len(right)} of {len(times)}")
        for it in hidden:
            browser.click(f"#kind-{it}")


def keys_and_buttons(browser):
    """Keys, buttons and the slider go through the times; it plays, pauses, loops and stops at the end."""
    chance = random.Random(19)
    shown = Shown(browser, chance, (9, 7), ["vertex", "swap"], crowd(chance, (9, 7), 6, 30))
    last = shown.horizon()
    time = lambda: int(browser.text("#time"))
    for keys, right in ((["right", "right"], 2), (["left"], 1), (["left", "left"], 0), (["end"], last), (["right"], last), (["left"], last - 1), (["home"], 0)):
        browser.press(*keys)
        want(f"the time behind {keys}", time(), right)
    for button, right in (("#forth", 1), ("#forth", 2), ("#back", 1), ("#last", last), ("#forth", last), ("#first", 0), ("#back", 0)):
        browser.click(button)
        want(f"the time behind {button}", time(), right)
    browser.script("const it = document.getElementById('slider'); it.value = 11; it.dispatchEvent(new Event('input', { bubbles: true }))")
    want("the time of the slider", time(), 11)
    browser.click("#slider")
    want("the time of a click in the slider's middle", abs(time() - last / 2) <= 1.5, True)
    browser.press("home")
    browser.script("document.getElementById('slider').blur()")
    plays(browser, time, last)


def plays(browser, time, last):
    browser.script("const it = document.getElementById('speed'); it.value = '16'; it.dispatchEvent(new Event('input', { bubbles: true }))")
    browser.press("home", "space")
    browser.until("it plays", lambda: time() > 3)
    browser.press("space")
    still = time()
    want("what the button says", browser.script("return document.getElementById('play').getAttribute('aria-label')"), "Play")
    browser.drawn()
    want("the time while it pauses", time(), still)
    browser.press("space")
    browser.until("it comes to the end", lambda: time() == last)
    browser.until("it stops there", lambda: browser.text("#play").endswith("play"))
    browser.click("#loop")
    browser.click("#play")
    browser.until("it comes to the end again", lambda: time() > last - 3)
    browser.until("it loops", lambda: time() < last - 6)
    browser.click("#play")


def view(browser):
    browser.drawn()
    return browser.script("const at = document.getElementById('map').dataset; return [at.left, at.top, at.scale].map(Number)")


def zooms_and_moves(browser):
    """The wheel zooms round the pointer, a drag moves the map with it, keys do both, and fit shows all of it again."""
    chance = random.Random(23)
    Shown(browser, chance, (40, 30), ["vertex", "swap"], crowd(chance, (40, 30), 20, 30))
    left, top, wide, high = browser.script("const it = document.getElementById('map').getBoundingClientRect(); return [it.left, it.top, it.width, it.height]")
    x, y, whole = wide * 0.4, high * 0.6, view(browser)
    want("the whole map is seen", all(abs(2 * start + size / whole[2] - cells) < 0.01 for start, size, cells in zip(whole, (wide, high), (40, 30))), True)
    browser.roll(left + x, top + y, -400)
    near = view(browser)
    want("the wheel zooms in", near[2] > 1.5 * whole[2], True)
    for side, at in ((0, x), (1, y)):
        want("the cell under the pointer stays there", abs(near[side] + at / near[2] - whole[side] - at / whole[2]) < 0.05, True)
    browser.point((left + x, top + y), "down", (left + x + 30, top + y + 10), (left + x + 60, top + y + 20), "up")
    moved = view(browser)
    want("a drag moves the map", [round((near[side] - moved[side]) * near[2]) for side in (0, 1)], [60, 20])
    browser.press("right", shift=True)
    want("shift and an arrow move it", round((view(browser)[0] - moved[0]) * moved[2]), 60)
    browser.press("+")
    want("the key zooms in", view(browser)[2] > moved[2], True)
    browser.press("0")
    want("it fits again", [round(it, 6) for it in view(browser)], [round(it, 6) for it in whole])
    want("the time all along", browser.text("#time"), "0")


def picks_agents(browser):
    """A click on an agent tells its start, goal and costs as the report has them, and lists what it meets; a click beside it shows all again."""
    chance = random.Random(29)
    shown = Shown(browser, chance, (12, 9), all_kinds(), crowd(chance, (12, 9), 8, 20))
    browser.click("#kind-unfinished")
    left, top = browser.script("const it = document.getElementById('map').getBoundingClientRect(); return [it.left, it.top]")
    for agent, (goal, path) in shown.scene.agents.items():
        others = [shown.scene.place(it, 0) for it in shown.scene.agents if it != agent]
        if path[0] in others:
            continue
        seen = view(browser)
        browser.point((left + (path[0][0] + 0.5 - seen[0]) * seen[2], top + (path[0][1] + 0.5 - seen[1]) * seen[2]), "down", "up")
        [words] = [it.split() for it in shown.report if it.startswith(f"agent {agent} ")]
        misses = "" if words[5] == "yes" else ", which it misses"
        want("what is told of it", browser.text("#picked").split("\n"), [
            f"agent {agent} is at {path[0][0]},{path[0][1]} at time 0",
            f"from {path[0][0]},{path[0][1]} to its goal {goal[0]},{goal[1]}{misses}",
            f"settles at {words[3]}, bound {words[7]}, gap {words[9]}"])
        want("what it meets", sorted(shown.listed()), sorted(line for _, line in shown.entries() if agent in agents_of(line)))
    browser.press("escape")
    want("the list of all agents", len(shown.listed()), len(shown.entries()))


def first_click_after_typing(browser):
    """A click on the first line goes to its conflict, also where the field that was written in is left by it."""
    chance, clicked = random.Random(31), 0
    shown = Shown(browser, chance, (12, 9), all_kinds(), crowd(chance, (12, 9), 9, 25))
    browser.click("#kind-unfinished")
    for agent in shown.scene.agents:
        met = [it for it in sorted(shown.entries(), key=lambda it: it[0]) if agent in agents_of(it[1])]
        browser.write("#agent", str(agent))
        if met:
            browser.click("#row-0")
            want("the line that is chosen", browser.script("return Array.from(document.querySelectorAll('.row.chosen'), (it) => it.title)"), [met[0][1]])
            want("its time", browser.text("#time"), str(met[0][0]))
            clicked += 1
    want("whether lines were clicked", clicked > 4, True)


# The least size of a text in pixels, and the texts whose colour is too near to that of their ground (WCAG 2, contrast of 4.5 to 1).
READS = """
const light = (colour) => {
  const parts = colour.map((it) => it / 255).map((it) => (it <= 0.04045 ? it / 12.92 : ((it + 0.055) / 1.055) ** 2.4));
  return 0.2126 * parts[0] + 0.7152 * parts[1] + 0.0722 * parts[2];
};
const parse = (text) => text.match(/[0-9.]+/g).map(Number);
const ground = (it) => {
  for (let at = it; at; at = at.parentElement) {
    const found = parse(getComputedStyle(at).backgroundColor);
    if (found.length === 3 || found[3] > 0.99) { return found.slice(0, 3); }
  }
  return [255, 255, 255];
};
const told = Array.from(document.body.querySelectorAll('*')).filter((it) => !['SCRIPT', 'NOSCRIPT', 'OPTION'].includes(it.tagName)
  && Array.from(it.childNodes).some((node) => node.nodeType === 3 && node.data.trim()));
const sizes = told.map((it) => parseFloat(getComputedStyle(it).fontSize));
const poor = told.filter((it) => {
  const [one, other] = [light(parse(getComputedStyle(it).color).slice(0, 3)), light(ground(it))].sort((a, b) => b - a);
  return (one + 0.05) / (other + 0.05) < 4.5;
});
return [Math.min(...sizes), told.length, poor.map((it) => it.outerHTML.slice(0, 120))];"""


def reads_well(browser):
    """In both looks texts have 12 pixels or more and stand out from their ground; all that is used has a name; nothing is loaded."""
    chance = random.Random(47)
    seen = []
    for look in ("light", "dark"):
        browser.prefers(look)
        shown = Shown(browser, chance, (12, 9), ["vertex", "swap"], crowd(chance, (12, 9), 14, 20))
        browser.click(".row:nth-child(3)")
        browser.script("document.querySelector('details').open = true")
        least, many, poor = browser.script(READS)
        want(f"texts that can't be read in the {look} look", (least >= 12, many > 40, poor), (True, True, []))
        names = browser.names("button, input, select, canvas, #list, section")
        want("what has no name", [it for it in names if not it.strip()], [])
        want("what is loaded", browser.script("return performance.getEntriesByType('resource').map((it) => it.name)"), [])
        want("what is drawn in the colour of the look", is_drawn(browser, "--floor", (shown.scene.size[0] / 2, shown.scene.size[1] / 2), 4), True)
        seen.append(browser.script("return getComputedStyle(document.body).backgroundColor"))
    want("whether the looks differ", seen[0] != seen[1], True)
    browser.prefers("light")


def titles(browser):
    """A title is shown as it was given, whatever it has in it."""
    put("seen_map", b"type octile\nheight 1\nwidth 3\nmap\n...\n")
    for title in ("</title><script>document.title = 'no'</script>", "a & b &amp; <b>c</b>", "--> <!-- \u00dcberblick"):
        status, page, _ = run(["page", "--map", "seen_map", f"--title={title}"])
        want("the status", status, 0)
        show(browser, page)
        want("the title", (browser.script("return document.title"), browser.text("#title")), (title, title))
        want("the verdict of nobody", browser.text("#verdict"), "\u2713 solves (vertex, swap)")


# Plays, and moves the map at each frame, for some milliseconds; answers how many pictures a second were drawn that differ from those before.
FRAMES = """
const [lasts, done] = arguments;
const canvas = document.getElementById('map'), began = performance.now();
const press = (key, shiftKey) => document.dispatchEvent(new KeyboardEvent('keydown', { key, shiftKey, bubbles: true }));
const pen = canvas.getContext('2d');
const sum = () => {  // of each 20th row of pixels
  let total = 0;
  for (let y = 10; y < canvas.height; y += 20) {
    for (const pixel of new Uint32Array(pen.getImageData(0, y, canvas.width, 1).data.buffer)) { total = (31 * total + pixel) | 0; }
  }
  return total;
};
let [turn, pictures, before] = [0, 0, sum()];
const go = () => {
  const seen = sum();
  pictures += seen === before ? 0 : 1;
  before = seen;
  turn += 1;
  press(turn % 40 < 20 ? 'ArrowRight' : 'ArrowLeft', true);
  const passed = performance.now() - began;
  if (passed < lasts) { requestAnimationFrame(go); } else { press(' ', false); done(pictures * 1000 / passed); }
};
press(' ', false);
requestAnimationFrame(go);"""


def is_quick(browser, size, steps):
    """1,000 agents that move, while the map moves too, whole and near: 30 pictures a second without a graphics card."""
    chance = random.Random(53)
    put("seen_map", (f"type octile\nheight {size[1]}\nwidth {size[0]}\nmap\n" + ("." * size[0] + "\n") * size[1]).encode())
    put("seen_journal", ("journal 2\nmode stay\nentry 0 0 0 2000\n" + "".join(walks(chance, size, 1000, steps)) + "end 1\n").encode())
    status, page, _ = run(["page", "--map", "seen_map", "--journal", "seen_journal"])
    want("the status", status, 0)
    began = time.monotonic()
    show(browser, page)
    took, least = time.monotonic() - began, 30 / second()
    browser.write("#agent", "7")
    browser.press("escape")
    browser.script("document.activeElement.blur()")
    for keys in ([], ["+"] * 6, ["+"] * 5):
        browser.press(*keys)
        browser.press("home")
        rate = browser.ask("POST", "/execute/async", {"script": FRAMES, "args": [1500]})
        if rate < least:
            raise Wrong(f"{rate:.1f} pictures a second of {least:.1f}, at a scale of {view(browser)[2]:.1f}")
    if took > 6 * second():
        raise Wrong(f"the page is shown after {took:.1f} s")


def views():
    made = [lit_is_what_the_report_has, clicks_go_to_conflicts, verdicts_and_counts, filters, keys_and_buttons, zooms_and_moves, picks_agents, first_click_after_typing,
            reads_well, titles]
    for test in made:
        yield f"page_{test.__name__}", of_page(test)
    for size, steps in (((256, 256), 500), ((2048, 512), 200)):
        yield f"page_1000_agents_on_{size[0]}_x_{size[1]}", of_page(lambda browser, size=size, steps=steps: is_quick(browser, size, steps))
