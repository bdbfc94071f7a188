"""What a person does with a page by hand: plays at some speed, drags the slider, goes through it by Tab; and what is seen of that."""
from .pixels import Map, Picture, are_near, box_of, colour
from .running import want
from .sights import contrast
from .viewing import of_page

LASTS = 2000  # milliseconds that a pace is measured for
# How many steps the shown time goes on by, and in how many milliseconds.
PACE = """
const [lasts, done] = arguments, began = performance.now();
const shown = () => Number(document.getElementById('time').textContent);
const first = shown();
setTimeout(() => done([shown() - first, performance.now() - began]), lasts);"""
ACTIVE = "const it = document.activeElement; return it.id || it.tagName"
# What Tab comes to, one after another, and how the name begins that a screen reader has for it.
CONTROLS = (("map", "Map"), ("closer", "Zoom in"), ("wider", "Zoom out"), ("fit", "Fit"),
            ("first", "To the start"), ("back", "A step back"), ("play", "Play"), ("forth", "A step forth"), ("last", "To the end"),
            ("slider", "Time"), ("speed", "speed"), ("loop", "loop"), ("kind-vertex", "vertex"), ("kind-parked", "parked"), ("kind-edge", "edge"),
            ("kind-follow", "follow"), ("kind-swap", "swap"), ("kind-cycle", "cycle"), ("kind-visit", "blocked"), ("kind-unfinished", "not at goal"),
            ("paths", "paths of all agents"), ("agent", "number"), ("nobody", "all agents"), ("from", "from time"), ("to", "to"), ("list", "Found"),
            ("SUMMARY", "Keys"))


def line_of_cells(browser, many, steps):
    """The page of an agent who goes to and fro on a line of cells."""
    way = [(at, 2) for at in (*range(many - 1), *range(many - 1, 0, -1))]
    path = (way * (steps // len(way) + 1))[:steps + 1]
    return Map(browser, (many + 6, 5), ((0, 0), (many, 4)), [("agent", 0, path[0], path[-1]), ("path", 0, *path)])


def speed_sets_the_pace(browser):
    """As it plays, the shown time goes on by as many steps a second as the speed that is chosen says, within wide bounds; so twice the speed is some twice as many."""
    line_of_cells(browser, 40, 3000)
    browser.click("#play")
    paces = {}
    for speed in (8, 16, 40):
        browser.click(f"#speed option[value='{speed}']")
        steps, passed = browser.ask("POST", "/execute/async", {"script": PACE, "args": [LASTS]})
        paces[speed] = steps * 1000 / passed
    browser.click("#play")
    want(f"whether {paces} are those speeds", [0.5 * it < paces[it] < 1.3 * it for it in paces], [True] * 3)
    want(f"whether the second of {paces} is some twice the first", 1.3 < paces[16] / paces[8] < 3, True)


def ink(browser, pattern):
    """How many pixels high the letters of an element are."""
    picture = Picture(browser, box_of(browser, pattern))
    pixels = picture.pixels()
    ground = max(set(pixels), key=pixels.count)
    rows = [at // picture.width for at, it in enumerate(pixels) if contrast(it, ground) > 3]
    return max(rows) - min(rows) + 1


def time_in_large_figures(browser):
    """The figures of the present time are 20 pixels high or more, and nearly twice as high as those beside them."""
    line_of_cells(browser, 40, 39)
    browser.press("end")
    want("the time", (browser.text("#time"), browser.text("#horizon")), ("39", "of 39"))
    large, small = ink(browser, "#time"), ink(browser, "#horizon")
    want(f"whether {large} pixels are many beside {small}", (large >= 20, large >= 1.8 * small), (True, True))


def mouse(browser, kind, x, y):
    """An event of the mouse by the browser's own protocol, as a press must outlast it."""
    words = {"type": f"mouse{kind}", "x": x, "y": y, "button": "left", "buttons": int(kind != "Released"), "clickCount": 1}
    browser.ask("POST", "/goog/cdp/execute", {"cmd": "Input.dispatchMouseEvent", "params": words})


def slider_is_dragged(browser):
    """While the mouse drags the slider's knob, the time and the agent in the picture go along; where it is let go they stay."""
    seen = line_of_cells(browser, 40, 39)
    left, top, wide, high = box_of(browser, "#slider")
    at = lambda time: (left + 8 + (wide - 16) * time / 39, top + high / 2)
    mouse(browser, "Pressed", *at(0))
    for time in (3, 10, 30, 21):
        mouse(browser, "Moved", *at(time))
        agent_is_at(seen, time)
    mouse(browser, "Released", *at(21))
    browser.point(at(5))
    agent_is_at(seen, 21)


def agent_is_at(seen, time):
    """The shown time is that one or one beside it, and the agent is drawn where it is then, and nowhere else."""
    shown = int(seen.browser.text("#time"))
    want(f"whether the time {shown} is some {time}", abs(shown - time) <= 1, True)
    picture, body = Picture(seen.browser, seen.box), colour(seen.browser, "--c0")
    spots = [seen.point(at + 0.5, 2.8) for at in range(seen.walls[1][0])]
    want("where the agent is seen", [at for at, spot in enumerate(spots) if are_near(picture.at(*spot), body)], [shown])


def tab_goes_to_all(browser):
    """Tab goes to each control in order, and with shift back; each has its name and is seen to have the focus, by its pixels with it and without."""
    line_of_cells(browser, 40, 39)
    for control, name in CONTROLS:
        browser.press("tab")
        want("what Tab goes to", browser.script(ACTIVE), control)
        pattern = control.lower() if control == "SUMMARY" else f"#{control}"
        [told] = browser.names(pattern)
        want(f"what {control} is called", told[:len(name)], name)
        shows_the_focus(browser, control, pattern)
    for control, _ in CONTROLS[-2::-1]:
        browser.press("tab", shift=True)
        want("what shift and Tab go back to", browser.script(ACTIVE), control)


def shows_the_focus(browser, control, pattern):
    """As WCAG 2.2 says in 2.4.13: as many pixels as an edge of two pixels round it has are 3 to 1 or more beside what they are without the focus."""
    box = box_of(browser, pattern, 6)
    focused = Picture(browser, box).pixels()
    browser.script("document.activeElement.blur()")
    many = sum(one != other and contrast(one, other) >= 3 for one, other in zip(focused, Picture(browser, box).pixels()))
    width, height = box[2] - 12, box[3] - 12
    want(f"whether {control} shows the focus, by {many} pixels", many >= 4 * (width + height) - 16, True)


def views():
    for test in (speed_sets_the_pace, time_in_large_figures, slider_is_dragged, tab_goes_to_all):
        yield f"page_{test.__name__}", of_page(test)
