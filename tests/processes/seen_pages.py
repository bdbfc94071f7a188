"""What is seen of pages, by pixels of the window: the map under the wheel and a drag, a picked agent's path, and the others, who are faint."""
from .pixels import AWAY, Map, are_near, colour
from .running import Wrong, want
from .viewing import of_page

WALLS = ((3, 2), (36, 26))
# Agents by their numbers: 0 and 1 go round a corner, the others stand.
PATHS = {0: [*((x, 2) for x in range(2, 10)), *((9, y) for y in range(3, 7))], 1: [(4, 5), (3, 5), (2, 5), (2, 6), (2, 7)], 2: [(6, 5)], 3: [(11, 3)], 4: [(7, 7)]}
BODY = (0.5, 0.8)  # a point of a cell that is an agent's body, and beside its number


def zooms_and_moves_as_seen(browser):
    """By the pixels of a wall: it is larger after the wheel and stays under the pointer, a drag moves it as far as the mouse, and fit brings all back."""
    seen = Map(browser, (40, 30), WALLS, [])
    whole, wall, (left, top, wide, high) = seen.picture(), colour(browser, "--wall"), seen.spots[0]
    at = (left + wide // 4, top + 7 * high // 10)
    browser.roll(*at, -400)
    near = seen.picture()
    want("what is under the pointer", near.at(*at), wall)
    spot = near.spot(*at)
    for side, size in ((0, wide), (1, high)):
        grown, share = spot[2 + side] / size, [(at[side] - it[side]) / it[2 + side] for it in ((left, top, wide, high), spot)]
        want("how much larger the wall is, and where in it the pointer is", (1.5 < grown < 3, abs(share[0] - share[1]) < 0.08), (True, True))
    moved = dragged(browser, seen, spot, (83, 41))
    browser.point((seen.box[0] + 300, seen.box[1] + 300), AWAY)
    want("whether the map stays where the mouse let go of it", seen.picture().bytes == moved.bytes, True)
    for back in (lambda: browser.click("#fit"), lambda: browser.press("0")):
        back()
        want("whether all is seen as at first", seen.picture().bytes == whole.bytes, True)
        browser.roll(*at, -200)


def dragged(browser, seen, spot, by):
    """The picture after a drag from a free cell: the wall has moved by as many pixels."""
    start = (seen.box[0] + seen.box[2] // 2, seen.box[1] + seen.box[3] // 2)
    ways = [tuple(start[side] + share * by[side] for side in (0, 1)) for share in (0.3, 0.7, 1)]
    browser.point(start, "down", *ways, "up")
    picture = seen.picture()
    found = picture.spot(spot[0] + spot[2] // 2 + by[0], spot[1] + spot[3] // 2 + by[1])
    if max(abs(found[side] - spot[side] - by[side]) for side in (0, 1)) > 1 or found[2:] != spot[2:]:
        raise Wrong(f"the wall of {spot} is seen at {found} after a drag by {by}")
    return picture


def picks_as_seen(browser):
    """By a click and by its number: the cells of an agent's path get its colour, those of no other, other agents are faint, and with nobody all is as before."""
    edits = [it for agent, path in PATHS.items() for it in (("agent", agent, path[0], path[-1]), ("path", agent, *path))]
    seen = Map(browser, (14, 9), ((1, 1), (12, 7)), edits)
    before = seen.picture()
    for agent in (0, 1):
        browser.point(seen.point(*(sum(it) for it in zip(PATHS[agent][0], BODY))), "down", "up")
        is_picked(seen, before, agent)
        browser.press("escape")
        want("whether all is as before it was picked", seen.picture().bytes == before.bytes, True)
    for agent in (1, 0):
        browser.write("#agent", str(agent))
        is_picked(seen, before, agent)
    browser.click("#nobody")
    want("whether all is as before its number was given", seen.picture().bytes == before.bytes, True)


def is_picked(seen, before, agent):
    """The picture is that of the map before, but with that agent's path, and the others faint."""
    after, floor = seen.picture(), colour(seen.browser, "--floor")
    at = lambda picture, cell, part=(0.5, 0.5): picture.at(*seen.point(cell[0] + part[0], cell[1] + part[1]))
    ends = {cell for path in PATHS.values() for cell in (path[0], path[-1])}
    for cell in ((x, y) for x in range(seen.size[0]) for y in range(seen.size[1])):
        if cell not in ends and cell not in seen.walls:
            right = colour(seen.browser, f"--c{agent}") if cell in PATHS[agent] else floor
            want(f"the middle of {cell} before and after", (at(before, cell), at(after, cell)), (floor, right))
    for other, path in PATHS.items():
        own, old, new = colour(seen.browser, f"--c{other}"), at(before, path[0], BODY), at(after, path[0], BODY)
        apart = [sum(abs(one - ground) for one, ground in zip(it, floor)) for it in (old, new)]
        want(f"agent {other} before", are_near(old, own), True)
        if other == agent:
            want("whether it is as it was", are_near(new, own), True)
        else:
            want(f"whether agent {other} is faint, and seen", 0.1 * apart[0] < apart[1] < 0.5 * apart[0], True)


def views():
    for test in (zooms_and_moves_as_seen, picks_as_seen):
        yield f"page_{test.__name__}", of_page(test)
