"""How kinds and agents are told apart in pages: each kind by a sign of a shape of its own, agents by colours that stay apart for people with red-green blindness."""
import itertools

from .pixels import Map, Picture, are_near, colour
from .plain import ASKED
from .running import want
from .sights import SIGHTS, apart
from .viewing import HEADS, of_page

WALLS = ((0, 0), (8, 6))
# Of each kind the paths of some agents who have it in the cell 4,3 or on the way there.
MEETINGS = {
    "vertex": [[(3, 3), (4, 3), (5, 3)], [(4, 2), (4, 3), (4, 4)]],
    "parked": [[(4, 3)], [(4, 1), (4, 2), (4, 3)]],
    "edge": [[(3, 3), (4, 3), (5, 3)], [(3, 3), (4, 3), (4, 4)]],
    "follow": [[(3, 3), (4, 3)], [(4, 3), (5, 3)]],
    "swap": [[(3, 3), (4, 3)], [(4, 3), (3, 3)]],
    "cycle": [[(3, 3), (4, 3)], [(4, 3), (4, 4)], [(4, 4), (3, 4)], [(3, 4), (3, 3)]],
    "visit": [[(3, 3), (4, 3)]],
}
MOST_SHARED = 0.85  # of the pixels of two signs
LEAST_APART = 12  # in CIELAB, some five times what can just be told


def edits_of(paths):
    return [it for agent, path in enumerate(paths) for it in (("agent", agent, path[0], path[-1]), ("path", agent, *path))]


def sign_of(browser, kind):
    """The pixels of the sign of a kind, as it lies round the cell 4,3."""
    closed = [("close", (4, 3))] if kind == "visit" else []
    seen = Map(browser, (9, 7), WALLS, edits_of(MEETINGS[kind]) + closed, "--solves", *ASKED)
    for other in {*HEADS, "unfinished"} - {kind}:
        browser.click(f"#kind-{other}")
    for _ in range(4):
        if not browser.texts("#lit li"):
            browser.press("right")
    want("what is lit", {it.split()[0] for it in browser.texts("#lit li")}, {kind})
    (x, y), far, mark = seen.point(4.5, 3.5), round(1.5 * seen.scale), colour(browser, "--mark")
    picture = Picture(browser, [x - far, y - far, 2 * far, 2 * far])
    return {(at % picture.width, at // picture.width) for at, it in enumerate(picture.pixels()) if are_near(it, mark)}


def kinds_have_their_shapes(browser):
    """The sign of each kind, alone on the map, differs from that of each other one in its shape or in how it lies on the cells."""
    signs = {kind: sign_of(browser, kind) for kind in MEETINGS}
    want("kinds without a sign", [kind for kind, sign in signs.items() if len(sign) < 100], [])
    shared = {(one, other): len(signs[one] & signs[other]) / len(signs[one] | signs[other]) for one, other in itertools.combinations(signs, 2)}
    want("signs that look the same", {pair: round(share, 2) for pair, share in shared.items() if share > MOST_SHARED}, {})


def colours_stay_apart(browser):
    """In both looks the colours of agents, floor and walls, and of signs that count or don't, as they are seen, stay apart without red or green cones."""
    standing, follow, swap = [[(2 + agent, 2)] for agent in range(5)], [[(2, 4), (3, 4)], [(3, 4), (4, 4)]], [[(6, 4), (7, 4)], [(7, 4), (6, 4)]]
    for look in ("light", "dark"):
        browser.prefers(look)
        seen = Map(browser, (9, 7), WALLS, edits_of([*standing, *follow, *swap]), "--solves", "swap")
        browser.click("#kind-follow")
        picture = seen.find()
        places = {"floor": (1.5, 1.5), "wall": (0.5, 0.5), **{f"agent {at}": (2.5 + at, 2.8) for at in range(5)}}
        found = {name: picture.at(*seen.point(*spot)) for name, spot in places.items()}
        are_apart(look, found)
        signs = {name: picture.at(*picture.ends(colour(browser, f"--{name}"))[0]) for name in ("mark", "other")}
        are_apart(look, {**signs, "floor": found["floor"]})
    browser.prefers("light")


def are_apart(look, found):
    for sight, (one, other) in itertools.product(SIGHTS, itertools.combinations(found, 2)):
        far = apart(found[one], found[other], sight)
        want(f"whether {one} and {other} are apart in the {look} look for {sight}, by {far:.1f}", far >= LEAST_APART, True)


def views():
    for test in (kinds_have_their_shapes, colours_stay_apart):
        yield f"page_{test.__name__}", of_page(test)
