"""What a person sees of a page: pixels of a picture of the window, and where they show the cells of a known map."""
import base64

from .plain import line_of
from .running import Wrong, put, run, want
from .viewing import show

BOX = "const it = document.querySelector(arguments[0]).getBoundingClientRect(); return [it.left, it.top, it.width, it.height]"
AWAY = (2, 2)  # a point of the window with nothing to point at
EDGE = 4  # the map's outermost pixels, over which its outline lies while it has the focus
ASIDE = (70, 40)  # the map's right and lower pixels that are left out, since buttons and the cell under the pointer lie over them

# The pixels of a part of a picture, each as its red, green, blue and a byte more.
CUT = """
const [data, [left, top, width, height], done] = arguments;
const image = new Image();
image.onload = () => {
  const pad = Object.assign(document.createElement('canvas'), { width, height }).getContext('2d');
  pad.drawImage(image, -left, -top);
  const bytes = pad.getImageData(0, 0, width, height).data;
  let text = '';
  for (let at = 0; at < bytes.length; at += 8192) { text += String.fromCharCode(...bytes.subarray(at, at + 8192)); }
  done(btoa(text));
};
image.src = 'data:image/png;base64,' + data;"""


def box_of(browser, pattern, more=0):
    """Where the element is in the window: left, top, width and height, with so many pixels more round it."""
    left, top, width, height = browser.script(BOX, pattern)
    return [round(left) - more, round(top) - more, round(width) + 2 * more, round(height) + 2 * more]


class Picture:
    """The pixels of a part of the window, as they are now; points are those of the window."""

    def __init__(self, browser, box):
        browser.drawn()
        self.left, self.top, self.width, self.height = box
        words = {"script": CUT, "args": [browser.ask("GET", "/screenshot"), box]}
        self.bytes = base64.b64decode(browser.ask("POST", "/execute/async", words))

    def at(self, x, y):
        place = 4 * (int(x) - self.left + (int(y) - self.top) * self.width)
        if not 0 <= int(x) - self.left < self.width or not 0 <= place < len(self.bytes):
            raise Wrong(f"{x},{y} is not in the picture")
        return tuple(self.bytes[place:place + 3])

    def pixels(self):
        return [tuple(self.bytes[at:at + 3]) for at in range(0, len(self.bytes), 4)]

    def ends(self, colour):
        """The first and the last pixel of that colour, row by row."""
        rows = [self.bytes[at:at + 4 * self.width] for at in range(0, len(self.bytes), 4 * self.width)]
        found = [(x, y) for y, row in enumerate(rows) if bytes(colour) in row for x in range(self.width) if row[4 * x:4 * x + 3] == bytes(colour)]
        want(f"whether {colour} is seen", bool(found), True)
        return [(x + self.left, y + self.top) for x, y in (found[0], found[-1])]

    def spot(self, x, y):
        """The extent of the colour round a point: its left, top, width and height."""
        colour = self.at(x, y)

        def far(across, down):
            many = 1
            while are_near(self.at(x + many * across, y + many * down), colour):
                many += 1
            return many - 1
        left, right, up, down = (far(*it) for it in ((-1, 0), (1, 0), (0, -1), (0, 1)))
        return x - left, y - up, left + right + 1, up + down + 1


def are_near(one, other, most=24):
    return max(abs(a - b) for a, b in zip(one, other)) <= most


def colour(browser, name):
    """A colour of the style, as a pixel has it."""
    found = browser.script("return getComputedStyle(document.documentElement).getPropertyValue(arguments[0]).trim()", name)
    digits = found[1:] if len(found) == 7 else "".join(2 * it for it in found[1:])
    return tuple(bytes.fromhex(digits))


class Map:
    """The page of a map whose only walls are two, the second to the right of the first and below it, and of some edits."""

    def __init__(self, browser, size, walls, edits, *words):
        self.browser, self.size, self.walls = browser, size, walls
        rows = ["".join("@" if (x, y) in walls else "." for x in range(size[0])) for y in range(size[1])]
        put("seen_map", f"type octile\nheight {size[1]}\nwidth {size[0]}\nmap\n{''.join(f'{it}{chr(10)}' for it in rows)}".encode())
        entry = f"entry 0 0 0 {len(edits)}\n" + "".join(map(line_of, edits)) if edits else ""
        put("seen_journal", f"journal 2\nmode stay\n{entry}end {len(edits) > 0:d}\n".encode())
        status, page, complained = run(["page", "--map", "seen_map", "--journal", "seen_journal", *words])
        want("what page says", (status, complained), (0, ""))
        show(browser, page)
        left, top, width, height = box_of(browser, "#map")
        self.box = [left + EDGE, top + EDGE, width - ASIDE[0] - EDGE, height - ASIDE[1] - EDGE]
        self.find()

    def picture(self):
        """The map as it is seen, with the mouse elsewhere."""
        self.browser.point(AWAY)
        return Picture(self.browser, self.box)

    def find(self):
        """Where the walls are seen to be, and so how large a cell is, in pixels."""
        picture = self.picture()
        self.spots = [picture.spot(*it) for it in picture.ends(colour(self.browser, "--wall"))]
        want("whether both walls are seen, apart", self.spots[0] != self.spots[1], True)
        middles = [(left + width / 2, top + height / 2) for left, top, width, height in self.spots]
        self.scale = (middles[1][0] - middles[0][0]) / (self.walls[1][0] - self.walls[0][0])
        self.start = [middles[0][side] - (self.walls[0][side] + 0.5) * self.scale for side in (0, 1)]
        return picture

    def point(self, x, y):
        """Where a point of the map, in cells, is in the window, as it was found."""
        return round(self.start[0] + x * self.scale), round(self.start[1] + y * self.scale)
