"""A browser that is driven as a person would: Chromium, over the HTTP of chromedriver (W3C WebDriver), by urllib alone."""
import base64
import json
import os
import re
import shutil
import subprocess
import time
import urllib.error
import urllib.request

from .running import PATIENCE, Wrong, want

TRIES = 3  # to begin a browser, which a busy machine may not reach at once
NEEDED = ("chromium", "chromedriver")  # of Debian's packages chromium and chromium-driver
KEYS = {"left": "\ue012", "right": "\ue014", "home": "\ue011", "end": "\ue010", "escape": "\ue00c", "space": " ", "shift": "\ue008", "down": "\ue015",
        "up": "\ue013", "tab": "\ue004"}
ELEMENT = "element-6066-11e4-a52e-4f735466cecf"


def missing():
    """The programs that a machine lacks for these tests."""
    return [it for it in NEEDED if shutil.which(it) is None]


def wanted(width, height):
    """What the driver is asked for: a window of that size."""
    words = ["--headless=new", "--no-sandbox", "--disable-gpu", "--disable-dev-shm-usage", "--hide-scrollbars", f"--window-size={width},{height}"]
    options = {"args": words, "binary": shutil.which("chromium")}
    return {"alwaysMatch": {"browserName": "chrome", "goog:chromeOptions": options, "goog:loggingPrefs": {"browser": "ALL"}}}


class Browser:
    """One window of a browser, without a screen and without a graphics card."""

    def __init__(self, width=1400, height=900):
        for number in range(1, TRIES + 1):
            self.start_driver()
            try:
                self.at += "/" + self.ask("POST", "", {"capabilities": wanted(width, height)})["sessionId"]
                return
            except BaseException as why:
                self.driver.kill()
                if number == TRIES or not isinstance(why, (Wrong, OSError)):
                    raise

    def start_driver(self):
        self.driver = subprocess.Popen(["chromedriver", "--port=0"], stdout=subprocess.PIPE, stderr=subprocess.DEVNULL, text=True)
        said = ""
        while "successfully on port" not in said:
            line = self.driver.stdout.readline()
            if not line:
                raise Wrong(f"chromedriver doesn't start: {said}")
            said += line
        port = re.findall(r"on port (\d+)", said)[-1]
        self.at = f"http://127.0.0.1:{port}/session"

    def __enter__(self):
        return self

    def __exit__(self, *_):
        try:
            self.ask("DELETE", "")
        finally:
            self.driver.terminate()
            self.driver.wait()
            self.driver.stdout.close()

    def ask(self, method, path, words=None):
        """What the driver answers."""
        body = None if words is None else json.dumps(words).encode()
        asked = urllib.request.Request(self.at + path, body, {"Content-Type": "application/json"}, method=method)
        try:
            with urllib.request.urlopen(asked, timeout=2 * PATIENCE) as answer:
                return json.load(answer)["value"]
        except urllib.error.HTTPError as why:
            raise Wrong(f"the browser refuses {path}: {json.load(why)['value'].get('message', '')[:300]}") from None

    def open(self, file):
        self.go(f"file://{os.path.abspath(file)}")

    def go(self, url):
        self.ask("POST", "/url", {"url": url})
        want("what the page complains of", self.complaints(), [])

    def complaints(self):
        """What the browser's console has of faults, of scripts and of what can't be loaded."""
        return [it["message"] for it in self.ask("POST", "/se/log", {"type": "browser"}) if it["level"] == "SEVERE"]

    def script(self, text, *words):
        """What a function with that body answers."""
        return self.ask("POST", "/execute/sync", {"script": text, "args": list(words)})

    def prefers(self, look):
        """From now on the browser wishes for that look, dark or light."""
        words = {"features": [{"name": "prefers-color-scheme", "value": look}]}
        self.ask("POST", "/goog/cdp/execute", {"cmd": "Emulation.setEmulatedMedia", "params": words})

    def names(self, pattern):
        """What a screen reader calls each of the elements."""
        found = self.ask("POST", "/elements", {"using": "css selector", "value": pattern})
        return [self.ask("GET", f"/element/{it[ELEMENT]}/computedlabel") for it in found]

    def find(self, pattern):
        return self.ask("POST", "/element", {"using": "css selector", "value": pattern})[ELEMENT]

    def click(self, pattern):
        self.ask("POST", f"/element/{self.find(pattern)}/click", {})

    def write(self, pattern, text):
        """Writes into a field, in place of what stands there."""
        field = self.find(pattern)
        self.ask("POST", f"/element/{field}/clear", {})
        if text:
            self.ask("POST", f"/element/{field}/value", {"text": text})

    def text(self, pattern):
        return self.script("return document.querySelector(arguments[0]).textContent", pattern)

    def texts(self, pattern):
        return self.script("return Array.from(document.querySelectorAll(arguments[0]), (it) => it.textContent)", pattern)

    def press(self, *names, shift=False):
        """Presses keys, one after another, where the focus is."""
        strokes = [{"type": kind, "value": KEYS.get(it, it)} for it in names for kind in ("keyDown", "keyUp")]
        held = [[{"type": "keyDown", "value": KEYS["shift"]}], [{"type": "keyUp", "value": KEYS["shift"]}]] if shift else [[], []]
        self.act([{"type": "key", "id": "keys", "actions": held[0] + strokes + held[1]}])

    def act(self, actions):
        self.ask("POST", "/actions", {"actions": actions})

    def point(self, *steps):
        """Moves the mouse over the window: (x, y) goes there, 'down' and 'up' are its button's."""
        made = [{"type": "pointerMove", "duration": 0, "x": round(it[0]), "y": round(it[1])} if isinstance(it, tuple)
                else {"type": f"pointer{it.capitalize()}", "button": 0} for it in steps]
        self.act([{"type": "pointer", "id": "mouse", "parameters": {"pointerType": "mouse"}, "actions": made}])

    def roll(self, x, y, far):
        """Rolls the mouse's wheel over a point of the window."""
        self.act([{"type": "wheel", "id": "wheel", "actions": [{"type": "scroll", "x": round(x), "y": round(y), "deltaX": 0, "deltaY": far, "duration": 0}]}])

    def picture(self, file):
        with open(file, "wb") as out:
            out.write(base64.b64decode(self.ask("GET", "/screenshot")))

    def drawn(self):
        """Waits until what was asked for is drawn."""
        self.ask("POST", "/execute/async", {"script": "const done = arguments[0]; requestAnimationFrame(() => requestAnimationFrame(() => done(0)))", "args": []})

    def until(self, what, holds):
        """Waits until something holds."""
        end = time.monotonic() + PATIENCE
        while not holds():
            if time.monotonic() > end:
                raise Wrong(f"not so after {PATIENCE} seconds: {what}")
            time.sleep(0.02)
