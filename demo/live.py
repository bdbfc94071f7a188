#!/usr/bin/env python3
"""Shows a host in browsers while it runs: live.py [--port N] [--solves KINDS] DESK host ..

    live.py --solves 'vertex swap' ./desk host --map demo/corridor.map east west

It starts `DESK host ..` with a planner more, whose seat it takes, and tells on standard error where it shows what the desk
has: the page of `DESK page`, with live.js in its script. It commits nothing. Standard input, output and the status are
those of the host; it ends with the host, once the other sessions are over, or by Ctrl-C, which ends the host too.

What commits name it reads in the host's log, which is in memory where none is asked for. A host of --journal or --save has
none: then it asks for all cells after a wall, which on a large map takes seconds.
"""
import argparse
import http.server
import os
import re
import signal
import subprocess
import sys
import tempfile
import threading
import time

sys.dont_write_bytecode = True

from client import Seat
from picture import Picture
from watcher import Watcher

HERE = os.path.dirname(os.path.abspath(__file__))
PAGE_OPTIONS = ("--map", "--scen", "--agents", "--mode", "--journal")  # of the host's, those that `page` takes too
LAST_CALL = "  begin();\n}());"  # of page/page.js
MOST_NAMES = 253  # of a host with a log, beside live.py's own
REST = 0.1  # seconds between two looks at new versions
PULSE = 1  # seconds until a browser that is sent nothing is sent a remark


class Browser(http.server.BaseHTTPRequestHandler):
    """A browser's question, in a thread of its own, and what all of them are shown: the page, and a picture that changes."""

    timeout = 30  # seconds that a browser may leave unread what it is sent
    page, picture = b"", Picture()

    def do_GET(self):
        is_here = self.headers.get("Host", "").split(":")[0] in ("127.0.0.1", "localhost")
        answer = {"/": self.send_page, "/changes": self.send_changes}.get(self.path)
        try:
            answer() if is_here and answer else self.send_error(204)
        except OSError:
            pass  # it has gone, or doesn't read

    def send_head(self, kind):
        self.send_response(200)
        self.send_header("Content-Type", kind)
        self.send_header("Cache-Control", "no-store")
        self.end_headers()

    def send_page(self):
        self.send_head("text/html; charset=utf-8")
        self.wfile.write(self.page)

    def send_changes(self):
        """The picture, and what changes in it; where nothing does, a remark, which tells whether the browser is still there."""
        self.send_head("text/event-stream")
        many, is_over = -1, False
        while not is_over:
            events, many, is_over = Browser.picture.events_after(many, PULSE)
            self.wfile.write(events or b":\n\n")

    def log_message(self, *_):
        pass


def parted(words):
    """The options of `host` with their values, and the planners' names."""
    options, names, words = {}, [], iter(words)
    for word in words:
        if word == "--":
            names += words
        elif not word.startswith("-"):
            names.append(word)
        elif word not in ("-v", "--verbose"):
            option, is_one, value = word.partition("=")
            options[option] = value if is_one else next(words, "")
    return options, names


def page_of(desk, words):
    """The page that `page` makes, with live.js at the end of its script, and its map's rows."""
    ran = subprocess.run([desk, "page", *words], stdout=subprocess.PIPE, encoding="utf-8")
    if ran.returncode:
        sys.exit(ran.returncode)
    rows = re.search(r"id='scene'[^>]*>type octile\n.*\n.*\nmap\n([.@\n]+)", ran.stdout)[1].split()
    with open(f"{HERE}/live.js", encoding="ascii") as file:
        script = file.read()
    head, call, tail = ran.stdout.replace("\n  const horizon = ", "\n  let horizon = ", 1).rpartition(LAST_CALL)
    return (head + script + call + tail).encode(), rows


def listen(host, names, are_over):
    """Passes on what the host reports until it ends, and sees by it when the sessions of those names are over."""
    shown = lambda name: "".join(chr(it) if 32 <= it < 127 else " " if it == 9 else "?" for it in os.fsencode(name))
    running = [f"mapf_desk: {shown(it)}: " for it in names]
    for line in host.stderr:
        print(line, end="", file=sys.stderr, flush=True)
        if not line.endswith((": has come\n", ": hasn't come yet\n")):
            running = [it for it in running if not line.startswith(it)]
        if not running:
            are_over.set()


def follow(name, rows, log, are_over):
    """Sits at the seat of that name, and keeps the picture until the other sessions are over, or the host is."""
    try:
        seat = Seat(name)
        watcher = Watcher(seat, rows, Browser.picture, log)
        watcher.look()
        while not are_over.is_set():
            if watcher.is_behind(1) and watcher.look():
                time.sleep(REST)
        while watcher.is_behind(0):
            watcher.look()
        seat.close()
    except (EOFError, OSError):
        pass


def logged(options, names):
    """The name of the host's log, if it has one, and the words that let it keep one in memory where none is asked for."""
    if len(names) <= MOST_NAMES and not options.keys() & {"--log", "--sync", "--journal", "--save"}:
        log = f"/proc/self/fd/{os.memfd_create('log', 0)}"
        return log, ["--log", log, "--sync", "off"]
    return options.get("--log"), []


def hosted(desk, words, options, names, rows):
    """Runs the host until it ends, and keeps the picture of what its desk has; gives its status."""
    are_over, why = threading.Event(), "live.py has ended"
    log, more = logged(options, names)
    with tempfile.TemporaryDirectory() as folder:
        name = f"{folder}/live"
        os.mkfifo(f"{name}.in"), os.mkfifo(f"{name}.out")
        following = threading.Thread(target=follow, args=(name, rows, log, are_over), daemon=True)
        host = subprocess.Popen([desk, "-v", *words[:1], *more, *words[1:], name], stderr=subprocess.PIPE, text=True, errors="replace", close_fds=False)
        try:
            following.start()
            listen(host, ["operator", *names], are_over)
            status = host.wait()
            why = f"the host has ended with status {status}" if status >= 0 else f"the host was killed by signal {-status}"
            return status if status >= 0 else 128 - status
        finally:
            host.terminate()
            host.wait()
            following.join(1)
            Browser.picture.end(why)
            time.sleep(3 * REST)


def main():
    parser = argparse.ArgumentParser(usage="live.py [--port N] [--solves KINDS] DESK host ..")
    parser.add_argument("--port", type=int, default=0)
    parser.add_argument("--solves", default="vertex swap")
    parser.add_argument("desk")
    parser.add_argument("words", nargs=argparse.REMAINDER)
    told = parser.parse_args()
    if told.words[:1] != ["host"] or re.search("--lines[ =]1( |$)", " ".join(told.words)):
        parser.error("it runs `host`, with lines of version 2")
    options, names = parted(told.words[1:])
    words = [it for option in options.items() if option[0] in PAGE_OPTIONS for it in option]
    signal.signal(signal.SIGTERM, lambda *_: sys.exit(143))
    try:
        Browser.page, rows = page_of(told.desk, [*words, "--solves", *told.solves.split()])
        with http.server.ThreadingHTTPServer(("127.0.0.1", told.port), Browser) as server:
            threading.Thread(target=server.serve_forever, daemon=True).start()
            print(f"live.py: http://127.0.0.1:{server.server_port}/", file=sys.stderr, flush=True)
            try:
                return hosted(told.desk, told.words, options, names, rows)
            finally:
                server.shutdown()
    except KeyboardInterrupt:
        return 130
    except (OSError, OverflowError) as why:
        sys.exit(f"live.py: {why}")


if __name__ == "__main__":
    sys.exit(main())
