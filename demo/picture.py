"""What browsers are shown of a desk, and the events by which they learn what changed in it."""
import bisect
import collections
import itertools
import json
import threading

BYTES_KEPT = 4_000_000  # of events, for browsers that are behind


class Pieces:
    """The pieces of a text, in the order of their places."""

    def __init__(self):
        self.places, self.at = [], {}

    def change(self, told):
        """Takes in what is at some places now, none where nothing is: tells where those were that went, and those that came, with where they are."""
        told = sorted(it for it in told.items() if self.at.get(it[0]) != it[1])
        gone = [bisect.bisect_left(self.places, place) for place, _ in told if place in self.at]
        for index in reversed(gone):
            del self.at[self.places.pop(index)]
        came = [(place, piece) for place, piece in told if piece is not None]
        self.at.update(came)
        for place, _ in came:
            bisect.insort(self.places, place)
        return gone, [(bisect.bisect_left(self.places, place), piece) for place, piece in came]

    def whole(self):
        return [self.at[it] for it in self.places]


class Picture:
    """What browsers are to show, and the events by which they learn of it. The scene's pieces are its map's rows and each agent's two lines."""

    def __init__(self):
        self.has_changed, self.texts = threading.Condition(), {"scene": Pieces(), "report": Pieces()}
        self.version, self.over = None, None
        self.events, self.first, self.kept = collections.deque(), 0, 0

    def change(self, version, **told):
        """Takes in what is at some places of the texts now."""
        with self.has_changed:
            parts = {name: self.texts[name].change(it) for name, it in told.items()}
            if version != self.version or any(map(any, parts.values())):
                self.version = version
                self.tell(parts)

    def end(self, why):
        with self.has_changed:
            self.over = why
            self.tell({name: ((), ()) for name in self.texts})

    def event(self, is_whole, parts):
        return f"data: {json.dumps({'version': self.version, 'whole': is_whole, 'over': self.over, **parts})}\n\n".encode()

    def tell(self, parts):
        self.events.append(self.event(False, parts))
        self.kept += len(self.events[-1])
        while len(self.events) > 1 and self.kept > BYTES_KEPT:
            self.kept -= len(self.events.popleft())
            self.first += 1
        self.has_changed.notify_all()

    def events_after(self, many, seconds):
        """The events behind so many, once there are some or so long has gone, and how many there are then; all in one where those aren't kept."""
        with self.has_changed:
            self.has_changed.wait_for(lambda: self.first + len(self.events) > many, seconds)
            count = self.first + len(self.events)
            if many >= self.first:
                return b"".join(itertools.islice(self.events, many - self.first, None)), count, self.over is not None
            return self.event(True, {name: ((), list(enumerate(it.whole()))) for name, it in self.texts.items()}), count, self.over is not None
