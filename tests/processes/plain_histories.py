"""A plain desk that answers `changes` too, as docs/PROTOCOL.md says: it has all its scenes, and counts what may be told."""
from .chances import Desk
from .plain_questions import changes, records


class Kept(Desk):
    """A desk that keeps so many changes of its report, from the version on that it has at first."""

    def __init__(self, mode, most=10**6):
        super().__init__(mode)
        self.most, self.first, self.scenes, self.counts = most, 0, [self.scene], []

    def begins_here(self):
        """What was before is no longer kept: the desk was closed, and another opened with its journal."""
        self.first = len(self.entries)

    def enter(self, *commit):
        super().enter(*commit)
        self.counts.append(records(self.scenes[-1], self.scene))
        self.scenes.append(self.scene)
        while sum(self.counts[self.first:]) > self.most:
            self.first += 1
        if self.most == 0:
            self.begins_here()

    def since(self, version):
        """The lines of the answer to `changes VERSION`."""
        now = len(self.entries)
        if version > now:
            return [f"refused ahead {now}"]
        if version < self.first:
            return [f"refused forgotten {self.first}"]
        return [f"version {now}", *changes(self.scenes[version], version, self.scene)]
