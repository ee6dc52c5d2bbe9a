"""By their digests machines see that they play the same, and find the first frame that differs: "A play" of docs/WIRE.md."""
from contacts import since

KEPT = 256
SEARCH = 2_000
EVERY = 64


class Digests:
    """The digests that a machine has noted."""

    def __init__(self):
        self.places, self.last = {}, None

    def note(self, frame, digest):
        self.last = self.places[frame % KEPT] = frame, digest

    def at(self, frame):
        """The frame and its digest, if it was noted and no later one took its place."""
        kept = self.places.get(frame % KEPT)
        return kept if kept and kept[0] == frame else None

    def nearest(self, first, end):
        """Of those between two frames the one nearest to the middle; of two the one with the lower place."""
        middle = first + (end - first) // 2
        between = [(abs(kept[0] - middle), place, kept) for place, kept in self.places.items() if first <= kept[0] < end]
        return min(between)[2] if between else None


class Comparison:
    """How another machine's digests compare with this one's."""

    def __init__(self):
        self.first, self.differs, self.seen, self.told = 0, None, 0, False

    def hear(self, digests, settled, now):
        """A digest was heard of a frame that this machine has noted too, or hasn't."""
        own = settled and digests.at(settled[0])
        if not own:
            return
        frame = settled[0]
        if own != tuple(settled):
            self.seen = now if self.differs is None else self.seen
            self.differs = frame if self.differs is None else min(self.differs, frame)
        elif self.differs is None or frame < self.differs:
            self.first = max(self.first, frame + 1)

    def is_sought(self, now):
        """Whether the first frame that differs is sought."""
        return self.differs is not None and since(now, self.seen) <= SEARCH

    def tells(self, digests, number, now):
        """The digest that goes with a play of this number, if one does."""
        if not self.is_sought(now):
            return digests.last if number % EVERY == 1 else None
        if number % 2:
            return digests.at(self.differs)
        return digests.nearest(self.first, self.differs) or digests.at(max(0, self.first - 1))

    def found(self, digests, is_gone, now):
        """The frame that differs, if it is to be told now."""
        if self.differs is None or self.told:
            return None
        if self.is_sought(now) and not is_gone and digests.nearest(self.first, self.differs):
            return None
        self.told = True
        return self.differs
