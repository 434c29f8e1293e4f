"""What became of a load: the moments at which its uplinks were sent, and at which they came out."""

from collections.abc import Sequence
from dataclasses import dataclass
from typing import Any

WINDOW = 200_000_000
NS = 1_000_000_000


def longest(moments: Sequence[int], begun: int, ended: int) -> float:
    """The longest silence, in seconds, that wasn't over at `begun`. Until `ended` something was due
    all the time."""
    before = [moment for moment in moments if moment < begun]
    inside = sorted(moment for moment in moments if begun <= moment < ended)
    marks = [max(before, default=begun), *inside, ended]
    return max(after - one for one, after in zip(marks, marks[1:])) / NS


def share(ordered: Sequence[float], part: float) -> float:
    """The value that so great a part of ordered values doesn't exceed."""
    return ordered[min(len(ordered) - 1, int(part * len(ordered)))] if ordered else float("nan")


@dataclass
class Outcome:
    """Uplinks by their places in the order in which they are sent: stores take turns, so an uplink
    of place P is one of store P % stores. A moment 0 is none."""

    stores: int
    sent: Any
    came: Any
    twice: int = 0
    wrong: int = 0

    def lost(self, at: int | None = None) -> int:
        """How many uplinks didn't come out, of one store or of all."""
        places = range(len(self.came)) if at is None else range(at, len(self.came), self.stores)
        return sum(not self.came[place] for place in places)

    def waits(self) -> list[float]:
        """How long each took beyond its window, in milliseconds, the shortest first."""
        pairs = zip(self.sent, self.came)
        return sorted((came - sent - WINDOW) / 1e6 for sent, came in pairs if came)

    def moments(self, at: int) -> list[int]:
        """When uplinks of a store came out."""
        return [moment for moment in self.came[at :: self.stores] if moment]

    def silence(self, at: int, begun: int) -> float:
        """How long a store was silent from a moment on, at most, in seconds."""
        return longest(self.moments(at), begun, max(self.sent) + WINDOW)

    def silence_of_all(self, begun: int) -> float:
        """For how long nothing came from any store, at most."""
        moments = [moment for moment in self.came if moment]
        return longest(moments, begun, max(self.sent) + WINDOW)

    def silence_of_others(self, at: int, begun: int) -> float:
        """The longest silence of any other store."""
        others = [other for other in range(self.stores) if other != at]
        return max((self.silence(other, begun) for other in others), default=0.0)

    def silence_before(self, ended: int) -> float:
        """The longest silence of any store until then, once its first uplink had come."""
        found = [self.moments(at) for at in range(self.stores)]
        return max((longest(of, min(of), ended) for of in found if of), default=0.0)
