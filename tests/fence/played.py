"""An etcd that is played: it keeps values and leases by the rules of etcd's transactions, and loses
or delays what a trial says."""

import time
from collections.abc import Callable, Sequence
from typing import Any

from fence.etcd import Gone, NoLease, Outcome, Puts, Value

LOST, LATE, AWAY = "lost", "late", "away"


class Played:
    """What a client of etcd asks, answered at once. Of the next changes, `faults` has what becomes
    of each: an answer is lost, a change is made when `deliver` is called and its asker gives up
    before, or nobody is there."""

    def __init__(self) -> None:
        self.values: dict[str, Value] = {}
        self.leases: dict[int, set[str]] = {}
        self.revision, self.leases_made = 1, 0
        self.faults: list[str] = []
        # when a lease was asked for last
        self.asked = 0.0
        self.late: list[Callable[[], Any]] = []

    def get(self, key: str) -> Value:
        """A key's value."""
        return self.values.get(key, Value())

    def many(self, keys: Sequence[str]) -> dict[str, Value]:
        """The values of keys."""
        return {key: self.values[key] for key in keys if key in self.values}

    def change(self, seen: dict[str, int], puts: Puts, keys: Sequence[str] = ()) -> Outcome:
        """A transaction."""
        fault = self.faults.pop(0) if self.faults else ""
        if fault == AWAY:
            raise Gone("nobody is there")
        if fault == LATE:
            self.late.append(lambda: self.made(seen, puts, keys))
            raise Gone("no answer came in time")
        outcome = self.made(seen, puts, keys)
        if fault == LOST:
            raise Gone("the answer is lost")
        return outcome

    def made(self, seen: dict[str, int], puts: Puts, keys: Sequence[str]) -> Outcome:
        """Makes a change, if the keys are as they were seen."""
        if any(self.get(key).at != at for key, at in seen.items()):
            return Outcome(False, self.revision, self.many(keys))
        if puts.leased and puts.lease not in self.leases:
            raise NoLease("requested lease not found")
        written = puts.values | puts.leased
        self.revision += bool(written or puts.removed)
        for key in (*written, *puts.removed):
            self.remove(key)
        self.values |= {key: Value(text, self.revision) for key, text in written.items()}
        if puts.leased:
            self.leases[puts.lease] |= set(puts.leased)
        return Outcome(True, self.revision, {})

    def remove(self, key: str) -> None:
        """Removes a key, also from its lease."""
        self.values.pop(key, None)
        for keys in self.leases.values():
            keys.discard(key)

    def deliver(self) -> None:
        """What is late is done now; a lease may be over."""
        for change in self.late:
            try:
                change()
            except NoLease:
                pass
        self.late.clear()

    def lease(self, _seconds: int) -> int:
        """A new lease."""
        self.asked = time.monotonic()
        self.leases_made += 1
        self.leases[self.leases_made] = set()
        return self.leases_made

    def renew(self, lease: int) -> bool:
        """Whether a lease is still there."""
        self.asked = time.monotonic()
        return lease in self.leases

    def revoke(self, lease: int) -> None:
        """Ends a lease."""
        for key in self.leases.pop(lease, set()):
            self.values.pop(key, None)
