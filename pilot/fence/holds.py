"""A keeper's hold of a store: its life in the fence, and its lease, under which bridges find the
server."""

import time
from dataclasses import dataclass, replace

from .etcd import Etcd, Gone, Puts, Value
from .records import FENCE, SERVING, STOPPED, STORE, Fence, Serving, known

# how often a change is asked for whose earlier answer was lost
TIMES = 3


class Lost(Exception):
    """Another life of the store has begun."""


@dataclass(frozen=True)
class Seen:
    """What etcd has of a store."""

    net_id: str
    fence: Fence | None
    serving: Serving | None
    # the revisions of the last changes of its NetID and its fence
    store_at: int
    fence_at: int


def seen(etcd: Etcd, name: str) -> Seen:
    """Reads all of it at one moment."""
    keys = [kind + name for kind in (STORE, FENCE, SERVING)]
    found = etcd.many(keys)
    store, fence, serving = (found.get(key, Value()) for key in keys)
    return Seen(
        store.text,
        known(fence.text, keys[1], Fence),
        known(serving.text, keys[2], Serving),
        store.at,
        fence.at,
    )


class Hold:
    """A hold, from `take` on. One thread at a time uses it."""

    def __init__(self, etcd: Etcd, name: str, seconds: int):
        self.etcd, self.seconds = etcd, seconds
        self.store, self.key, self.serving_key = (kind + name for kind in (STORE, FENCE, SERVING))
        self.fence: Fence | None = None
        self.serving: Serving | None = None
        # the revision of the fence; the lease, and when it began for the last time at the latest
        self.at, self.lease, self.begun = 0, 0, 0.0
        # whether etcd has the address under the present lease
        self.is_shown = False

    def take(self, before: Seen, fence: Fence) -> bool:
        """Begins a life, if nobody serves the store and nothing has changed since it was looked at;
        whether it began."""
        self.grant()
        self.serving = Serving("", fence.life, fence.host, fence.file)
        puts = Puts({self.key: fence.text()}, {self.serving_key: self.serving.text()}, self.lease)
        known_at = {
            self.store: before.store_at,
            self.key: before.fence_at,
            self.serving_key: 0,
        }
        outcome = self.etcd.change(known_at, puts, [self.key])
        if outcome.is_made:
            self.at = outcome.revision
        elif not self.is_own(outcome.found.get(self.key, Value()), fence):
            self.release()
            return False
        self.fence = fence
        return True

    def is_own(self, value: Value, fence: Fence) -> bool:
        """Whether this is what this keeper wrote: it is asked twice if an answer was lost."""
        there = known(value.text, self.key, Fence)
        if not there or there.keeper != fence.keeper:
            return False
        self.at = value.at
        return True

    def grant(self) -> None:
        """Gets a lease."""
        self.begun, self.is_shown = time.monotonic(), False
        self.lease = self.etcd.lease(self.seconds)

    def renew(self) -> bool:
        """Lets the lease begin anew; whether it was still there."""
        begun = time.monotonic()
        if not self.etcd.renew(self.lease):
            return False
        self.begun = begun
        return True

    def show(self, address: str) -> None:
        """The server listens there."""
        assert self.fence and self.serving
        self.serving, self.is_shown = replace(self.serving, address=address), False
        self.see(self.fence.number)

    def see(self, number: int) -> None:
        """This number is durable. If nothing is new, it only finds out whether another life has
        begun."""
        assert self.fence and self.serving
        fence, puts = replace(self.fence, number=number), Puts(lease=self.lease)
        if fence != self.fence:
            puts.values[self.key] = fence.text()
        if not self.is_shown:
            puts.leased[self.serving_key] = self.serving.text()
        self.put(fence, puts)
        self.is_shown = True

    def put(self, fence: Fence, puts: Puts) -> None:
        """Changes what the fence has of this life, if no other one has begun."""
        for _ in range(TIMES):
            outcome = self.etcd.change({self.key: self.at}, puts, [self.key])
            if outcome.is_made:
                self.at = outcome.revision if puts.values else self.at
                break
            # the answer to an earlier change was lost, or another life has begun
            there = outcome.found.get(self.key, Value())
            if not self.is_own(there, fence):
                raise Lost("another life of this store has begun")
            if there.text == fence.text():
                break
        else:
            raise Gone("answers are lost again and again")
        self.fence = fence

    def finish(self, number: int, digest: str) -> None:
        """The life has ended well: any file of these bytes may be served next."""
        assert self.fence
        fence = replace(self.fence, state=STOPPED, number=number, digest=digest)
        self.put(fence, Puts({self.key: fence.text()}, removed=[self.serving_key]))

    def release(self) -> None:
        """Ends the lease, if there is one."""
        lease, self.lease = self.lease, 0
        if lease:
            self.etcd.revoke(lease)
