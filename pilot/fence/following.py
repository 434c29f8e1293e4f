"""What bridges read of the cluster: the lists of stores and of their devices."""

import time
from collections.abc import Iterable, Iterator

from bozintar.counts import replace
from bozintar.logs import Seldom, log

from .etcd import Change, Etcd, Forgotten, Gone
from .records import DEVICE, NET_ID, SERVING, STORE, Serving, Unreadable, name_of

KINDS = (STORE, SERVING, DEVICE)
# how long nothing changes until the cluster is asked whether it is still there; how often a list of
# devices is written at most while many are claimed; and how long a cluster that is away is left, in
# seconds
PAUSE, EVERY, AGAIN = 1.0, 1.0, 1.0


class Lists:
    """What the cluster has: each kind of keys, by the last part of the key."""

    def __init__(self) -> None:
        self.found: dict[str, dict[str, str]] = {kind: {} for kind in KINDS}

    def take(self, changes: Iterable[Change]) -> set[str]:
        """Takes changes; the kinds of keys that have changed."""
        kinds = set()
        for change in changes:
            kind = next((kind for kind in KINDS if change.key.startswith(kind)), None)
            if kind is None:
                continue
            kinds.add(kind)
            if change.text is None:
                self.found[kind].pop(name_of(change.key), None)
            else:
                self.found[kind][name_of(change.key)] = change.text
        return kinds

    def address(self, name: str) -> str:
        """Where a store is served, or "-"."""
        text = self.found[SERVING].get(name)
        try:
            return (Serving.read(SERVING + name, text).address if text else "") or "-"
        except Unreadable:
            return "-"

    def stores(self) -> Iterator[str]:
        """The lines of the stores."""
        for name, net_id in sorted(self.found[STORE].items()):
            if NET_ID.fullmatch(net_id):
                yield f"{name} {net_id} {self.address(name)}\n"

    def devices(self) -> Iterator[str]:
        """The lines of the devices."""
        for dev_eui, name in sorted(self.found[DEVICE].items()):
            yield f"{dev_eui} {name}\n"


class Follower:
    """Keeps the files as the cluster is. While that is away they stay as they are."""

    def __init__(self, etcd: Etcd, stores: str, devices: str | None):
        self.etcd, self.stores, self.devices = etcd, stores, devices
        self.lists, self.seldom = Lists(), Seldom()
        # the kinds of keys whose files aren't written yet, and when devices were written last
        self.due: set[str] = set()
        self.written = 0.0

    def follow(self) -> None:
        """Goes on until a signal ends it."""
        while True:
            try:
                self.go_on()
            except (Gone, Forgotten) as why:
                text = f"the cluster is away, and the files stay as they are: {why}"
                self.seldom.warn("away", text)
                time.sleep(AGAIN)

    def go_on(self) -> None:
        """Reads all, and then what changes."""
        self.lists, seen = Lists(), dict[str, int]()
        for kind in KINDS:
            found, seen[kind] = self.etcd.all(kind, are_many=kind == DEVICE)
            self.lists.take(Change(key, value.text) for key, value in found.items())
        self.due = set(KINDS)
        self.write(is_quiet=True)
        log(f"{len(self.lists.found[STORE])} stores, {len(self.lists.found[DEVICE])} devices")
        for changes in self.etcd.changes(seen, PAUSE):
            self.due |= self.lists.take(changes)
            self.write(is_quiet=not changes)

    def write(self, is_quiet: bool) -> None:
        """Writes the files whose keys have changed. Those that can't be written are tried again."""
        try:
            if self.due & {STORE, SERVING}:
                replace(self.stores, "".join(self.lists.stores()))
                self.due -= {STORE, SERVING}
            is_time = is_quiet or time.monotonic() > self.written + EVERY
            if self.devices and self.due and is_time:
                replace(self.devices, "".join(self.lists.devices()))
                self.written, self.due = time.monotonic(), set()
        except OSError as why:
            text = f"{why.filename or self.stores} can't be written: {why.strerror}"
            self.seldom.warn("write", text)
