"""JoinNonces and counters that came twice, since the network's store is another one, or an older
one: how often, and whether an operator has confirmed that. The history keeps it."""

from dataclasses import astuple, dataclass

from . import history
from .history import History

# a JoinNonce that the server granted again; and a counter under which readings differ. Only the
# first is the server's word: anybody who may publish on the broker can cause the second
JOINED, READ = "joined", "up"
OTHER = "SELECT 1 FROM uplinks WHERE (device, session, counter) = (?, ?, ?) AND hash <> ?"


@dataclass
class Repeated:
    """How often it happened to a device, when it did last, and whether it isn't confirmed."""

    kind: str
    device: str
    count: int = 0
    last: float = 0.0
    is_open: bool = False


class Repeats:
    """All of them, and the highest JoinNonce that the server has granted each device."""

    def __init__(self, kept: History) -> None:
        self.kept = kept
        self.highest = {device: nonce for device, nonce in kept.rows("SELECT * FROM nonces")}
        found = [Repeated(*row) for row in kept.rows("SELECT * FROM repeats")]
        self.found = {(of.kind, of.device): of for of in found}

    def know(self, device: str, nonce: int) -> None:
        """The server has granted this JoinNonce."""
        if nonce > self.highest.get(device, 0):
            self.highest[device] = nonce
            self.kept.add(history.NONCE, device, nonce)

    def differs(self, *reading: str | int) -> bool:
        """Whether the history has this reading's device, session and counter with another hash."""
        return bool(self.kept.rows(OTHER, *reading))

    def add(self, kind: str, device: str, now: float) -> int:
        """It happened once more; how often by now. It is on the disk before a page shows it."""
        of = self.found.setdefault((kind, device), Repeated(kind, device))
        was_open, of.count, of.last, of.is_open = of.is_open, of.count + 1, now, True
        self.kept.add(history.REPEATED, *astuple(of))
        if not was_open:
            self.kept.write_waiting()
        return of.count

    def open(self, kind: str) -> list[Repeated]:
        """Those that nobody has confirmed, the last one first."""
        found = [of for of in self.found.values() if of.kind == kind and of.is_open]
        return sorted(found, key=lambda of: -of.last)

    def confirm(self, kind: str, seen: str) -> bool:
        """An operator has seen that it happened so often, if that is right."""
        found = self.open(kind)
        if not found or seen != str(sum(of.count for of in found)):
            return False
        for of in found:
            of.is_open = False
            self.kept.add(history.REPEATED, *astuple(of))
        self.kept.write_waiting()
        return True
