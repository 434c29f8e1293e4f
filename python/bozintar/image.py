"""A reader of a store's bytes, written from docs/FORMATS.md alone: the table and the number that
any image of a disk leads to, as `lnsd list` shows it, or the first refusal."""

from dataclasses import dataclass, replace
from functools import lru_cache
from typing import Any

OPEN, NAME, VERSION = 0xA5, b"LNSTORE", 1
# the versions of records, each with the generations of its areas, which are below this one
GENERATIONS = {1: 2**63 - 1, 2: 2**63}
NEWEST = max(GENERATIONS)
SUPERBLOCK, HEADER = 32, 30
ENTRY, BATCHES = 4305, 1 << 20
WHOLE, CHANGE = 1, 2
# DevEUI, JoinEUI, AppKey, application, RX1DROffset, RX delay
FRONT = 8 + 8 + 16 + 1 + 1 + 1
# the commands that may be queued, each with the bytes after its identifier
QUEUED = {0x03: 4, 0x04: 1, 0x06: 0}
# the bytes of such commands that may wait, in each version
MOST_COMMANDS = {1: 64, 2: 128}
MOST_HEARD = 2**63 - 1
# a queued item: its tag, its port, whether it is confirmed, and its payload
Item = tuple[int, int, int, bytes]


class Refused(Exception):
    """The bytes are no store, with the number of the refusal."""

    def __init__(self, number: int):
        super().__init__(number)
        self.number = number


def need(is_so: Any, number: int = 44) -> None:
    """Refuses the bytes, if this isn't so."""
    if not is_so:
        raise Refused(number)


class Fields:
    """Bytes that are read one field after another. What isn't there is damaged."""

    def __init__(self, content: bytes):
        self.content, self.place = content, 0

    def take(self, length: int) -> bytes:
        """The next bytes."""
        need(self.place + length <= len(self.content))
        self.place += length
        return self.content[self.place - length : self.place]

    def number(self, length: int) -> int:
        """The next bytes as a number."""
        return int.from_bytes(self.take(length), "big")

    def flag(self, most: int = 1) -> int:
        """A byte that is `most` at most."""
        flag = self.number(1)
        need(flag <= most)
        return flag

    def is_at_end(self) -> bool:
        """Whether nothing is left."""
        return self.place == len(self.content)


@dataclass(frozen=True)
class Session:
    """What a session is beside its counters: the byte before it, its JoinNonce and keys."""

    channels: int
    join_nonce: int
    keys: bytes


def session(fields: Fields) -> Session | None:
    """A session after its flag, or None."""
    channels = fields.flag(2)
    if not channels:
        return None
    found = Session(channels, fields.number(3), fields.take(32))
    need(found.join_nonce > 0)
    return found


def counters(fields: Fields) -> tuple[int, int]:
    """The last uplink counter and the next downlink counter."""
    found = fields.number(4), fields.number(8)
    need(found[1] <= 2**32)
    return found


def current(fields: Fields) -> tuple[Session | None, tuple[int, int] | None]:
    """A current session with its counters, or twice None."""
    found = session(fields)
    return found, counters(fields) if found else None


def nonces(fields: Fields) -> tuple[int | None, int]:
    """The last DevNonce, or None, and the last granted JoinNonce."""
    is_there, dev_nonce, granted = fields.flag(), fields.number(2), fields.number(3)
    need(is_there or not dev_nonce)
    return dev_nonce if is_there else None, granted


def awaited(fields: Fields) -> int | None:
    """The tag that is awaited, or None."""
    is_there, tag = fields.flag(), fields.number(4)
    need(is_there or not tag)
    return tag if is_there else None


def mac_queue(fields: Fields, version: int) -> bytes:
    """Whole commands that may be queued."""
    length = fields.number(1)
    need(length <= MOST_COMMANDS[version])
    found = fields.take(length)
    commands = Fields(found)
    while not commands.is_at_end():
        command = commands.number(1)
        need(command in QUEUED)
        commands.take(QUEUED[command])
    return found


def item(fields: Fields) -> Item:
    """A queued item."""
    tag, port, confirmed = fields.number(4), fields.number(1), fields.flag()
    length = fields.number(1)
    need(1 <= port <= 223 and length <= 242)
    return tag, port, confirmed, fields.take(length)


@dataclass(frozen=True)
class Recorded:
    """A device's record; its front is what it was provisioned with."""

    front: bytes
    dev_eui: str
    nonces: tuple[int | None, int]
    current: Session | None
    counters: tuple[int, int] | None
    pending: Session | None
    awaited: int | None
    mac: bytes
    items: tuple[Item, ...]
    heard: int = 0

    def is_in_order(self) -> bool:
        """Whether the JoinNonces of its sessions are."""
        granted = [of.join_nonce for of in (self.current, self.pending) if of]
        is_sorted = granted == sorted(set(granted))
        return is_sorted and all(number <= self.nonces[1] for number in granted)

    def line(self, slot: int) -> str:
        """Its line of a list."""
        of = "- - -"
        if self.current and self.counters:
            of = f"{self.current.join_nonce} {self.counters[0]} {self.counters[1]}"
        return f"{slot} {self.dev_eui} {self.nonces[1]} {of} {len(self.items)} {self.heard}"


@lru_cache(maxsize=4096)
def record(content: bytes, version: int) -> Recorded:
    """A whole record of a version."""
    fields = Fields(content)
    dev_eui = fields.take(8).hex().upper()
    fields.take(8 + 16)
    fields.flag(15)
    fields.flag(5)
    need(fields.flag(15) > 0)
    how: dict[str, Any] = {"nonces": nonces(fields)}
    how["current"], how["counters"] = current(fields)
    how.update(pending=session(fields), awaited=awaited(fields))
    how["mac"] = mac_queue(fields, version)
    count = fields.flag(16)
    how["items"] = tuple(item(fields) for _ in range(count))
    heard = 0 if version == 1 else fields.number(8)
    need(heard <= MOST_HEARD)
    found = Recorded(content[:FRONT], dev_eui, heard=heard, **how)
    need(fields.is_at_end() and found.is_in_order())
    return found


def changed(device: Recorded, content: bytes, version: int) -> Recorded:
    """The record of a version to which a change of this one leads."""
    fields = Fields(content)
    now: dict[str, Any] = {}
    mask = fields.number(1)
    need(mask & 6 != 6 and (version > 1 or mask < 0x80))
    if mask & 1:
        now["nonces"] = nonces(fields)
    if mask & 2:
        now["current"], now["counters"] = current(fields)
        # another session may have the same counters
        need(now["current"] != device.current)
    if mask & 4:
        need(device.current)
        now["counters"] = counters(fields)
    if mask & 8:
        now["pending"] = session(fields)
    if mask & 16:
        now["awaited"] = awaited(fields)
    if mask & 32:
        now["mac"] = mac_queue(fields, version)
    may_be_same = ("current", "counters") if mask & 2 else ()
    need(all(to != getattr(device, name) for name, to in now.items() if name not in may_be_same))
    if mask & 64:
        now["items"] = changed_items(fields, device.items)
    if mask & 128:
        need(device.heard < MOST_HEARD)
        now["heard"] = device.heard + 1
    found = replace(device, **now)
    need(fields.is_at_end() and found.is_in_order())
    return found


def changed_items(fields: Fields, items: tuple[Item, ...]) -> tuple[Item, ...]:
    """The items without the first one, or with one more."""
    if fields.flag():
        need(len(items) < 16)
        return (*items, item(fields))
    need(items)
    return items[1:]


class Table:
    """The devices that entries put together, by slot."""

    def __init__(self, slots: int, version: int):
        self.slots, self.version = slots, version
        self.devices: list[Recorded] = []

    def put(self, slot: int, device: Recorded) -> None:
        """A whole record: where a device is, or where the next one may be."""
        need(slot <= len(self.devices) and slot < self.slots)
        others = self.devices[:slot] + self.devices[slot + 1 :]
        need(all(other.dev_eui != device.dev_eui for other in others))
        self.devices[slot : slot + 1] = [device]

    def entry(self, fields: Fields, may_change: bool) -> None:
        """The next entry."""
        kind, slot, length = fields.number(1), fields.number(2), fields.number(2)
        content = fields.take(length)
        if kind == WHOLE:
            self.put(slot, record(content, self.version))
            return
        need(kind == CHANGE and may_change and slot < len(self.devices))
        self.put(slot, changed(self.devices[slot], content, self.version))


@dataclass
class Store:
    """What a disk holds: its devices, the number of the last decision, and of the area that is
    live its place, 0 or 1, its generation, and the version of its records."""

    devices: list[Recorded]
    seq: int
    live: int
    generation: int
    version: int

    def lines(self) -> list[str]:
        """Its list."""
        devices = [device.line(slot) for slot, device in enumerate(self.devices)]
        return [*devices, f"devices {len(self.devices)} seq {self.seq}"]


def read(content: bytes) -> Store:
    """The store that these bytes are."""
    need(len(content) >= SUPERBLOCK, 46)
    need(content[0] == OPEN and content[1:8] == NAME, 43)
    need(content[8] == VERSION, 45)
    front = Fields(content[9:SUPERBLOCK])
    net_id, slots, length, zeros = (front.number(size) for size in (3, 4, 8, 8))
    need(net_id < 0x40 and 1 <= slots <= 4096 and zeros == 0)
    need(length == HEADER + ENTRY * slots + BATCHES)
    need(len(content) == SUPERBLOCK + 2 * length, 46)
    areas = [content[first : first + length] for first in (SUPERBLOCK, SUPERBLOCK + length)]
    generations = [int.from_bytes(area[2:10], "big") if area[0] == OPEN else -1 for area in areas]
    need(generations[0] != generations[1])
    live = generations.index(max(generations))
    version = areas[live][1]
    need(version in GENERATIONS, 45)
    need(generations[live] < GENERATIONS[version])
    return Store(*area_read(areas[live], Table(slots, version)), live, generations[live], version)


def area_read(area: bytes, table: Table) -> tuple[list[Recorded], int]:
    """The devices of an area, put into a table, and its last number."""
    fields = Fields(area)
    fields.take(10)
    seq, count, length = fields.number(8), fields.number(4), fields.number(8)
    records = Fields(fields.take(length))
    for _ in range(count):
        need(len(table.devices) < table.slots)
        table.entry(records, may_change=False)
    need(records.is_at_end() and len(table.devices) == count)
    while fields.number(1) == OPEN:
        length, last, count = fields.number(4), fields.number(8), fields.number(2)
        need(1 <= count <= 64 and last == seq + count)
        entries = Fields(fields.take(length))
        for _ in range(count):
            table.entry(entries, may_change=True)
        need(entries.is_at_end())
        seq = last
    return table.devices, seq


def told(content: bytes) -> tuple[int, str, str]:
    """What `lnsd list` does on a file of these bytes: its status, output and standard error."""
    try:
        return 0, "\n".join([*read(content).lines(), ""]), ""
    except Refused as why:
        return 1, "", f"lnsd: refused {why.number}\n"
