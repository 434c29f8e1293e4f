"""Device records and the areas of a store, written by docs/FORMATS.md: a table is put into a store
that lnsd has formatted, so that a run begins with thousands of devices."""

import os
from collections.abc import Iterable, Sequence
from dataclasses import dataclass

OPEN, CLOSED = b"\xa5", b"\x00"
SUPERBLOCK, NAME = 32, b"LNSTORE"


def big(number: int, length: int) -> bytes:
    """A number, the highest byte first."""
    return number.to_bytes(length, "big")


@dataclass
class Record:
    """A device's record. A session is its JoinNonce, NwkSKey and AppSKey, and the current one has
    its last uplink and its next downlink counter after these; an item is its tag, its port,
    whether it is confirmed, and its payload. The sessions have eight channels, or three. New
    uplinks are counted in version 2 alone."""

    dev_eui: str
    join_eui: str
    app_key: str
    application: int
    offset: int = 0
    delay: int = 1
    dev_nonce: int | None = None
    granted: int = 0
    current: tuple | None = None
    pending: tuple | None = None
    awaited: int | None = None
    mac: bytes = b""
    items: tuple = ()
    heard: int = 0
    has_three_channels: bool = False

    def encoded(self, version: int = 2) -> bytes:
        """Its bytes in a version of records."""
        out = bytes.fromhex(self.dev_eui + self.join_eui + self.app_key)
        out += bytes([self.application, self.offset, self.delay, self.dev_nonce is not None])
        out += big(self.dev_nonce or 0, 2) + big(self.granted, 3)
        is_there = 1 if self.has_three_channels else 2
        out += big(is_there if self.current else 0, 1)
        if self.current:
            join_nonce, nwk_key, app_key, last_up, next_down = self.current
            out += big(join_nonce, 3) + nwk_key + app_key + big(last_up, 4) + big(next_down, 8)
        out += big(is_there if self.pending else 0, 1)
        if self.pending:
            join_nonce, nwk_key, app_key = self.pending
            out += big(join_nonce, 3) + nwk_key + app_key
        out += big(self.awaited is not None, 1) + big(self.awaited or 0, 4)
        out += big(len(self.mac), 1) + self.mac + big(len(self.items), 1)
        for tag, port, confirmed, payload in self.items:
            out += big(tag, 4) + bytes([port, confirmed, len(payload)]) + payload
        return out if version == 1 else out + big(self.heard, 8)


def entry(slot: int, record: Record, version: int = 2) -> bytes:
    """A whole record as an entry, in a version of records."""
    encoded = record.encoded(version)
    return b"\x01" + big(slot, 2) + big(len(encoded), 2) + encoded


def batch(entries: Sequence[bytes], seq: int) -> bytes:
    """A batch of these entries after the decision of a number."""
    body = b"".join(entries)
    return OPEN + big(len(body), 4) + big(seq + len(entries), 8) + big(len(entries), 2) + body


def put(
    path: str,
    records: Sequence[Record],
    batches: Iterable[Sequence[bytes]] = (),
    version: int = 2,
    seq: int | None = None,
) -> None:
    """Puts a table of these records, in order of slot, into a store that has none. The second
    area becomes the live one, of a version of records, with generation 2 and these batches, each a
    list of entries, after the decision of a number: one a record if none is given."""
    entries = b"".join(entry(slot, record, version) for slot, record in enumerate(records))
    first = len(records) if seq is None else seq
    journal, last = bytearray(), first
    for decided in batches:
        journal += batch(decided, last)
        last += len(decided)
    header = big(version, 1) + big(2, 8) + big(first, 8) + big(len(records), 4)
    content = OPEN + header + big(len(entries), 8) + entries + journal + CLOSED
    with open(path, "r+b") as file:
        slots, area = room(path, file.read(SUPERBLOCK))
        if len(records) > slots:
            raise ValueError(f"{len(records)} devices don't fit into {slots} slots")
        if len(content) > area:
            raise ValueError(f"{len(content)} bytes don't fit into an area of {area}")
        file.seek(SUPERBLOCK + area)
        file.write(content)
        file.flush()
        os.fsync(file.fileno())


def room(path: str, front: bytes) -> tuple[int, int]:
    """How many slots a store has by its superblock, and the length of each of its areas."""
    if front[:1] != OPEN or front[1:8] != NAME or front[8] != 1:
        raise ValueError(f"{path} is no store of version 1")
    return int.from_bytes(front[12:16], "big"), int.from_bytes(front[16:24], "big")
