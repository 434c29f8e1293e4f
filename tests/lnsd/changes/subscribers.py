"""Devices, and what a list has to have of each, by docs/DEVICES.md."""

import csv
import io
import random
from collections.abc import Iterable, Sequence

from bozintar.frames import opened_accept

from ..seen import Meter

COLUMNS = (
    *("DevEUI", "JoinEUI", "AppKey", "Application", "Offset", "Delay"),
    *("LastDevNonce", "LastJoinNonce", "Heard", "Session"),
)
PORT = 7
# a device's values by their columns
Row = dict[str, str]


class Subscriber(Meter):
    """A device with what its network knows of it. Of a retired one nobody knows the AppKey."""

    def __init__(self, number: int, application: int, nonces: tuple[int | None, int] = (None, 0)):
        super().__init__(number, application)
        self.slot = number
        self.offset, self.delay = number % 6, 1 + number % 15
        # the last nonces that were accepted and granted
        self.accepted, self.granted = nonces
        self.dev_nonce = self.accepted or 0
        self.heard = 0
        self.has_session, self.is_retired = False, False
        # the tags of items that wait at the network
        self.waiting: list[int] = []
        # its unconfirmed uplinks, which are forwarded once
        self.unconfirmed: list[bytes] = []

    def row(self) -> Row:
        """Its line of a list."""
        values = (
            *(self.dev_eui, self.join_eui, self.app_key.hex().upper(), self.application),
            *(self.offset, self.delay, "" if self.accepted is None else self.accepted),
            *(self.granted, self.heard, "yes" if self.has_session else "no"),
        )
        return dict(zip(COLUMNS, map(str, values)))

    def joins(self) -> bytes:
        """A Join-Request."""
        self.is_joining = True
        return self.join_request()

    def has_joined(self, frame: bytes) -> None:
        """Its accept came: a session begins, with the settings of its record."""
        self.granted, self.accepted = self.join_nonce, self.dev_nonce
        self.has_session, self.is_joining = True, False
        fields, _ = opened_accept(self.app_key, frame)
        assert (fields[10] >> 4, fields[11]) == (self.offset, self.delay), "DLSettings and RXDelay"

    def reads(self, is_confirmed: bool = False) -> bytes:
        """Its next uplink, whose payload is its counter."""
        payload = self.next_up.to_bytes(4, "big")
        frame = self.uplink(PORT, payload, confirmed=is_confirmed, ack=self.owes_ack)
        self.unconfirmed += [] if is_confirmed else [frame]
        return frame

    def asks_for_item(self, chance: random.Random) -> str:
        """The request of an item with a tag of its own."""
        tag, self.next_tag = self.next_tag, self.next_tag + 1
        self.waiting.append(tag)
        return f"queue {self.dev_eui} {tag} {PORT} u {tag:08X}{'00' * chance.choice((0, 20, 40))}"


def listed(rows: Iterable[Row], columns: Sequence[str]) -> str:
    """A list with these columns."""
    lines = [",".join(columns), *(",".join(row[name] for name in columns) for row in rows)]
    return "\n".join(lines) + "\n"


def rows_in(text: str) -> list[Row]:
    """The rows of a list."""
    return list(csv.DictReader(io.StringIO(text)))


def made(count: int, chance: random.Random, first: int = 0) -> list[Subscriber]:
    """Devices of two applications: some have never joined, and the others joined elsewhere."""
    found = []
    for number in range(first, first + count):
        nonces: tuple[int | None, int] = (None, 0)
        if chance.random() < 0.7:
            nonces = chance.randrange(1000), chance.choice(
                (1, 8191, 8192, chance.randrange(10**6))
            )
        found.append(Subscriber(number, chance.choice((3, 9)), nonces))
    return found
