"""Meters in the field: what they send, what they hear, and what they know."""

import re
import time
from dataclasses import dataclass
from typing import Any

from . import aes, quick
from .devices import Device, Rejected
from .frames import DOWN, data_mic

quick.use()
JOIN_EUI = "0102030405060708"
PORT = 7


def dev_eui(number: int) -> str:
    """A meter's DevEUI."""
    return f"{0x70B3D57ED0000000 + number:016X}"


@dataclass(frozen=True)
class Reading:
    """An uplink's mark, by which a reading is known."""

    device: str
    session: int
    counter: int


@dataclass(frozen=True)
class Heard:
    """A downlink that a meter heard: its session and counter, the counter that the meter heard last
    before it, the gateway that sent it, and when that was, by our own clock."""

    session: int
    counter: int
    last: int
    gateway: str
    moment: float

    @property
    def mark(self) -> tuple[int, int]:
        """By what it is known."""
        return self.session, self.counter


class Meter(Device):
    """A meter, with all that it sent and heard, and all that was acknowledged to it."""

    def __init__(self, number: int):
        key = aes.encrypt(b"keys of meters  ", number.to_bytes(16, "big"))
        super().__init__(dev_eui(number), JOIN_EUI, key.hex().upper())
        self.number = number
        self.sent: dict[Reading, bytes] = {}
        self.acknowledged: set[Reading] = set()
        self.awaited: Reading | None = None
        self.items: list[bytes] = []
        self.downlinks: list[Heard] = []

    def row(self) -> str:
        """Its line of a file of devices."""
        return f"{self.dev_eui},{JOIN_EUI},{self.app_key.hex().upper()},0,1"

    def reads(self, confirmed: bool = True, **how: Any) -> bytes:
        """A frame with the next reading."""
        mark = Reading(self.dev_eui, self.join_nonce, self.next_up)
        payload = self.number.to_bytes(2, "big") + self.next_up.to_bytes(4, "big")
        frame = self.uplink(PORT, payload, confirmed=confirmed, ack=self.owes_ack, **how)
        self.sent[mark], self.awaited = payload, mark
        return frame

    def takes(self, frame: bytes, gateway: str = "") -> bool:
        """Hears a frame of a gateway; whether it is for this meter. A downlink whose counter isn't
        above the last one is noted, and ignored as by a device."""
        if frame[0] == 0x20:
            return self.is_let_in(frame)
        if not self.keys or int.from_bytes(frame[1:5], "little") != self.dev_addr:
            return False
        counter = int.from_bytes(frame[6:8], "little")
        key = self.keys[0]
        if data_mic(key, DOWN, self.dev_addr, counter, frame[:-4]) != frame[-4:]:
            return False
        how = (self.join_nonce, counter, self.last_down, gateway, time.monotonic())
        self.downlinks.append(Heard(*how))
        if counter <= self.last_down:
            return True
        words = self.take_downlink(frame)
        if "ACK" in words and self.awaited:
            self.acknowledged.add(self.awaited)
        if found := re.search(rf"port {PORT}, payload ([0-9A-F]+)", words):
            self.items.append(bytes.fromhex(found[1]))
        return True

    def is_let_in(self, frame: bytes) -> bool:
        """Hears an accept; whether it is for this meter."""
        try:
            self.take_accept(frame)
        except Rejected:
            return False
        self.awaited = None
        return True
