"""A plain model of a whole network, by docs/FORMATS.md: a table in memory, a frame or a request at
a time, and what comes of it. It has no windows, no store and no time: a frame is handed in with
all its copies."""

import re
from collections.abc import Mapping, Sequence
from dataclasses import dataclass, field
from typing import Any

from bozintar import aes, network
from bozintar.frames import CHANNELS, FIRST_CHANNELS, UP, crypted, data_mic
from bozintar.wire import Copy

LARGEST = (59, 59, 59, 123, 250, 250)
# in quarters of a dB
FLOORS = (-80, -70, -60, -50, -40, -30)
UP_LENGTHS = {2: 0, 3: 1, 4: 0, 5: 1, 6: 2, 7: 1, 8: 0, 9: 0, 10: 1, 13: 0}
QUEUED_LENGTHS = {3: 4, 4: 1, 6: 0}
GAP = 16384
MOST_HEARD = 2**63 - 1
NUMBER = "(0|[1-9][0-9]{0,9})"
EUI, HEX = "([0-9A-F]{16})", "((?:[0-9A-F]{2})+|-)"
REQUESTS = {
    "provision": re.compile(f"provision {EUI} {EUI} ([0-9A-F]{{32}}) ([0-5]) ([1-9]|1[0-5])"),
    "queue": re.compile(f"queue {EUI} {NUMBER} {NUMBER} ([cu]) {HEX}"),
    "mac": re.compile(f"mac {EUI} {HEX}"),
}
# what leaves: each ("app", number, line) or ("gw", EUI, hex)
Effects = list[tuple[str, Any, str]]
# a queued item: its tag, its port, whether it is confirmed, and its payload
Item = tuple[int, int, bool, bytes]


class Refused(Exception):
    """A frame or a request is refused, with the number of the refusal."""


@dataclass
class Session:
    """A session, with the frames that are due in it."""

    join_nonce: int
    frames: network.Session
    last_up: int = -1
    next_down: int = 0


@dataclass
class Known:
    """A device's record."""

    slot: int
    dev_eui: str
    join_eui: str
    app_key: str
    application: int
    offset: int
    delay: int
    dev_nonce: int = -1
    granted: int = 0
    current: Session | None = None
    pending: Session | None = None
    awaited: int | None = None
    mac: bytes = b""
    items: list[Item] = field(default_factory=list)
    heard: int = 0

    def listed(self) -> str:
        """Its line of a list."""
        of = self.current
        session = f"{of.join_nonce} {of.last_up} {of.next_down}" if of else "- - -"
        return f"{self.slot} {self.dev_eui} {self.granted} {session} {len(self.items)} {self.heard}"


def bytes_of(text: str) -> bytes:
    """Bytes from their hex digits."""
    return b"" if text == "-" else bytes.fromhex(text)


def text_of(payload: bytes) -> str:
    """Bytes in hex digits."""
    return payload.hex().upper() or "-"


def commands_in(payload: bytes, lengths: Mapping[int, int]) -> list[bytes]:
    """The whole commands at the front of a payload."""
    place, found = 0, list[bytes]()
    while place < len(payload) and payload[place] in lengths:
        end = place + 1 + lengths[payload[place]]
        if end > len(payload):
            break
        found.append(payload[place:end])
        place = end
    return found


def is_taken(copy: Copy) -> bool:
    """Whether a copy isn't refused for its channel or its data rate."""
    return copy.frequency in CHANNELS and copy.data_rate < len(LARGEST)


def taken(copies: Sequence[Copy]) -> list[Copy]:
    """The copies that are taken: the first one of each gateway that isn't refused."""
    first: dict[str, Copy] = {}
    for copy in filter(is_taken, copies):
        first.setdefault(copy.gateway, copy)
    return list(first.values())


def best(copies: Sequence[Copy]) -> Copy:
    """The best copy."""
    return min(copies, key=lambda copy: (-copy.snr, -copy.rssi, copy.gateway))


@dataclass
class Uplink:
    """The fields of an uplink."""

    confirmed: bool
    address: int
    asks: bool
    ack: bool
    low: int
    options: bytes
    port: int | None
    hidden: bytes


def uplink_of(frame: bytes) -> Uplink:
    """The uplink in a frame's bytes."""
    if not 12 <= len(frame) <= 255 or frame[0] not in (0x40, 0x80) or frame[5] & 0x10:
        raise Refused(1)
    end = 8 + (frame[5] & 15)
    body = frame[:-4]
    if end > len(body) or len(body) - 8 - (len(body) > end) > 242:
        raise Refused(1)
    return Uplink(
        confirmed=frame[0] == 0x80,
        address=int.from_bytes(frame[1:5], "little"),
        asks=bool(frame[5] & 0x40),
        ack=bool(frame[5] & 0x20),
        low=int.from_bytes(frame[6:8], "little"),
        options=body[8:end],
        port=body[end] if len(body) > end else None,
        hidden=body[end + 1 :],
    )


def counter_of(session: Session, low: int) -> tuple[int, bool]:
    """The counter that a frame has in a session, and whether it is a repeat."""
    if session.last_up >= 0 and low == session.last_up & 0xFFFF:
        return session.last_up, True
    first = session.last_up + 1
    counter = first + (low - first) % 0x10000
    if counter - session.last_up > GAP or counter >= 2**32:
        raise Refused(5)
    return counter, False


class Network:
    """All devices. Each call answers what leaves."""

    def __init__(self, slots: int):
        self.slots, self.seq = slots, 0
        self.devices: list[Known] = []

    def named(self, dev_eui: str) -> Known | None:
        """The device of a DevEUI."""
        return next((device for device in self.devices if device.dev_eui == dev_eui), None)

    def listed(self) -> list[str]:
        """The lines of its list."""
        lines = [device.listed() for device in self.devices]
        return [*lines, f"devices {len(self.devices)} seq {self.seq}"]

    def ask(self, application: int, line: str) -> Effects:
        """What a request is answered."""
        kind = line.partition(" ")[0]
        found = REQUESTS[kind].fullmatch(line) if kind in REQUESTS else None
        if not found:
            raise Refused(51)
        answer = getattr(self, kind)(application, *found.groups())
        self.seq += 1
        return [("app", application, answer)]

    def provision(
        self, application: int, dev_eui: str, join_eui: str, app_key: str, offset: str, delay: str
    ) -> str:
        """A new device; the answer."""
        if self.named(dev_eui):
            raise Refused(16)
        if len(self.devices) == self.slots:
            raise Refused(17)
        words = (dev_eui, join_eui, app_key, application, int(offset), int(delay))
        self.devices.append(Known(len(self.devices), *words))
        return f"provisioned {dev_eui} {len(self.devices) - 1}"

    def owned(self, application: int, dev_eui: str) -> Known:
        """The device of a DevEUI, if it is this application's."""
        device = self.named(dev_eui)
        if not device or device.application != application:
            raise Refused(7)
        return device

    def queue(
        self, application: int, dev_eui: str, tag: str, port: str, kind: str, text: str
    ) -> str:
        """An item for a device; the answer."""
        item = (int(tag), int(port), kind == "c", bytes_of(text))
        if item[0] >= 2**32 or item[1] > 255:
            raise Refused(51)
        device = self.owned(application, dev_eui)
        if len(item[3]) > 242:
            raise Refused(14)
        if not 1 <= item[1] <= 223:
            raise Refused(15)
        if len(device.items) == 16:
            raise Refused(12)
        device.items.append(item)
        return f"queued {dev_eui} {tag}"

    def mac(self, application: int, dev_eui: str, text: str) -> str:
        """MAC commands for a device; the answer."""
        device, commands = self.owned(application, dev_eui), bytes_of(text)
        if not commands or b"".join(commands_in(commands, QUEUED_LENGTHS)) != commands:
            raise Refused(18)
        if len(device.mac) + len(commands) > 128:
            raise Refused(13)
        device.mac += commands
        return f"macqueued {dev_eui} {text_of(commands)}"

    def heard(self, frame: bytes, copies: Sequence[Copy]) -> Effects:
        """What a frame with all its copies leads to."""
        if frame[:1] == b"\x00" and len(frame) == 23:
            left = self.joined(frame, best(copies))
        else:
            left = self.sent(frame, uplink_of(frame), copies)
        self.seq += 1
        return left

    def joined(self, frame: bytes, copy: Copy) -> Effects:
        """What a Join-Request leads to."""
        if copy.frequency not in FIRST_CHANNELS:
            raise Refused(24)
        device = self.named(frame[9:17][::-1].hex().upper())
        if not device:
            raise Refused(7)
        if device.join_eui != frame[1:9][::-1].hex().upper():
            raise Refused(8)
        if aes.cmac(bytes.fromhex(device.app_key), frame[:-4])[:4] != frame[-4:]:
            raise Refused(4)
        nonce = int.from_bytes(frame[17:19], "little")
        if nonce <= device.dev_nonce:
            raise Refused(9)
        if device.granted == 0xFFFFFF:
            raise Refused(10)
        device.dev_nonce, device.granted = nonce, device.granted + 1
        how = (device.slot, device.app_key, device.granted, nonce, device.offset, device.delay)
        device.pending = Session(device.granted, network.Session(*how))
        return [left_to(device.pending.frames.accept(copy))]

    def fit(self, frame: bytes, uplink: Uplink) -> tuple[Known, Session, int, bool]:
        """The device and the session of an uplink, its counter, and whether it is a repeat."""
        if uplink.options and uplink.port == 0:
            raise Refused(11)
        refusal = 3
        for device in self.devices:
            for session in filter(None, (device.pending, device.current)):
                if session.frames.address != uplink.address:
                    continue
                try:
                    counter, repeats = counter_of(session, uplink.low)
                except Refused:
                    refusal = refusal if refusal == 4 else 5
                    continue
                key = session.frames.keys[0]
                if data_mic(key, UP, uplink.address, counter, frame[:-4]) == frame[-4:]:
                    return device, session, counter, repeats
                refusal = 4
        raise Refused(refusal)

    def sent(self, frame: bytes, uplink: Uplink, copies: Sequence[Copy]) -> Effects:
        """What an uplink leads to."""
        device, session, counter, repeats = self.fit(frame, uplink)
        if repeats:
            if not uplink.confirmed:
                raise Refused(6)
            return answered(device, session, best(copies), b"", None, True)
        left: Effects = []
        owner = device.application
        device.heard = min(device.heard + 1, MOST_HEARD)
        if device.awaited is not None:
            is_acked = uplink.ack and session is not device.pending
            word = "acked" if is_acked else "lost"
            left.append(("app", owner, f"{word} {device.dev_eui} {device.awaited}"))
            device.awaited = None
        if session is device.pending:
            device.current, device.pending = session, None
        session.last_up = counter
        key = session.frames.keys[0 if uplink.port == 0 else 1]
        clear = crypted(key, UP, uplink.address, counter, uplink.hidden)
        commands = commands_in(clear if uplink.port == 0 else uplink.options, UP_LENGTHS)
        others = b"".join(command for command in commands if command[0] not in (2, 13))
        name = f"{device.dev_eui} {session.join_nonce}"
        if others:
            left.append(("app", owner, f"mac {name} {text_of(others)}"))
        if uplink.port is not None and 1 <= uplink.port <= 223:
            how = f"{len(copies)} {best(copies).heard()}"
            line = f"up {name} {counter} {uplink.port} {text_of(clear)} {how}"
            left.append(("app", owner, line))
        return left + replied(device, session, uplink, copies, b"\x02" in commands)


def replied(
    device: Known, session: Session, uplink: Uplink, copies: Sequence[Copy], checks: bool
) -> Effects:
    """The downlink after a new uplink, if one is due."""
    copy, options = best(copies), b""
    if checks:
        margin = (copy.snr - FLOORS[copy.data_rate]) // 4
        options = bytes([2, min(max(margin, 0), 254), len(copies)])
    taken = b""
    for command in commands_in(device.mac, QUEUED_LENGTHS):
        if len(options) + len(taken) + len(command) > 15:
            break
        taken += command
    options += taken
    item = device.items[0] if device.items else None
    room = LARGEST[max(0, copy.data_rate - device.offset)] - 8 - len(options)
    if item and len(item[3]) > room:
        item = None
    if not (uplink.confirmed or uplink.asks or checks or device.mac or item):
        return []
    if session.next_down < 2**32:
        device.mac = device.mac[len(taken) :]
        if item:
            device.items.pop(0)
            device.awaited = item[0] if item[2] else None
    return answered(device, session, copy, options, item, uplink.confirmed)


def answered(
    device: Known, session: Session, copy: Copy, options: bytes, item: Item | None, ack: bool
) -> Effects:
    """A downlink under the next counter, or that none is left."""
    if session.next_down == 2**32:
        line = f"spent {device.dev_eui} {session.join_nonce}"
        return [("app", device.application, line)]
    counter, session.next_down = session.next_down, session.next_down + 1
    waits = bool(device.mac or device.items)
    how: dict[str, Any] = {"f_opts": options, "ack": ack, "pending": waits}
    shown = (item[1], item[3], item[2]) if item else None
    return [left_to(session.frames.downlink(copy, counter, shown, **how))]


def left_to(line: str) -> tuple[str, Any, str]:
    """A line `gw` of the simulator as what leaves."""
    _, gateway, text = line.split(" ")
    return ("gw", gateway, text[4:])
