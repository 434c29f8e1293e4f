"""The messages of a link to the network, by docs/FORMATS.md ("The wire"). A message is a length of
two bytes and the content."""

import struct
from dataclasses import dataclass

LONGEST = 700
MOST_PAYLOAD = 255
COPY = struct.Struct(">B8sIBhhI")
DOWNLINK = struct.Struct(">B8sIIBBB")
# EU868: the one frequency and data rate of RX2
RX2_FREQUENCY, RX2_DATA_RATE = 869_525_000, 0
MICROSECONDS = 1_000_000
PROVISION = "provision {dev_eui} {join_eui} {app_key} {offset} {delay}"


class NoMessage(ValueError):
    """The network sent something that isn't in its formats."""


@dataclass(frozen=True)
class Copy:
    """How a gateway heard a frame: the gateway's EUI in hex, the frequency in Hz, the SNR in
    quarters of a dB, the RSSI in dBm, and the microseconds of the gateway's clock."""

    gateway: str
    frequency: int = 868_100_000
    data_rate: int = 5
    snr: int = -20
    rssi: int = -95
    stamp: int = 50_000

    def heard(self) -> str:
        """The words after the count of copies in a line `up`."""
        return f"{self.gateway} {self.frequency} {self.data_rate} {self.snr} {self.rssi}"


@dataclass(frozen=True)
class Heard:
    """A frame that a gateway heard, and how."""

    copy: Copy
    frame: bytes

    def message(self) -> bytes:
        """The gateway's message about it."""
        return copy_of(self.frame, self.copy)


@dataclass(frozen=True)
class Window:
    """When and how a downlink may be sent: the seconds after the uplink's end, the frequency in Hz,
    and the data rate."""

    delay: int
    frequency: int
    data_rate: int


@dataclass(frozen=True)
class Downlink:
    """A frame that a gateway is to send in RX1, or in RX2 if that is given."""

    gateway: str
    stamp: int
    rx1: Window
    rx2: Window | None
    frame: bytes

    @classmethod
    def read(cls, content: bytes) -> "Downlink":
        """The downlink in a content."""
        if len(content) <= DOWNLINK.size or content[0] != 0x11:
            raise NoMessage(f"no downlink: {content[:20].hex()}")
        _, gateway, stamp, frequency, rate, first, second = DOWNLINK.unpack_from(content)
        rx2 = Window(second, RX2_FREQUENCY, RX2_DATA_RATE) if second else None
        rx1, frame = Window(first, frequency, rate), content[DOWNLINK.size :]
        return cls(gateway.hex().upper(), stamp, rx1, rx2, frame)

    @classmethod
    def of(cls, gateway: str, content: bytes) -> "Downlink":
        """The downlink for this gateway in a content."""
        found = cls.read(content)
        if found.gateway != gateway:
            raise NoMessage(f"a downlink for {found.gateway}, and not for {gateway}")
        return found

    def moment(self, window: Window) -> int:
        """When that window begins, by the gateway's clock of 32 bits."""
        return (self.stamp + MICROSECONDS * window.delay) % 2**32

    def words(self) -> str:
        """When and how it is to be sent, in words."""
        first = f"at {self.moment(self.rx1)} on {self.rx1.frequency} Hz"
        second = f", or in RX2 at {self.moment(self.rx2)}" if self.rx2 else ""
        return f"{first} with data rate {self.rx1.data_rate}{second}"


def framed(content: bytes) -> bytes:
    """The message of a content."""
    return len(content).to_bytes(2, "big") + content


def gateway_greeting(eui: str) -> bytes:
    """A gateway's first message."""
    return framed(b"\x00" + bytes.fromhex(eui))


def application_greeting(number: int) -> bytes:
    """An application's first message."""
    return framed(bytes([2, number]))


def copy_of(frame: bytes, copy: Copy) -> bytes:
    """A gateway's message about a frame that it heard."""
    how = (copy.frequency, copy.data_rate, copy.snr, copy.rssi, copy.stamp)
    return framed(COPY.pack(1, bytes.fromhex(copy.gateway), *how) + frame)


def request(line: str) -> bytes:
    """An application's request."""
    return framed(b"\x03" + line.encode("ascii"))


def byte_text(payload: bytes) -> str:
    """A payload as it stands in a line."""
    return payload.hex().upper() or "-"


def bytes_of(text: str) -> bytes:
    """The payload of a line's word."""
    return b"" if text == "-" else bytes.fromhex(text)


def line_of(content: bytes) -> str:
    """The line for an application in a content."""
    if content[:1] != b"\x13" or not content.isascii():
        raise NoMessage(f"no line for an application: {content[:20].hex()}")
    return content[1:].decode("ascii")


class Frames:
    """Takes a stream in pieces of any length, and returns the contents of its messages."""

    def __init__(self) -> None:
        self.kept = bytearray()

    def feed(self, piece: bytes) -> list[bytes]:
        """The contents of the messages that this piece completes, in order."""
        if not self.kept and len(piece) - 2 == int.from_bytes(piece[:2], "big") <= LONGEST:
            return [piece[2:]]  # nearly always: one whole message
        self.kept += piece
        contents, place = [], 0
        while len(self.kept) >= place + 2:
            end = place + 2 + int.from_bytes(self.kept[place : place + 2], "big")
            if end - place - 2 > LONGEST:
                raise NoMessage(f"a message of {end - place - 2} bytes")
            if len(self.kept) < end:
                break
            contents.append(bytes(self.kept[place + 2 : end]))
            place = end
        del self.kept[:place]
        return contents
