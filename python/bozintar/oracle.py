"""A second codec of the network's messages, a duplicate of `wire` on purpose: an oracle. Trials
compare the two, and the network that trials play speaks by this one, so that a fault in `wire`
can't hide in both ends of a link. It shares no line with `wire`, and is written from
docs/FORMATS.md too. Only trials use it."""


def message(content: bytes) -> bytes:
    """A content after its length."""
    return bytes(divmod(len(content), 256)) + content


def line_message(line: str) -> bytes:
    """The message with a line for an application."""
    return message(bytes([19]) + line.encode())


def number(count: int, value: int) -> bytes:
    """A number in this many bytes, the highest first; a negative one as its complement."""
    return bytes(value >> 8 * place & 255 for place in reversed(range(count)))


def copy_message(eui: str, heard: tuple[int, int, int, int, int], frame: bytes) -> bytes:
    """The message of a gateway that heard a frame: on a frequency, with a data rate, an SNR, an
    RSSI and a stamp."""
    fields = zip((4, 1, 2, 2, 4), heard, strict=True)
    said = b"".join(number(count, value) for count, value in fields)
    return message(number(1, 1) + bytes.fromhex(eui) + said + frame)


def downlink(eui: str, stamp: int, rx1: tuple[int, int, int], rx2: int, frame: bytes) -> bytes:
    """The content of a downlink: RX1 is a frequency, a data rate and a delay; RX2 is a delay, or
    0."""
    frequency, rate, delay = rx1
    said = number(4, stamp) + number(4, frequency) + number(1, rate) + number(1, delay)
    return bytes([17]) + bytes.fromhex(eui) + said + number(1, rx2) + frame


class Stream:
    """The bytes that came on a link."""

    def __init__(self) -> None:
        self.left = b""

    def contents(self, piece: bytes) -> list[bytes]:
        """The contents that are whole with this piece."""
        self.left, found = self.left + piece, []
        while len(self.left) > 1 and len(self.left) >= (end := self.length() + 2):
            found.append(self.left[2:end])
            self.left = self.left[end:]
        return found

    def length(self) -> int:
        """The length of the next content."""
        return 256 * self.left[0] + self.left[1]
