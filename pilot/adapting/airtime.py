"""How long frames are on the air, and how much of that a gateway has left for requests."""

import math
import time
from collections import deque
from collections.abc import Callable

HOUR = 3600.0
BANDWIDTH = 125_000
PREAMBLE = 8 + 4.25
# a downlink without a port: MHDR, DevAddr, FCtrl, FCnt and MIC (TS001-1.0.4 §4)
DOWNLINK = 1 + 4 + 1 + 2 + 4
# gateways of which it is known when they sent; a server has at most 64
MOST_GATEWAYS = 256


def on_air(rate: int, size: int, has_crc: bool = True) -> float:
    """How long a PHYPayload of this size is on the air in seconds, with a data rate of EU868, 0 to
    5, an explicit header and the code rate 4/5 (Semtech, SX1276 data sheet, 4.1.1.7). A downlink
    has no CRC."""
    spreading = 12 - rate
    is_slow = spreading >= 11
    bits = 8 * size - 4 * spreading + 28 + 16 * has_crc
    symbols = 8 + max(0, 5 * math.ceil(bits / (4 * (spreading - 2 * is_slow))))
    return (PREAMBLE + symbols) * 2**spreading / BANDWIDTH


def downlink(rate: int, commands: bytes) -> float:
    """How long a downlink with these MAC commands alone is on the air."""
    return on_air(rate, DOWNLINK + len(commands), has_crc=False)


class Budget:
    """The time that each gateway may send requests in any hour, in seconds. The best gateway of an
    uplink sends the downlink after the next one, as far as can be known."""

    def __init__(self, seconds: float, clock: Callable[[], float] = time.monotonic) -> None:
        self.seconds, self.clock = seconds, clock
        self.sent: dict[str, deque[tuple[float, float]]] = {}

    def left(self, gateway: str) -> float:
        """What a gateway has left now."""
        sent = self.sent.get(gateway)
        while sent and sent[0][0] <= self.clock() - HOUR:
            sent.popleft()
        return self.seconds - sum(seconds for _, seconds in sent or ())

    def has(self, gateway: str, seconds: float) -> bool:
        """Whether a gateway may send for so long. An unknown one may not if too many are known."""
        if gateway not in self.sent and len(self.sent) >= MOST_GATEWAYS:
            for known in [known for known in self.sent if self.left(known) >= self.seconds]:
                del self.sent[known]
            if len(self.sent) >= MOST_GATEWAYS:
                return False
        return seconds <= self.left(gateway)

    def take(self, gateway: str, seconds: float) -> None:
        """A gateway is to send for so long."""
        self.sent.setdefault(gateway, deque()).append((self.clock(), seconds))
