"""Copies that come too late. A server gathers a frame's copies for 200 ms. A confirmed uplink's
copy that is handed in later is acknowledged once more, for the same RX1 but by another gateway, and
the two downlinks collide. So a bridge holds such a copy back, if it handed in the first one."""

import asyncio
from collections import OrderedDict
from typing import NamedTuple

from bozintar import wire
from bozintar.counts import Counts

COUNTED = {
    "late_copies": "of copies and caught_up, copies held back: the frame's window had closed",
    "repetitions": "frames handed in again 1 to 15 s later: by a device, or by a very late copy",
}
# for how long a server gathers copies, in seconds; for how long frames of the same bytes are one
# transmission, since RX1 begins at least that long after it, and a device repeats it after that;
# and the longest delay of RX1
WINDOW, ONE_TRANSMISSION, LONGEST_DELAY = 0.2, 1.0, 15.0
# frames of each server that are known
MOST = 1024
# where a message has the frame, and what a confirmed uplink begins with
AT, CONFIRMED = 2 + wire.COPY.size, b"\x80"


class First(NamedTuple):
    """A frame's first copy: when it was heard and when it was sent, and on which link."""

    heard: float
    sent: float
    transport: asyncio.WriteTransport


class Late:
    """The first copies of the newest frames that were handed in to one server."""

    def __init__(self, counts: Counts):
        self.counts = counts
        self.firsts: OrderedDict[bytes, First] = OrderedDict()

    def lets(
        self, message: bytes, heard: float, now: float, transport: asyncio.WriteTransport
    ) -> bool:
        """Whether a copy is handed in now. If the first one's link has ended, the server may have
        started again, after it had decided the frame or lost it. An unconfirmed frame is answered
        once in both cases, so its copy is handed in."""
        frame = message[AT:]
        first = self.firsts.get(frame)
        if first and heard - first.heard < ONE_TRANSMISSION:
            is_late = now - first.sent >= WINDOW
            if first.transport.is_closing():
                is_late = frame.startswith(CONFIRMED)
            self.counts.add("late_copies", is_late)
            return not is_late
        self.counts.add("repetitions", first is not None and heard - first.heard < LONGEST_DELAY)
        self.firsts[frame] = First(heard, now, transport)
        self.firsts.move_to_end(frame)
        if len(self.firsts) > MOST:
            self.firsts.popitem(last=False)
        return True
