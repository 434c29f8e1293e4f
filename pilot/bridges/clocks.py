"""A gateway's clock of microseconds in 32 bits, which wraps, and begins again when the gateway
does."""

from bozintar.wire import MICROSECONDS

WRAP = 2**32
# by how much a stamp may be off, in seconds: datagrams come late, and demodulators end out of order
SLACK = 10.0
# for how long a stamp that came early stays what others are compared with: clocks differ a little.
# If nothing was heard for long they differ by more than the slack, and the clock is taken for a new
# one: 100 millionths are 10 s after 28 hours
LASTING = 60.0


def signed(difference: int) -> int:
    """A difference of stamps, as the nearest one that wraps to it."""
    return (difference + WRAP // 2) % WRAP - WRAP // 2


class Clock:
    """What is known of a gateway's clock by the stamps that came, and when they came."""

    def __init__(self) -> None:
        self.stamp: int | None = None
        self.came, self.begun_anew = 0.0, 0

    def off(self, stamp: int, moment: float) -> int | None:
        """By how much a stamp differs from what the clock shows at a moment of our own clock; None
        if no stamp came yet."""
        if self.stamp is None:
            return None
        now = (self.stamp + round((moment - self.came) * MICROSECONDS)) % WRAP
        return signed(stamp - now)

    def hear(self, stamp: int, moment: float) -> None:
        """A stamp came; if it is far from what was due, the clock has begun again."""
        off = self.off(stamp, moment)
        if off is not None:
            if abs(off) > SLACK * MICROSECONDS:
                self.begun_anew += 1
            elif off < 0 and moment - self.came < LASTING:
                return
        self.stamp, self.came = stamp, moment

    def is_due(self, stamp: int, delay: int, moment: float) -> bool:
        """Whether a window that long after this stamp is still to come, as far as is known."""
        off = self.off(stamp + delay * MICROSECONDS, moment)
        return off is not None and -SLACK < off / MICROSECONDS < delay + SLACK
