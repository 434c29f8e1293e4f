"""A limit to how often something is done."""

import time
from collections.abc import Callable


class Bucket:
    """A token bucket: `rate` things a second are let through, and up to `burst` at once after a
    pause."""

    def __init__(self, rate: float, burst: float, clock: Callable[[], float] = time.monotonic):
        self.rate, self.burst, self.clock = rate, burst, clock
        self.tokens, self.moment = burst, clock()

    def lets(self) -> bool:
        """Whether one more is let through now."""
        now = self.clock()
        self.tokens = min(self.burst, self.tokens + self.rate * (now - self.moment))
        self.moment = now
        is_let = self.tokens >= 1
        self.tokens -= is_let
        return is_let
