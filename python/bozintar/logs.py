"""The lines that a program logs, on standard output: with a level if systemd's journal reads them,
and else with the date and the time."""

import os
import sys
import time
from collections.abc import Callable, Hashable
from typing import Any

# the levels of sd-daemon(3)
ERROR, WARNING, INFO = 3, 4, 6
# how often a repeated event is logged at most, in seconds, and of how many events that is known
EVERY, MOST_EVENTS = 60.0, 1000


def is_journal(stream: Any) -> bool:
    """Whether systemd's journal reads a stream, which it names in JOURNAL_STREAM
    (systemd.exec(5))."""
    try:
        of = os.fstat(stream.fileno())
    except (AttributeError, OSError, ValueError):
        return False
    return os.environ.get("JOURNAL_STREAM") == f"{of.st_dev}:{of.st_ino}"


def line_of(text: str, level: int, stream: Any) -> str:
    """A line for this stream. The journal has the time by itself, and takes the level from a
    prefix."""
    if is_journal(stream):
        return f"<{level}>{text}\n"
    return f"{time.strftime('%Y-%m-%d %H:%M:%S')}  {text}\n"


def complain(text: str, level: int = WARNING) -> None:
    """Prints a line on standard error."""
    prefix = f"<{level}>" if is_journal(sys.stderr) else ""
    print(f"{prefix}{text}", file=sys.stderr)


def log(text: str, level: int = INFO) -> None:
    """Prints a line. If nobody reads it (a closed pipe, a full disk), the line is lost, and nothing
    else: so nothing of it is buffered."""
    try:
        if sys.stdout:
            line = line_of(text, level, sys.stdout)
            os.write(sys.stdout.fileno(), line.encode(sys.stdout.encoding, "backslashreplace"))
    except OSError:
        pass


def warn(text: str) -> None:
    """Prints a line about a fault, after which the program goes on."""
    log(text, WARNING)


class Seldom:
    """Logs a repeated event at most once a minute, and how often it came in between."""

    def __init__(self, clock: Callable[[], float] = time.monotonic):
        self.clock = clock
        # when each event was logged last, and how often it came since then; the oldest first
        self.events: dict[Hashable, tuple[float, int]] = {}

    def log(self, event: Hashable, text: str, level: int = INFO) -> bool:
        """An event came, of which this is the text; whether it is logged."""
        now = self.clock()
        last, count = self.events.get(event, (now - EVERY, 0))
        if now < last + EVERY:
            self.events[event] = last, count + 1
            return False
        self.events.pop(event, None)
        if len(self.events) >= MOST_EVENTS:
            del self.events[next(iter(self.events))]
        self.events[event] = now, 0
        log(f"{text} ({count} more since the last such line)" if count else text, level)
        return True

    def warn(self, event: Hashable, text: str) -> bool:
        """A fault came, of which this is the text; whether it is logged."""
        return self.log(event, text, WARNING)
