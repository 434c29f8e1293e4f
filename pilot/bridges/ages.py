"""How long a line of the network may have waited before it was read. The network's lines have no
time, and those for an application that is away wait in the network.

So this asks the network something that it refuses, and once more after the answer. It sends each
answer as soon as it can, and before lines that wait, of which it then sends some: 64, or 16 KiB, or
all that wait. If fewer came between the two answers, then nothing more waited at the first one: all
that the network had put on the link before the first request was sent has been read."""

import sqlite3
import time
from collections.abc import Callable
from datetime import datetime, timezone

from bozintar import wire
from bozintar.lasting import Link

# the request, which is none, and its answer
REQUEST, ANSWER = wire.request(""), "refused 51"
# how many lines, and bytes of them, may come between two answers if no more than these wait
MOST_LINES, MOST_BYTES = 63, 16_000
# seconds between two tries; how long an uplink may be in the network before its line is on the link
# (copies are gathered for 200 ms, and the disk takes some seconds at most); and what is late
PERIOD, ON_THE_WAY, LATE = 5.0, 5.0, 20.0
# how often a file is written, in seconds
KEPT = 60.0
TABLE = "CREATE TABLE IF NOT EXISTS lines (one INTEGER PRIMARY KEY, read REAL)"
READ, KEEP = "SELECT read FROM lines", "INSERT OR REPLACE INTO lines VALUES (1, ?)"
# with many stores each has a moment of its own
STORES = "CREATE TABLE IF NOT EXISTS lines_of_stores (store TEXT PRIMARY KEY, read REAL)"
READ_STORE = "SELECT read FROM lines_of_stores WHERE store = ?"
KEEP_STORE = "INSERT OR REPLACE INTO lines_of_stores VALUES (?, ?)"


class Ages:
    """The moment until which everything was read that a link had for this program, in Unix time;
    kept in a database, too, if there is one, so that a later run knows it."""

    def __init__(
        self,
        link: Link,
        database: sqlite3.Connection | None,
        clock: Callable[[], float] = time.time,
        store: str = "",
    ):
        self.link, self.database, self.clock = link, database, clock
        # what finds the moment in the database
        self.key = (store,) if store else ()
        self.read: float | None = None
        if database:
            database.execute(STORES if store else TABLE)
            rows = database.execute(READ_STORE if store else READ, self.key)
            self.read = next((read for (read,) in rows), None)
        # the link on which it asks; when it asked first, and whether the second answer is due
        self.opened = 0
        self.asked: float | None = None
        self.is_second = False
        self.lines = self.bytes = 0
        self.last = self.kept = 0.0

    def ask(self) -> None:
        """Asks, if it's time to and no answer is due on this link."""
        if self.link.opened != self.opened:
            self.opened, self.asked = self.link.opened, None
        now = self.clock()
        if self.asked is None and not 0 <= now - self.last < PERIOD and self.link.say(REQUEST):
            self.asked, self.is_second, self.last = now, False, now

    def take(self, line: str, is_free: bool) -> bool:
        """A line came; whether it is an answer to what this asked. `is_free` says that no other
        request waits for its answer, which might be the same."""
        is_answer = line == ANSWER and self.asked is not None and self.link.opened == self.opened
        if not is_answer:
            self.lines, self.bytes = self.lines + 1, self.bytes + len(line) + 3
            return False
        if not self.is_second and is_free and self.link.say(REQUEST):
            self.is_second, self.lines, self.bytes = True, 0, 0
            return True
        if self.is_second and self.lines <= MOST_LINES and self.bytes <= MOST_BYTES:
            self.read = self.asked
        self.asked = None
        return True

    def bounds(self, moment: float) -> dict:
        """The fields of the event of a line that was read now, if it may have waited for long: from
        when it is at the earliest, if that is known."""
        if self.read is None:
            return {"delayed": True}
        earliest = min(self.read, moment) - ON_THE_WAY
        if moment - earliest <= LATE:
            return {}
        return {"delayed": True, "earliest": shown(earliest)}

    def keep(self, is_end: bool = False) -> None:
        """Puts the moment into the database, now and then and at the end."""
        now = self.clock()
        if self.database and self.read and (is_end or not 0 <= now - self.kept < KEPT):
            self.kept = now
            self.database.execute(KEEP_STORE if self.key else KEEP, (*self.key, self.read))


def shown(moment: float) -> str:
    """A moment, as events have it."""
    return datetime.fromtimestamp(moment, timezone.utc).isoformat()
