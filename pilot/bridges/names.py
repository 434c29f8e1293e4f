"""The tags and the ids of items: the network knows an item of a device by its tag, and the
application by its id."""

import random
import sqlite3
import time
from collections.abc import Callable
from dataclasses import dataclass

from bozintar.logs import Seldom

# tags of items whose ids can't be tags: ids that can are below these
LEAST, MOST = 10**9, 2**32 - 1
# items whose ids are known
MOST_NAMES = 10_000
# for how long the id of a command is in use after its answer, in seconds, if nothing is heard of
# the command any more. The broker may send it again meanwhile
IN_USE = 60.0
# `free` is when the id is free again, in Unix time; nothing as long as that is open
TABLE = """CREATE TABLE IF NOT EXISTS items (number INTEGER PRIMARY KEY AUTOINCREMENT,
    device TEXT, tag INTEGER, id TEXT, free REAL, UNIQUE (device, tag))"""
ADD = "INSERT OR REPLACE INTO items (device, tag, id, free) VALUES (?, ?, ?, ?)"
FREE = "UPDATE items SET free = ? WHERE device = ? AND tag = ?"
FORGET = "DELETE FROM items WHERE device = ? AND tag = ?"
ALL = "SELECT device, tag, id, free FROM items ORDER BY number"


@dataclass
class Name:
    """The id of an item, and when it is free again, in Unix time; None as long as that is open."""

    text: str
    free: float | None = None


class Names:
    """The items of an application that were asked for lately; in a file, too, if there is one, so
    that a later run knows them."""

    def __init__(self, file: str | None = None, clock: Callable[[], float] = time.time) -> None:
        self.clock, self.seldom = clock, Seldom()
        # by their devices and tags, the oldest first; and the tag of each id
        self.names: dict[tuple[str, int], Name] = {}
        self.tags: dict[tuple[str, str], int] = {}
        # hardly one that an earlier run has used, whose items may still wait
        self.tag = random.randint(LEAST, MOST)
        self.database = opened(file) if file else None
        for device, tag, text, free in self.database.execute(ALL) if self.database else ():
            self.names[device, tag], self.tags[device, text] = Name(text, free), tag

    def text(self, device: str, tag: int) -> str | None:
        """The id of an item, if it is known."""
        name = self.names.get((device, tag))
        return name.text if name else None

    def is_in_use(self, device: str, text: str) -> bool:
        """Whether an id is one of an item that isn't known to be done."""
        name = self.names.get((device, self.tags.get((device, text), -1)))
        return name is not None and (name.free is None or self.clock() < name.free)

    def add(self, device: str, text: str) -> int:
        """The tag of a new item: its id, if that can be a tag."""
        is_tag = text.isascii() and text.isdigit() and len(text) < 10 and str(int(text)) == text
        tag = int(text) if is_tag else self.next_tag(device)
        if text:
            self.names.pop((device, tag), None)
            self.names[device, tag], self.tags[device, text] = Name(text), tag
            # if this run ends before the answer, nobody knows whether the item waits
            self.keep(ADD, device, tag, text, 0.0)
        while len(self.names) > MOST_NAMES:
            self.forget(*next(iter(self.names)))
        return tag

    def next_tag(self, device: str) -> int:
        """A tag that no known item of the device has."""
        while True:
            self.tag = self.tag + 1 if self.tag < MOST else LEAST
            if (device, self.tag) not in self.names:
                return self.tag

    def hold(self, device: str, tag: int) -> None:
        """An item waits, and the network will say what becomes of it."""
        if (device, tag) in self.names:
            self.keep(FREE, None, device, tag)

    def free(self, device: str, tag: int, seconds: float = 0.0) -> None:
        """An id may come again, now or after some seconds; what the network says of the item has
        this id all the same."""
        if name := self.names.get((device, tag)):
            name.free = self.clock() + seconds
            self.keep(FREE, name.free, device, tag)

    def forget(self, device: str, tag: int) -> None:
        """There is no such item."""
        if name := self.names.pop((device, tag), None):
            if self.tags.get((device, name.text)) == tag:
                del self.tags[device, name.text]
            self.keep(FORGET, device, tag)

    def keep(self, statement: str, *values: object) -> None:
        """Changes the file. If that fails, the bridge goes on with what it has in memory."""
        try:
            if self.database:
                self.database.execute(statement, values)
        except sqlite3.Error as why:
            self.seldom.warn("not kept", f"the ids of commands can't be kept: {why}")


def opened(file: str) -> sqlite3.Connection:
    """The database in a file. What is written outlives the program at once, and a power cut a
    little later."""
    database = sqlite3.connect(file, isolation_level=None)
    database.execute("PRAGMA journal_mode=WAL")
    database.execute("PRAGMA synchronous=NORMAL")
    database.execute(TABLE)
    return database
