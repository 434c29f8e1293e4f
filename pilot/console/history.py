"""What the console keeps on its disk, in SQLite: uplinks for 31 days, without payloads; counts of
each minute for a year; events, statuses and names. A thread writes what has come, in one
transaction a second; the event loop reads by a connection of its own."""

import asyncio
import sqlite3
import threading
import time
from typing import Any

from bozintar.logs import log

TABLES = """
CREATE TABLE IF NOT EXISTS uplinks (device TEXT, session INTEGER, counter INTEGER, came REAL,
    port INTEGER, rate INTEGER, snr REAL, rssi INTEGER, gateway TEXT, hz INTEGER, copies INTEGER,
    size INTEGER, hash INTEGER, PRIMARY KEY (device, session, counter)) WITHOUT ROWID;
CREATE INDEX IF NOT EXISTS uplinks_came ON uplinks (came);
CREATE TABLE IF NOT EXISTS sessions (device TEXT, session INTEGER, first INTEGER, last INTEGER,
    count INTEGER, came REAL, PRIMARY KEY (device, session)) WITHOUT ROWID;
CREATE TABLE IF NOT EXISTS statuses (device TEXT, came REAL, battery REAL, margin INTEGER,
    PRIMARY KEY (device, came)) WITHOUT ROWID;
CREATE TABLE IF NOT EXISTS events (number INTEGER PRIMARY KEY, came REAL, kind TEXT, of TEXT,
    text TEXT);
CREATE INDEX IF NOT EXISTS events_of ON events (of, number);
CREATE TABLE IF NOT EXISTS minutes (minute INTEGER PRIMARY KEY, uplinks INTEGER, missing INTEGER,
    refused INTEGER, joins INTEGER, dropped INTEGER, sync_us INTEGER);
CREATE TABLE IF NOT EXISTS gateway_hours (gateway TEXT, hour INTEGER, best INTEGER, snr_sum REAL,
    last REAL, PRIMARY KEY (gateway, hour)) WITHOUT ROWID;
CREATE TABLE IF NOT EXISTS adaptions (device TEXT PRIMARY KEY, came REAL, rate INTEGER,
    power INTEGER, is_sure INTEGER, asked TEXT, tries INTEGER, why TEXT, until INTEGER);
CREATE TABLE IF NOT EXISTS names (eui TEXT PRIMARY KEY, name TEXT);
CREATE TABLE IF NOT EXISTS labels (device TEXT PRIMARY KEY, name TEXT, application TEXT);
CREATE TABLE IF NOT EXISTS hidden (eui TEXT PRIMARY KEY, why TEXT);
CREATE TABLE IF NOT EXISTS listed (gateway TEXT, bridge TEXT, PRIMARY KEY (gateway, bridge));
CREATE TABLE IF NOT EXISTS nonces (device TEXT PRIMARY KEY, nonce INTEGER);
CREATE TABLE IF NOT EXISTS repeats (kind TEXT, device TEXT, count INTEGER, last REAL,
    is_open INTEGER, PRIMARY KEY (kind, device)) WITHOUT ROWID;
"""
# for a database of an earlier version
COLUMNS = "SELECT name FROM pragma_table_info('uplinks')"
ADD = "ALTER TABLE uplinks ADD COLUMN hash INTEGER"
UPLINK = "INSERT OR IGNORE INTO uplinks VALUES (?, ?, ?, ?, ?, ?, ?, ?, ?, ?, ?, ?, ?)"
SESSION = "INSERT OR REPLACE INTO sessions VALUES (?, ?, ?, ?, ?, ?)"
STATUS = "INSERT OR IGNORE INTO statuses VALUES (?, ?, ?, ?)"
EVENT = "INSERT INTO events (came, kind, of, text) VALUES (?, ?, ?, ?)"
MINUTE = "INSERT OR REPLACE INTO minutes VALUES (?, ?, ?, ?, ?, ?, ?)"
HOUR = "INSERT OR REPLACE INTO gateway_hours VALUES (?, ?, ?, ?, ?)"
ADAPTION = "INSERT OR REPLACE INTO adaptions VALUES (?, ?, ?, ?, ?, ?, ?, ?, ?)"
NAME = "INSERT OR REPLACE INTO names VALUES (?, ?)"
LABEL = "INSERT OR REPLACE INTO labels VALUES (?, ?, ?)"
HIDDEN = "INSERT OR REPLACE INTO hidden VALUES (?, ?)"
LISTED = "INSERT OR IGNORE INTO listed VALUES (?, ?)"
# of a gateway that is forgotten
FORGET = ("DELETE FROM gateway_hours WHERE gateway = ?", "DELETE FROM listed WHERE gateway = ?")
NONCE = "INSERT OR REPLACE INTO nonces VALUES (?, ?)"
REPEATED = "INSERT OR REPLACE INTO repeats VALUES (?, ?, ?, ?, ?)"
MONTH, YEAR = 31 * 86_400, 366 * 86_400
# how many events stay, however many a stranger causes
MOST_EVENTS = 200_000
# how many rows wait while the disk is full, and how long until it is tried again, in seconds
MOST_WAITING, PAUSE = 10_000, 10.0
SWEEP_EVERY = 3600.0
Row = tuple[str, tuple[Any, ...]]


class History:
    """The database. What is added waits until `keep` has it written."""

    def __init__(self, file: str):
        self.writing = sqlite3.connect(file, check_same_thread=False)
        self.writing.execute("PRAGMA journal_mode=WAL")
        self.writing.execute("PRAGMA synchronous=NORMAL")
        self.writing.executescript(TABLES)
        if ("hash",) not in self.writing.execute(COLUMNS).fetchall():
            self.writing.execute(ADD)
        self.reading = sqlite3.connect(file)
        self.waiting: list[Row] = []
        self.came = asyncio.Event()
        # the program may end while the thread writes
        self.one, self.is_closed = threading.Lock(), False
        # why the last transaction failed, for example a full disk
        self.fault = ""

    def add(self, statement: str, *values: Any) -> None:
        """Has a row written soon."""
        self.waiting.append((statement, values))
        self.came.set()

    def rows(self, statement: str, *values: Any) -> list[tuple[Any, ...]]:
        """Rows that were written."""
        return self.reading.execute(statement, values).fetchall()

    def write(self, rows: list[Row]) -> None:
        """Writes rows in one transaction."""
        with self.writing:
            for statement, values in rows:
                self.writing.execute(statement, values)

    def write_waiting(self) -> None:
        """Writes what waits. If that fails, it goes on waiting, the newest rows at most."""
        with self.one:
            if not self.is_closed:
                self.write_now()

    def write_now(self) -> None:
        """The same, by one thread at a time."""
        rows, self.waiting = self.waiting, []
        try:
            self.write(rows)
            self.fault = ""
        except sqlite3.Error as why:
            if not self.fault:
                log(f"the history can't be written: {why}")
            self.fault = str(why)
            self.waiting = (rows + self.waiting)[-MOST_WAITING:]

    async def keep(self) -> None:
        """Writes what has come, at most once a second, and removes each hour what is old."""
        swept = 0.0
        while True:
            await self.came.wait()
            self.came.clear()
            if time.monotonic() - swept > SWEEP_EVERY:
                swept = time.monotonic()
                self.waiting += old(time.time())
            await asyncio.to_thread(self.write_waiting)
            if self.fault:
                self.came.set()
            await asyncio.sleep(PAUSE if self.fault else 1)

    def close(self) -> None:
        """Writes the rest, and closes the file."""
        self.write_waiting()
        with self.one:
            self.is_closed = True
            self.writing.close()
            self.reading.close()


def old(now: float) -> list[Row]:
    """What is removed."""
    last = "(SELECT max(number) FROM events)"
    return [
        ("DELETE FROM uplinks WHERE came < ?", (now - MONTH,)),
        ("DELETE FROM sessions WHERE came < ?", (now - MONTH,)),
        ("DELETE FROM gateway_hours WHERE hour < ?", ((now - MONTH) // 3600,)),
        ("DELETE FROM statuses WHERE came < ?", (now - YEAR,)),
        ("DELETE FROM minutes WHERE minute < ?", ((now - YEAR) // 60,)),
        (f"DELETE FROM events WHERE number <= {last} - ?", (MOST_EVENTS,)),
    ]
