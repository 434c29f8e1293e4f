"""What is known of devices, in an SQLite database. A row is written after each event, before a
command is published: a service that is killed knows afterwards what it has asked for. When a status
was asked for is written after the publication, since such a request isn't repeated for a day."""

import json
import sqlite3
from dataclasses import dataclass, field

from bozintar.logs import Seldom

from .rule import Limits, Setting
from .states import Device, Request

COLUMNS = {
    "device": "TEXT PRIMARY KEY",
    "session": "INTEGER",
    "counter": "INTEGER",
    "rate": "INTEGER",
    "power": "INTEGER",
    "is_sure": "INTEGER",
    "has_eight": "INTEGER",
    "most_rate": "INTEGER",
    "most_power": "INTEGER",
    "refusals": "INTEGER",
    "rises": "INTEGER",
    # why it is left alone, and until which counter; empty and nothing if it isn't
    "why": "TEXT",
    "rests_until": "INTEGER",
    # the request that is open: without a setting it is one for the status
    "asked_after": "INTEGER",
    "asked_rate": "INTEGER",
    "asked_power": "INTEGER",
    "before_rate": "INTEGER",
    "before_power": "INTEGER",
    "tries": "INTEGER",
    "uplinks": "INTEGER",
    "is_accepted": "INTEGER",
    # SNRs of the last uplinks with the present setting, as JSON
    "snrs": "TEXT",
    # when the status was asked for last, in Unix time
    "status_asked": "REAL",
}
TABLE = f"CREATE TABLE IF NOT EXISTS devices ({', '.join(map(' '.join, COLUMNS.items()))})"
PUT = f"INSERT OR REPLACE INTO devices VALUES ({', '.join('?' * len(COLUMNS))})"
ALL = f"SELECT {', '.join(COLUMNS)} FROM devices"


@dataclass
class Known:
    """What is known of a device, and when its status was asked for last, in Unix time."""

    device: Device = field(default_factory=Device)
    status_asked: float = 0.0


def row_of(name: str, known: Known) -> tuple:
    """The row of a device."""
    of, setting = known.device, known.device.setting
    row: tuple = (
        name,
        of.session,
        of.counter,
        setting.rate,
        setting.power,
        of.is_sure,
        of.has_eight,
    )
    row += (of.limits.rate, of.limits.power, of.refusals, of.rises, of.why, of.rests_until)
    asked: tuple = (None,) * 8
    if request := of.request:
        wanted, before = request.setting, request.before
        asked = (request.counter, wanted and wanted.rate, wanted and wanted.power, before.rate)
        asked += (before.power, request.tries, request.uplinks, request.is_accepted)
    return (*row, *asked, json.dumps(of.snrs), known.status_asked)


def request_of(row: dict) -> Request | None:
    """The open request of a row."""
    if row["asked_after"] is None:
        return None
    is_status = row["asked_rate"] is None
    setting = None if is_status else Setting(row["asked_rate"], row["asked_power"])
    before = Setting(row["before_rate"], row["before_power"])
    counts = (row["asked_after"], row["tries"], row["uplinks"], bool(row["is_accepted"]))
    return Request(setting, before, *counts)


def known_of(row: dict) -> Known:
    """What a row has of a device."""
    device = Device(
        session=row["session"],
        counter=row["counter"],
        setting=Setting(row["rate"], row["power"]),
        is_sure=bool(row["is_sure"]),
        has_eight=bool(row["has_eight"]),
        snrs=tuple(json.loads(row["snrs"])),
        limits=Limits(row["most_rate"], row["most_power"]),
        request=request_of(row),
        refusals=row["refusals"],
        rises=row["rises"],
        why=row["why"],
        rests_until=row["rests_until"],
    )
    return Known(device, row["status_asked"])


class Keeper:
    """The database in a file."""

    def __init__(self, file: str) -> None:
        self.file, self.seldom = file, Seldom()
        self.database = sqlite3.connect(file, isolation_level=None)
        # what is written outlives the program at once, and a power cut a little later
        self.database.execute("PRAGMA journal_mode=WAL")
        self.database.execute("PRAGMA synchronous=NORMAL")
        self.database.execute(TABLE)

    def all(self) -> dict[str, Known]:
        """What is known of each device."""
        rows = (dict(zip(COLUMNS, row)) for row in self.database.execute(ALL))
        return {row["device"]: known_of(row) for row in rows}

    def put(self, name: str, known: Known) -> None:
        """Writes what is known of a device. If that fails, for example on a full disk, the service
        goes on with what it has in memory."""
        try:
            self.database.execute(PUT, row_of(name, known))
        except sqlite3.Error as why:
            self.seldom.warn("not kept", f"{self.file}: what is known can't be kept: {why}")
