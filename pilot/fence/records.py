"""What etcd keeps of stores, by keys below /bozintar:

    store/NAME      the store's NetID
    fence/NAME      which file may be served; it has no lease, so it stays
    serving/NAME    where the store is served now, under the lease of its keeper
    device/DEVEUI   the store that a device is in
"""

import json
import re
from dataclasses import asdict, dataclass, fields
from typing import Any, TypeVar

from bozintar.logs import complain

STORE, FENCE, SERVING, DEVICE = (
    f"/bozintar/{kind}/" for kind in ("store", "fence", "serving", "device")
)
RUNNING, STOPPED = "running", "stopped"
# a name is a word of a line, the instance of a unit, and a part of a key
NAME = re.compile(r"[A-Za-z0-9][A-Za-z0-9_-]{0,31}")
NET_ID = re.compile(r"0000[0-3][0-9A-F]")
R = TypeVar("R", bound="Record")


class Unreadable(ValueError):
    """A value isn't what its key should have."""


@dataclass(frozen=True)
class Record:
    """A value of several fields, which is JSON in etcd."""

    @classmethod
    def read(cls: type[R], key: str, text: str) -> R:
        """The record of a key's text. Fields that are unknown here are of a later version."""
        try:
            given = json.loads(text)
            values = {one.name: given.get(one.name, one.default) for one in fields(cls)}
        except (ValueError, AttributeError) as why:
            raise Unreadable(f"{key} in etcd can't be read: {why!r}") from None
        kinds = {one.name: one.type for one in fields(cls)}
        for name, value in values.items():
            if type(value) is not kinds[name]:
                raise Unreadable(f"{key} in etcd can't be read: its {name} is {value!r}")
        return cls(**values)

    def text(self) -> str:
        """As etcd keeps it."""
        return json.dumps(asdict(self))


@dataclass(frozen=True)
class Fence(Record):
    """Which file of a store may be served. A life is from a start by a keeper to the next one. A
    store that is `stopped` ended well: any file of this digest may be served. While it is
    `running`, and after any other end, only the file at this home may, if its number isn't below
    this one."""

    life: int
    state: str
    number: int
    home: str
    digest: str
    # names this keeper's start and no other one, so that a keeper knows its own words again
    keeper: str
    # for operators
    host: str
    file: str
    generation: int = 0

    @property
    def has_ended_well(self) -> bool:
        """Whether any file of the digest may be served."""
        return self.state == STOPPED


@dataclass(frozen=True)
class Serving(Record):
    """Where a store is served; the address is empty until the server listens."""

    address: str
    life: int
    host: str
    file: str


def known(text: str, key: str, kind: type[R]) -> R | None:
    """The record of a text; None if there is no text."""
    return kind.read(key, text) if text else None


def name_of(key: str) -> str:
    """The last part of a key."""
    return key.rpartition("/")[2]


def readable(found: dict[str, Any], kind: type[R]) -> dict[str, R]:
    """The records of all keys, by their names; one that can't be read is reported and left out."""
    records = {}
    for key, value in found.items():
        try:
            records[name_of(key)] = kind.read(key, value.text)
        except Unreadable as why:
            complain(str(why))
    return records
