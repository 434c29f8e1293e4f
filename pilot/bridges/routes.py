"""Which stores a frame is for, by files that say which stores there are and which device is in
which. No state is kept: a store refuses a frame of a device that it doesn't have (3, 4 or 7 of
docs/FORMATS.md), and nothing of that frame becomes durable."""

import argparse
import os
import re
import sys
import time
from collections.abc import Callable
from dataclasses import dataclass
from typing import Any, Generic, TypeVar

from bozintar.logs import Seldom, log
from bozintar.words import EUI, Address

from . import lines
from .lines import Reading

# the first bytes of uplinks and of Join-Requests, and their lengths
UPLINKS, SHORTEST_UPLINK = (0x40, 0x80), 12
JOIN, JOIN_LENGTH = 0x00, 23
# a DevAddr: bit 31 is 0, and bits 30 to 25 are the NetID's low six. Then come 12 bits of the slot,
# and 13 of the JoinNonce
OTHER, NET_BITS, SLOTS, NONCES = 0x80, 0x3F, 0xFFF, 0x1FFF
MOST_NET_ID = 0x3F
# joins that a device may have been granted since its store was listed; and how old a list may be,
# in seconds
AHEAD, OLDEST = 8, 600.0
STORES_HELP = "the stores, a line NAME NETID HOST:PORT each, and - for HOST:PORT of an unserved one"
NAME = re.compile(r"[0-9A-Za-z_][0-9A-Za-z_.-]{0,62}")
NET_ID = re.compile(r"[0-9A-Fa-f]{6}")
NUMBER = re.compile(r"[0-9]{1,8}")
# of a slot of a list: the last JoinNonce that was granted, and the current session's, if there is
# one
Nonces = tuple[int, int | None]
Sessions = dict[str, dict[int, Nonces]]
T = TypeVar("T")


@dataclass(frozen=True)
class Store:
    """A store, and where its server listens; None while nobody serves it."""

    name: str
    net_id: int
    address: Address | None


def name_of(word: str) -> str:
    """The name of a store."""
    if not NAME.fullmatch(word):
        raise ValueError(f"{word[:70]!a} is no name of a store")
    return sys.intern(word)  # half a million devices have one of some names


def eui_of(word: str) -> str:
    """An EUI, in upper case."""
    if not EUI.fullmatch(word):
        raise ValueError(f"{word[:40]!a} is no EUI of 16 hex digits")
    return word.upper()


def store_of(line: str) -> tuple[str, Store]:
    """The store of a line NAME NETID HOST:PORT, by its name; - stands for no address."""
    words = line.split()
    if len(words) != 3:
        raise ValueError("it isn't NAME NETID HOST:PORT")
    name, net_id, where = words
    if not NET_ID.fullmatch(net_id) or int(net_id, 16) > MOST_NET_ID:
        raise ValueError(f"{net_id[:20]!a} is no NetID from 000000 to 00003F")
    try:
        address = None if where == "-" else Address.read(where)
    except argparse.ArgumentTypeError as why:
        raise ValueError(str(why)) from None
    return name, Store(name_of(name), int(net_id, 16), address)


def read_stores(file: str) -> Reading[dict[str, Store]]:
    """The stores of a file, by their names."""
    found = yield from lines.table(file, store_of)
    if not found:
        raise ValueError(f"{file} has no store")
    return found


def read_devices(file: str) -> Reading[dict[bytes, str]]:
    """The names of the stores that devices are in, of a file of lines DEVEUI NAME."""
    found: dict[bytes, str] = {}

    def take(line: str) -> None:
        eui, *words = line.split()
        if len(words) != 1:
            raise ValueError("it isn't DEVEUI NAME")
        device, name = bytes.fromhex(eui_of(eui)), name_of(words[0])
        if found.setdefault(device, name) != name:
            raise ValueError(f"{eui} is in {found[device]}, too")

    yield from lines.each(file, take)
    return found


def hearing_of(line: str) -> tuple[str, frozenset[str]]:
    """The stores of a line EUI NAME.., by the gateway's EUI."""
    eui, *names = line.split()
    return eui_of(eui), frozenset(map(name_of, names))


def read_hearing(file: str) -> Reading[dict[str, frozenset[str]]]:
    """The stores whose devices a gateway may hear, of a file, by the gateway's EUI."""
    return lines.table(file, hearing_of)


def read_sessions(file: str) -> Reading[Sessions]:
    """The JoinNonces of the devices of each store by their slots: the lines of `lnsd devices` or
    `lnsd list`, each after its store's name."""
    found: Sessions = {}

    def take(line: str) -> None:
        name, *words = line.split()
        of_store = found.setdefault(name_of(name), {})
        if words and words[0] in ("devices", "now"):
            return  # the last lines of a list
        if len(words) < 8:
            raise ValueError("it isn't NAME and a line of lnsd devices")
        slot, granted, current = words[0], words[2], words[3]
        if not all(NUMBER.fullmatch(word) for word in (slot, granted, current.replace("-", "0"))):
            raise ValueError("a slot or a JoinNonce is no number")
        of_store[int(slot)] = int(granted), None if current == "-" else int(current)

    yield from lines.each(file, take)
    return found


class File(Generic[T]):
    """What a file has, which is read again when the file has changed. A file that has a fault then,
    or is gone, changes nothing."""

    def __init__(
        self,
        path: str | None,
        read: Callable[[str], Reading[T]],
        content: T,
        is_logged: bool = True,
    ):
        self.path, self.reader, self.content = path, read, content
        self.is_logged = is_logged
        self.stamp: tuple[int, ...] | None = None
        self.seldom = Seldom()

    def now(self) -> tuple[int, ...] | None:
        """What shows whether the file was replaced or written; None if it isn't there."""
        try:
            of = os.stat(self.path or "")
        except OSError:
            return None
        return of.st_mtime_ns, of.st_ino, of.st_size

    def read(self) -> None:
        """Reads it, if there is one. An `OSError` or a `ValueError` says what is wrong with it."""
        if self.path:
            stamp = self.now()
            self.content = lines.read(self.reader(self.path))
            self.stamp = stamp

    def try_to_read(self) -> None:
        """Reads it, if there is one. A fault is only logged, as `look` does."""
        try:
            self.read()
        except FileNotFoundError:
            pass  # `look` logs it
        except (OSError, ValueError) as why:
            self.stamp = self.now()
            self.warn_of(why)

    async def look(self) -> bool:
        """Reads the file if it has changed; whether the content has."""
        if not self.path:
            return False
        stamp = self.now()
        if stamp is None:
            self.seldom.warn("gone", f"{self.path} isn't there: what it had goes on")
        if stamp is None or stamp == self.stamp:
            return False
        self.stamp = stamp
        try:
            self.content = await lines.read_on(self.reader(self.path))
        except (OSError, ValueError) as why:
            self.warn_of(why)
            return False
        if self.is_logged:
            log(f"{self.path} is read")
        return True

    def warn_of(self, why: Exception) -> None:
        """Logs a fault of the file."""
        self.seldom.warn(str(why), f"{why}: the file isn't read, and what it had goes on")


class Routes:
    """The stores of a network, and which of them a frame is for. Stores that one gateway may hear
    should have NetIDs of their own: a NetID may be used again out of radio range."""

    def __init__(
        self,
        stores: str,
        devices: str | None = None,
        hearing: str | None = None,
        sessions: str | None = None,
        clock: Callable[[], float] = time.time,
    ):
        self.clock = clock
        self.stores_file: File[dict[str, Store]] = File(stores, read_stores, {})
        self.devices_file: File[dict[bytes, str]] = File(devices, read_devices, {})
        self.hearing_file: File[dict[str, frozenset[str]]] = File(hearing, read_hearing, {})
        # written each minute
        self.sessions_file: File[Sessions] = File(sessions, read_sessions, {}, is_logged=False)
        self.by_bits: dict[int, list[str]] = {}
        files: tuple[File[Any], ...] = (self.stores_file, self.devices_file, self.hearing_file)
        for file in files:
            file.read()
        self.sessions_file.try_to_read()
        self.sort()

    @property
    def stores(self) -> dict[str, Store]:
        """The stores by their names."""
        return self.stores_file.content

    @property
    def devices(self) -> dict[bytes, str]:
        """The names of the stores that devices are in."""
        return self.devices_file.content

    def sort(self) -> None:
        """Sorts the stores by the bits of their NetIDs."""
        self.by_bits = {}
        for store in self.stores.values():
            self.by_bits.setdefault(store.net_id & NET_BITS, []).append(store.name)

    async def look(self) -> bool:
        """Reads what has changed; whether the stores have. They come last, so that the caller
        follows them before any frame does."""
        files: tuple[File[Any], ...] = (self.devices_file, self.hearing_file, self.sessions_file)
        for file in files:
            await file.look()
        has_changed = await self.stores_file.look()
        if has_changed:
            self.sort()
        return has_changed

    def names(self, frame: bytes, gateway: str) -> list[str]:
        """The stores that are to get a frame of a gateway."""
        found = self.named(frame)
        among = self.hearing_file.content.get(gateway)
        return found if among is None else [name for name in found if name in among]

    def named(self, frame: bytes) -> list[str]:
        """The stores of a frame, by the frame alone. Of an uplink those with its NetID, of which
        there are several if a NetID is used again; of a Join-Request that of its device, or all
        without a file of devices. None of anything else, which no store serves."""
        if len(frame) >= SHORTEST_UPLINK and frame[0] in UPLINKS:
            top = frame[4]
            return [] if top & OTHER else self.by_bits.get(top >> 1, [])
        if len(frame) == JOIN_LENGTH and frame[0] == JOIN:
            if not self.devices_file.path:
                return list(self.stores)
            name = self.devices.get(frame[16:8:-1])
            return [name] if name in self.stores else []
        return []

    def may_have(self, name: str, frame: bytes) -> bool:
        """Whether a frame may be of a device of this store. That is so if the store isn't listed,
        or its list is old, or for a Join-Request. Otherwise its DevAddr has the JoinNonce of its
        slot's current session, or one that was granted since. A slot that isn't listed may have a
        device by now, with its first sessions."""
        sessions = self.sessions_file
        if frame[0] == JOIN or name not in sessions.content or self.is_old():
            return True
        address = int.from_bytes(frame[1:5], "little")
        granted, current = sessions.content[name].get(address >> 13 & SLOTS, (0, None))
        nonce = address & NONCES
        is_current = current is not None and nonce == current & NONCES
        return is_current or (nonce - granted) & NONCES <= AHEAD

    def is_old(self) -> bool:
        """Whether the file of sessions is too old to say who is a stranger."""
        stamp = self.sessions_file.stamp
        return stamp is None or self.clock() - stamp[0] / 1e9 > OLDEST
