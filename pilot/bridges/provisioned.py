"""The devices that an application has had at the network, and the highest JoinNonce of each. Without
them nobody would notice that the network's store is another one, or an older one: its devices would
be provisioned anew, and would be granted the same JoinNonces again."""

import sqlite3
from collections.abc import Iterable

from bozintar.logs import Seldom

# `store` is the name of the store that has the device, empty if there is one store; and nothing
# once an operator has said that the network needn't have it
TABLE = """CREATE TABLE IF NOT EXISTS provisioned (device TEXT PRIMARY KEY, store TEXT,
    join_nonce INTEGER NOT NULL DEFAULT 0)"""
ALL = "SELECT device, store, join_nonce FROM provisioned"
KEEP = "INSERT OR REPLACE INTO provisioned VALUES (?, ?, ?)"


class Provisioned:
    """What is known of devices; in a database, too, if there is one, so that a later run knows
    it."""

    def __init__(self, database: sqlite3.Connection | None) -> None:
        self.database, self.seldom = database, Seldom()
        self.stores: dict[str, str] = {}
        self.join_nonces: dict[str, int] = {}
        if database:
            database.execute(TABLE)
        for device, store, join_nonce in database.execute(ALL) if database else ():
            self.join_nonces[device] = join_nonce
            if store is not None:
                self.stores[device] = store

    def add(self, device: str, store: str) -> None:
        """A store has this device."""
        if self.stores.get(device) != store:
            self.stores[device] = store
            self.keep(device)

    def forget(self, devices: Iterable[str]) -> None:
        """The network needn't have these devices, by an operator's word. Their JoinNonces stay."""
        for device in devices:
            self.stores.pop(device, None)
            self.keep(device)

    def falls(self, device: str, join_nonce: int) -> bool:
        """Whether the network has granted a higher JoinNonce before."""
        highest = self.join_nonces.get(device, 0)
        if join_nonce > highest:
            self.join_nonces[device] = join_nonce
            self.keep(device)
        return join_nonce < highest

    def keep(self, device: str) -> None:
        """Changes the database. If that fails, the bridge goes on with what it has in memory."""
        row = device, self.stores.get(device), self.join_nonces.get(device, 0)
        try:
            if self.database:
                self.database.execute(KEEP, row)
        except sqlite3.Error as why:
            self.seldom.warn("not kept", f"the devices of the network can't be kept: {why}")
