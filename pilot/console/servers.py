"""The servers of a network, each on a store of its own. Most networks have one, without a name."""

from collections.abc import Iterable, Mapping
from dataclasses import dataclass, field


@dataclass
class Server:
    """A server, as its lookout describes it. The store has a name if there are several."""

    name: str = ""
    # the upper seven bits of its DevAddrs, if its NetID is known; and whether another store has
    # them too, so that an address doesn't say which device sent a frame
    prefix: int | None = None
    is_shared: bool = False
    status: dict[str, str] = field(default_factory=dict)
    status_came: float = 0.0
    began: float = 0.0
    is_serving: bool | None = None
    by_slot: dict[int, str] = field(default_factory=dict)

    @property
    def slots(self) -> int:
        """How many devices the store has room for; 0 if no server has answered yet."""
        return self.number("slots")

    def number(self, name: str) -> int:
        """A number of its status; 0 if it isn't there."""
        value = self.status.get(name, "")
        return int(value) if value.isascii() and value.isdigit() else 0

    def label(self, text: str) -> str:
        """A text about this server, with its store's name if there are several."""
        return f"{self.name}: {text}" if self.name else text


def servers_of(net_ids: Mapping[str, int | None]) -> dict[str, Server]:
    """Servers by the names of their stores, with the NetIDs of these."""
    prefixes = {name: None if net is None else net & 0x3F for name, net in net_ids.items()}
    known = list(prefixes.values())
    return {
        name: Server(name, prefix, prefix is not None and known.count(prefix) > 1)
        for name, prefix in prefixes.items()
    }


def serving(servers: Iterable[Server]) -> bool | None:
    """Whether all of these answer; None if one wasn't asked yet, and no other is away."""
    states = {server.is_serving for server in servers}
    return False if False in states else None if None in states else True
