"""Stores that are played: networks, the files that name them, and the frames for them."""

import os
from contextlib import ExitStack
from typing import Any

import pytest
from bozintar.processes import HOST, PATIENCE, Failed

from .networks import End, Network
from .parts import Parts

# what comes of a store that gets no link, in seconds
NEVER = 1.5


def uplink(net_id: int, more: bytes = b"", slot: int = 0, join_nonce: int = 1) -> bytes:
    """The bytes of an uplink that routing looks at; `more` makes it unlike others."""
    address = net_id << 25 | slot << 13 | join_nonce
    return b"\x40" + address.to_bytes(4, "little") + bytes(7) + more


def join_request(dev_eui: str) -> bytes:
    """Those of a Join-Request."""
    return bytes(9) + bytes.fromhex(dev_eui)[::-1] + bytes(6)


class Stores:
    """Networks that are played, each as the store of a name and a NetID."""

    def __init__(self, parts: Parts, **net_ids: int) -> None:
        self.parts, self.net_ids = parts, net_ids
        self.stack = ExitStack()
        self.networks = {name: self.stack.enter_context(Network()) for name in net_ids}
        self.at = {name: network.at for name, network in self.networks.items()}
        self.file = parts.file("stores")
        self.write()

    def write(self, **at: str) -> None:
        """Puts a file of stores in the place of the one before; `at` has new addresses."""
        self.at |= at
        lines = [f"{name} {net:06X} {self.at[name]}\n" for name, net in self.net_ids.items()]
        self.replace("stores", "".join(lines))

    def replace(self, name: str, text: str) -> str:
        """Puts a file in the place of another one at once."""
        os.replace(self.parts.file(f"{name}.new", text), self.parts.file(name))
        return self.parts.file(name)

    def link(self, name: str, seconds: float = PATIENCE) -> End:
        """The next link of a store."""
        return self.networks[name].link(seconds)

    def links_none(self, *names: str, seconds: float = NEVER) -> None:
        """No link comes to these stores."""
        for name in names:
            self.networks[name].listener.settimeout(seconds)
            with pytest.raises(TimeoutError):
                self.networks[name].listener.accept()

    def __enter__(self) -> "Stores":
        return self

    def __exit__(self, *_: Any) -> None:
        self.stack.close()


def frame_of(content: bytes | None, eui: str) -> bytes:
    """The frame of a copy, by docs/FORMATS.md."""
    if not content or content[:9] != b"\x01" + bytes.fromhex(eui):
        raise Failed(f"no copy of {eui}: {content!r}")
    return content[22:]


def downlink_to(content: bytes, frame: bytes) -> bytes:
    """A downlink that answers a copy, a second later in RX1 or two seconds later in RX2."""
    return b"\x11" + content[1:9] + content[18:22] + content[9:14] + b"\x01\x02" + frame


def nobody(parts: Parts) -> str:
    """An address on which nobody listens."""
    return f"{HOST}:{parts.udp_port}"
