"""How a gateway's copies reach the network: by a link of its own to one server, or by a hub to the
servers of many stores."""

import asyncio
from collections.abc import Callable
from typing import Protocol

from bozintar import wire
from bozintar.counts import Counts
from bozintar.lasting import Link
from bozintar.words import Address

from .hub import Hub
from .late import Late

Take = Callable[[bytes], None]


class Way(Protocol):
    """The way of one gateway. It is open from the gateway's first message until it is closed."""

    @property
    def is_open(self) -> bool:
        """Whether it is open."""

    @property
    def is_linked(self) -> bool:
        """What the metric `linked` says of the gateway."""

    def open(self) -> None:
        """Something came of the gateway."""

    def close(self) -> None:
        """The gateway is silent, or isn't named any more."""

    def hand_in(self, heard: wire.Heard) -> None:
        """Hands in a frame, now or soon."""

    def tidy(self) -> None:
        """Hands in what waits, and counts it."""


class ToOne:
    """A link to one server, which is opened again whenever it has ended. Its contents are given to
    `take`."""

    def __init__(self, eui: str, address: Address, counts: Counts, late: Late, take: Take):
        self.link = Link(f"gateway {eui}", address, wire.gateway_greeting(eui), judge=late.lets)
        self.counts, self.take = counts, take
        self.work: asyncio.Task | None = None

    @property
    def is_open(self) -> bool:
        """Whether the gateway has a link, or is to have one."""
        return self.work is not None

    @property
    def is_linked(self) -> bool:
        """Whether the gateway has a link."""
        return self.link.writer is not None

    def open(self) -> None:
        """Links the gateway, if that wasn't done."""
        if not self.work or self.work.done():
            self.work = asyncio.ensure_future(self.listen())

    async def listen(self) -> None:
        """Gives on what the server sends."""
        async for content in self.link.contents():
            self.take(content)

    def close(self) -> None:
        """Closes the link."""
        if self.work:
            self.work.cancel()
            self.work = None

    def hand_in(self, heard: wire.Heard) -> None:
        """Hands in a frame, now or soon."""
        self.counts.add("copies" if self.link.say_soon(heard.message()) else "unlinked")

    def tidy(self) -> None:
        """Hands in what waits, and counts it."""
        self.link.catch_up()
        self.counts.add("caught_up", self.link.caught_up)
        self.counts.add("closed_soon", self.link.closed_soon)
        self.link.caught_up = self.link.closed_soon = 0


class ToMany:
    """The hub, which opens links when frames come. So the metric `linked` says that the gateway
    isn't silent."""

    def __init__(self, eui: str, hub: Hub):
        self.eui, self.hub, self.is_awake = eui, hub, False

    @property
    def is_open(self) -> bool:
        """Whether the gateway isn't silent."""
        return self.is_awake

    @property
    def is_linked(self) -> bool:
        """Whether the gateway isn't silent."""
        return self.is_awake

    def open(self) -> None:
        """It isn't silent."""
        self.is_awake = True

    def close(self) -> None:
        """Closes its links."""
        self.is_awake = False
        self.hub.drop(self.eui)

    def hand_in(self, heard: wire.Heard) -> None:
        """Hands in a frame, now or soon."""
        self.hub.hand_in(self.eui, heard.message(), heard.frame)

    def tidy(self) -> None:
        """The hub does it for all."""
