"""Where the console's knowledge comes from: the lookout, the broker, and the bridges' counts."""

import asyncio
import re
import time
from collections.abc import Iterable, Mapping
from dataclasses import dataclass, field
from pathlib import Path

from bozintar.broker import Access, Broker
from bozintar.fields import Wrong
from bozintar.logs import Seldom

from . import broker_events, history, server_lines
from .network import Network
from .servers import Server

# how long the lookout may take for an answer, in seconds
PATIENCE = 15.0
STATUS_EVERY, DEVICES_EVERY = 2.0, 10.0
# how long until the lookout is connected to again
PAUSE = 1.0
OF_GATEWAY = re.compile(
    r'pilot_gateway_(copies_total|linked)\{bridge="([a-z]+)",gateway="([0-9A-F]{16})"\} '
    r"([0-9.e+]{1,20})"
)
# what else the page of the server shows, and the word of it
AROUND = {
    "pilot_copy_seconds": "Copy of the store",
    "pilot_certificate_end_seconds": "Certificate ends",
    "pilot_readings_disk_free_bytes": "Free on the disk of readings",
}
AROUND_LINE = re.compile(
    rf'({"|".join(AROUND)})(?:\{{[a-z]+="([^"]{{1,200}})"\}})? ([0-9.e+]{{1,20}})'
)
AROUND_FILES = ("lnsd.prom", "readings-*.prom", "door.prom")
# in a folder of all, for example node_exporter's, or in one of each bridge
COUNTS_FILES = ("gateways-*.prom", "*/gateways-*.prom", "router.prom", "*/router.prom")
MOST_COUNTS = 4_000_000


class Source:
    """A server's lookout."""

    def __init__(self, network: Network, server: Server, lookout: str):
        self.network, self.server, self.lookout = network, server, lookout
        self.seldom = Seldom()
        # something has changed, so the server is asked before it is time
        self.is_due = asyncio.Event()

    async def ask(self, word: str) -> str:
        """The server's answer to a word; nothing if none comes."""
        try:
            reader, writer = await asyncio.open_unix_connection(self.lookout)
        except OSError:
            return ""
        try:
            writer.write(f"{word}\n".encode())
            return (await asyncio.wait_for(reader.read(-1), PATIENCE)).decode("ascii", "replace")
        except (OSError, asyncio.TimeoutError):
            return ""
        finally:
            writer.close()

    async def refresh(self) -> None:
        """Asks for the list of devices. The lookout's may be some seconds old."""
        server_lines.take_devices(self.network, await self.ask("devices"), self.server)

    async def ask_on(self) -> None:
        """Asks for the status and the devices again and again: nothing reports their changes."""
        asked = 0.0
        while True:
            self.is_due.clear()
            status = await self.ask("status")
            server_lines.take_status(self.network, status, self.server)
            if status and time.monotonic() - asked >= DEVICES_EVERY:
                asked = time.monotonic()
                await self.refresh()
            try:
                await asyncio.wait_for(self.is_due.wait(), STATUS_EVERY)
            except asyncio.TimeoutError:
                pass

    async def watch(self) -> None:
        """Takes what the server prints, without end."""
        while True:
            try:
                reader, writer = await asyncio.open_unix_connection(self.lookout)
                try:
                    writer.write(b"watch\n")
                    while line := (await reader.readline()).decode("ascii", "replace"):
                        self.take_line(line.rstrip("\n"))
                finally:
                    writer.close()
            except (OSError, ValueError):
                pass  # no lookout, or a line that is longer than any of the server's
            self.is_due.set()
            await asyncio.sleep(PAUSE)

    def take_line(self, line: str) -> None:
        """A line of the lookout."""
        try:
            server_lines.take_line(self.network, line, self.server)
        except (ValueError, IndexError) as why:
            self.seldom.log("unknown", f"an unknown line {line[:80]!a}: {why}")
        if line in ("watching", "gone"):
            self.is_due.set()


class Sources:
    """All of them, for one network. The lookouts are by the names of their stores."""

    def __init__(self, network: Network, lookouts: Mapping[str, str], counts: str | None):
        self.network, self.counts = network, counts
        servers = network.servers
        self.lookouts = [Source(network, servers[name], path) for name, path in lookouts.items()]
        self.broker: Broker | None = None
        self.seldom = Seldom()

    def connect(self, access: Access, name: str) -> None:
        """Connects to the broker, under this name of a client."""
        self.broker = Broker(access, name, broker_events.TOPICS, self.take, is_kept=True)
        self.broker.start()

    def end(self) -> None:
        """Disconnects."""
        if self.broker:
            self.broker.end()

    def take(self, topic: str, payload: bytes) -> None:
        """An event of the broker."""
        try:
            broker_events.take(self.network, topic, payload)
        except Wrong as why:
            self.seldom.warn("no event", f"no event, on {topic[:80]!a}: {why}")

    async def refresh(self) -> None:
        """Asks all servers for their lists of devices."""
        await asyncio.gather(*(lookout.refresh() for lookout in self.lookouts))

    async def ask_on(self) -> None:
        """Asks all servers, and looks at the rest, again and again."""
        await asyncio.gather(self.look_on(), *(lookout.ask_on() for lookout in self.lookouts))

    async def look_on(self) -> None:
        """Looks whether the broker is there, and at the bridges' counts, again and again."""
        while True:
            is_there = bool(self.broker and self.broker.is_there())
            if is_there and not self.network.is_broker_there:
                self.network.broker_since = time.time()
            self.network.is_broker_there = is_there
            if self.counts:
                found = await asyncio.to_thread(counts_in, self.counts)
                take_copies(self.network, found.copies)
                take_linked(self.network, found.linked)
                take_lists(self.network, found.lists)
                self.network.around = found.around
            self.network.save_minutes()
            await asyncio.sleep(STATUS_EVERY)

    async def watch(self) -> None:
        """Takes what all servers print, without end."""
        await asyncio.gather(*(lookout.watch() for lookout in self.lookouts))


@dataclass
class OfGateways:
    """What bridges have counted of each gateway: its copies, and whether it is there."""

    copies: dict[str, int] = field(default_factory=dict)
    linked: dict[str, bool] = field(default_factory=dict)
    # the gateways in the list of each bridge that runs
    lists: dict[str, set[str]] = field(default_factory=dict)
    # what else there is: what, of which, and how much
    around: list[tuple[str, str, float]] = field(default_factory=list)


def counts_in(folder: str) -> OfGateways:
    """The counts of all bridges. A file that can't be read now is read the next time."""
    found = OfGateways()
    for what, of, value in lines_in(folder, AROUND_FILES, AROUND_LINE):
        try:
            found.around.append((AROUND[what], of, float(value)))
        except ValueError:
            pass  # no number after all
    for name, bridge, eui, value in lines_in(folder, COUNTS_FILES, OF_GATEWAY):
        try:
            number = int(float(value))
        except (ValueError, OverflowError):
            continue  # no number after all
        if name == "linked":
            found.lists.setdefault(bridge, set()).add(eui)
            found.linked[eui] = found.linked.get(eui, False) or number > 0
        else:
            found.copies[eui] = found.copies.get(eui, 0) + number
    return found


def lines_in(folder: str, patterns: Iterable[str], form: re.Pattern[str]) -> list[tuple]:
    """What the lines of this form say in the files of a folder."""
    found: list[tuple] = []
    for file in (file for pattern in patterns for file in Path(folder).glob(pattern)):
        try:
            with open(file, encoding="ascii") as text:
                found += form.findall(text.read(MOST_COUNTS))
        except (OSError, UnicodeError):
            continue
    return found


def take_linked(network: Network, linked: dict[str, bool]) -> None:
    """With many stores, bridges say which gateways are there: their links to stores come and go."""
    for eui, is_linked in linked.items():
        if network.has_stores:
            gateway = network.gateway(eui)
            if gateway.is_linked is not None and gateway.is_linked != is_linked:
                network.note("link", eui, "Online" if is_linked else "Offline")
            gateway.is_linked = is_linked


def take_lists(network: Network, lists: Mapping[str, set[str]]) -> None:
    """Forgets the gateways that a bridge had in its list, and that no bridge has any more."""
    network.listed = set().union(*lists.values())
    for bridge, euis in lists.items():
        for eui in euis:
            if bridge not in network.gateway(eui).bridges:
                network.gateway(eui).bridges.add(bridge)
                network.kept.add(history.LISTED, eui, bridge)
    for gateway in list(network.gateways.values()):
        if gateway.bridges & lists.keys() and gateway.eui not in network.listed:
            network.forget_gateway(gateway.eui)
            network.note("link", gateway.eui, "Forgotten: it isn't in the list of gateways")


def take_copies(network: Network, counts: dict[str, int]) -> None:
    """How many copies each gateway has sent. A bridge that starts again counts from 0."""
    for eui, value in counts.items():
        gateway = network.gateway(eui)
        before = value if gateway.copies is None else gateway.copies
        gateway.minute(time.time()).copies += value - before if value >= before else value
        gateway.copies = value
