"""Gateways' links to many stores. A store has 64 names of gateways at a time, and a gateway is
heard for several stores. So a link is opened by a frame that is for its store. If as many links to
a store are open as may be, the one that has been unused longest gives way. A downlink comes within
the window and a commit, so a link that has been unused for a second isn't waited for.

A link never opens by itself: otherwise two bridges that a gateway came by in turn would take its
name from each other without end."""

import argparse
import asyncio
import resource
import time
from collections import OrderedDict
from collections.abc import Callable, Iterator
from dataclasses import dataclass, field
from typing import Any

from bozintar import wire, words
from bozintar.counts import Counts, Metric
from bozintar.lasting import Link
from bozintar.logs import Seldom, warn

from .late import Late
from .routes import STORES_HELP, Routes, Store

COUNTED = {
    "nowhere": "frames that are for no store",
    "unserved": "copies for a store that isn't served",
    "crowded": "copies that found no free name at their store",
    "opened": "links that were opened to stores",
    "gave_way": "links that were closed for another gateway's",
    "moved": "links that ended because their store is served elsewhere, or not at all",
}
# numbers of each store, by the names of what its links have
OF_STORES = {
    "served": ("gauge", "whether a store is served, by the file of stores"),
    "links": ("gauge", "gateways that have a link to a store"),
    "copies": ("counter", "copies for a store"),
    "opened": ("counter", "links that were opened to a store"),
    "crowded": ("counter", "copies that found no free name at a store"),
}
# names of a store that one bridge uses by itself, and at most: the rest of the 64 is for links that
# end while others begin
NAMES, MOST_NAMES = 56, 63
# for how long after its last copy a link may still get a downlink, in seconds; and for how long one
# that was ended is read on
HOLD, ENDING = 1.0, 5.0
# seconds between two tries to open a link for a copy that waits, which is of use for two seconds
PAUSES = (0.2, 1.0)
# seconds between two looks at the files
LOOK = 1.0
Order = Callable[[str, bytes], None]


@dataclass
class Spoke:
    """A gateway's link to a store, and when it was used last."""

    link: Link
    used: float
    work: asyncio.Task | None = None


@dataclass
class Spokes:
    """All links to a store by their gateways, the longest unused first."""

    late: Late
    links: OrderedDict[str, Spoke] = field(default_factory=OrderedDict)
    copies: int = 0
    opened: int = 0
    crowded: int = 0


class Hub:
    """All links of a bridge's gateways to all stores. What a store sends to a gateway is given to
    `order`, with the gateway's EUI."""

    clock: Callable[[], float] = staticmethod(time.monotonic)

    def __init__(self, given: Any, counts: Counts, bridge: str, order: Order):
        self.routes: Routes = given.routes
        self.counts, self.order = counts, order
        self.most, self.bridge = given.names, bridge
        # a link that is unused for so long is closed, so that other bridges have its name
        self.silent: float = given.silent
        self.seldom = Seldom()
        self.stores: dict[str, Spokes] = {name: Spokes(Late(counts)) for name in self.routes.stores}
        self.ending: set[asyncio.Task] = set()
        let_open_files()

    # copies

    def hand_in(self, eui: str, message: bytes, frame: bytes) -> None:
        """Hands a copy of a frame to the stores that it is for."""
        names = self.routes.names(frame, eui)
        if not names:
            self.counts.add("nowhere")
        for name in names:
            self.hand_to(name, eui, message, frame)

    def hand_to(self, name: str, eui: str, message: bytes, frame: bytes) -> None:
        """Hands a copy to a store. One that can't be of this store's devices goes over a link that
        is there, and neither opens nor keeps one."""
        spokes = self.stores[name]
        is_own = self.routes.may_have(name, frame)
        spoke = spokes.links.get(eui)
        if not spoke and is_own:
            spoke = self.open(name, spokes, eui)
        elif not spoke:
            self.counts.add("nowhere")
        if not spoke:
            return
        if is_own:
            spoke.used = self.clock()
            spokes.links.move_to_end(eui)
        spokes.copies += 1
        self.counts.add("copies" if spoke.link.say_soon(message) else "unlinked")

    def open(self, name: str, spokes: Spokes, eui: str) -> Spoke | None:
        """A new link, in another one's place if there are too many."""
        store = self.routes.stores[name]
        if not store.address:
            self.counts.add("unserved")
            return None
        if len(spokes.links) >= self.most and not self.make_room(spokes):
            spokes.crowded += 1
            self.counts.add("crowded")
            self.seldom.warn(("crowded", name), f"store {name} has no free name for gateway {eui}")
            return None
        text, greeting = f"gateway {eui} to {name}", wire.gateway_greeting(eui)
        link = Link(text, store.address, greeting, judge=spokes.late.lets)
        link.is_logged = False
        spoke = spokes.links[eui] = Spoke(link, self.clock())
        spoke.work = asyncio.ensure_future(self.listen(store, eui, spoke))
        spokes.opened += 1
        self.counts.add("opened")
        return spoke

    def make_room(self, spokes: Spokes) -> bool:
        """Ends the link that has been unused longest, if that is long enough."""
        oldest, spoke = next(iter(spokes.links.items()))
        if self.clock() - spoke.used < HOLD:
            return False
        self.counts.add("gave_way")
        del spokes.links[oldest]
        self.end(spoke)
        return True

    # links

    async def listen(self, store: Store, eui: str, spoke: Spoke) -> None:
        """Gives on what a store sends, until the link ends and no copy waits for the next one."""
        pause, longest = PAUSES
        try:
            await self.listen_once(store, eui, spoke.link)
            while spoke.link.early and not spoke.link.is_ending:
                await asyncio.sleep(pause)
                pause = min(2 * pause, longest)
                await self.listen_once(store, eui, spoke.link)
        finally:
            spokes = self.stores.get(store.name)
            if spokes and spokes.links.get(eui) is spoke:
                del spokes.links[eui]

    async def listen_once(self, store: Store, eui: str, link: Link) -> None:
        """Opens a link, and gives on what comes over it."""
        begun = self.clock()
        try:
            async for content in link.of_one():
                self.take(store, eui, content)
            # as the store does if another bridge hands in the same gateway's copies; not at a
            # restart of the store, which ends links of any age
            lasted = self.clock() - begun > HOLD
            self.counts.add("closed_soon", not lasted and not link.is_ending)
        except (OSError, asyncio.TimeoutError, wire.NoMessage) as fault:
            why = str(fault) or "nothing answers"
            text = f"store {store.name}: no link to {link.address}: {why}"
            self.seldom.warn((store.name, why), text)
        self.catch_up(link)

    def take(self, store: Store, eui: str, content: bytes) -> None:
        """A downlink of a store, for the gateway of its link and no other."""
        if content[1:9].hex().upper() != eui:
            self.seldom.warn(("other", store.name), f"store {store.name} names another gateway")
            return
        self.order(eui, content)

    def catch_up(self, link: Link) -> None:
        """Hands in what waited for a link, and forgets what is too old."""
        link.catch_up()
        self.counts.add("caught_up", link.caught_up)
        link.caught_up = 0

    def end(self, spoke: Spoke) -> None:
        """Ends a link. What a store has sent over it is read until the store closes it."""
        work = spoke.work
        if work and spoke.link.end_well():
            self.ending.add(work)
            work.add_done_callback(self.ending.discard)
            asyncio.get_running_loop().call_later(ENDING, work.cancel)
        elif work:
            work.cancel()

    def drop(self, eui: str) -> None:
        """Ends the links of a gateway that is silent, or isn't named any more."""
        for spokes in self.stores.values():
            if spoke := spokes.links.pop(eui, None):
                self.end(spoke)

    # with time

    async def keep(self) -> None:
        """Looks at the files and the links each second."""
        try:
            while True:
                await asyncio.sleep(LOOK)
                if await self.routes.look():
                    self.follow()
                self.tidy()
        finally:
            self.tidy()

    def tidy(self) -> None:
        """Hands in what waits, and ends links that are unused."""
        last = self.clock() - self.silent
        for spokes in self.stores.values():
            for eui, spoke in list(spokes.links.items()):
                self.catch_up(spoke.link)
                if spoke.used < last:
                    del spokes.links[eui]
                    self.end(spoke)

    def follow(self) -> None:
        """Breaks off links to stores that are served elsewhere now, or not at all. A copy that
        waits for such a link opens the next one."""
        for name in [*self.stores.keys() - self.routes.stores.keys()]:
            for spoke in self.stores.pop(name).links.values():
                self.break_off(spoke)
        for name, store in self.routes.stores.items():
            spokes = self.stores.setdefault(name, Spokes(Late(self.counts)))
            for eui, spoke in list(spokes.links.items()):
                if spoke.link.address != store.address:
                    del spokes.links[eui]
                    self.break_off(spoke)
                    if spoke.link.early and (again := self.open(name, spokes, eui)):
                        again.link.early.extend(spoke.link.early)

    def break_off(self, spoke: Spoke) -> None:
        """Ends a link at once."""
        self.counts.add("moved")
        if spoke.work:
            spoke.work.cancel()

    # numbers

    def numbers(self) -> Iterator[Metric]:
        """The numbers of each store."""
        for name, (kind, text) in OF_STORES.items():
            metric = Metric(f"pilot_store_{name}", kind, text)
            for store, spokes in self.stores.items():
                metric.add(self.number(name, store, spokes), bridge=self.bridge, store=store)
            yield metric

    def number(self, name: str, store: str, spokes: Spokes) -> int:
        """A number of a store."""
        if name == "served":
            known = self.routes.stores.get(store)
            return known is not None and known.address is not None
        return len(spokes.links) if name == "links" else getattr(spokes, name)


def let_open_files() -> None:
    """Has the system allow this process as many open files as it may have: each link is one."""
    _, most = resource.getrlimit(resource.RLIMIT_NOFILE)
    try:
        resource.setrlimit(resource.RLIMIT_NOFILE, (most, most))
    except (OSError, ValueError) as why:
        warn(f"the number of open files stays as it is: {why}")


def add_words(options: words.Words, is_alone: bool = False) -> None:
    """The options about many stores; `is_alone` if there is no other way to the network."""
    options.add_argument("--stores", metavar="FILE", required=is_alone, help=STORES_HELP)
    options.add_argument(
        "--claims",
        "--devices",
        dest="devices",
        metavar="FILE",
        help="which store each device is in, a line DEVEUI NAME each, so that a Join-Request goes "
        "to that store alone; without it a Join-Request goes to all stores",
    )
    options.add_argument(
        "--hearing",
        metavar="FILE",
        help="whose devices a gateway may hear, a line EUI NAME.. each; without a line of its own a "
        "gateway may hear the devices of all stores",
    )
    options.add_argument(
        "--sessions",
        metavar="FILE",
        help="what lnsd devices prints of the stores, each line after its store's name: a frame of "
        "a session that no listed device may have opens no link. A file that is older than ten "
        "minutes isn't used",
    )
    options.add_argument(
        "--names",
        type=words.between(1, MOST_NAMES),
        default=NAMES,
        metavar="N",
        help=f"links to a store at a time, 1 to {MOST_NAMES}, of the 64 that it has for all bridges "
        f"({NAMES})",
    )


def read_words(options: words.Words, given: argparse.Namespace) -> None:
    """One server is named, or a file of stores, which is read. With both, as a unit has them for
    which the operator sets --stores, the stores count."""
    if not (given.network or given.stores):
        options.error("either --network or --stores is needed")
    for name in ("devices", "hearing", "sessions"):
        if getattr(given, name) and not given.stores:
            options.error(f"--{name} needs --stores")
    if given.stores:
        read_files(given)


def read_files(given: argparse.Namespace) -> None:
    """Reads the files of stores and of what is in them. The program ends if one has a fault."""
    try:
        given.routes = Routes(given.stores, given.devices, given.hearing, given.sessions)
    except ValueError as why:
        words.stop(str(why), 2)
