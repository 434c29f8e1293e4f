"""What bridges of gateways share: which gateways are named, a way to the network for each gateway
that isn't silent, and the options of their commands."""

import argparse
import asyncio
import signal
import time
from collections.abc import Callable, Mapping
from dataclasses import dataclass, field
from typing import Any, Generic, TypeVar

from bozintar import wire, words
from bozintar.buckets import Bucket
from bozintar.counts import COUNTS_HELP, Counts, Metric
from bozintar.logs import Seldom, log, warn
from bozintar.running import on_signals

from . import hub, late, named
from .captures import Capture
from .hub import Hub
from .named import Named
from .ways import ToMany, ToOne, Way

COUNTED = {
    "copies": "frames that a link took",
    "unlinked": "frames that were heard while no link took them",
    "caught_up": "of these, frames that a link took soon after that",
    **late.COUNTED,
    "too_many": "frames beyond 200 a second of a gateway, which weren't read",
    "without_crc": "frames whose CRC was wrong, or that had none",
    "other_modulations": "frames that aren't LoRa of 125 kHz",
    "downlinks": "downlinks sent to gateways",
    "sent": "downlinks that gateways said they sent",
    "not_sent": "downlinks that gateways said they couldn't send",
    "out_of_time": "downlinks for an uplink that isn't known, or of another time",
    "unknown_gateways": "what came of gateways that aren't named",
    "links_silent": "links that were closed since nothing came",
    "closed_soon": "links that the network closed soon: another client may use the name",
}
# numbers of each gateway, by the names of what a gateway has
OF_GATEWAYS = {
    "linked": ("gauge", "whether a gateway has a link; with --stores, whether it isn't silent"),
    "copies": ("counter", "frames of a gateway that were handed in"),
    "last_copy_seconds": ("gauge", "when a gateway's last frame came, in Unix time"),
    "last_pull_seconds": ("gauge", "when a gateway asked last for downlinks, in Unix time"),
}
# unknown gateways that are logged; the others are only counted
MOST_LOGGED = 16
# how large a file of captured frames may be, in megabytes
CAPTURE_MB = 16
# links of gateways that the network has at a time
MOST_LINKED = 64
LOOK = 1.0
# frames of a gateway that are read: this many a second, and this many at once after a pause. The
# network gathers the copies of 1,024 frames at a time, in windows of 200 ms, so one gateway without
# a limit takes the room of all others. A gateway with eight demodulators hears some 140 frames a
# second at most, of 20 bytes with SF7
RATE, BURST = 200, 400


@dataclass
class Gateway:
    """A gateway that is named."""

    named: Named
    way: Way
    # when something came of it
    last: float = 0.0
    bucket: Bucket = field(default_factory=lambda: Bucket(RATE, BURST))
    # frames that were handed in, and when the last one came; and when the gateway asked last for
    # downlinks, in Unix time
    copies: int = 0
    last_copy: float = 0.0
    last_pull: float = 0.0

    @property
    def eui(self) -> str:
        """Its EUI."""
        return self.named.eui

    @property
    def name(self) -> str:
        """What lines of the log name it."""
        return f"gateway {self.eui}"

    @property
    def linked(self) -> bool:
        """What the metric of this name says."""
        return self.way.is_linked


G = TypeVar("G", bound=Gateway)


def numbers_of(bridge: str, those: Mapping[str, Any]) -> list[Metric]:
    """The numbers of gateways by their EUIs."""
    found = []
    for name, (kind, text) in OF_GATEWAYS.items():
        metric = Metric(f"pilot_gateway_{name}", kind, text)
        for eui, gateway in those.items():
            number = getattr(gateway, name.removesuffix("_seconds"))
            # what never came has no time
            if number or not name.endswith("_seconds"):
                metric.add(number, bridge=bridge, gateway=eui)
        found.append(metric)
    return found


class Gateways(Generic[G]):
    """All gateways that are named. A bridge says what `kind` they are, and how one is ordered to
    send."""

    kind: type[G]
    # of the metrics of each gateway, since two bridges may have the same list
    bridge: str
    clock: Callable[[], float] = staticmethod(time.monotonic)

    def __init__(self, given: Any, counts: Counts):
        self.given, self.counts, self.seldom = given, counts, Seldom()
        self.gateways: dict[str, G] = {}
        self.logged: set[str] = set()
        self.late = late.Late(counts)
        self.hub = Hub(given, counts, self.bridge, self.take_order) if given.stores else None
        self.name(given.named)
        on_signals((signal.SIGHUP,), self.read_again)
        counts.more = self.numbers
        self.capture = Capture(given.capture, CAPTURE_MB) if given.capture else None

    def name(self, those: dict[str, Named]) -> None:
        """Lets these gateways connect, and no others. Those that were named already go on."""
        for eui in self.gateways.keys() - those.keys():
            self.close(self.gateways.pop(eui))
        for eui, one in those.items():
            if eui in self.gateways:
                self.gateways[eui].named = one
            else:
                self.gateways[eui] = self.kind(one, self.way(eui))
        self.logged.clear()
        if len(those) > MOST_LINKED and not self.hub:
            warn(f"{len(those)} gateways are named; the network has {MOST_LINKED} links at a time")

    def way(self, eui: str) -> Way:
        """A gateway's way to the network."""
        if self.hub:
            return ToMany(eui, self.hub)
        take = lambda content: self.take_order(eui, content)
        return ToOne(eui, self.given.network, self.counts, self.late, take)

    def read_again(self) -> None:
        """Reads the list of gateways again. One with a fault is left as it was."""
        try:
            those = named_in(self.given.gateway, self.given.gateways)
            if not those:
                raise ValueError("it names no gateway")
        except (OSError, ValueError) as why:
            warn(f"the list of gateways isn't read again: {why}")
            return
        self.name(those)
        log(f"the list is read again: {len(those)} gateways are named")

    def awake(self, eui: str) -> G | None:
        """The gateway of which something came, with its way open; or None if it isn't named."""
        gateway = self.gateways.get(eui)
        if not gateway:
            self.pass_over(eui)
            return None
        gateway.last = self.clock()
        gateway.way.open()
        return gateway

    def pass_over(self, eui: str) -> None:
        """A gateway that isn't named."""
        self.counts.add("unknown_gateways")
        if eui not in self.logged and len(self.logged) < MOST_LOGGED:
            self.logged.add(eui)
            warn(f"gateway {eui} isn't named, and is ignored")

    def may_read(self, gateway: G, count: int = 1) -> int:
        """How many of this many frames that a gateway heard are read. The others are counted before
        anything of them is looked at, since that takes time, too."""
        most = sum(gateway.bucket.lets() for _ in range(min(count, BURST)))
        if most < count:
            self.counts.add("too_many", count - most)
            text = f"sends more than {RATE} frames a second; the rest is dropped"
            self.seldom.warn((gateway.eui, "too many"), f"{gateway.name} {text}")
        return most

    def hand_in(self, gateway: G, heard: wire.Heard) -> None:
        """Hands a frame to the network, now or soon."""
        if self.capture:
            self.capture.up(heard)
        gateway.copies += 1
        gateway.last_copy = time.time()
        gateway.way.hand_in(heard)

    def numbers(self) -> list[Metric]:
        """The numbers of each gateway, and of each store."""
        stores = list(self.hub.numbers()) if self.hub else []
        return [*numbers_of(self.bridge, self.gateways), *stores]

    def take_order(self, eui: str, content: bytes) -> None:
        """Lets a gateway send what the network says."""
        gateway = self.gateways.get(eui)
        if not gateway:
            return  # it isn't named any more
        try:
            self.order(gateway, wire.Downlink.read(content))
        except wire.NoMessage as why:
            self.seldom.warn((eui, "no message"), f"{gateway.name}: {why}")

    def order(self, gateway: G, downlink: wire.Downlink) -> None:
        """Lets a gateway send a downlink."""
        raise NotImplementedError

    def sleeps(self, gateway: G) -> None:
        """A gateway is silent, and its link is closed."""

    async def look(self) -> None:
        """Looks each second what is over."""
        while True:
            await asyncio.sleep(LOOK)
            self.tidy()

    async def keep(self) -> None:
        """What goes on beside the gateways' messages."""
        kept = [self.look(), self.counts.keep()]
        await asyncio.gather(*kept, *([self.hub.keep()] if self.hub else []))

    def tidy(self) -> None:
        """Closes the ways of gateways that are silent, and hands in what waits."""
        for gateway in self.gateways.values():
            gateway.way.tidy()
            if gateway.way.is_open and gateway.last < self.clock() - self.given.silent:
                warn(f"{gateway.name} is silent: its link is closed")
                self.counts.add("links_silent")
                self.close(gateway)

    def close(self, gateway: G) -> None:
        """Closes a gateway's way."""
        gateway.way.close()
        self.sleeps(gateway)


def counts_of(prefix: str, helps: dict[str, str], given: Any) -> Counts:
    """The counts of a bridge, with those of its hub, if it has one."""
    more = hub.COUNTED if given.stores else {}
    return Counts(prefix, {**helps, **more}, given.counts)


def named_in(euis: list[str], file: str | None) -> dict[str, Named]:
    """The gateways of the options --gateway and --gateways."""
    return {eui: Named(eui) for eui in euis} | (named.read(file) if file else {})


def add_words(options: words.Words, power: int, unit: str = "dBm") -> None:
    """The options of a bridge of gateways, which send with this power by default."""
    options.add_argument(
        "--network",
        type=words.Address.read,
        metavar="HOST:PORT",
        help="where lnsd run listens; not used with --stores",
    )
    hub.add_words(options)
    options.add_argument(
        "--gateway",
        type=words.eui,
        action="append",
        default=[],
        metavar="EUI",
        help="a gateway, 16 hex digits; may be given several times",
    )
    text = "gateways, an EUI a line; # begins a comment. SIGHUP has the file read again"
    options.add_argument("--gateways", metavar="FILE", help=text)
    add_silent(options)
    add_powers(options, power, unit)
    add_capture(options)
    options.add_argument("--counts", metavar="FILE", help=COUNTS_HELP)


def add_silent(options: words.Words) -> None:
    """The option about links that aren't used."""
    options.add_argument(
        "--silent",
        type=words.between(1, 86400),
        default=120,
        metavar="SECONDS",
        help="closes a gateway's link if nothing came for this long, 1 to 86400 (120)",
    )


def add_powers(options: words.Words, power: int, unit: str) -> None:
    """The options about the power with which gateways send."""
    options.add_argument(
        "--power",
        type=words.between(-10, 30),
        default=power,
        metavar="DBM",
        help=f"with how many {unit} a gateway sends, -10 to 30 ({power})",
    )
    options.add_argument(
        "--rx2-power",
        type=words.between(-10, 30),
        metavar="DBM",
        help="the same in RX2, on 869.525 MHz (as --power)",
    )


def add_capture(options: words.Words) -> None:
    """The options about a capture."""
    options.add_argument(
        "--capture",
        metavar="FILE",
        help="writes each frame that is handed in, and each that a gateway is to send, to a file "
        "for Wireshark (pcap with LoRaTap); what was in it before goes to FILE.old. Each has at most 16 MB",
    )


def read_words(options: words.Words) -> argparse.Namespace:
    """What the options say. At least one gateway is named, since a list keeps strangers out."""
    given = options.parse_args()
    hub.read_words(options, given)
    try:
        given.named = named_in(given.gateway, given.gateways)
    except ValueError as why:
        words.stop(str(why), 2)
    if not given.named:
        options.error("no gateway is named, by --gateway or --gateways")
    given.rx2_power = given.power if given.rx2_power is None else given.rx2_power
    return given
