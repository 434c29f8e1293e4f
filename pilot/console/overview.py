"""What the overview and the page of gateways show: numbers, plots of all traffic, gateways."""

import time
from dataclasses import dataclass

from .devices import Gateway, GatewayMinute
from .network import Network
from .plots import Plot, Point, Series

# the spans of the overview, in minutes; the last ones are long enough for "this week"
SPANS = {"1h": 60, "6h": 360, "24h": 1440, "7d": 10_080}
NAMES = {"1h": "1 hour", "6h": "6 hours", "24h": "24 hours", "7d": "7 days"}
MOST_BARS, GATEWAY_MINUTES = 120, 30
# the room for labels at the left of a plot, as a part of its span
MARGIN = 0.04


def span_of(query: str) -> str:
    """A span that is there."""
    return query if query in SPANS else "1h"


def means(points: list[tuple[int, int]], count: int) -> list[Point]:
    """Means of each `count` points."""
    groups = [points[at : at + count] for at in range(0, len(points), count)]
    return [
        (group[0][0], round(sum(value for _, value in group) / len(group), 2)) for group in groups
    ]


def most(points: list[tuple[int, int]], count: int) -> list[Point]:
    """The highest of each `count` points."""
    groups = [points[at : at + count] for at in range(0, len(points), count)]
    return [(group[0][0], float(max(value for _, value in group))) for group in groups]


def traffic(network: Network, span: str) -> Plot:
    """Uplinks a minute, with what is missing and what was refused."""
    count = SPANS[span]
    each, until = -(-count // MOST_BARS), int(time.time() // 60 + 1) * 60
    series = [
        Series("bars", means(network.series("uplinks", count), each), "uplinks"),
        Series("line", means(network.series("missing", count), each), "missing", "warn"),
        Series("line", means(network.series("refused", count), each), "refused", "bad"),
    ]
    since = until - 60.0 * count * (1 + MARGIN)
    return Plot("Uplinks a minute", "", since, until, series, least=0, height=170, is_count=True)


def syncs(network: Network, span: str) -> Plot:
    """The slow syncs of the disk."""
    count = SPANS[span]
    each, until = -(-count // MOST_BARS), int(time.time() // 60 + 1) * 60
    points = [(at, us / 1000) for at, us in most(network.series("sync_us", count), each) if us]
    top = max([10.0, *(value for _, value in points)])
    series = [Series("dots", points, "sync", "warn")]
    since = until - 60.0 * count * (1 + MARGIN)
    return Plot("Slow syncs of the disk", "ms", since, until, series, least=0, most=top, height=80)


@dataclass(frozen=True)
class GatewayRow:
    """A gateway, with its share of the best receptions and its last half hour."""

    gateway: Gateway
    share: float
    copies: list[int]
    best: list[int]

    @property
    def rate(self) -> float:
        """Copies a minute, of the last five whole ones."""
        return sum(self.copies[-5:]) / 5


def gateway_rows(network: Network) -> list[GatewayRow]:
    """All gateways: those without a link first, then by their names."""
    total = sum(gateway.best for gateway in network.gateways.values()) or 1
    now, none = int(time.time() // 60), GatewayMinute()

    def row(gateway: Gateway) -> GatewayRow:
        last = [gateway.minutes.get(at, none) for at in range(now - GATEWAY_MINUTES, now)]
        copies, best = [each.copies for each in last], [each.best for each in last]
        return GatewayRow(gateway, gateway.best / total, copies, best)

    found = sorted(
        network.gateways.values(),
        key=lambda gateway: (gateway.is_linked is not False, network.name(gateway.eui).lower()),
    )
    return [row(gateway) for gateway in found]
