"""The plots of one device, from the history: counters with their gaps, SNR against the floor of
the data rate, RSSI, and data rates."""

from dataclasses import dataclass
from typing import Any, NamedTuple

from adapting.rule import FLOORS

from .history import MONTH, History
from .plots import WIDTH, Plot, Point, Series

SPANS = {"1h": 3600, "6h": 21_600, "24h": 86_400, "7d": 604_800, "30d": 2_592_000}
UPLINKS = """SELECT came, session, counter, rate, snr, rssi, gateway, copies, port, size
    FROM uplinks WHERE device = ? AND came >= ?
    ORDER BY came DESC, session DESC, counter DESC LIMIT ?"""
MOST_UPLINKS, LATEST = 20_000, 10
# how many points of a series are drawn: two in each slice of the time
SLICES = 400
HEIGHT = 130


class Heard(NamedTuple):
    """An uplink in the history."""

    came: float
    session: int
    counter: int
    rate: int
    snr: float
    rssi: int
    gateway: str
    copies: int
    port: int
    size: int


@dataclass(frozen=True)
class DevicePlots:
    """What the page of a device shows of its history."""

    plots: list[Plot]
    gaps: list[Point]
    latest: list[Heard]


def plots_of(kept: History, eui: str, span: str, now: float) -> DevicePlots:
    """The plots of a span, or of all that there is."""
    since = now - SPANS.get(span, MONTH)
    heard = [Heard(*row) for row in kept.rows(UPLINKS, eui, since, MOST_UPLINKS)][::-1]
    if span not in SPANS:
        since = min(heard[0].came, now - 120) if heard else now - 3600
    # whole pixels, so that a plot stays as it is until something new is in it
    pixel = (now - since) / WIDTH
    until = (now // pixel + 1) * pixel
    # room for the labels at the left
    axis = since - 0.05 * (until - since), until
    gaps = gaps_of(heard)
    return DevicePlots(drawn(heard, axis, gaps), gaps, heard[: -LATEST - 1 : -1])


def gaps_of(heard: list[Heard]) -> list[Point]:
    """The times in which counters of a session are missing."""
    return [
        (before.came, after.came)
        for before, after in zip(heard, heard[1:])
        if before.session == after.session and after.counter > before.counter + 1
    ]


def drawn(heard: list[Heard], axis: Point, gaps: list[Point]) -> list[Plot]:
    """The plots of some uplinks."""

    def plot(title: str, unit: str, *series: Series, **how: Any) -> Plot:
        return Plot(title, unit, *axis, list(series), height=HEIGHT, **how)

    def points(name: str) -> list[Point]:
        return thin([(uplink.came, getattr(uplink, name)) for uplink in heard], axis)

    floors = thin([(uplink.came, FLOORS[uplink.rate]) for uplink in heard], axis)
    rates = [(float(rate), f"DR{rate} SF{12 - rate}") for rate in range(6)]
    return [
        plot("Counter", "", Series("dots", points("counter"), "reading"), gaps=gaps, is_count=True),
        plot(
            "SNR",
            "dB",
            Series("dots", points("snr"), "SNR"),
            Series("steps", floors, "floor of the data rate", "bad"),
            least=-22,
            most=13,
            labels=labels(-20, -10, 0, 10),
        ),
        plot(
            "RSSI",
            "dBm",
            Series("dots", points("rssi"), "RSSI"),
            least=-130,
            most=-55,
            labels=labels(-120, -100, -80, -60),
        ),
        plot("Data rate", "", Series("steps", points("rate"), "data rate"), labels=rates),
    ]


def labels(*values: int) -> list[tuple[float, str]]:
    """Labels of these values."""
    return [(float(value), f"{value}".replace("-", "−")) for value in values]


def thin(points: list[Point], axis: Point) -> list[Point]:
    """The lowest and the highest point of each slice of the time, so that none that sticks out is
    lost, and a long time makes no large page."""
    if len(points) <= 2 * SLICES:
        return points
    since, until = axis
    scale, lows, highs = SLICES / (until - since), {}, {}
    for point in points:
        place = int((point[0] - since) * scale)
        if place not in lows:
            lows[place] = highs[place] = point
        elif point[1] < lows[place][1]:
            lows[place] = point
        elif point[1] > highs[place][1]:
            highs[place] = point
    return sorted({*lows.values(), *highs.values()})
