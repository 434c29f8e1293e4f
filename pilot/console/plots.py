"""Plots over time, drawn as SVG.

The browser stretches a plot to the width that there is. Strokes and dots keep their size
(`vector-effect`), and the labels are in a second SVG that is placed by percent. So one drawing
serves a phone and a wide screen, print, and a screen reader, to which `aria-label` gives the
numbers. The colours are those of the style sheet."""

import json
import math
import time
from collections.abc import Callable, Sequence
from dataclasses import dataclass, field

from markupsafe import Markup, escape

from .text import short

WIDTH, HEIGHT = 1000, 100
# steps between labels of a time axis, in seconds
TIME_STEPS = (
    *(10, 30, 60, 120, 300, 600, 900, 1800, 3600, 7200, 10_800, 21_600, 43_200),
    *(86_400, 2 * 86_400),
)
LONGEST_STEP, MOST_TIMES = 7 * 86_400, 5
Point = tuple[float, float]
Scale = Callable[[float], float]


@dataclass(frozen=True)
class Series:
    """Points (moment, value), drawn as dots, a line, bars or steps."""

    kind: str
    points: Sequence[Point]
    name: str
    colour: str = "accent"

    def shape(self, x: Scale, y: Scale, low: float) -> str:
        """The path of the points."""
        points = [(x(at), y(value)) for at, value in self.points]
        if self.kind == "dots":
            path = "".join(f"M{at:g} {value:g}h0" for at, value in points)
        elif self.kind == "bars":
            step = points[1][0] - points[0][0] if len(points) > 1 else WIDTH
            width, bare = 0.78 * step, y(low)
            path = "".join(
                f"M{at:g} {HEIGHT}V{value:g}h{width:.2f}V{HEIGHT}z"
                for at, value in points
                if value < bare
            )
        else:
            joint = "H{:g}V{:g}" if self.kind == "steps" else "L{:g} {:g}"
            path = "".join(
                (joint if place else "M{:g} {:g}").format(*point)
                for place, point in enumerate(points)
            )
        kind = "line" if self.kind == "steps" else self.kind
        return f'<path class="{kind} {self.colour}" d="{path}"/>'

    def summary(self, unit: str) -> str:
        """The numbers in words."""
        values = [value for _, value in self.points]
        if not values:
            return f"{self.name}: nothing yet"
        span = f"{short(min(values))} to {short(max(values))}"
        return f"{self.name}: {span}, last {short(values[-1])} {unit}".strip()


@dataclass
class Plot:
    """A plot. Without `least`, `most` and `labels` these follow from the values."""

    title: str
    unit: str
    since: float
    until: float
    series: list[Series]
    least: float | None = None
    most: float | None = None
    labels: list[tuple[float, str]] | None = None
    # between which moments something is missing
    gaps: list[tuple[float, float]] = field(default_factory=list)
    height: int = 140
    is_count: bool = False

    def __post_init__(self) -> None:
        values = [value for series in self.series for _, value in series.points]
        low = min(values, default=0) if self.least is None else self.least
        top = max(values, default=1) if self.most is None else self.most
        top = max(top, low + 4 if self.is_count else low + 1e-6)
        if self.labels is None:
            self.labels = [(value, short(value)) for value in round_values(low, top)]
        marks = [value for value, _ in self.labels]
        self.low, self.top = min(low, marks[0]), max(top, marks[-1])
        self.span = max(self.until - self.since, 1e-9)

    def x(self, moment: float) -> float:
        """Where a moment is."""
        return round((moment - self.since) / self.span * WIDTH, 1)

    def y(self, value: float) -> float:
        """Where a value is."""
        return round(HEIGHT - (value - self.low) / (self.top - self.low) * HEIGHT, 2)

    def __html__(self) -> Markup:
        unit = Markup(" <small>{}</small>").format(self.unit) if self.unit else ""
        return Markup(
            '<figure class="plot"><figcaption><b>{title}</b>{unit}<span class="keys">{keys}</span>'
            '</figcaption><div class="area" data-plot="{data}">'
            '<svg class="shapes" viewBox="0 0 {width} {depth}" height="{height}" '
            'preserveAspectRatio="none" role="img" aria-label="{summary}">{shapes}</svg>'
            '<svg class="labels" height="{height}" aria-hidden="true">{texts}</svg>'
            "</div></figure>"
        ).format(
            title=self.title,
            unit=unit,
            keys=Markup(self.keys()),
            data=self.data(),
            width=WIDTH,
            depth=HEIGHT,
            height=self.height,
            summary=self.summary(),
            shapes=Markup(self.shapes()),
            texts=Markup(self.value_labels() + self.time_labels()),
        )

    def shapes(self) -> str:
        """The grid, the gaps and the series."""
        grid = "".join(f"M0 {self.y(value)}H{WIDTH}" for value, _ in self.labels or ())
        parts = [f'<path class="grid" d="{grid}"/>']
        for begin, end in self.gaps:
            left = self.x(begin)
            width = max(self.x(end) - left, 3)
            parts.append(f'<rect class="gap" x="{left}" width="{width:g}" height="{HEIGHT}"/>')
        parts += [series.shape(self.x, self.y, self.low) for series in self.series]
        return "".join(parts)

    def keys(self) -> str:
        """What the colours stand for, if there are several."""
        keys = ""
        if len(self.series) > 1 or self.gaps:
            keys = "".join(
                f'<i class="key {series.colour}"></i>{escape(series.name)} '
                for series in self.series
            )
        return keys + ('<i class="key gap"></i>missing' if self.gaps else "")

    def value_labels(self) -> str:
        """The labels of the values, at the left."""
        rise = self.top - self.low
        return "".join(
            f'<text class="side" y="{100 - 100 * (value - self.low) / rise:.2f}%" dy="-3">'
            f"{escape(text)}</text>"
            for value, text in self.labels or ()
        )

    def time_labels(self) -> str:
        """The labels of the moments, below."""
        return "".join(
            f'<text x="{100 * (at - self.since) / self.span:.2f}%" y="100%" dy="15">'
            f"{escape(text)}</text>"
            for at, text in round_moments(self.since, self.until)
        )

    def data(self) -> str:
        """The points, for the script that shows their numbers."""
        series = [
            {
                "name": series.name,
                "points": [[round(at, 1), value] for at, value in series.points],
            }
            for series in self.series
        ]
        plot = {"from": self.since, "to": self.until, "unit": self.unit, "series": series}
        return json.dumps(plot, separators=(",", ":"))

    def summary(self) -> str:
        """The plot in words."""
        parts = "; ".join(series.summary(self.unit) for series in self.series)
        gaps = f"; {len(self.gaps)} gaps" if self.gaps else ""
        return f"{self.title}. {parts}{gaps}."


def round_values(low: float, top: float, count: int = 4) -> list[float]:
    """Round numbers from below `low` to above `top`."""
    raw = (top - low) / count
    size = 10.0 ** math.floor(math.log10(raw))
    step = next(size * factor for factor in (1, 2, 2.5, 5, 10) if size * factor >= raw * 0.999)
    first = math.floor(low / step + 1e-9) * step
    found = [first]
    while found[-1] < top - 1e-9:
        found.append(first + len(found) * step)
    return found


def round_moments(since: float, until: float) -> list[tuple[float, str]]:
    """Round moments of the local time with their labels, not too near to the edges."""
    span = until - since
    step = next((size for size in TIME_STEPS if span / size <= MOST_TIMES), LONGEST_STEP)
    form = "%H:%M:%S" if step < 60 else "%H:%M" if step < 86_400 else "%d %b"
    offset = time.localtime(since).tm_gmtoff
    moment = math.ceil((since + offset) / step) * step - offset
    found: list[tuple[float, str]] = []
    while moment <= until:
        if 0.04 * span < moment - since < 0.96 * span:
            found.append((moment, time.strftime(form, time.localtime(moment))))
        moment += step
    return found


def spark(values: Sequence[float], colour: str = "accent") -> Markup:
    """A small line without labels."""
    top = max(values, default=0) or 1
    step = 100 / max(len(values) - 1, 1)
    path = "".join(
        f"{'L' if place else 'M'}{place * step:.1f} {28 - 26 * value / top:.1f}"
        for place, value in enumerate(values)
    )
    return Markup(
        '<svg class="spark" viewBox="0 0 100 30" preserveAspectRatio="none" aria-hidden="true">'
        '<path class="under {colour}" d="{path}L100 30L0 30z"/>'
        '<path class="line {colour}" d="{path}"/></svg>'
    ).format(colour=colour, path=path)


def share(part: float) -> Markup:
    """A share as a bar."""
    percent = max(0.0, min(100.0, 100 * part))
    return Markup(
        '<span class="share"><svg viewBox="0 0 100 8" preserveAspectRatio="none" '
        'aria-hidden="true"><rect class="track" width="100" height="8"/>'
        '<rect class="accent" width="{percent:.1f}" height="8"/></svg>{percent:.0f} %</span>'
    ).format(percent=percent)
