"""The plot of what an uplink costs by the number of stores."""

from collections.abc import Mapping, Sequence
from html import escape
from typing import Any

WIDTH, HEIGHT, LEFT, TOP, RIGHT, FOOT = 420, 220, 56, 34, 110, 44
STYLE = """
  text { font: 12px -apple-system, "Segoe UI", Helvetica, Arial, sans-serif; fill: #1f2328 }
  .title { font-weight: 600 }
  .grid { stroke: #d1d9e0 }
  .back { fill: #ffffff }
  @media (prefers-color-scheme: dark) {
    text { fill: #f0f6fc }
    .grid { stroke: #3d444d }
    .back { fill: #0d1117 }
  }"""
# the parts of a bar, from below, and their colours
PARTS = {"lnsd": "#0969da", "router": "#1a7f37", "keepers": "#bf8700"}


def text(x: float, y: float, words: str, anchor: str = "middle", more: str = "") -> str:
    """A line of text."""
    at = f'x="{x:.0f}" y="{y:.0f}" text-anchor="{anchor}"'
    return f"<text {at} {more}>{escape(words)}</text>"


def step_of(most: float) -> int:
    """How far apart lines of the grid are, so that there are five of them at most."""
    steps = (first * 10**zeros for zeros in range(6) for first in (1, 2, 5))
    return next(step for step in steps if most / step <= 5)


def axes(most: int, step: int) -> list[str]:
    """The lines of the grid with their numbers, and the key of the parts."""
    lines = []
    for value in range(0, most + 1, step):
        y = TOP + HEIGHT - HEIGHT * value / most
        ends = f'x1="{LEFT}" x2="{LEFT + WIDTH}" y1="{y:.1f}" y2="{y:.1f}"'
        lines.append(f'<line {ends} class="grid"/>')
        lines.append(text(LEFT - 6, y + 4, f"{value}", "end"))
    lines.append(text(LEFT + WIDTH / 2, TOP + HEIGHT + 36, "stores"))
    for at, (name, colour) in enumerate(reversed(PARTS.items())):
        y = TOP + 12 + 18 * at
        box = f'x="{LEFT + WIDTH + 12}" y="{y - 9}" width="10" height="10"'
        lines.append(f'<rect {box} fill="{colour}"/>')
        lines.append(text(LEFT + WIDTH + 28, y, name, "start"))
    return lines


def bar(left: float, wide: float, cost: Mapping[str, Any], most: int) -> list[str]:
    """A bar, with the sum of its parts above it, and its number of stores below."""
    lines, below = [], 0.0
    for name, colour in PARTS.items():
        high = HEIGHT * cost[name] / most
        y = TOP + HEIGHT - HEIGHT * below / most - high
        box = f'x="{left:.1f}" y="{y:.1f}" width="{wide:.1f}" height="{high:.1f}"'
        lines.append(f'<rect {box} fill="{colour}"/>')
        below += cost[name]
    top = TOP + HEIGHT - HEIGHT * below / most
    lines.append(text(left + wide / 2, top - 5, f"{below:.0f}"))
    lines.append(text(left + wide / 2, TOP + HEIGHT + 16, str(cost["stores"])))
    return lines


def plot(title: str, costs: Sequence[Mapping[str, Any]]) -> str:
    """The plot as SVG: a bar for each number of stores, with its parts in microseconds."""
    largest = max(sum(cost[name] for name in PARTS) for cost in costs)
    step = step_of(largest)
    most = step * (int(largest / step) + 1)
    whole, high = LEFT + WIDTH + RIGHT, TOP + HEIGHT + FOOT
    lines = [
        f'<svg xmlns="http://www.w3.org/2000/svg" viewBox="0 0 {whole} {high}">',
        f"<style>{STYLE}\n</style>",
        f'<rect width="{whole}" height="{high}" class="back"/>',
        text(LEFT, 20, title, "start", 'class="title"'),
        *axes(most, step),
    ]
    each = WIDTH / len(costs)
    for at, cost in enumerate(costs):
        lines += bar(LEFT + each * (at + 0.2), 0.6 * each, cost, most)
    return "\n".join([*lines, "</svg>", ""])
