"""What plots draw of many points, and the dates below them."""

import random

import pytest
from console.device_plots import SLICES, thin
from console.plots import round_moments

DAY = 86_400
# a moment, in Unix time
NOW = 1_764_500_000.0


def test_points_of_a_long_time() -> None:
    """Of each slice of the time the lowest and the highest point are drawn, in their order."""
    chance, since = random.Random(7), NOW - 31 * DAY
    moments = sorted(since + chance.random() * 31 * DAY for _ in range(3000))
    points = [(moment, chance.choice((-3.0, 0.0, chance.random()))) for moment in moments]
    slices: dict[int, list] = {}
    for moment, value in points:
        slices.setdefault(int((moment - since) / (31 * DAY) * SLICES), []).append((value, moment))
    drawn = thin(points, (since, NOW))
    assert drawn == sorted(drawn) and set(drawn) <= set(points)
    for group in slices.values():
        values = [value for value, _ in group]
        first, last = min(moment for _, moment in group), max(moment for _, moment in group)
        shown = [value for moment, value in drawn if first <= moment <= last]
        assert len(shown) <= 2 and {min(values), max(values)} == set(shown)


def test_few_points() -> None:
    """Few points are all drawn."""
    points = [(NOW + number, 1.0) for number in range(2 * SLICES)]
    assert thin(points, (NOW, NOW + 1000)) == points


@pytest.mark.parametrize("days", (2, 3, 4, 5, 7, 14, 30, 31))
def test_dates(days: int) -> None:
    """Below a plot are two to seven moments."""
    assert 2 <= len(round_moments(NOW - days * DAY, NOW)) <= 7
