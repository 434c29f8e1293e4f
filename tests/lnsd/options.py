"""The options of the trials of lnsd."""

from collections.abc import Callable

import pytest

OPTIONS = {
    "times": (1, 10_000, None, "kills: how often the server is killed or stopped (5; run: 4)"),
    "drops": (0, 1_000_000, 0, "kills, run: no life ends before its share of N dropped links (0)"),
    "takeovers": (0, 1_000_000, 0, "kills, run: the same, of N links that are taken over (0)"),
    "devices": (1, 4096, 50, "restore: how many devices there are (50)"),
    "examples": (1, 100_000, 3, "model: how many random loads each trial plays (3)"),
}


def pytest_addoption(parser: pytest.Parser) -> None:
    """The options, each a number."""
    group = parser.getgroup("trials of lnsd")
    for name, (least, most, default, text) in OPTIONS.items():
        read = between(least, most)
        group.addoption(f"--{name}", type=read, metavar="N", default=default, help=text)


def between(least: int, most: int) -> Callable[[str], int]:
    """The reader of a number; bozintar.words can't be imported before the ports are taken."""

    def read(text: str) -> int:
        number = int(text)
        if not least <= number <= most:
            raise ValueError(f"{text} is no number from {least} to {most}")
        return number

    return read
