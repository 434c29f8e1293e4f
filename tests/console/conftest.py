"""The parts around which the console's trials are made."""

from collections.abc import Iterator
from importlib.util import find_spec
from pathlib import Path
from typing import Any

import pytest

for library in ("aiohttp", "jinja2"):
    if not find_spec(library):
        raise pytest.UsageError(f"no library {library}: run pilot/install; use /usr/bin/python3")

from .sites import DEVICE, Clock, Console, listed


@pytest.fixture
def clock(monkeypatch: Any) -> Clock:
    """A clock that the trial sets."""
    made = Clock()
    monkeypatch.setattr("time.time", made)
    return made


@pytest.fixture
def console(folder: Path, clock: Clock) -> Iterator[Console]:
    """A console on loopback whose clients may write. A server answers that has one device.
    Time passes only if the trial says so."""
    made = Console(folder)
    made.serves(listed(0, DEVICE))
    yield made
    made.close()


@pytest.fixture
def empty(folder: Path) -> Iterator[Console]:
    """A console that has heard nothing yet, on loopback, whose clients may read."""
    made = Console(folder, may_write=False)
    yield made
    made.close()
