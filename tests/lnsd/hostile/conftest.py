"""Operators who watch, which end with their trial."""

from collections.abc import Callable, Iterator

import pytest
from bozintar.server import Program

from .operating import Watcher

NewWatcher = Callable[[Program], Watcher]


@pytest.fixture
def watch() -> Iterator[NewWatcher]:
    """Has operators watch, once they do."""
    made: list[Watcher] = []

    def begin(program: Program) -> Watcher:
        made.append(Watcher(program))
        assert made[-1].next() == "watching"
        return made[-1]

    yield begin
    for watcher in made:
        watcher.clean()
