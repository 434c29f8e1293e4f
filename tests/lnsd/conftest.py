"""Servers with stores, which end with their trial, whatever that is."""

import shutil
from collections.abc import Callable, Iterator, Sequence
from contextlib import ExitStack
from functools import partial
from pathlib import Path

import preloads
import pytest
from bozintar.server import Program
from bozintar.store import Record

from .clocks import Clock
from .pairs import formatted

NewServer = Callable[..., Program]
Environment = Callable[..., dict[str, str]]


@pytest.fixture
def new_server(program: str) -> Iterator[NewServer]:
    """Makes servers, which don't run yet, each on a store of its own with these records."""
    with ExitStack() as made:

        def make(slots: int = 8, records: Sequence[Record] = ()) -> Program:
            return made.enter_context(formatted(program, slots, records))

        yield make


@pytest.fixture
def server(new_server: NewServer) -> Program:
    """A server, which doesn't run yet, on an empty store of 8 slots."""
    return new_server()


@pytest.fixture(scope="session")
def replaced(tmp_path_factory: pytest.TempPathFactory) -> Callable[[str], str]:
    """Makes libraries that replace functions of the C library in a program's process. Without a C
    compiler, trials that need one are skipped."""

    def make(source: str) -> str:
        if not shutil.which("cc"):
            pytest.skip("no C compiler is there: apt-get install gcc")
        library: str = preloads.made(source, str(tmp_path_factory.mktemp("preload")))
        return library

    return make


@pytest.fixture(scope="session")
def with_disk(replaced: Callable[[str], str]) -> Environment:
    """Makes environments of a program in which calls of its disk fail, or are slow, or its clock
    stands still, as the comments on preloads.CALLS and CLOCK say."""
    return partial(preloads.environment, replaced(preloads.CALLS + preloads.CLOCK))


@pytest.fixture
def clock(with_disk: Environment, folder: Path) -> Clock:
    """A clock that stands still."""
    return Clock(with_disk, folder / "clock")
