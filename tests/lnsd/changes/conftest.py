"""Commands that change the devices of a store."""

import random
from collections.abc import Iterator

import pytest
from bozintar.server import Program

from ..conftest import Environment
from .commands import Commands


@pytest.fixture
def commands(program: str, seed: int, with_disk: Environment) -> Iterator[Commands]:
    """The commands of a store that isn't there yet. A program without them skips the trial."""
    with Program(program) as made:
        if made.run("export", "--help")[0]:
            pytest.skip("this lnsd has no commands for devices: it doesn't know lnsd export --help")
        yield Commands(made, random.Random(seed), with_disk)
