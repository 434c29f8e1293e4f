"""A cluster of etcd, which all trials of a run share, and stores in it."""

import secrets
from collections.abc import Iterator

import pytest
from bozintar.processes import Processes

from .clusters import Cluster, Kept


@pytest.fixture(scope="session")
def shared() -> Iterator[Cluster]:
    """Three members, of which no trial kills one."""
    with Processes("etcd-") as processes:
        yield Cluster(processes)


@pytest.fixture
def processes() -> Iterator[Processes]:
    """The processes of a trial."""
    with Processes("fence-") as made:
        yield made


@pytest.fixture
def cluster(processes: Processes) -> Cluster:
    """Three members of a trial's own."""
    return Cluster(processes)


@pytest.fixture
def name(request: pytest.FixtureRequest) -> str:
    """The name of the trial's store."""
    # another one if the trial is done again
    letters = [letter if letter.isalnum() else "-" for letter in request.node.name]
    return "".join(letters).removeprefix("test-")[:24].strip("-") + "-" + secrets.token_hex(3)


@pytest.fixture
def kept(processes: Processes, shared: Cluster, name: str, program: str) -> Kept:
    """A store that the cluster knows."""
    made = Kept(processes, shared, name, program)
    made.add()
    return made
