"""A keeper whose etcd loses answers. What else may be lost or late is played in test_holds."""

from collections.abc import Iterator

import pytest

from .clusters import Cluster, Kept
from .proxies import Proxy


@pytest.fixture
def proxy(shared: Cluster) -> Iterator[Proxy]:
    """A proxy of the first member."""
    made = Proxy(shared.addresses[0])
    yield made
    made.end()


@pytest.mark.parametrize("lost", [1, 2])
def test_lost_answers(kept: Kept, shared: Cluster, proxy: Proxy, lost: int) -> None:
    """The answers to a keeper's question for the store are lost, once, and also when the member is
    asked again: then the next one is asked. The keeper knows its own life."""
    proxy.loses = lost
    keeper = kept.serves(kept.format(), "--adopt", etcd=f"{proxy.option},{shared.option}")
    assert (proxy.loses, kept.fence().life) == (0, 1)
    kept.stop(keeper)
