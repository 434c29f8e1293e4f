"""The parts around which the pilot's trials are made. Each is ended and its folder removed at the
end of its trial, whatever that is; a traceback of one of its programs is a failure."""

import tempfile
from collections.abc import Generator, Iterator
from typing import Any

import pytest
from bozintar.mqtt import paho

from .doors import Certificates, Doors
from .networks import Network
from .parts import Parts, Pilot
from .stations import ByStations
from .stores import Stores
from .whole import Dashboard, Whole


# how many lines of each program a trial shows that fails
SHOWN = 12


def pytest_configure() -> None:
    """Nothing of this can be tried without the MQTT library."""
    if not paho:
        raise pytest.UsageError("there is no Python library paho.mqtt; run pilot/install")


@pytest.hookimpl(hookwrapper=True)
def pytest_runtest_makereport(item: Any) -> Generator[None, Any, None]:
    """A trial that fails shows what its programs printed last."""
    report = (yield).get_result()
    values = getattr(item, "funcargs", {}).values() if report.failed else ()
    for value in values:
        parts = getattr(value, "pilot", value)
        for process in parts.all if isinstance(parts, Parts) else ():
            text = "\n".join(process.said().splitlines()[-SHOWN:])
            report.sections.append((f"last lines of {process.name}", text))


@pytest.fixture
def parts() -> Iterator[Parts]:
    """Bridges and a broker, once they are started."""
    with Parts() as made:
        yield made


@pytest.fixture
def pilot(program: str) -> Iterator[Pilot]:
    """A server on an empty store, and what is started beside it."""
    with Pilot(program) as made:
        yield made


@pytest.fixture
def network() -> Iterator[Network]:
    """A network that is played."""
    with Network() as made:
        yield made


@pytest.fixture
def stores(parts: Parts) -> Iterator[Stores]:
    """Two stores that are played, each with a NetID of its own."""
    with Stores(parts, d00=0, d01=1) as made:
        yield made


@pytest.fixture
def meters() -> int:
    """How many meters a field has; `parametrize("meters", [N])` says another number."""
    return 6


@pytest.fixture
def whole(pilot: Pilot, meters: int) -> Iterator[Whole]:
    """A whole pilot, whose meters have joined."""
    made = Whole(pilot, meters)
    made.link()
    assert made.join(), "all meters join"
    yield made
    for forwarder in made.air.gateways:
        forwarder.close()


@pytest.fixture
def dashboard(whole: Whole) -> Iterator[Dashboard]:
    """What notes the events of a whole pilot."""
    with Dashboard(whole.pilot.broker_port) as made:
        yield made


@pytest.fixture
def by_stations(pilot: Pilot, meters: int) -> Iterator[ByStations]:
    """A whole pilot whose gateways come by MQTT, and whose meters have joined."""
    made = ByStations(pilot, meters)
    made.link()
    assert made.join(), "all meters join"
    yield made
    for station in made.air.gateways:
        station.end()


@pytest.fixture(scope="session")
def certificates() -> Iterator[Certificates]:
    """Certificates of all kinds."""
    with tempfile.TemporaryDirectory(prefix="bozintar-") as folder:
        yield Certificates(folder)


@pytest.fixture
def doors(pilot: Pilot, certificates: Certificates) -> Doors:
    """A server and a broker, whose doors aren't open yet."""
    return Doors(pilot, certificates)
