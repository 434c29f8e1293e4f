"""What the meters of trials do with downlinks that come late or twice. Two gateways may have to
send at one moment, if copies of an uplink come so far apart that the network answers it twice."""

import pytest
from bozintar.devices import Rejected
from bozintar.meters import Meter
from bozintar.network import Session
from bozintar.wire import Copy

COPY = Copy("00000000000000B1")


def frame_of(line: str) -> bytes:
    """The frame in a network's line."""
    return bytes.fromhex(line.split(" ")[2])[22:]


@pytest.fixture
def meter() -> Meter:
    """A meter without a session."""
    return Meter(0)


@pytest.fixture
def session(meter: Meter) -> Session:
    """The network's end of a meter's session."""
    meter.join_request()
    made = Session(0, meter.app_key.hex(), 1, meter.dev_nonce)
    assert meter.takes(frame_of(made.accept(COPY)))
    return made


def test_no_session(meter: Meter) -> None:
    """A meter that hasn't joined sends nothing."""
    with pytest.raises(Rejected, match="no session"):
        meter.reads()


@pytest.mark.parametrize("counters, heard", (((0, 1, 2), 3), ((0, 2, 1), 2), ((0, 1, 1), 2)))
def test_late_downlink(meter: Meter, session: Session, counters: tuple, heard: int) -> None:
    """All downlinks are noted, and those whose counter isn't above the last one are ignored."""
    for counter in counters:
        item = (7, bytes([counter]), False)
        assert meter.takes(frame_of(session.downlink(COPY, counter, item)), COPY.gateway)
    assert [(one.session, one.counter, one.gateway) for one in meter.downlinks] == [
        (1, counter, COPY.gateway) for counter in counters
    ]
    assert len(meter.items) == heard
