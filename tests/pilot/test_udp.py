"""Gateways by UDP: joins, readings in each data rate, RX2, other clocks and ports."""

from collections.abc import Iterator

import pytest
from bozintar.frames import CHANNELS
from bozintar.links import Application
from bozintar.meters import JOIN_EUI
from bozintar.processes import PATIENCE, Process
from bozintar.wire import PROVISION

from .field import APPLICATION, Field, counts_in
from .parts import WAITS, Pilot
from .played import gateways

RX2 = ("SF12BW125", 869.525)
LATE = "TOO_LATE"
SECOND = 1_000_000  # of a forwarder's clock


class Linked(Field):
    """A field with an application that has a link of its own."""

    after = WAITS  # what is changed of the bridge

    def __init__(self, pilot: Pilot, meters: int) -> None:
        super().__init__(pilot, meters)
        self.application = Application(pilot.address, APPLICATION)

    def start_gateways(self) -> Process:
        network = self.pilot.network
        return gateways(self.pilot, network, *self.named, after=self.after, ready="listens on")

    def provision(self) -> None:
        """Has the network know all meters."""
        for meter in self.meters:
            key = meter.app_key.hex().upper()
            how = {"dev_eui": meter.dev_eui, "join_eui": JOIN_EUI, "app_key": key}
            self.application.asks(PROVISION.format(**how, offset=0, delay=1))
            assert self.application.hears().startswith("provisioned ")

    def counted(self, *names: str) -> list[int]:
        """What the gateways' bridge counted until its end."""
        self.gateways.end()
        counts = counts_in(self.pilot.file("gateways.prom"))
        return [counts[f"gateways_udp_{name}"] for name in names]


@pytest.fixture
def field(pilot: Pilot, meters: int) -> Iterator[Linked]:
    """A field whose meters have joined."""
    made = Linked(pilot, meters)
    made.link()
    made.provision()
    assert made.join(), "all meters join"
    yield made
    made.application.close()


def test_each_data_rate(field: Linked) -> None:
    """A reading in each data rate and on each channel, and what is sent to a gateway then."""
    for place, meter in enumerate(field.meters):
        is_well = field.reading(meter, data_rate=place, hz=CHANNELS[place])
        assert is_well, f"data rate {place} is acknowledged"
        told = field.air.gateways[0].told[-1]
        due = (f"SF{12 - place}BW125", CHANNELS[place] / 1e6, True, True, "4/5", 14)
        names = ("datr", "freq", "ipol", "ncrc", "codr", "powe")
        assert tuple(told[name] for name in names) == due
        assert (told["tmst"] - field.air.gateways[0].stamp) % 2**32 == SECOND, "RX1"
    named = ("in_rx2", "clocks_begun_anew", "ports_moved", "wrong_datagrams")
    assert field.counted(*named) == [0, 0, 0, 0], named


@pytest.mark.parametrize("meters", [1])
def test_short_pause(field: Linked) -> None:
    """The server starts again: what is heard meanwhile comes out once the link is there."""
    field.application.close()
    field.pilot.restart_server()
    meter = field.meters[0]
    field.send(meter.reads(confirmed=False))
    mark = meter.awaited
    assert mark
    field.application = Application(field.pilot.address, APPLICATION)
    words = field.application.hears().split(" ")[:4]
    assert words == ["up", mark.device, str(mark.session), str(mark.counter)]


@pytest.mark.parametrize("meters", [2])
def test_lost_window(field: Linked) -> None:
    """RX1 is missed, and RX2 is taken; another fault isn't tried again."""
    first = field.air.gateways[0]
    first.errors.append(LATE)
    assert field.reading(field.meters[0]), "a reading is acknowledged in RX2"
    told = first.told[-2:]
    assert (told[1]["datr"], told[1]["freq"]) == RX2
    assert (told[1]["tmst"] - told[0]["tmst"]) % 2**32 == SECOND, "RX2 is a second later"
    first.errors.append("TOO_EARLY")
    count, late = len(first.told), field.meters[1]
    field.send(late.reads())
    assert field.air.go_on(PATIENCE, lambda: len(first.told) > count)
    first.await_read()
    assert len(first.told) == count + 1, "a moment that is too far away"
    assert late.awaited not in late.acknowledged
    assert field.counted("in_rx2", "not_sent") == [1, 1]


@pytest.mark.parametrize("meters", [3])
def test_another_clock(field: Linked) -> None:
    """A forwarder starts again, with a clock from the beginning; another has another port."""
    first, second, third = field.air.gateways
    first.restart(begins=500)
    third.move()
    for moved in (first, third):
        moved.await_read()
    assert field.reading(field.meters[0], by=[first]), "a reading by the clock begun anew"
    assert field.reading(field.meters[1], by=[third]), "a reading by the other port"
    assert field.reading(field.meters[2], by=[second])
    assert field.air.go_on(PATIENCE, lambda: second.clock() < 2**31), "a clock that wraps"
    assert field.reading(field.meters[2], by=[second])
    named = ("clocks_begun_anew", "ports_moved", "wrong_datagrams")
    assert field.counted(*named) == [1, 2, 0], named
