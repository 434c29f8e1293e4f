"""Fronts: a gateway that loses its front takes the next one, and is served there."""

import os
from collections.abc import Iterator

import pytest
from bozintar.forwarders import Air
from bozintar.links import Application
from bozintar.meters import JOIN_EUI, Meter
from bozintar.processes import HOST, Process, command, free_port

from tests.pilot.parts import PILOT, Pilot
from tests.pilot.stations import Station

EUI, APPLICATION = "00000000000000B1", 3
LONG = 60.0


class Front:
    """A mosquitto with the settings of a front, and a gateways-mqtt beside it."""

    def __init__(self, pilot: Pilot, at: int, stores: str):
        self.port = free_port()
        text = (PILOT / "front.conf").read_text(encoding="utf-8")
        text = text.replace("listener 1883 127.0.0.1", f"listener {self.port} {HOST}")
        # what Debian's own file says before it
        folder = pilot.file(f"front{at}")
        os.mkdir(folder)
        head = f"persistence true\npersistence_location {folder}/\n"
        conf = pilot.file(f"front{at}.conf", head + "user root\n" * (os.getuid() == 0) + text)
        self.broker: Process = pilot.process(f"front{at}", command("mosquitto"), "-v", "-c", conf)
        self.broker.start("running")
        words = ("--stores", stores, "--broker", f"{HOST}:{self.port}", "--names", 28)
        self.bridge = pilot.own("gateways-mqtt", *words, "--gateway", EUI, name=f"bridge{at}")
        self.bridge.start("connected to")


@pytest.fixture
def pilot(program: str) -> Iterator[Pilot]:
    """A server on an empty store."""
    with Pilot(program) as made:
        yield made


def acknowledged(air: Air, station: Station, meter: Meter) -> bool:
    """Whether a reading is acknowledged; a gateway that has lost its front sends it again, since
    what it had said to that one is lost."""
    for _ in range(10):
        station.hears(meter.reads())
        mark = meter.awaited
        if air.go_on(LONG / 10, lambda: mark in meter.acknowledged):
            return True
    return False


@pytest.mark.parametrize("lost", ["broker", "broker and bridge"])
def test_next_front(pilot: Pilot, lost: str) -> None:
    """A front is lost, as a whole or with a bridge that lives on. The gateway is served by the next
    one, and the two bridges don't take its name from each other."""
    stores = pilot.file("stores", f"d00 00002A {pilot.network}\n")
    fronts, meter = [Front(pilot, at, stores) for at in range(2)], Meter(0)
    with Application(pilot.address, APPLICATION) as link:
        link.asks(f"provision {meter.dev_eui} {JOIN_EUI} {meter.app_key.hex().upper()} 0 1")
        assert link.hears().startswith("provisioned ")
    station = Station(EUI, fronts[0].port)
    air = Air([station], [meter])
    try:
        station.hears(meter.join_request())
        assert air.go_on(LONG, lambda: bool(meter.keys)), "it joins"
        assert acknowledged(air, station, meter)
        fronts[0].broker.kill()
        if lost != "broker":
            fronts[0].bridge.kill()
        station.connect(fronts[1].port)
        for _ in range(3):
            assert acknowledged(air, station, meter)
        assert int(pilot.program.status()["taken_over"]) <= 1
    finally:
        station.end()
