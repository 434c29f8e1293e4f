"""A field: meters, gateways that hear them, and the bridge that those gateways come by."""

import time
from typing import Any

from bozintar.forwarders import Air, Forwarder
from bozintar.meters import Meter
from bozintar.processes import HOST, PATIENCE, Process

from .parts import Pilot

GATEWAYS = ("00000000000000B1", "00000000000000B2", "AA555A00000000B3")
APPLICATION = 3
# how many meters join at a time, and how long one waits for its accept, in seconds
AT_A_TIME, AGAIN = 20, 8.0
# forwarders' versions, and their clocks as they begin: one is about to wrap
FORWARDERS = ((2, 90_000_000), (1, 2**32 - 3_000_000), (2, 77))


class Field:
    """Meters and gateways of a pilot. By itself the gateways come by UDP."""

    def __init__(self, pilot: Pilot, meters: int) -> None:
        self.pilot = pilot
        self.named = [word for eui in GATEWAYS for word in ("--gateway", eui)]
        self.named += ["--network", pilot.network, "--counts", pilot.file("gateways.prom")]
        self.gateways = self.start_gateways()
        self.air = Air(self.make_gateways(), [Meter(number) for number in range(meters)])

    def start_gateways(self) -> Process:
        """The bridge of the gateways."""
        udp = ("--udp", f"{HOST}:{self.pilot.udp_port}")
        return self.pilot.own("gateways-udp", *udp, *self.named).start("listens on")

    def make_gateways(self) -> list:
        """The gateways of the field."""
        return [Forwarder(eui, self.pilot.udp_port, *how) for eui, how in zip(GATEWAYS, FORWARDERS)]

    @property
    def meters(self) -> list[Meter]:
        """Its meters."""
        return self.air.meters

    def link(self) -> None:
        """Waits until each gateway has its link."""
        due = [f"gateway {eui}: linked" for eui in GATEWAYS]
        are_there = lambda: all(text in self.gateways.said() for text in due)
        assert self.air.go_on(PATIENCE, are_there), "all gateways are linked"

    def send(
        self, frame: bytes, hz: int = 868_100_000, data_rate: int = 5, by: list | None = None
    ) -> None:
        """Gateways hear a frame, the first of them best."""
        for place, gateway in enumerate(by or self.air.gateways):
            gateway.hears(frame, hz, data_rate, snr=8 - place, rssi=-70 - place)

    def join(self, seconds: float = 240.0) -> bool:
        """All meters join, some at a time, and again those that no accept came to."""
        last, until = time.monotonic() + seconds, dict.fromkeys(self.meters, 0.0)
        while out := [meter for meter in self.meters if not meter.keys]:
            now = time.monotonic()
            if now > last:
                return False
            asking = [meter for meter in out if until[meter] > now]
            for meter in [meter for meter in out if until[meter] <= now][: AT_A_TIME - len(asking)]:
                self.send(meter.join_request())
                until[meter] = now + AGAIN
            self.air.go_on(0.03)
        return True

    def reading(self, meter: Meter, seconds: float = PATIENCE, **how: Any) -> bool:
        """A confirmed reading; whether it was acknowledged."""
        self.send(meter.reads(), **how)
        mark = meter.awaited
        return self.air.go_on(seconds, lambda: mark in meter.acknowledged)


def counts_in(file: str) -> dict[str, int]:
    """The counts of a file for node_exporter, by their names without "pilot" and "total"."""
    with open(file, encoding="utf-8") as lines:
        pairs = [line.split() for line in lines if not line.startswith("#")]
    bare = [(name.partition("{")[0], int(float(value))) for name, value in pairs]
    return {name.removeprefix("pilot_").removesuffix("_total"): value for name, value in bare}
