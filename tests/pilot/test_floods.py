"""A gateway that says too much, or what can't be, beside another one and a network that is played:
the network gets what one gateway may say, and all of the other one."""

import itertools
import json
import socket
import threading
import time
from collections.abc import Callable, Iterable
from contextlib import suppress
from dataclasses import dataclass, field
from typing import Any

import pytest
from bozintar import load, store
from bozintar.buckets import Bucket
from bozintar.forwarders import Forwarder
from bozintar.links import Application, Ended, Silent
from bozintar.processes import HOST, PATIENCE, Process, await_that

from .field import GATEWAYS, counts_in
from .networks import End, Network
from .parts import Parts, Pilot
from .played import gateways, rxpk
from .stations import Station

# of each gateway: frames a second, and at once after a pause
RATE, BURST = 200, 400
# moments in seconds, how many frames come then, and how many of them are handed in
FRAMES = (
    (1000.0, 500, 400),
    (1000.0, 1, 0),
    (1000.5, 150, 100),
    (1000.75, 20, 20),
    (1001.0, 100, 80),
    (1009.0, 1000, 400),
    (1009.015625, 9, 3),
    (1e6, 401, 400),
)
# a flood: datagrams, frames in each; or as many events
DATAGRAMS, EACH = 20, 100
SENT = DATAGRAMS * EACH
# of a second: how far a bucket's clock goes on for each frame; and how many of a flood are let in
TICK = 1024
TICKS = f"""from itertools import count
bucket = program.gateways.Bucket
program.gateways.Bucket = lambda *of: bucket(*of, count(0, 1 / {TICK}).__next__)"""
LET = BURST + RATE * (SENT - 1) // TICK
NAMED = [word for eui in GATEWAYS[:2] for word in ("--gateway", eui)]
# a flood of a gateway's EUI: bytes a second, in datagrams of this many frames; what another
# gateway hears meanwhile: frames, and the seconds between two of them; and how often it is tried,
# since other programs may take the processors just then
BYTES_A_SECOND, FRAMES_EACH = 2_500_000, 300
OTHERS, PAUSE, TRIES = 200, 0.01, 8
# in a flood beside the server itself: meters of the other gateway, and uplinks of each; how many of
# them come out at least, and how many times longer the slowest hundredth may take
METERS, UPLINKS, OUT, LONGER = 50, 8, 0.99, 2
# for how long the network gathers a frame's copies, in seconds: if the bridge takes no longer, an
# uplink takes at most twice as long as without a flood; and how many times if the machine is busy
WINDOW, BUSY = 0.2, 20


def test_bucket() -> None:
    """How many frames are handed in at which moments."""
    now = 0.0
    bucket = Bucket(RATE, BURST, lambda: now)
    for now, count, due in FRAMES:
        came = sum(bucket.lets() for _ in range(count))
        assert came == due, f"of {count} frames at {now}"


def payload_of(content: bytes) -> bytes:
    """The frame of a copy."""
    return content[22:]


def counted(file: str, prefix: str) -> dict[str, int]:
    """What a bridge counted."""
    return {name.removeprefix(prefix): count for name, count in counts_in(file).items()}


class Arrivals(threading.Thread):
    """Notes what `read` brings, to the end, and when it comes."""

    def __init__(self, read: Callable[[], Any]) -> None:
        super().__init__(daemon=True)
        self.read, self.came = read, list[tuple[Any, float]]()
        self.start()

    def run(self) -> None:
        """The thread."""
        with suppress(Ended, Silent):
            while name := self.read():
                self.came.append((name, time.monotonic()))

    @classmethod
    def on(cls, link: End) -> "Arrivals":
        """The frames that come on a link."""
        return cls(lambda: payload_of(link.hears() or b""))

    @property
    def names(self) -> list:
        """What came."""
        return [name for name, _ in self.came]


@dataclass
class Flood:
    """A flood of one gateway beside another one, and what came of it."""

    part: Process
    came: list[Arrivals] = field(default_factory=list)

    def compare(self, counts: dict, wrong: str) -> None:
        """Ends the bridge, and compares what came of both gateways, and what was counted and
        printed."""
        told = [line.partition("  ")[2] for line in self.part.said().splitlines()]
        due = f"gateway {GATEWAYS[0]} sends more than {RATE} frames a second; the rest is dropped"
        assert [line for line in told if "dropped" in line] == [due]
        for one in self.came:
            one.join()
        first, second = (one.names for one in self.came)
        assert len(first) == LET, f"frames of {SENT}"
        assert first[:BURST] == [b"%04d" % number for number in range(BURST)], "the first ones"
        assert second == [b"first", b"last"], "those of the other gateway"
        names = ("copies", "unlinked", "too_many", wrong)
        due_counts = [len(first) + 2, 0, SENT - len(first), 1]
        assert [counts.get(name) for name in names] == due_counts, names


def test_flood_by_udp(parts: Parts, network: Network) -> None:
    """A gateway floods the bridge of gateways by UDP."""
    file = parts.file("gateways.prom")
    words = (*NAMED, "--counts", file)
    flood = Flood(gateways(parts, network.at, *words, after=TICKS, ready="listens on"))
    first, second = (Forwarder(eui, parts.udp_port) for eui in GATEWAYS[:2])
    for gateway in (first, second):
        gateway.look()
        flood.came.append(Arrivals.on(network.link()))
    second.hears(b"first")
    for place in range(DATAGRAMS):
        numbers = range(EACH * place, EACH * (place + 1))
        heard = [rxpk(number, b"%04d" % number, 7) for number in numbers]
        first.say(0, json.dumps({"rxpk": heard}).encode())
        first.await_read()
    second.hears(b"loud", snr=50)
    second.hears(b"last")
    second.await_read()
    assert flood.part.end() == 0
    flood.compare(counted(file, "gateways_udp_"), "wrong_datagrams")


class Flooder:
    """What sends datagrams to a bridge under the EUI of a gateway, this many bytes a second, until
    it is ended."""

    def __init__(self, port: int) -> None:
        head = b"\x02\0\1\0" + bytes.fromhex(GATEWAYS[0])
        heard = [rxpk(number, b"%08d" % number, 7) for number in range(FRAMES_EACH)]
        self.data, self.at = head + json.dumps({"rxpk": heard}).encode(), (HOST, port)
        self.is_over = False
        self.thread = threading.Thread(target=self.work)

    def work(self) -> None:
        """Sends datagrams."""
        begun, sent = time.monotonic(), 0
        with socket.socket(socket.AF_INET, socket.SOCK_DGRAM) as own:
            while not self.is_over:
                sent += own.sendto(self.data, self.at)
                time.sleep(max(0.0, begun + sent / BYTES_A_SECOND - time.monotonic()))

    def __enter__(self) -> "Flooder":
        self.thread.start()
        return self

    def __exit__(self, *_: object) -> None:
        self.is_over = True
        self.thread.join()


def waits_of(
    gateway: Forwarder, frames: Iterable[tuple[Any, bytes]], arrivals: Arrivals
) -> list[float]:
    """A gateway hears frames, and the last one of them until it comes out. How long each other one
    that comes out takes, the fastest first."""
    *those, (last, frame) = frames
    sent: dict[Any, float] = {}
    gateway.await_read()
    for name, each in those:
        sent[name] = time.monotonic()
        gateway.hears(each)
        gateway.look()
        time.sleep(PAUSE)

    def is_out() -> bool:
        gateway.hears(frame)
        return last in arrivals.names

    await_that("the last frame comes out", is_out, step=0.2)
    moments = dict(arrivals.came)
    return sorted(moments[name] - at for name, at in sent.items() if name in moments)


def slowest(waits: list[float]) -> float:
    """The time that 99 % of the frames don't exceed."""
    return waits[int(len(waits) * OUT) - 1]


def is_beside(quiet: list[float], loud: list[float], most: float) -> bool:
    """Whether as many frames come out beside a flood as without one, 99 % of them in this many
    seconds."""
    print(f"{len(quiet)} and {len(loud)} frames, {slowest(quiet):.4f} and {slowest(loud):.4f} s")
    return len(loud) >= OUT * len(quiet) and slowest(loud) <= most


@pytest.mark.timed
def test_flood_beside_another(parts: Parts, network: Network) -> None:
    """While a stranger sends 2.5 MB a second under the EUI of one gateway, 99 % of what another one
    hears comes out, and in time."""
    gateways(parts, network.at, *NAMED, ready="listens on")
    first, second = (Forwarder(eui, parts.udp_port) for eui in GATEWAYS[:2])
    first.look()
    flooded = network.link()
    second.look()
    arrivals, number = Arrivals.on(network.link()), itertools.count()

    def waits() -> list[float]:
        names = [b"%08d" % next(number) for _ in range(OTHERS + 1)]
        return waits_of(second, zip(names, names), arrivals)

    def once() -> bool:
        quiet = waits()
        assert len(quiet) == OTHERS
        with Flooder(parts.udp_port):
            return is_beside(quiet, waits(), max(WINDOW, BUSY * slowest(quiet)))

    assert any(once() for _ in range(TRIES))
    for each in (first, second):
        each.close()
    flooded.close()


@pytest.mark.timed
@pytest.mark.usefixtures("proved")
def test_flood_beside_the_server(pilot: Pilot) -> None:
    """The same with the server itself: 99 % of another gateway's uplinks come out, and the time
    that 99 % of them don't exceed at most doubles."""
    pilot.program.stop()
    store.put(pilot.program.store, [load.record(number, 1) for number in range(METERS)])
    pilot.program.run_on(96, port=pilot.address[1])
    words = ("--network", pilot.network, "--udp", f"{HOST}:{pilot.udp_port}", *NAMED)
    bridge = pilot.own("gateways-udp", *words).start("listens on")
    second, meters = Forwarder(GATEWAYS[1], pilot.udp_port), list(map(load.device, range(METERS)))
    second.look()
    await_that("it is linked", lambda: f"{GATEWAYS[1]}: linked to" in bridge.said())
    application = Application(pilot.address, 0)
    arrivals = Arrivals(lambda: tuple(application.hears(PATIENCE).split(" ")[1:4:2]))
    uplinks = lambda: [
        ((meter.dev_eui, str(meter.next_up)), meter.uplink(7, b"\x01"))
        for meter in [*meters * UPLINKS, meters[0]]
    ]

    def once() -> bool:
        quiet = waits_of(second, uplinks(), arrivals)
        assert len(quiet) == METERS * UPLINKS
        with Flooder(pilot.udp_port):
            return is_beside(quiet, waits_of(second, uplinks(), arrivals), LONGER * slowest(quiet))

    assert any(once() for _ in range(TRIES))
    assert "sends more than" in bridge.said(), "a flood"
    second.close()


def test_flood_by_mqtt(parts: Parts, network: Network) -> None:
    """A gateway floods the bridge of gateways by MQTT."""
    parts.broker().start("running")
    file = parts.file("gateways.prom")
    words = ("--network", network.at, "--broker", f"{HOST}:{parts.broker_port}", *NAMED)
    part = parts.own("gateways-mqtt", *words, "--counts", file, after=TICKS)
    flood = Flood(part.start("connected to"))
    first, second = (Station(eui, parts.broker_port) for eui in GATEWAYS[:2])
    with first, second:
        for gateway in (first, second):
            gateway.look()
            flood.came.append(Arrivals.on(network.link()))
        second.hears(b"first")
        for number in range(SENT):
            first.hears(b"%04d" % number)
        first.client.publish("other", b"", 1).wait_for_publish(PATIENCE)
        second.hears(b"loud", snr=50)
        second.hears(b"last")
        second.client.publish("other", b"", 1).wait_for_publish(PATIENCE)
        await_that("the last frame", lambda: b"last" in flood.came[1].names)
    assert flood.part.end() == 0
    flood.compare(counted(file, "gateways_mqtt_"), "wrong_events")
