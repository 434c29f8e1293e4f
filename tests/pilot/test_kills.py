"""Each part is killed again and again in the middle of a load, and what that costs is counted."""

import random
import resource
import signal
import time
from collections import Counter

import pytest
from bozintar.frames import CHANNELS
from bozintar.meters import Meter
from bozintar.processes import PATIENCE, await_that

from .hostile import flood
from .parts import run
from .stations import ByStations
from .whole import Whole

pytestmark = [pytest.mark.timed]
METERS, TIMES, RATE = 200, 10, 60
# how long a meter waits for its acknowledgement before it sends on, in seconds
WAIT = 3.0
AWAY = 60.0
# how long the meters send before a part is killed
BETWEEN = {"server": (0.2, 0.6), "broker": (1.0, 2.0), "applications": (0.2, 0.6)}


class Load:
    """Meters that send, each as soon as it was acknowledged or has waited enough."""

    def __init__(self, whole: Whole, seed: int) -> None:
        self.whole, self.air, self.chance = whole, whole.air, random.Random(seed)
        # of each meter: until when it waits, and the frame that it sent last
        self.due: dict[int, float] = {}
        self.frames: dict[int, tuple[bytes, int, int]] = {}
        self.sent = 0

    def send(self, meter: Meter) -> None:
        """A reading, or the last one again if it wasn't acknowledged."""
        is_open = meter.awaited and meter.awaited not in meter.acknowledged
        if not (is_open and meter.number in self.frames and self.chance.random() < 0.5):
            rate, hz = self.chance.randrange(6), self.chance.choice(CHANNELS)
            self.frames[meter.number] = (meter.reads(), hz, rate)
        self.whole.send(*self.frames[meter.number])
        self.due[meter.number] = time.monotonic() + WAIT
        self.sent += 1

    def is_free(self, meter: Meter) -> bool:
        """Whether it may send."""
        is_done = meter.awaited is None or meter.awaited in meter.acknowledged
        return is_done or time.monotonic() > self.due.get(meter.number, 0)

    def go_on(self, seconds: float, rate: float = RATE) -> None:
        """Meters send for this many seconds, at most at this rate."""
        last = time.monotonic() + seconds
        while time.monotonic() < last:
            meter = self.chance.choice(self.air.meters)
            if self.is_free(meter):
                self.send(meter)
            self.air.go_on(1 / rate)

    def rest(self, seconds: float = 600.0) -> bool:
        """Each meter sends until it is acknowledged; whether all are."""
        last, waiting = time.monotonic() + seconds, list(self.air.meters)
        for meter in waiting:
            meter.awaited = None
        while waiting and time.monotonic() < last:
            for meter in waiting:
                if self.is_free(meter):
                    self.send(meter)
                    self.air.go_on(1 / RATE)
            self.air.go_on(0.2)
            waiting = [meter for meter in waiting if meter.awaited not in meter.acknowledged]
        return not waiting


def killed(whole: Whole, load: Load, name: str) -> None:
    """Kills one of the parts, and starts it again."""
    if name == "server":
        whole.pilot.restart_server()
        return
    part = getattr(whole, name)
    part.kill()
    load.go_on(load.chance.uniform(0, 0.4))
    part.start()


def changed_forwarders(whole: Whole, chance: random.Random) -> None:
    """A forwarder starts again with another clock, or has another port."""
    forwarder = chance.choice(whole.air.gateways)
    if chance.random() < 0.5:
        forwarder.restart(begins=chance.randrange(2**32))
    else:
        forwarder.move()


def no_mark_twice(whole: Whole) -> None:
    """No mark twice: no counter of a downlink, and nothing stored that wasn't sent so."""
    stored = whole.stored()
    for meter in whole.meters:
        counts = Counter(heard.mark for heard in meter.downlinks)
        twice = [heard for heard in meter.downlinks if counts[heard.mark] > 1]
        assert twice == [], f"downlinks that {meter.dev_eui} heard twice"
    sent = {mark: payload for meter in whole.meters for mark, payload in meter.sent.items()}
    strange = {mark for mark, payload in stored.items() if sent.get(mark) != payload}
    assert strange == set(), "stored, and not sent so"


def losses_are_counted(whole: Whole) -> None:
    """What isn't stored is counted by the report: by counters, and by what the server took."""
    whole.pilot.program.stop()
    listed = whole.pilot.file("list", "\n".join(whole.pilot.program.list()) + "\n")
    status, told, _ = run("readings", "--db", whole.database, "--report", "--list", listed)
    assert status == 0
    stored, acknowledged = whole.stored(), whole.acknowledged()
    of_device = Counter(mark.device for mark in stored)
    lost = Counter(mark.device for mark in acknowledged if mark not in stored)
    *lines, total = told.splitlines()
    assert of_device and {line.split(" ")[0] for line in lines} >= of_device.keys()
    for line in lines:
        device, _, count, _, missing, _, taken, _, less, *_ = line.split(" ")
        assert int(count) == of_device[device], f"stored of {device}"
        is_so = int(less) == int(taken) - int(count) and int(less) >= lost[device]
        assert is_so, f"{line}, and {lost[device]} of them weren't counted"
        assert int(missing) >= lost[device], f"{line}: gaps"
    print(f"  {len(acknowledged)} acknowledged, {sum(lost.values())} lost; {total}")


@pytest.mark.slow
@pytest.mark.parametrize("meters", [METERS])
def test_each_part(whole: Whole, seed: int) -> None:
    """200 meters; each part is killed ten times."""
    load = Load(whole, seed)
    for name in ("readings", "gateways"):
        for _ in range(TIMES):
            load.go_on(load.chance.uniform(0.2, 0.6))
            killed(whole, load, name)
    whole.air.go_on(PATIENCE, lambda: whole.gateways.said().count("linked") >= 3)
    assert load.rest(), "all are acknowledged"
    assert whole.await_stored(whole.acknowledged()), "none is lost"
    # it writes who its clients are, as one has that runs for longer
    whole.broker.send_signal(signal.SIGUSR1)
    for _ in range(TIMES):
        for name in ("server", "broker", "applications"):
            load.go_on(load.chance.uniform(*BETWEEN[name]))
            killed(whole, load, name)
        changed_forwarders(whole, load.chance)
    whole.air.go_on(PATIENCE, lambda: whole.pilot.program.status()["gateways"] == "3")
    assert load.rest(), "all are acknowledged again"
    marks = {meter.awaited: meter for meter in whole.meters if meter.awaited}
    last = {mark: meter.sent[mark] for mark, meter in marks.items()}
    assert whole.await_stored(last), "the last ones are stored"
    no_mark_twice(whole)
    losses_are_counted(whole)


@pytest.mark.parametrize("meters", [20])
def test_gateways_by_mqtt(by_stations: ByStations, seed: int) -> None:
    """The bridge of gateways by MQTT is killed ten times, and then stopped without its broker."""
    load = Load(by_stations, seed)
    for _ in range(TIMES):
        load.go_on(load.chance.uniform(0.2, 0.6))
        killed(by_stations, load, "gateways")
    by_stations.air.go_on(PATIENCE, lambda: by_stations.pilot.program.status()["gateways"] == "3")
    assert load.rest(), "all are acknowledged"
    assert by_stations.await_stored(by_stations.acknowledged()), "none is lost"
    no_mark_twice(by_stations)
    said = {part: len(part.said()) for part in by_stations.pilot.all}
    by_stations.broker.end()
    for part in (by_stations.gateways, by_stations.applications):
        await_that("the broker is missed", lambda: part.said().rfind("no broker at") > said[part])
        assert part.end() == 0, f"{part.name} ends without the broker"


@pytest.mark.slow
@pytest.mark.parametrize("meters", [30])
def test_broker_away(whole: Whole, seed: int) -> None:
    """The broker is away for a minute, in which strangers flood the gateways' port; then a disk
    is full. Nothing is lost."""
    load = Load(whole, seed)
    load.go_on(2)
    before, count = whole.gateways.memory(), len(whole.acknowledged())
    whole.broker.end()
    last, sent = time.monotonic() + AWAY, 0
    while time.monotonic() < last:
        sent += flood(whole.pilot.udp_port, load.chance, 200)
        load.go_on(0.5)
    acknowledged = whole.acknowledged()
    assert len(acknowledged) > count + 60, "readings are acknowledged meanwhile"
    grown = whole.gateways.memory() - before
    assert grown < 8192, f"KiB by which memory grew, by {sent} datagrams"
    whole.broker.start()
    assert whole.await_stored(acknowledged), "none is lost"
    full_disk(whole, load)
    assert load.rest(), "all are acknowledged"
    assert whole.await_stored(whole.acknowledged()), "none is lost"
    no_mark_twice(whole)


def full_disk(whole: Whole, load: Load) -> None:
    """The database can't grow: readings ends, says why, and the broker keeps what comes."""
    resource.prlimit(whole.readings.pid, resource.RLIMIT_FSIZE, (4096, 4096))
    last = time.monotonic() + PATIENCE
    while whole.readings.is_running() and time.monotonic() < last:
        load.go_on(0.2)
    assert whole.readings.ended() == 1, "the status of readings on a full disk"
    said = whole.readings.said().strip().splitlines()[-1]
    assert said.startswith("readings: ") and "disk" in said, f"it says why: {said}"
    load.go_on(1)
    whole.readings.start("connected")
