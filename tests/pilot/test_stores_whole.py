"""Whole networks of many stores, with servers, bridges, a broker and gateways: joins, readings and
commands through all of it; more gateways than names; and one gateway that comes by two bridges in
turn."""

import asyncio
import base64
import itertools
import time
from collections import Counter
from collections.abc import Iterator

import pytest
from bozintar import load, wire
from bozintar.devices import Device
from bozintar.forwarders import Air, Forwarder
from bozintar.links import Application, Gateway, Silent
from bozintar.meters import Meter
from bozintar.network import NET_ID
from bozintar.processes import HOST, await_all, await_that
from bozintar.wire import Copy
from bridges.routes import Routes

from .field import APPLICATION, GATEWAYS, Field, counts_in
from .store_servers import Servers
from .whole import LONG, Dashboard

# the stores, two of one NetID, and how many devices each has
NET_IDS, EACH = {"d00": 0, "d01": 1, "d02": 0}, 100
# gateways and names, copies of a frame, and frames
MANY, NAMES, COPIES, FRAMES = 80, 8, 3, 27
# how long a link is held after a copy, in seconds, with some more; and how often a frame is sent
# whose copies don't come in its window
HELD, TRIES = 1.2, 40
QUIET = 3.0


class City(Field):
    """Three stores as one network: servers, bridges, a broker, gateways, and meters that are
    claimed for the stores."""

    def __init__(self, servers: Servers) -> None:
        self.servers, self.meters_of = servers, dict[str, list[Meter]]()
        for at, (name, net_id) in enumerate(NET_IDS.items()):
            servers.add(name, net_id, EACH)
            self.meters_of[name] = [Meter(at * EACH + number) for number in range(EACH)]
        whose = [(meter, name) for name, those in self.meters_of.items() for meter in those]
        claims = "".join(f"{meter.dev_eui} {name}\n" for meter, name in whose)
        self.claims = servers.file("claims", claims)
        rows = "".join(f"{meter.row()}\n" for meter, _ in whose)
        self.file = servers.file("devices.csv", rows)
        servers.broker().start("running")
        self.dashboard = Dashboard(servers.broker_port)
        self.applications = servers.own("applications-mqtt", *self.words_of_applications())
        self.gateways = servers.own("gateways-udp", *self.words_of_gateways()).start("listens on")
        made = [Forwarder(eui, servers.udp_port) for eui in GATEWAYS]
        self.air = Air(made, [meter for meter, _ in whose])

    def words_of_applications(self) -> tuple:
        """The words of the application's bridge."""
        broker = ("--broker", f"{HOST}:{self.servers.broker_port}", "--application", APPLICATION)
        files = ("--claims", self.claims, "--devices", self.file)
        return ("--stores", self.servers.stores, *broker, *files)

    def words_of_gateways(self) -> tuple:
        """The words of the gateways' bridge."""
        self.counts = self.servers.file("gateways.prom")
        named = [word for eui in GATEWAYS for word in ("--gateway", eui)]
        files = ("--stores", self.servers.stores, "--devices", self.claims)
        udp = ("--udp", f"{HOST}:{self.servers.udp_port}", "--counts", self.counts)
        return (*files, *udp, *named)

    def provision(self) -> None:
        """Waits until all devices are there."""
        self.applications.start()
        for name in NET_IDS:
            text = f"{self.file}, {name}: {EACH} devices are there, 0 aren't"
            await_that(text, lambda: self.applications.has_said(text), LONG)

    def readings(self) -> None:
        """Each meter sends a reading, which is acknowledged; some at a time."""
        for first in range(0, len(self.meters), 20):
            some = self.meters[first : first + 20]
            for meter in some:
                self.send(meter.reads())
            due = [meter.awaited for meter in some]
            are_there = lambda: all(mark in it.acknowledged for mark, it in zip(due, some))
            assert self.air.go_on(LONG, are_there), "all are acknowledged"

    def listed(self) -> Routes:
        """Routes that have the servers' lists of devices."""
        programs = self.servers.programs.items()
        lines = [f"{name} {line}\n" for name, program in programs for line in program.devices()[0]]
        file = self.servers.file("sessions", "".join(lines))
        made = Routes(self.servers.stores, sessions=file)
        asyncio.run(made.look())
        return made

    def stores_of(self, kind: str, count: int) -> Counter[str]:
        """From how many devices of each store events of a kind came, once there are this many;
        each event comes from its own store, once."""
        events = lambda: [event for event in self.dashboard.events if event[1] == kind]
        await_all(f"{count} {kind}", lambda: len(events()) >= count, LONG)
        due = {meter.dev_eui: name for name, those in self.meters_of.items() for meter in those}
        found = {device: body["deviceInfo"]["store"] for device, _, body in events()}
        assert len(events()) == count and found.items() <= due.items()
        return Counter(found.values())


def uplink_of(address: int) -> bytes:
    """The bytes of an uplink of a session that routing looks at."""
    return b"\x40" + address.to_bytes(4, "little") + bytes(7)


@pytest.fixture
def servers(program: str) -> Iterator[Servers]:
    """Servers, once they are added."""
    with Servers(program) as made:
        yield made


@pytest.fixture
def city(servers: Servers) -> Iterator[City]:
    """The three stores."""
    made = City(servers)
    yield made
    made.dashboard.end()
    for forwarder in made.air.gateways:
        forwarder.close()


@pytest.mark.slow
def test_three_stores(city: City) -> None:
    """All devices of three stores join, send readings, and get commands. Each has the NetID of the
    store that it is claimed for, although two stores have one NetID, and so the same addresses."""
    city.provision()
    assert city.join(LONG), "all meters join"
    for name, net_id in NET_IDS.items():
        addresses = {meter.session()[0] >> 13 for meter in city.meters_of[name]}
        assert addresses == {net_id << 12 | slot for slot in range(EACH)}
    each = dict.fromkeys(NET_IDS, EACH)
    city.readings()
    assert city.stores_of("up", 3 * EACH) == each
    for meter in city.meters:
        data = base64.b64encode(meter.number.to_bytes(2, "big")).decode()
        city.dashboard.down(meter.dev_eui, fPort=7, data=data)
    assert city.stores_of("queued", 3 * EACH) == each
    city.readings()
    assert [meter.items for meter in city.meters] == [
        [meter.number.to_bytes(2, "big")] for meter in city.meters
    ]
    city.stores_of("up", 6 * EACH)
    assert not [event for event in city.dashboard.events if event[1] == "log"]
    listed = city.listed()
    for name, those in city.meters_of.items():
        for address, _ in map(Meter.session, those):
            assert listed.may_have(name, uplink_of(address))
            assert not listed.may_have(name, uplink_of(address + 99))
    assert city.gateways.end() == 0
    counts = counts_in(city.counts)
    due = ("unlinked", "crowded", "nowhere", "not_sent", "out_of_time")
    first = counts["gateways_udp_unlinked"] - counts["gateways_udp_caught_up"]
    assert [first, *(counts[f"gateways_udp_{name}"] for name in due[1:])] == [0] * len(due)


def test_many_gateways(servers: Servers) -> None:
    """80 gateways send by 8 names. Each of three copies of a frame is counted in its window, and
    the downlink comes to the gateway that heard it best, and to no other."""
    server = servers.add_loaded("d00", FRAMES)
    at = servers.router("--names", NAMES, after=servers.clock.line)
    gateways = [Gateway(at, load.gateway_eui(number)) for number in range(MANY)]
    application = Application(server.address or at, 0)
    late, turns = set[Gateway](), itertools.cycle(gateways)

    def is_well(meter: Device) -> bool:
        # so that three more names than those in use are free
        servers.clock.go_on(HELD / 2)
        those = [next(turns) for _ in range(COPIES)]
        if all_are_counted(application, meter, those):
            return True
        time.sleep(1)  # until what is late has come
        servers.clock.go_on(HELD)
        late.update(those)
        return False

    for meter in map(load.device, range(FRAMES)):
        assert any(is_well(meter) for _ in range(TRIES)), "all copies come in a window"
    for gateway in gateways:
        if gateway not in late:
            with pytest.raises(Silent):
                gateway.read(0.001)
        gateway.close()
    assert int(server.status()["gateways"]) <= NAMES
    application.close()


def all_are_counted(application: Application, meter: Device, those: list[Gateway]) -> bool:
    """Gateways hand in the next frame of a meter; whether all copies are counted in its window, as
    they are if the machine doesn't pause."""
    stamp = int(meter.dev_eui[-4:], 16) * 1000 + meter.next_up
    frame = meter.uplink(7, b"\x01", confirmed=True)
    for place, gateway in enumerate(those):
        gateway.hands_in(frame, Copy(gateway.eui, snr=place, stamp=stamp))
    words = application.hears().split(" ")
    assert words[:2] == ["up", meter.dev_eui]
    best = next(gateway for gateway in those if gateway.eui == words[7])
    while best.order().stamp != stamp:
        pass  # of an earlier frame, a copy of which came late
    return words[6:8] == [str(len(those)), those[-1].eui]


def test_two_bridges_in_turn(servers: Servers) -> None:
    """A gateway comes by two bridges in turn. Each takes its name over when it hands in a frame,
    and neither does while nothing is heard; no frame and no downlink is lost."""
    server = servers.add_loaded("d00", 1)
    bridges = [servers.router(), servers.router()]
    application, meter = Application(server.address or bridges[0], 0), load.device(0)
    taken_over = lambda: int(server.status()["taken_over"])
    for number in range(4):
        with Gateway(bridges[number % 2], load.gateway_eui(0)) as gateway:
            frame = meter.uplink(7, load.payload(0, meter.next_up), confirmed=True)
            gateway.hands_in(frame, Copy(gateway.eui, stamp=number))
            words = application.hears().split(" ")
            assert (words[0], words[3]) == ("up", str(number + 1))
            downlink = gateway.order()
            assert downlink.stamp == number
            meter.take_downlink(downlink.frame)
            assert taken_over() == number
            assert quiet(application) and taken_over() == number, "nothing is heard"
    application.close()


def test_server_that_is_killed(servers: Servers) -> None:
    """A server is killed and started again. What is heard then goes to it, and other stores get
    theirs meanwhile."""
    names, meter = ("d00", "d01"), load.device(0)
    killed, other = (servers.add(name, net_id, 8, [0]) for name, net_id in zip(names, (NET_ID, 1)))
    at = servers.router()
    with Gateway(at, load.gateway_eui(0)) as gateway:
        for number in range(2):
            with Application(killed.address or at, 0) as application:
                frame = meter.uplink(7, load.payload(0, meter.next_up))
                gateway.hands_in(frame, Copy(gateway.eui, stamp=number))
                assert application.hears().split(" ")[:4] == [
                    "up",
                    meter.dev_eui,
                    "1",
                    str(number + 1),
                ]
            if not number:
                killed.kill()
                gateway.hands_in(uplink_of(1 << 25), Copy(gateway.eui))
                is_linked = lambda: other.status()["gateways"] == "1"
                await_that("the other store gets its frame", is_linked)
                killed.run_on(96, port=killed.address[1] if killed.address else None)


def quiet(application: Application) -> bool:
    """Whether no line comes for some time."""
    try:
        wire.line_of(application.read(QUIET))
    except Silent:
        return True
    return False
