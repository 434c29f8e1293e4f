"""What many clients, or one that says much, may take of the door and of the broker. Both have as
many descriptors here as Debian's units give them."""

import json
import os
import resource
import signal
import socket
import time
from collections.abc import Iterator
from contextlib import ExitStack, contextmanager
from pathlib import Path

import pytest
from bozintar.mqtt import client
from bozintar.processes import HOST, PATIENCE, await_that

from .doors import Doors, application, ended, gateway, refused_by_broker
from .field import APPLICATION, GATEWAYS
from .whole import Client, Dashboard

pytestmark = [pytest.mark.timed]
OF_A_UNIT, OF_A_TRIAL = 1024, 4096
# silent connections: more than the door has places for, and than a unit has descriptors
AT_THE_DOOR, AT_THE_BROKER = 600, 1100
# what they may take of memory at the door, in KiB
MOST_MEMORY = 65_536
# lets none of them end by itself
LASTING = "program.PATIENCE = 600.0"
DEVICE = "1112131415161718"
TOPIC = f"application/{APPLICATION}/device/{DEVICE.lower()}"
# the settings of pilot/mosquitto.conf: a payload, what waits for a client, seconds between writes
LONGEST, WAITING, EVERY = 65_536, 80_000_000, 30
# for how long the broker doesn't write after its start, in seconds; and when it writes at the
# latest, also on a slow machine (by itself mosquitto writes twice an hour)
SOON, LATE = 4.0, 10 * EVERY


@contextmanager
def descriptors(count: int) -> Iterator[None]:
    """This program, and what it starts, may have this many descriptors."""
    before, most = resource.getrlimit(resource.RLIMIT_NOFILE)
    resource.setrlimit(resource.RLIMIT_NOFILE, (count, most))
    try:
        yield
    finally:
        resource.setrlimit(resource.RLIMIT_NOFILE, (before, most))


@contextmanager
def silent(port: int, count: int) -> Iterator[None]:
    """Clients that connect and say nothing."""
    with descriptors(OF_A_TRIAL), ExitStack() as those:
        for _ in range(count):
            those.enter_context(socket.create_connection((HOST, port), PATIENCE))
        yield


@pytest.fixture
def broker(doors: Doors) -> Doors:
    """The broker, with the descriptors of its unit."""
    with descriptors(OF_A_UNIT):
        doors.open_broker()
    return doors


@pytest.fixture
def door(doors: Doors) -> Doors:
    """The server's door, with the descriptors of its unit."""
    with descriptors(OF_A_UNIT):
        doors.open(after=LASTING)
    return doors


def test_silent_server(door: Doors) -> None:
    """A gateway's end of the door gives up a server that says nothing."""
    with socket.create_server((HOST, 0)) as server:
        port = door.open_client(server.getsockname()[1])
        with socket.create_connection((HOST, port), PATIENCE) as link:
            link.sendall(gateway(GATEWAYS[0]))
            assert ended(link)


@pytest.mark.slow
def test_silent_clients_at_the_door(door: Doors) -> None:
    """Silent clients keep nobody out, and a link that is idle stays. They take no process each, and
    little memory."""
    context, mine = door.own.context(GATEWAYS[0].lower()), door.own.context("application-3")
    with door.linked(context, gateway(GATEWAYS[0])), silent(door.port, AT_THE_DOOR):
        let_in = lambda: door.connect(mine, application(3))
        await_that("an application is let in beside silent ones", let_in)
        assert door.door.memory() < MOST_MEMORY
        children = Path(f"/proc/{door.door.pid}/task/{door.door.pid}/children")
        assert not children.read_text(encoding="ascii")
        assert door.pilot.program.status()["gateways"] == "1", "an idle link stays"


def test_silent_clients_elsewhere(doors: Doors) -> None:
    """Silent clients of many addresses keep nobody out, either: they share all places."""
    doors.open("--connections", "40", "--by-address", "10", after=LASTING)
    mine = doors.own.context("application-3")
    with ExitStack() as those:
        for number in range(80):
            source = (f"127.0.1.{number}", 0)
            connection = socket.create_connection((HOST, doors.port), PATIENCE, source)
            those.enter_context(connection)
        let_in = lambda: doors.connect(mine, application(3))
        await_that("an application is let in beside silent ones", let_in)


def test_links_of_an_address(doors: Doors) -> None:
    """An address gets no more links than its places, and those that it has stay."""
    doors.open("--by-address", "2")
    context, (one, two) = doors.own.context(GATEWAYS[0].lower()), map(gateway, GATEWAYS[:2])
    with doors.linked(context, one), doors.linked(context, two, 1):
        assert doors.connect(doors.own.context("application-3"), application(3)) is None
        assert doors.pilot.program.status()["gateways"] == "2"
    said = f"{HOST} isn't let in: others have all places"
    await_that("the door logs it", lambda: doors.door.has_said(said))


def test_silent_clients_at_the_broker(broker: Doors) -> None:
    """Clients from outside leave descriptors to those of loopback; once they are gone, others from
    outside are let in."""
    context, port = broker.own.context(GATEWAYS[0].lower()), broker.broker_port
    with silent(port, AT_THE_BROKER):
        is_refused = refused_by_broker(broker.pilot.broker_port)
        assert not is_refused, "a client on loopback is let in beside silent ones outside"
    await_that("one from outside is let in", lambda: not refused_by_broker(port, context))


def test_long_messages(broker: Doors) -> None:
    """The longest message is passed on, and a longer one isn't; its client goes on."""
    with Dashboard(broker.pilot.broker_port) as dashboard:
        for length in (LONGEST, LONGEST + 1, 3):
            dashboard.say(f"{TOPIC}/event/up", json.dumps("x" * (length - 2)).encode())
        await_that("the last one", lambda: dashboard.events and dashboard.events[-1][2] == "x")
        came = [len(json.dumps(body)) for _, _, body in dashboard.events]
    assert came == [LONGEST, 3], "the lengths of what is passed on"


class Kept(Client):
    """A client whose session the broker keeps while it is away."""

    def __init__(self, port: int) -> None:
        self.numbers: list[int] = []
        self.port, self.is_there = port, False
        self.client = client("kept")
        self.client.reinitialise("kept", clean_session=False)
        self.client.on_message = lambda *words: self.numbers.append(int(words[2].payload))
        self.client.on_connect = lambda connected, *_: connected.subscribe(
            f"{TOPIC}/command/down", 1
        )
        self.client.on_subscribe = lambda *_: setattr(self, "is_there", True)

    def come(self) -> None:
        """Connects."""
        self.client.connect(HOST, self.port)
        self.client.loop_start()
        await_that("a client is there", lambda: self.is_there)

    def go(self) -> None:
        """Goes away."""
        self.end()
        self.is_there = False


@pytest.mark.slow
def test_when_the_broker_writes(broker: Doors) -> None:
    """The broker writes what waits to its disk: not each second, but twice a minute."""
    begun, file = time.monotonic(), broker.pilot.file("mosquitto.db")
    with Kept(broker.pilot.broker_port) as kept:
        kept.come()
    time.sleep(max(0.0, begun + SOON - time.monotonic()))
    assert not os.path.exists(file), "the broker doesn't write each second"
    await_that("the broker writes", lambda: os.path.exists(file), LATE)


def test_what_waits(broker: Doors) -> None:
    """The broker keeps 80 MB for a client that is away, and drops what comes then. It keeps
    them when it is stopped."""
    port, count = broker.pilot.broker_port, WAITING // LONGEST + 50
    kept = Kept(port)
    kept.come()
    kept.go()
    said = [f"{number:<{LONGEST}}".encode() for number in range(count)]
    with Dashboard(port) as dashboard:
        for payload in said[:-1]:
            dashboard.client.publish(f"{TOPIC}/command/down", payload, 1)
        dashboard.say(f"{TOPIC}/command/down", said[-1])
    assert broker.broker.end(signal.SIGTERM) == 0
    broker.broker.start("running")
    with kept:
        kept.come()
        due = list(range(WAITING // LONGEST + 1))
        with Dashboard(port) as dashboard:
            dashboard.say(f"{TOPIC}/command/down", b"-1")
        await_that("what waited, and the next one", lambda: -1 in kept.numbers)
        assert kept.numbers == [*due, -1], "which ones waited"
