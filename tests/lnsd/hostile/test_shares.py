"""A gateway that sends more than it can have heard, by a link to `lnsd run`, beside another one."""

import threading
import time

import pytest
from bozintar import load, wire
from bozintar.links import Application, Ended, Gateway, Silent
from bozintar.server import Program
from bozintar.wire import Copy

from ..conftest import NewServer
from ..pairs import records

# frames of a flood a second, and in a piece
FLOOD, PIECE = 20_000, 500
# uplinks of another gateway a second, of how many devices, for how long in seconds
RATE, DEVICES, LASTS = 100, 200, 6
# the least share that comes out, how many times longer the slowest hundredth may take, and tries
OUT, LONGER, TRIES = 0.99, 2, 3
HOSTILE = load.gateway_eui(1)


@pytest.fixture
def server(new_server: NewServer) -> Program:
    """A server with devices of application 0."""
    return new_server(DEVICES, records(DEVICES, 0))


class Flooder:
    """A gateway that sends 20,000 different frames a second, as far as the server reads them."""

    def __init__(self, address: tuple[str, int]) -> None:
        self.gateway = Gateway(address, HOSTILE)
        self.is_over = False
        self.sent = 0
        self.thread = threading.Thread(target=self.work)

    def piece(self) -> bytes:
        """The next frames."""
        head, heard = b"\x40\x01\x00\x00\x54\x00", Copy(HOSTILE)
        numbers = range(self.sent, self.sent + PIECE)
        return b"".join(wire.copy_of(head + n.to_bytes(6, "big"), heard) for n in numbers)

    def work(self) -> None:
        """Sends them. A piece that the server doesn't read holds up the next ones."""
        begun = time.monotonic()
        try:
            while not self.is_over:
                self.gateway.say(self.piece())
                self.sent += PIECE
                time.sleep(max(0.0, begun + self.sent / FLOOD - time.monotonic()))
        except (OSError, Ended, Silent):
            pass

    def __enter__(self) -> "Flooder":
        self.thread.start()
        return self

    def __exit__(self, *_: object) -> None:
        self.is_over = True
        self.gateway.reset()
        self.thread.join()


def slowest(outcome: load.Outcome) -> float:
    """The time that 99 % of the uplinks don't exceed, from their sending to their lines, in
    seconds."""
    waits = sorted(outcome.waits)
    return float((waits[int(len(waits) * 0.99) - 1] + load.WINDOW) / 1e9)


@pytest.mark.timed
@pytest.mark.usefixtures("proved")
def test_flood_of_one_gateway(server: Program) -> None:
    """99 % of another gateway's uplinks come out, and the time that 99 % of them don't exceed at
    most doubles, in one of three times. The server counts that it slowed the gateway down."""
    address, count = server.run_on(), RATE * LASTS
    frames = load.made(DEVICES, 2 * TRIES * count // DEVICES, 1, 1, 1)
    links = load.Links.to(address, 1, 1)
    times: list[float] = []
    try:
        while len(times) < TRIES and min(times, default=LONGER + 1) > LONGER:
            first = 2 * count * len(times)
            quiet = load.played(links, frames, first, count, RATE)
            with Flooder(address) as flooder:
                loud = load.played(links, frames, first + count, count, RATE)
            assert quiet.wrong == loud.wrong == []
            assert len(quiet.waits) == count
            assert flooder.sent > count, "a flood"
            assert len(loud.waits) >= OUT * count, f"{len(loud.waits)} of {count} uplinks came"
            times.append(slowest(loud) / slowest(quiet))
    finally:
        links.close()
    assert min(times) <= LONGER, f"how many times longer each time: {times}"
    assert int(server.status()["slowed"]) > 0
    assert server.stop()[0] == 0


def test_gateway_that_is_not_slowed(server: Program) -> None:
    """A gateway that sends what it can have heard is never slowed."""
    address, devices = server.run_on(), [load.device(number) for number in range(DEVICES)]
    with Gateway(address, load.gateway_eui(0)) as gateway, Application(address, 0) as application:
        heard = Copy(load.gateway_eui(0))
        # a link may send 400 copies at once when it is half a second old
        time.sleep(0.5)
        for number, device in enumerate(devices):
            gateway.say(wire.copy_of(device.uplink(7, b"\x01"), heard))
            if number % 40 == 39:
                time.sleep(0.1)
        for _ in devices:
            assert application.hears(60).startswith("up ")
    assert server.status()["slowed"] == "0"
    assert server.stop()[0] == 0
