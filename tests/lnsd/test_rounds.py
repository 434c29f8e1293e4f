"""Rounds of one to three uplinks on servers that are otherwise idle. Between rounds all threads of
a server sleep, so an uplink comes out late, or never, if a wake-up is lost."""

import random
import time
from collections.abc import Callable, Iterator
from concurrent.futures import ThreadPoolExecutor
from pathlib import Path

import pytest
from bozintar import load, wire
from bozintar.devices import Device
from bozintar.links import Silent
from bozintar.server import Program

from .clocks import await_rest
from .conftest import NewServer
from .pairs import HEARD, OWNER, WINDOW, end_all, linked, records

# the rounds of all servers together, and the number of servers, which run beside each other; and
# those of an unproved program, which takes long for each uplink
ROUNDS, UNPROVED = (1000, 8), (40, 2)
# the most uplinks of a round, each of a device of its own
MOST = 3
# how long after a window an uplink may be due while the server is at rest, in seconds
LIMIT = 2.0
# the longest pause between two rounds, in seconds
LONGEST_PAUSE = 0.1
COUNTS = {
    "serve": "dropped 0\nfaulted 0\n",
    "run": "dropped 0\nfaulted 0\ntaken_over 0\nsilent 0\n",
}


class Player:
    """A gateway, an application and the devices of one server."""

    def __init__(self, server: Program, mode: str, chance: random.Random):
        if mode == "run":
            server.run_on(2)
        self.server, self.mode, self.chance = server, mode, chance
        self.application, self.gateway = linked(server)
        self.devices = [load.device(number) for number in range(MOST)]
        # the lines that are due, and when their windows close
        self.due: dict[str, float] = {}

    def play(self, rounds: int) -> None:
        """Plays rounds, and ends the server."""
        for number in range(rounds):
            for device, pause in zip(self.chance.sample(self.devices, MOST), self.pauses()):
                self.hear(time.monotonic() + pause)
                self.send(device)
            self.hear(max(self.due.values()) + LIMIT, is_over=lambda: not self.due)
            if self.due:
                await_rest(self.server)
                self.hear(time.monotonic(), is_over=lambda: not self.due)
            late = f"round {number} of {self.mode}, {LIMIT} s after the last window: {self.due}"
            assert not self.due, late
            time.sleep(self.chance.uniform(0, LONGEST_PAUSE))
        self.end()

    def pauses(self) -> Iterator[float]:
        """The pauses before the uplinks of a round: none before the first one. The next ones come
        beside it, or while its window closes."""
        yield 0
        for _ in range(self.chance.randrange(MOST)):
            beside, closing = self.chance.uniform(0, 0.005), self.chance.gauss(WINDOW, 0.003)
            yield self.chance.choice((0, beside, max(0, closing)))

    def send(self, device: Device) -> None:
        """The device's next uplink."""
        number, counter = self.devices.index(device), device.next_up
        payload = load.payload(number, counter)
        frame = device.uplink(7, payload)
        words = f"up {device.dev_eui} 1 {counter} 7 {wire.byte_text(payload)}"
        self.due[f"{words} 1 {HEARD.heard()}"] = time.monotonic() + WINDOW
        self.gateway.hands_in(frame, HEARD)

    def hear(self, until: float, is_over: Callable[[], bool] = lambda: False) -> None:
        """Takes the lines that come, until then or until it is over."""
        while not is_over():
            try:
                line = self.application.hears(until - time.monotonic())
            except Silent:
                return
            assert line in self.due, f"in {self.mode} a line came that wasn't due: {line}"
            del self.due[line]

    def end(self) -> None:
        """The server ends, and nothing was lost."""
        links = [self.application, self.gateway]
        if self.mode == "serve":
            end_all(links)
            ended = self.server.ended()
        else:
            ended = self.server.stop()
            assert [link.rest() for link in links] == [[], []], "what came after all that was due"
        assert ended == (0, "", COUNTS[self.mode])


@pytest.mark.timed
@pytest.mark.parametrize("mode", ["serve", "run"])
def test_idle_server(new_server: NewServer, program: str, mode: str, seed: int) -> None:
    """No uplink is due two seconds after its window while the server is at rest."""
    is_unproved = Path(program).parent.name == "unproved"
    rounds, servers = UNPROVED if is_unproved else ROUNDS
    made = [new_server(records=records(MOST, OWNER)) for _ in range(servers)]
    shares = [rounds // servers + (number < rounds % servers) for number in range(servers)]
    with ThreadPoolExecutor(servers) as threads:
        players = [
            Player(server, mode, random.Random(f"{seed} {number}"))
            for number, server in enumerate(made)
        ]
        list(threads.map(Player.play, players, shares))
