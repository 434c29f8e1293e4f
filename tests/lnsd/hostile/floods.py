"""Applications that get more than they read."""

from bozintar import load, wire
from bozintar.links import Application, Gateway
from bozintar.server import Program

from ..clocks import Clock, await_rest
from ..pairs import EUI, HEARD, OWNER

# uplinks with long payloads, 8 of each device
LONG = 16_000
DEVICES = LONG // 8
# uplinks that come at once, each 0.1 seconds: so there are always fewer than 1,024 windows
AT_ONCE, PAUSE = 320, 0.1
# what a link that doesn't read holds unread, in bytes
ROOM = 4096
# how long a client waits for a server that has much to do, in seconds
PATIENCE = 120


class Flood:
    """A gateway with 16,000 long uplinks, and an application that doesn't read their 2.5 MB."""

    def __init__(self, program: Program, clock: Clock, how: dict[str, str]):
        self.program, self.clock = program, clock
        address = program.serve(2, env=how)
        self.gateway = Gateway(address, EUI, patience=PATIENCE)
        self.mute = Application(address, OWNER, patience=PATIENCE, room=ROOM)
        await_rest(program, [self.gateway, self.mute])

    def sent(self) -> "Flood":
        """All uplinks are handed in, each once the server has committed what it decided before, and
        the inputs end."""
        devices = [load.device(number) for number in range(DEVICES)]
        frames = (each.uplink(7, bytes(222)) for _ in range(8) for each in devices)
        said = [wire.copy_of(frame, HEARD) for frame in frames]
        for at in range(0, LONG, AT_ONCE):
            self.gateway.say(b"".join(said[at : at + AT_ONCE]))
            self.clock.passes(PAUSE, self.program, [self.gateway])
        for link in (self.gateway, self.mute):
            link.end()
        await_rest(self.program, [self.gateway, self.mute])
        return self

    def lines(self) -> int:
        """How many lines `up` come until the server closes the link."""
        return sum(content.startswith(b"\x13up ") for content in self.mute.rest(PATIENCE))

    def close(self) -> None:
        """Closes both links."""
        self.gateway.close()
        self.mute.close()


def decided(program: Program) -> int:
    """The number of the last decision in the store."""
    return int(program.list()[-1].split(" ")[3])
