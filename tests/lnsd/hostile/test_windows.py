"""More gateways, copies and windows than the server takes, and which copy counts. The server's
clock stands still, so each copy comes at the moment that a trial gives it."""

from collections.abc import Sequence
from dataclasses import replace

import pytest
from bozintar import load, network, wire
from bozintar.devices import Device
from bozintar.frames import FIRST_CHANNELS, LATER_CHANNELS
from bozintar.links import Application, Gateway, Link
from bozintar.server import Program
from bozintar.wire import Copy

from ..clocks import Clock, await_rest
from ..conftest import NewServer
from ..pairs import EUI, HEARD, OWNER, WINDOW, finish, linked, records

# how far a clock is put back, in seconds
LONG = 60


def euis(count: int) -> list[str]:
    """Names of gateways."""
    return [f"{0xE000000000000000 + number:016X}" for number in range(count)]


def up(number: int, counter: int, copies: int, heard: Copy, join_nonce: int = 1) -> str:
    """The line of a device's uplink."""
    words = f"up {load.dev_eui(number)} {join_nonce} {counter} 7"
    text = wire.byte_text(load.payload(number, counter))
    return f"{words} {text} {copies} {heard.heard()}"


def sent(device: Device, number: int = 0) -> bytes:
    """The device's next uplink."""
    return device.uplink(7, load.payload(number, device.next_up))


@pytest.fixture
def server(new_server: NewServer) -> Program:
    """A server whose store has a device in its session."""
    return new_server(records=records(1, OWNER))


@pytest.fixture
def device() -> Device:
    """This device."""
    made: Device = load.device(0)
    return made


def gateways_of(server: Program, clock: Clock, count: int) -> tuple[Application, list[Gateway]]:
    """An application and this many gateways, which the server has taken."""
    address = server.serve(count + 1, env=clock.how)
    application = Application(address, OWNER)
    gateways = [Gateway(address, eui) for eui in euis(count)]
    await_rest(server, [application, *gateways])
    return application, gateways


def hand_in(frame: bytes, gateways: Sequence[Gateway], copies: Sequence[Copy]) -> None:
    """Each gateway hands in a copy of a frame."""
    for gateway, copy in zip(gateways, copies):
        gateway.hands_in(frame, copy)


def test_65th_gateway(server: Program, clock: Clock, device: Device) -> None:
    """64 gateways are linked, and a 65th is read no further."""
    address = server.serve(66, env=clock.how)
    application, last = Application(address, OWNER), Link(address)
    first = [Gateway(address, eui) for eui in euis(64)]
    await_rest(server, [application, *first])
    last.say(wire.gateway_greeting(EUI))
    await_rest(server, [last])
    last.say(wire.copy_of(sent(device), HEARD))
    clock.passes(WINDOW, server, [last])
    heard = Copy(first[63].eui)
    first[63].hands_in(sent(device), heard)
    clock.passes(WINDOW, server, first)
    assert application.hears() == up(0, 2, 1, heard)
    finish(server, [application, *first, last], faulted=1)


def test_33rd_copy(server: Program, clock: Clock, device: Device) -> None:
    """40 gateways hear one frame, and 32 copies count."""
    application, gateways = gateways_of(server, clock, 40)
    hand_in(sent(device), gateways, [Copy(gateway.eui) for gateway in gateways])
    clock.passes(WINDOW, server, gateways)
    words = application.hears().split(" ")
    assert words[:4] == ["up", load.dev_eui(0), "1", "1"]
    assert words[6] == "32", "how many copies count"
    finish(server, [application, *gateways])


def test_second_copy_of_a_gateway(server: Program, clock: Clock, device: Device) -> None:
    """A gateway's second copy of a frame doesn't count, also if it heard that better."""
    application, gateways = gateways_of(server, clock, 1)
    frame, eui = sent(device), gateways[0].eui
    first, better = Copy(eui, snr=-30), Copy(eui, snr=10)
    gateways[0].say(wire.copy_of(frame, first) + wire.copy_of(frame, better))
    clock.passes(WINDOW, server, gateways)
    assert application.hears() == up(0, 1, 1, first)
    finish(server, [application, *gateways])


def test_reception_that_cannot_be(server: Program, clock: Clock, device: Device) -> None:
    """What was heard on no channel of the session, or in no data rate of it, isn't taken."""
    application, gateways = gateways_of(server, clock, 1)
    eui = gateways[0].eui
    for heard in (Copy(eui, 868_200_000), Copy(eui, data_rate=6)):
        gateways[0].hands_in(sent(device), heard)
    clock.passes(WINDOW, server, gateways)
    gateways[0].hands_in(sent(device), Copy(eui))
    clock.passes(WINDOW, server, gateways)
    assert application.hears() == up(0, 3, 1, Copy(eui))
    finish(server, [application, *gateways])


def test_best_copy(server: Program, clock: Clock, device: Device) -> None:
    """Of copies with the same SNR the one with the higher RSSI is forwarded."""
    application, gateways = gateways_of(server, clock, 2)
    copies = [Copy(gateways[0].eui, snr=-20, rssi=-90), Copy(gateways[1].eui, snr=-20, rssi=-80)]
    hand_in(sent(device), gateways, copies)
    clock.passes(WINDOW, server, gateways)
    assert application.hears() == up(0, 1, 2, copies[1])
    finish(server, [application, *gateways])


def test_two_windows(server: Program, clock: Clock, device: Device) -> None:
    """Each frame keeps its own window: what another gateway hands in of it still counts after a
    frame that came meanwhile, and beside a window that is due."""
    application, (first, second) = gateways_of(server, clock, 2)
    older, younger = sent(device), sent(device)
    best, later = Copy(first.eui, snr=10), Copy(second.eui, snr=-20)
    first.hands_in(older, best)
    clock.passes(WINDOW / 2, server, [first])
    first.hands_in(younger, best)
    clock.passes(WINDOW / 4, server, [first])
    second.hands_in(older, later)
    clock.passes(WINDOW / 4, server, [second])
    assert application.hears() == up(0, 1, 2, best), "the older frame"
    second.hands_in(younger, later)
    clock.passes(WINDOW / 2, server, [second])
    assert application.hears() == up(0, 2, 2, best), "the younger frame"
    finish(server, [application, first, second])


@pytest.mark.parametrize("refused", ["copy", "request"])
def test_refusal_when_a_window_is_due(
    server: Program, clock: Clock, device: Device, refused: str
) -> None:
    """A copy or a request that is refused has windows closed that are due, before the closer looks.
    The line of such a frame comes."""
    application, gateway = linked(server, env=clock.how)
    clock.passes(2 * LONG, server, [])
    gateway.hands_in(sent(device), HEARD)
    # the closer sees a clock that was put back, so it sleeps long
    clock.passes(-LONG, server, [gateway])
    await_rest(server)
    clock.words[0] += round((LONG + WINDOW) * 1e9)
    if refused == "copy":
        gateway.hands_in(sent(device), Copy(EUI, data_rate=6))
    else:
        application.asks(f"mac {load.dev_eui(1)} 06")
    clock.passes(WINDOW, server, [application, gateway])
    due = {up(0, 1, 1, HEARD)} | ({"refused 7"} if refused == "request" else set())
    assert {application.hears() for _ in due} == due
    finish(server, [application, gateway])


@pytest.mark.parametrize("is_join", [False, True], ids=["data", "join"])
def test_three_channels(new_server: NewServer, clock: Clock, device: Device, is_join: bool) -> None:
    """A session that was stored with three channels is served on these alone, and so is a join."""
    server = new_server(records=[replace(records(1, OWNER)[0], has_three_channels=True)])
    application, gateway = linked(server, env=clock.how)
    later = Copy(EUI, LATER_CHANNELS[0])
    gateway.hands_in(device.join_request() if is_join else sent(device), later)
    clock.passes(WINDOW, server, [gateway])
    first, counter = Copy(EUI, FIRST_CHANNELS[1]), device.next_up
    gateway.hands_in(sent(device), first)
    clock.passes(WINDOW, server, [gateway])
    assert application.hears() == up(0, counter, 1, first)
    finish(server, [application, gateway])


def test_join_gives_eight_channels(new_server: NewServer, clock: Clock, device: Device) -> None:
    """A device whose session had three channels joins on one of these, also if its request was
    heard on another one first, and has eight then."""
    server = new_server(records=[replace(records(1, OWNER)[0], has_three_channels=True)])
    application, gateway = linked(server, env=clock.how)
    first, later = Copy(EUI, FIRST_CHANNELS[1]), Copy(EUI, LATER_CHANNELS[0])
    request = device.join_request()
    for heard in (later, first):
        gateway.hands_in(request, heard)
        clock.passes(WINDOW, server, [gateway])
    accept = network.Session(0, load.app_key(0), 2, device.dev_nonce).accept(first)
    came = gateway.read()
    assert came == bytes.fromhex(accept.split(" ")[2])[2:]
    device.take_accept(came[20:])
    gateway.hands_in(sent(device), later)
    clock.passes(WINDOW, server, [gateway])
    assert application.hears() == up(0, 0, 1, later, 2)
    finish(server, [application, gateway])


def test_1025th_window(new_server: NewServer, clock: Clock, device: Device) -> None:
    """1,024 windows are open: the next frame is refused, and taken once they are closed."""
    server = new_server(records=records(2, OWNER))
    application, gateway = linked(server, env=clock.how)
    frame, taken = sent(device), sent(load.device(1), 1)
    others = (b"\xff" + number.to_bytes(11, "big") for number in range(1023))
    gateway.say(b"".join(wire.copy_of(heard, HEARD) for heard in (taken, *others, frame)))
    clock.passes(WINDOW, server, [gateway])
    assert application.hears() == up(1, 1, 1, HEARD), "the frame in the first window"
    gateway.hands_in(frame, HEARD)
    clock.passes(WINDOW, server, [gateway])
    assert application.hears() == up(0, 1, 1, HEARD), "the frame that found no window"
    finish(server, [application, gateway])


def test_80_links(new_server: NewServer, clock: Clock) -> None:
    """64 gateways and 16 applications at once: each application hears of its own devices."""
    server = new_server(32, records(32))
    address = server.serve(80, env=clock.how)
    gateways = [Gateway(address, eui) for eui in euis(64)]
    owners = [Application(address, number) for number in range(16)]
    await_rest(server, [*gateways, *owners])
    for numbers in (range(16), range(16, 32)):
        for number in numbers:
            by = gateways[number : number + 32]
            copies = [Copy(each.eui, rssi=-80 if each is by[0] else -95) for each in by]
            hand_in(sent(load.device(number), number), by, copies)
        clock.passes(WINDOW, server, gateways)
        for number in numbers:
            due = up(number, 1, 32, Copy(gateways[number].eui, rssi=-80))
            assert owners[number % 16].hears() == due
    for owner in owners:
        owner.asks(f"queue {load.dev_eui(owner.number)} {owner.number} 7 c -")
    for owner in owners:
        assert owner.hears() == f"queued {load.dev_eui(owner.number)} {owner.number}"
    finish(server, [*gateways, *owners])
