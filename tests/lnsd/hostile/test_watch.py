"""Each line of `lnsd watch`, as docs/OPERATING.md has it, except checkpoints and what is dropped or
left out if too much comes, which are in test_operators.py."""

from collections.abc import Callable, Iterator, Sequence
from copy import deepcopy
from dataclasses import dataclass, replace

import pytest
from bozintar import load, wire
from bozintar.devices import Device
from bozintar.frames import LATER_CHANNELS
from bozintar.links import Application, Gateway, Link
from bozintar.server import Program
from bozintar.wire import Copy

from ..clocks import Clock, await_rest
from ..conftest import Environment, NewServer
from ..pairs import APP_KEY, DEV_EUI, EUI, HEARD, JOIN_EUI, OWNER, WINDOW, Pair, formatted, records
from .conftest import NewWatcher
from .operating import NOTHING_MORE, PLACES, Watcher, assert_stopped, heard

OTHER, STRANGER = "00000000000000B2", "1112131415161799"
LAST_NONCE = 0xFFFFFF
# the names of a pair's links
NAMES = (f"gateway {EUI}", f"application {OWNER}")
# a frame of this device, how it is heard, and the words after the refusal
Refused = tuple[bytes, Copy, str]


@dataclass(frozen=True)
class Watched:
    """A server that runs, who watches it, and a pair whose device has joined and sent once."""

    server: Program
    watcher: Watcher
    pair: Pair

    def finish(self, names: Sequence[str] = NAMES, **counts: int) -> None:
        """The links of the pair end, which have these names yet; then the server is stopped, with
        these counts, and prints nothing more."""
        for link in self.pair.links():
            link.close()
        assert {self.watcher.line() for _ in names} == {f"ended {name}" for name in names}
        assert_stopped(self.server, **counts)
        assert self.watcher.rest() == NOTHING_MORE


@pytest.fixture
def watched(server: Program, watch: NewWatcher) -> Watched:
    """All that is watched, up to the join."""
    address = server.run_on(PLACES)
    watcher, pair = watch(server), Pair(address)
    pair.greet()
    pair.play()
    watcher.await_line("joined")
    return Watched(server, watcher, pair)


@pytest.fixture(scope="module")
def of_refusals(program: str) -> Iterator[Watched]:
    """A server of which each refusal changes nothing."""
    with formatted(program) as server:
        address = server.run_on(PLACES)
        watcher, pair = Watcher(server), Pair(address)
        assert watcher.next() == "watching"
        pair.greet()
        pair.play()
        watcher.await_line("joined")
        made = Watched(server, watcher, pair)
        try:
            yield made
            made.finish()
        finally:
            watcher.clean()


def changed(frame: bytes, at: int, to: bytes) -> bytes:
    """A frame in which other bytes stand."""
    return frame[:at] + to + frame[at + len(to) :]


def repeated(device: Device) -> tuple[bytes, str, int]:
    """The device's last uplink once more, its address, and its counter."""
    counter = device.next_up - 1
    device.next_up = counter
    return device.uplink(7, b"\x04\xd2"), f"{device.dev_addr:08X}", counter


def unknown_address(device: Device) -> Refused:
    """An address of the device's slot, and of none of its sessions."""
    frame, _, counter = repeated(device)
    return changed(frame, 1, b"\xff\x1f\x00\x54"), HEARD, f"data 54001FFF {counter}"


def bad_mic(device: Device) -> Refused:
    """An uplink that was changed."""
    frame, address, counter = repeated(device)
    return changed(frame, 5, b"\x40"), HEARD, f"data {address} {counter}"


def gap(device: Device) -> Refused:
    """An uplink whose counter is far ahead."""
    device.next_up += 20_000
    counter = device.next_up
    return device.uplink(7, b"\x04\xd2"), HEARD, f"data {device.dev_addr:08X} {counter}"


def repeat(device: Device) -> Refused:
    """An uplink that was decided."""
    frame, address, counter = repeated(device)
    return frame, HEARD, f"data {address} {counter}"


def both(device: Device) -> Refused:
    """MAC commands in both places."""
    counter = device.next_up
    frame = device.uplink(0, b"\x02", f_opts=b"\x02")
    return frame, HEARD, f"data {device.dev_addr:08X} {counter}"


def off_channel(device: Device) -> Refused:
    """An uplink on a frequency that is no channel."""
    frame, address, counter = repeated(device)
    return frame, Copy(EUI, 868_100_001), f"data {address} {counter}"


def join(
    dev_eui: str = DEV_EUI,
    join_eui: str = JOIN_EUI,
    app_key: str = APP_KEY,
    copy: Copy = HEARD,
    dev_nonce: int = 0,
) -> Callable[[Device], Refused]:
    """A Join-Request, of a device that differs."""

    def made(_: Device) -> Refused:
        device = Device(dev_eui, join_eui, app_key)
        device.dev_nonce = dev_nonce
        return device.join_request(), copy, f"join {dev_eui} {device.dev_nonce}"

    return made


# frames of a device that has sent once, by how each is reported
REFUSED: dict[str, Callable[[Device], Refused]] = {
    "1 Malformed": lambda _: (b"\x40\x01", HEARD, "other"),
    "2 NotServed": lambda _: (b"\xe0\x01", HEARD, "other"),
    "3 UnknownDevAddr": unknown_address,
    "4 BadMic data": bad_mic,
    "4 BadMic join": join(app_key="00" * 16),
    "5 CounterGap": gap,
    "6 Repeat": repeat,
    "7 UnknownDevEui": join(STRANGER),
    "8 WrongJoinEui": join(join_eui="00" * 8),
    "9 DevNonceUsed": join(),
    "11 MacBoth": both,
    "24 UnknownChannel join": join(copy=Copy(EUI, LATER_CHANNELS[0]), dev_nonce=5),
    "24 UnknownChannel data": off_channel,
}


@pytest.mark.parametrize("name", REFUSED)
def test_refused(of_refusals: Watched, name: str) -> None:
    """A frame that is refused is reported, with what the gateway said of it."""
    frame, copy, due = REFUSED[name](deepcopy(of_refusals.pair.device))
    of_refusals.pair.gateway.say(wire.copy_of(frame, copy))
    number, word, *_ = name.split(" ")
    came = of_refusals.watcher.await_line("refused")
    assert came[-1] == f"refused {number} {word} {due} {copy.heard()}"


def test_second_copy(watched: Watched) -> None:
    """Of two copies by one gateway the second is refused at once, and the frame is decided then."""
    watched.pair.gateway.say(2 * heard(b"\xe0\x02"))
    for due in ("21 SameGateway", "2 NotServed"):
        came = watched.watcher.await_line("refused")
        assert came[-1] == f"refused {due} other {HEARD.heard()}"
    watched.finish()


def test_spent_join_nonces(new_server: NewServer, watch: NewWatcher) -> None:
    """A join of a device whose JoinNonces are used up is reported as refused."""
    server = new_server(records=[replace(records(1, OWNER)[0], granted=LAST_NONCE)])
    address = server.run_on(PLACES)
    watcher, gateway = watch(server), Gateway(address, EUI)
    gateway.say(heard(load.device(0).join_request()))
    due = f"refused 10 JoinNonceSpent join {load.dev_eui(0)} 2 {HEARD.heard()}"
    assert watcher.await_line("refused")[-1] == due
    gateway.close()
    assert_stopped(server)
    assert watcher.rest()[1:] == (0, "")


def test_33_copies(server: Program, watch: NewWatcher, clock: Clock) -> None:
    """The 33rd copy of a frame is refused at once, and reported."""
    address = server.run_on(PLACES, env=clock.how)
    watcher = watch(server)
    gateways = [Gateway(address, f"{0xB1 + number:016X}") for number in range(33)]
    # a link that begins may send no copy yet
    clock.passes(1, server, gateways)
    for gateway in gateways:
        gateway.say(heard(b"\xe0\x03", gateway.eui))
    clock.passes(WINDOW, server, gateways)
    came = [" ".join(watcher.await_line("refused")[-1].split(" ")[1:4]) for _ in range(2)]
    assert came == ["22 CopiesFull other", "2 NotServed other"]
    for gateway in gateways:
        gateway.close()
    assert_stopped(server)
    assert watcher.rest()[1:] == (0, "")


def test_links_and_a_join(server: Program, watch: NewWatcher, with_disk: Environment) -> None:
    """Links, slow syncs and a join are reported."""
    address = server.run_on(PLACES, env=with_disk(SLOW_SYNCS=2, SLOW_MS=150))
    watcher, pair = watch(server), Pair(address)
    pair.greet()
    pair.play()
    came = watcher.await_line("joined")
    assert {f"linked application {OWNER}", f"linked gateway {EUI}"} <= set(came)
    assert came[-1] == f"joined {DEV_EUI} 1 {EUI}"
    slow = [int(line.split(" ")[1]) for line in came if line.startswith("slow_sync ")]
    assert slow and all(150 <= milliseconds < 10_000 for milliseconds in slow)
    Watched(server, watcher, pair).finish()


@pytest.mark.parametrize("name", NAMES)
def test_name_that_is_taken_over(watched: Watched, name: str) -> None:
    """A name that is taken over is reported, and a fault of its new link. The older one's isn't a
    fault, though it ends in the middle of a message."""
    address, watcher = watched.server.address, watched.watcher
    assert address
    older = watched.pair.links()[1 - NAMES.index(name)]
    older.say(b"\x00")
    await_rest(watched.server, [older])
    link: Link = Gateway(address, EUI) if name == NAMES[0] else Application(address, OWNER)
    for word in ("taken_over", "linked"):
        watcher.await_line(f"{word} {name}")
    link.say(wire.framed(b"\x09"))
    for word in ("faulted", "ended"):
        watcher.await_line(f"{word} {name}")
    link.close()
    watched.finish([other for other in NAMES if other != name], faulted=1, taken_over=1)


def test_fault_before_a_greeting(watched: Watched) -> None:
    """A fault of a link that hasn't greeted is reported, without a name."""
    assert watched.server.address
    with Link(watched.server.address, b"\x00\x00"):
        watched.watcher.await_line("faulted")
    assert watched.watcher.lines[-1] == "faulted"
    watched.finish(faulted=1)


def test_dropped_accept(watched: Watched) -> None:
    """An accept for a gateway that has gone is reported as dropped."""
    assert watched.server.address
    with Gateway(watched.server.address, OTHER) as gone:
        gone.say(heard(watched.pair.device.join_request(), OTHER))
        gone.end()
        gone.rest()
    watched.watcher.await_line(f"dropped gateway {OTHER} 1")
    watched.finish(dropped=1)


def test_silent_link(watched: Watched) -> None:
    """A link that sends nothing is reported as silent."""
    assert watched.server.address
    with Link(watched.server.address):
        watched.watcher.await_line("silent")
    watched.finish(silent=1)
