"""Requests faster than the disk, applications that don't read, and more devices and links than the
server takes."""

import socket
from concurrent.futures import ThreadPoolExecutor

import pytest
from bozintar import load, wire
from bozintar.devices import Device
from bozintar.links import Application, Gateway, Link, Silent
from bozintar.server import Ended, Program
from bozintar.wire import PROVISION

from .. import pairs
from ..clocks import Clock, await_rest
from ..conftest import NewServer
from ..pairs import EUI, HEARD, OWNER, WINDOW, finish, greeted, records
from .conftest import NewWatcher
from .floods import DEVICES, LONG, PATIENCE, ROOM, Flood, decided
from .operating import heard, operator

REQUESTS = 400_000
# how long the server waits at its end for a peer that doesn't read, in seconds
WAIT = 8
# uplinks of a device at once, and the most lines of a write
LINES, WRITTEN = 300, 64
# devices that each of 16 applications provisions, in each round, into this many slots
EACH, ROUNDS, SLOTS = 30, 9, 4096


@pytest.mark.slow
def test_requests_faster_than_disk(new_server: NewServer) -> None:
    """Of requests faster than the disk each is answered, or counted as dropped after it was
    decided; or it is refused with 23, if 4,096 wait."""
    count, devices = 20_000, 4096
    server = new_server(devices, records(devices, OWNER))
    address = server.serve(3)
    others = [Application(address, 7), Gateway(address, EUI)]
    application = Application(address, OWNER, patience=PATIENCE)
    lines = (f"mac {load.dev_eui(number % devices)} 06" for number in range(count))
    asked = b"".join(map(wire.request, lines))
    for link in others:
        link.end()
    with ThreadPoolExecutor() as pool:
        rest = pool.submit(application.rest)
        application.say(asked)
        application.end()
    came = [wire.line_of(content) for content in rest.result()]
    for link in (application, *others):
        link.close()
    dropped = dropped_of(server.ended(PATIENCE))
    made = sum(line.startswith("macqueued ") for line in came)
    refused = came.count("refused 23")
    assert made + refused == len(came), "another answer came"
    new = decided(server) - devices
    assert made + dropped == new, "answers and dropped ones"
    assert refused <= count - new


def dropped_of(end: Ended) -> int:
    """The server ended well, and nothing was faulted; how much it dropped."""
    status, out, errors = end
    word, count = errors.split("\n")[0].split(" ")
    assert (status, out, word) == (0, "", "dropped")
    assert errors.split("\n")[1:] == ["faulted 0", ""]
    return int(count)


@pytest.mark.slow
@pytest.mark.usefixtures("proved")
def test_application_that_never_reads(server: Program) -> None:
    """An application asks 400,000 times and reads nothing, which disturbs nobody; it can read what
    is left then."""
    address = server.serve(3)
    mute = Application(address, 9, patience=PATIENCE, room=ROOM)
    pair = greeted(address)
    pair.play()
    asked = wire.request("x") * 4000
    for _ in range(REQUESTS // 4000):
        mute.say(asked)
    pair.sends()
    for link in (mute, *pair.links()):
        link.end()
    left = mute.rest()
    assert set(left) == {b"\x13refused 51"}
    assert 1024 <= len(left) <= REQUESTS
    mute.close()
    finish(server, pair.links())


@pytest.fixture
def flooded(new_server: NewServer) -> Program:
    """A server with the devices of a flood."""
    return new_server(4096, records(DEVICES, OWNER))


def count(server: Program, end: Ended, lines: int, more: int) -> None:
    """What was sent and what was dropped is all that was decided, or N more at most."""
    dropped = dropped_of(end)
    assert dropped > 0
    made = decided(server) - DEVICES
    assert made == LONG
    assert made <= lines + dropped <= made + more


@pytest.mark.usefixtures("proved")
def test_application_that_reads_late(flooded: Program, clock: Clock) -> None:
    """An application reads nothing until all inputs have ended, and the server waits for it: each
    line is sent, or counted as dropped."""
    made = Flood(flooded, clock, clock.how).sent()
    clock.moves(WAIT / 4)
    await_rest(flooded)
    assert flooded.running().poll() is None, "the server doesn't wait for the application"
    lines = made.lines()
    count(flooded, flooded.ended(), lines, 0)
    made.close()


@pytest.mark.usefixtures("proved")
def test_application_that_neither_reads_nor_closes(flooded: Program, clock: Clock) -> None:
    """The server's end waits eight seconds for an application that neither reads nor closes."""
    made = Flood(flooded, clock, clock.how).sent()
    clock.moves(WAIT - 1)
    await_rest(flooded)
    assert flooded.running().poll() is None, "the server doesn't wait for the application"
    clock.moves(1)
    end = flooded.ended()
    # of the piece that wasn't sent whole some lines may have come all the same
    count(flooded, end, made.lines(), 64)
    made.close()


@pytest.fixture
def short_segments(monkeypatch: pytest.MonkeyPatch) -> None:
    """Links whose two sockets hold little, since TCP has short segments."""

    def connected(address: tuple[str, int], *_: object) -> socket.socket:
        made = socket.socket()
        made.setsockopt(socket.IPPROTO_TCP, socket.TCP_MAXSEG, 536)
        made.setsockopt(socket.SOL_SOCKET, socket.SO_RCVBUF, ROOM)
        made.connect(address)
        return made

    monkeypatch.setattr("bozintar.links.connected", connected)


def send(server: Program, clock: Clock, device: Device, gateway: Gateway) -> None:
    """Uplinks come at once, and are decided."""
    clock.passes(1, server, [gateway])
    gateway.say(b"".join(heard(device.uplink(7, bytes(222))) for _ in range(LINES)))
    clock.passes(WINDOW, server, [gateway])
    await_rest(server)


def wait(server: Program, clock: Clock) -> None:
    """More time passes than a peer has that doesn't read. A write that is tried again may find room
    for a little more, and then the time begins again."""
    for _ in range(4):
        clock.passes(WAIT, server, [])
    await_rest(server)


@pytest.mark.usefixtures("short_segments")
def test_lines_that_wait(new_server: NewServer, clock: Clock, watch: NewWatcher) -> None:
    """An application of `lnsd run` that reads nothing keeps its link. When its input has ended and
    its link is reset, the lines after those of one write come on the link that has its name then,
    in order. Those of this write are reported as dropped. Lines that wait when the server ends are
    dropped, too."""
    server, device = new_server(records=records(1, OWNER)), load.device(0)
    address = server.run_on(env=clock.how)
    watcher, gateway, older = watch(server), Gateway(address, EUI), Application(address, OWNER)
    send(server, clock, device, gateway)
    wait(server, clock)
    assert server.status()["dropped"] == "0"
    older.end()
    await_rest(server, [older])
    newer = Application(address, OWNER)
    await_rest(server, [newer])
    older.reset()
    await_rest(server)
    dropped = int(server.status()["dropped"])
    assert 1 < dropped <= WRITTEN
    watcher.await_line(f"dropped application {OWNER} {dropped}")
    counters = [0]
    while counters[-1] < LINES:
        counters.append(int(newer.hears().split(" ")[3]))
    assert counters[1:] == list(range(counters[1], LINES + 1))
    newer.close()
    last = Application(address, OWNER)
    await_rest(server, [last])
    send(server, clock, device, gateway)
    with operator(server, b"stop\n"):
        wait(server, clock)
        status, _, said = server.ended()
    gateway.close()
    lost = int(said.splitlines()[0].removeprefix("dropped ")) - dropped
    # of the piece that wasn't sent whole some lines may have come all the same
    assert status == 0 and 0 <= lost + len(last.rest()) - LINES <= WRITTEN
    assert lost > WRITTEN, "lines waited"


def ask_for_devices(owner: Application, round_: int) -> None:
    """An application provisions devices of its own."""
    numbers = range(round_ * EACH, (round_ + 1) * EACH)
    names = [f"{owner.number:08X}{number:08X}" for number in numbers]
    how = {"app_key": "0" * 32, "offset": 0, "delay": 1}
    lines = [PROVISION.format(dev_eui=name, join_eui=name, **how) for name in names]
    owner.say(b"".join(map(wire.request, lines)))


def test_full_table(new_server: NewServer) -> None:
    """16 applications provision side by side: one device each of them, and then more than fit. No
    slot is given twice, and the others are refused with 17."""
    server = new_server(SLOTS)
    address = server.serve(16)
    owners = [Application(address, number) for number in range(16)]
    await_rest(server, owners)
    for owner in owners:
        owner.asks(pairs.PROVISION)
    came = sorted(owner.hears().split(" ")[0] for owner in owners)
    assert came == ["provisioned"] + ["refused"] * 15
    answers = []
    for round_ in range(ROUNDS):
        for owner in owners:
            ask_for_devices(owner, round_)
        answers += [owner.hears().split(" ") for owner in owners for _ in range(EACH)]
    given = {int(words[2]) for words in answers if words[0] == "provisioned"}
    assert given == set(range(1, SLOTS))
    assert answers.count(["refused", "17"]) == 16 * EACH * ROUNDS + 1 - SLOTS
    finish(server, owners)
    assert server.list()[-1] == f"devices {SLOTS} seq {SLOTS}"


def test_application_that_is_not_linked(new_server: NewServer) -> None:
    """What is for an application that isn't linked is dropped and counted, and stays durable."""
    server = new_server(records=records(5, OWNER))
    gateway = Gateway(server.serve(1), EUI)
    for number in range(5):
        gateway.hands_in(load.device(number).uplink(7, load.payload(number, 1)), HEARD)
    finish(server, [gateway], dropped=5)
    due = [f"{number} {load.dev_eui(number)} 1 1 1 0 0 1" for number in range(5)]
    assert server.list() == [*due, "devices 5 seq 10"]


def test_link_too_many(server: Program) -> None:
    """A link beyond N is refused, and disturbs no other."""
    address = server.serve(2)
    pair = greeted(address)
    pair.play()
    with pytest.raises(Silent, match="nobody listens"):
        Link(address, patience=0.3).close()
    finish(server, pair.links())
