"""One exchange over links whose bytes come in pieces. What leaves has to be the same bytes,
whatever the pieces are, as docs/FORMATS.md says of the wire."""

from collections.abc import Sequence
from concurrent.futures import ThreadPoolExecutor
from dataclasses import dataclass

import pytest
from bozintar import network, wire
from bozintar.devices import Device
from bozintar.links import Link
from bozintar.processes import free_port
from bozintar.wire import Copy
from lnsd.unread import await_read

from ..pairs import APP_KEY, DEV_EUI, EUI, HEARD, JOIN_EUI, OWNER, PROVISION, formatted

# how many servers run at once: most of the time each of them waits for its windows
AT_ONCE = 16
# more bytes than come
ALL = 1 << 16
Pieces = Sequence[bytes]


@dataclass(frozen=True)
class Exchange:
    """What an application and a gateway send, and what has to come: to the application before the
    gateway sends anything, and then; to the gateway; and in the list afterwards."""

    asked: bytes
    handed_in: bytes
    answers: bytes
    uplink: bytes
    downlinks: bytes
    listed: list[str]


def bytes_of(line: str) -> bytes:
    """The bytes in a line `gw`."""
    return bytes.fromhex(line.split(" ")[2])


def told(line: str) -> bytes:
    """A line as it comes to an application."""
    return wire.framed(b"\x13" + line.encode())


def fixed() -> Exchange:
    """A device is provisioned, and an item is queued for it; it joins, and sends once. Its uplink
    comes right after its Join-Request, under the address that it will be given."""
    session, device = network.Session(0, APP_KEY, 1, 1), Device(DEV_EUI, JOIN_EUI, APP_KEY)
    item, later = (7, b"\xc0\xff\xee", False), Copy(EUI, stamp=6_050_000)
    requests = [PROVISION, f"queue {DEV_EUI} 9 7 u C0FFEE"]
    joins = wire.copy_of(device.join_request(), HEARD)
    accept = bytes_of(session.accept(HEARD))
    device.take_accept(accept[22:])
    sends = wire.copy_of(device.uplink(7, b"\x04\xd2"), later)
    return Exchange(
        asked=wire.application_greeting(OWNER) + b"".join(map(wire.request, requests)),
        handed_in=wire.gateway_greeting(EUI) + joins + sends,
        answers=told(f"provisioned {DEV_EUI} 0") + told(f"queued {DEV_EUI} 9"),
        uplink=told(f"up {DEV_EUI} 1 0 7 04D2 1 {later.heard()}"),
        downlinks=accept + bytes_of(session.downlink(later, 0, item)),
        listed=[f"0 {DEV_EUI} 1 1 0 1 0 1", "devices 1 seq 4"],
    )


DUE = fixed()


def say(link: Link, pieces: Pieces) -> None:
    """Sends the pieces, each once the server has read the one before."""
    for place, piece in enumerate(pieces):
        if place:
            await_read(link)
        link.say(piece)


def taken(link: Link, count: int) -> bytes:
    """The bytes that come: this many or a few more, or all until the end or for too long none."""
    came = b""
    link.socket.settimeout(link.patience)
    try:
        while len(came) < count and (piece := link.socket.recv(ALL)):
            came += piece
    except TimeoutError:
        pass
    return came


def play(path: str, asked: Pieces, handed_in: Pieces, port: int | None = None) -> None:
    """The exchange in these pieces, on a store and a server of its own."""
    with formatted(path) as program:
        address = program.serve(2, port)
        with Link(address) as application, Link(address) as gateway:
            say(application, asked)
            lines = taken(application, len(DUE.answers))
            say(gateway, handed_in)
            orders = taken(gateway, len(DUE.downlinks))
            lines += taken(application, len(DUE.answers + DUE.uplink) - len(lines))
            for link in (application, gateway):
                link.end()
            lines += taken(application, ALL)
            orders += taken(gateway, ALL)
        assert lines == DUE.answers + DUE.uplink, "what came to the application"
        assert orders == DUE.downlinks, "what came to the gateway"
        assert program.ended() == (0, "", "dropped 0\nfaulted 0\n")
        assert program.list() == DUE.listed


def bytewise(said: bytes) -> Pieces:
    """The single bytes of a stream."""
    return [bytes([byte]) for byte in said]


def test_whole(program: str) -> None:
    """Both streams come whole."""
    play(program, [DUE.asked], [DUE.handed_in])


def test_application_byte_by_byte(program: str) -> None:
    """The application's stream comes byte by byte."""
    play(program, bytewise(DUE.asked), [DUE.handed_in])


def test_gateway_byte_by_byte(program: str) -> None:
    """The gateway's stream comes byte by byte."""
    play(program, [DUE.asked], bytewise(DUE.handed_in))


def ports(count: int) -> set[int]:
    """This many ports, no two of them the same."""
    found: set[int] = set()
    while len(found) < count:
        found.add(free_port())
    return found


@pytest.mark.parametrize("who", ["application", "gateway"])
def test_two_pieces(program: str, who: str) -> None:
    """A stream comes in two pieces, parted after each of its bytes."""
    said = DUE.asked if who == "application" else DUE.handed_in
    places = range(1, len(said))

    def parted(at: int, port: int) -> None:
        """The exchange, with the stream parted after this byte."""
        pieces, whole = [said[:at], said[at:]], [DUE.asked, DUE.handed_in]
        by_whom = (pieces, whole[1:]) if who == "application" else (whole[:1], pieces)
        try:
            play(program, *by_whom, port)
        except Exception as why:
            raise AssertionError(f"parted after byte {at}") from why

    with ThreadPoolExecutor(AT_ONCE) as pool:
        list(pool.map(parted, places, ports(len(places))))
