"""Streams that aren't as those of links should be, beside a healthy gateway and application."""

from collections.abc import Iterator

import pytest
from bozintar import wire
from bozintar.links import Application, Gateway, Link
from bozintar.server import Program
from bozintar.wire import Copy

from ..clocks import await_rest
from ..conftest import NewServer
from ..pairs import EUI, HEARD, OWNER, PROVISION, Pair, finish, formatted, greeted

# a healthy gateway beside these is the 61st at most, of the 64 that there may be
MOST = 60
# more bytes than one message has
WHOLE = 700
# a length that no message has
TOO_LONG = bytes.fromhex("02BD")


def own_eui(number: int) -> str:
    """The name of a gateway."""
    return f"{0xD000000000000000 + number:016X}"


def streams(number: int) -> dict[str, bytes]:
    """Faulty streams by name; those that greet do so under a name of their own."""
    eui = own_eui(number)
    greets = wire.gateway_greeting(eui)
    other = Copy(own_eui(number + 1_000_000))
    copy = wire.copy_of(b"\x40" + bytes(16), Copy(eui))
    return {
        "content of no length": bytes.fromhex("0000"),
        "an application 16": bytes.fromhex("00020210"),
        "a copy before any greeting": wire.copy_of(b"\x40" + bytes(16), HEARD),
        "a request before any greeting": wire.request("hello"),
        "a length of 701": TOO_LONG,
        "a length of 65535": bytes.fromhex("FFFF"),
        "half a length": bytes.fromhex("00"),
        "a greeting that is too long": wire.framed(b"\x00" + bytes(9)),
        "an application's greeting that is too long": wire.framed(b"\x02\x03\x03"),
        "a kind that is none": wire.framed(b"\x7f\x00"),
        "what the network sends": wire.framed(b"\x13refused 1"),
        "a gateway that greets twice": greets + greets,
        "a gateway that asks": greets + wire.request("hello"),
        "a gateway that greets as an application": greets + wire.application_greeting(5),
        "a copy of another gateway": greets + wire.copy_of(bytes(12), other),
        "a copy that is too short": greets + wire.framed(b"\x01" + bytes.fromhex(eui) + bytes(12)),
        "a copy of 256 bytes": greets + wire.copy_of(bytes(256), Copy(eui)),
        "a copy, and then a fault": greets + copy + TOO_LONG,
    }


NAMES = list(streams(0))
# each of these is tried alone, too
ALONE = NAMES[:7]


def contents_of(said: bytes) -> Iterator[bytes | None]:
    """The contents of a stream; None if its length is none, or it ends too early."""
    place = 0
    while place < len(said):
        length = int.from_bytes(said[place : place + 2], "big")
        end = place + 2 + length
        yield said[place + 2 : end] if length <= WHOLE and end <= len(said) else None
        place = end


def greets_well(content: bytes) -> bool:
    """Whether a content is a greeting."""
    if content[:1] == b"\x00":
        return len(content) == 9
    return content[:1] == b"\x02" and len(content) == 2 and content[1] < 16


def is_right(greeting: bytes, content: bytes) -> bool:
    """Whether a content may stand after a greeting."""
    if greeting[0] == 0:
        is_own = content[:1] == b"\x01" and content[1:9] == greeting[1:]
        return is_own and 22 <= len(content) <= 277
    is_text = all(byte <= 0x7F and byte != 0x0A for byte in content[1:])
    return content[:1] == b"\x03" and is_text


def is_faulty(said: bytes) -> bool:
    """Whether an input that is exactly this counts as faulted, by docs/FORMATS.md."""
    greeting: bytes | None = None
    for content in contents_of(said):
        if content is None:
            return True
        if not (is_right(greeting, content) if greeting else greets_well(content)):
            return True
        greeting = greeting or content
    return False


def beside(server: Program, group: list[bytes], piece: int = WHOLE) -> None:
    """A healthy pair beside these streams, which end after their last byte. All are sent in pieces
    of this length."""
    address = server.serve(2 + len(group))
    links = [Link(address) for _ in group]
    pair = Pair(address, piece)
    for link, said in zip(links, group):
        pair.say(link, said)
    pair.greet()
    pair.play()
    for link in links:
        link.end()
    pair.sends()
    finish(server, [*links, *pair.links()], faulted=sum(map(is_faulty, group)))


@pytest.mark.parametrize("name", NAMES)
def test_each_is_faulty(name: str) -> None:
    """The streams of these trials are faulty, by the formats."""
    assert is_faulty(streams(0)[name])


@pytest.mark.parametrize("name", ALONE)
def test_faulty_stream(server: Program, name: str) -> None:
    """A faulty stream counts as faulted, and doesn't disturb the pair."""
    beside(server, [streams(7)[name]])


def test_empty_stream(server: Program) -> None:
    """A stream of no bytes isn't faulty."""
    assert not is_faulty(b"")
    beside(server, [b""])


@pytest.mark.parametrize("name", NAMES)
def test_stream_that_is_cut(new_server: NewServer, name: str) -> None:
    """A stream is cut after each of its bytes: as many as 60 such streams at once."""
    made = [streams(end)[name][:end] for end in range(len(streams(0)[name]) + 1)]
    for at in range(0, len(made), MOST):
        beside(new_server(), made[at : at + MOST])


def test_streams_byte_by_byte(server: Program) -> None:
    """All streams come byte by byte, and the healthy pair too."""
    beside(server, [streams(500 + at)[name] for at, name in enumerate(NAMES)], piece=1)


def test_faulty_applications(server: Program) -> None:
    """What an application asks before a fault is answered, and what it asks after it isn't."""
    faulty = [b"\x03mac\n", b"\x03\x80", b"\x01" + bytes(21), b"\x02\x04", b"\x00" + bytes(8)]
    address = server.serve(len(faulty) + 3)
    pair = greeted(address)
    links = [Link(address, wire.application_greeting(4 + at)) for at in range(len(faulty))]
    for link, content in zip(links, faulty):
        link.say(wire.request("hello") + wire.framed(content) + wire.request("hello"))
    other = Application(address, 15)
    other.asks("hello")
    assert other.hears() == "refused 51"
    pair.play()
    for link in links:
        assert link.read() == b"\x13refused 51", "the answer before the fault"
    finish(server, [*links, other, *pair.links()], faulted=len(faulty))


NAME, KEY = "A" * 16, "0" * 32
WRONG = (
    *("hello", "", "provision", f"provision {NAME} {NAME} {KEY} 6 1", " ", "mac  00"),
    *(f"provision {NAME} {NAME} {KEY} 0 0", f"provision {NAME} {NAME} {KEY} 0 16"),
    *(f"provision {NAME.lower()} {NAME} {KEY} 0 1", f"provision {NAME} {NAME} {KEY} 00 1"),
    *(f"queue {NAME} 4294967296 7 u -", f"queue {NAME} 1 256 u -", f"queue {NAME} 1 7 x -"),
    *(f"queue {NAME} 1 7 u ABC", f"queue {NAME} 1 7 u ab", f"queue {NAME} 01 7 u -"),
    *(f"mac {NAME} 06 ", f"mac {NAME}", f"MAC {NAME} 06", "x" * 699, f"mac {NAME} 06\r"),
)
# requests of a device that nobody has
UNKNOWN = (
    *(f"queue {NAME} 1 7 u -", f"mac {NAME} -", f"mac {NAME} 06"),
    f"queue {NAME} 1 0 u {'00' * 243}",
)


@pytest.fixture(scope="module")
def application(program: str) -> Iterator[Application]:
    """An application of a server that has no device."""
    with formatted(program) as server, Application(server.serve(1), 15) as made:
        yield made
        finish(server, [made])


@pytest.mark.parametrize("line", WRONG, ids=lambda line: ascii(line[:40]))
def test_line_that_is_no_request(application: Application, line: str) -> None:
    """A line that is no request is refused with 51, and isn't a fault of its link."""
    application.asks(line)
    assert application.hears() == "refused 51"


@pytest.mark.parametrize("line", UNKNOWN, ids=lambda line: line[:40])
def test_request_of_no_device(application: Application, line: str) -> None:
    """A request of a device that nobody has is refused with 7, also if the item is too long."""
    application.asks(line)
    assert application.hears() == "refused 7"


def test_before_a_fault(server: Program) -> None:
    """A copy before a fault counts, and one after it doesn't."""
    address = server.serve(3)
    faulty, pair = Link(address), greeted(address)
    pair.play()
    heard = Copy(own_eui(1))
    good, late = (pair.device.uplink(7, b"\x04\xd2") for _ in range(2))
    greets = wire.gateway_greeting(heard.gateway)
    faulty.say(greets + wire.copy_of(good, heard) + TOO_LONG + wire.copy_of(late, heard))
    pair.hears(f"up {pair.device.dev_eui} 1 1 7 04D2 1 {heard.heard()}")
    faulty.say(wire.copy_of(late, heard))
    # if that opened a window, it would be closed before the next one
    await_rest(server, [faulty])
    pair.sends()
    finish(server, [faulty, *pair.links()], faulted=1)


def test_second_link_of_a_name(server: Program) -> None:
    """A second link of a name is faulty: what stands after its greeting isn't read. A gateway
    whose number is an application's has another name."""
    address = server.serve(5)
    pair, second, third = Pair(address), Link(address), Link(address)
    other = Gateway(address, f"{OWNER:016X}")
    pair.greet()
    await_rest(server, pair.links())
    second.say(wire.application_greeting(OWNER) + wire.request(PROVISION))
    third.say(wire.gateway_greeting(EUI))
    await_rest(server, [second, third])
    pair.play()
    third.say(wire.copy_of(pair.device.uplink(7, b"\x04\xd2"), HEARD))
    await_rest(server, [third])
    pair.sends()
    finish(server, [second, third, other, *pair.links()], faulted=2)


def test_silent_links(server: Program) -> None:
    """Links that send nothing or half a message, or are reset, disturb nobody; the server's end
    waits for them."""
    address = server.serve(7)
    silent, half = Link(address), Link(address, bytes.fromhex("000900"))
    greets = Link(address, wire.gateway_greeting(own_eui(1)))
    resets = [Link(address, wire.gateway_greeting(own_eui(2)))]
    resets.append(Link(address, wire.gateway_greeting(own_eui(3)) + b"\x00\x27\x01"))
    pair = greeted(address)
    # what the server hasn't read is lost by a reset
    await_rest(server, resets)
    for link in resets:
        link.reset()
    pair.play()
    for link in pair.links():
        link.end()
    await_rest(server, pair.links())
    assert server.running().poll() is None, "the server doesn't wait for the silent"
    finish(server, [silent, half, greets, *pair.links()], faulted=2)
