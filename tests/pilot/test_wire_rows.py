"""The codec of the network's messages, beside the second one: each reads or writes the same."""

import random

import pytest
from bozintar import oracle, wire

ROUNDS = 200


@pytest.fixture
def chance(seed: int) -> random.Random:
    """Random numbers."""
    return random.Random(seed)


def test_copies(chance: random.Random) -> None:
    """Copies of frames."""
    for _ in range(ROUNDS):
        eui, frame = chance.randbytes(8).hex().upper(), chance.randbytes(chance.randrange(1, 256))
        stamp, hz, rate = (
            chance.randrange(2**32),
            chance.randrange(2**32),
            chance.randrange(256),
        )
        snr, rssi = (chance.randrange(-(2**15), 2**15) for _ in range(2))
        how = (hz, rate, snr, rssi, stamp)
        came = wire.Heard(wire.Copy(eui, *how), frame).message()
        assert came == oracle.copy_message(eui, how, frame)


def test_downlinks(chance: random.Random) -> None:
    """Downlinks, with RX2 and without."""
    for _ in range(ROUNDS):
        eui, frame = chance.randbytes(8).hex().upper(), chance.randbytes(chance.randrange(1, 256))
        stamp, hz, rate = (
            chance.randrange(2**32),
            chance.randrange(2**32),
            chance.randrange(256),
        )
        first, second = chance.randrange(256), chance.choice((0, chance.randrange(256)))
        content = oracle.downlink(eui, stamp, (hz, rate, first), second, frame)
        rx2 = wire.Window(second, 869_525_000, 0) if second else None
        due = wire.Downlink(eui, stamp, wire.Window(first, hz, rate), rx2, frame)
        assert wire.Downlink.read(content) == due


def test_contents(chance: random.Random) -> None:
    """Messages of any length, which come in pieces."""
    for _ in range(ROUNDS):
        contents = [chance.randbytes(chance.randrange(701)) for _ in range(chance.randrange(5))]
        said = b"".join(map(oracle.message, contents))
        assert b"".join(map(wire.framed, contents)) == said
        assert in_pieces(said, chance) == contents


@pytest.mark.parametrize("eui", ("0000000000000000", "FFFFFFFFFFFFFFFF", "0016C001F153A14C"))
def test_gateway_and_device(eui: str) -> None:
    """A gateway's greeting, a request and a line about a device."""
    assert wire.gateway_greeting(eui) == oracle.message(b"\0" + bytes.fromhex(eui))
    assert wire.request(f"mac {eui} 06") == oracle.message(b"\3mac " + eui.encode() + b" 06")
    assert wire.line_of(oracle.line_message(f"up {eui}")[2:]) == f"up {eui}"


@pytest.mark.parametrize("number", range(16))
def test_application_greeting(number: int) -> None:
    """An application's greeting."""
    assert wire.application_greeting(number) == oracle.message(bytes((2, number)))


def in_pieces(said: bytes, chance: random.Random) -> list[bytes]:
    """The contents of messages that come in pieces."""
    frames, contents, place = wire.Frames(), [], 0
    while place < len(said):
        end = place + chance.randrange(1, 900)
        contents += frames.feed(said[place:end])
        place = end
    return contents
