"""What strangers send to the gateways' port."""

import json
import random
import socket

from bozintar.processes import HOST

from .field import GATEWAYS

HEADS = (b"\x02\x00\x00", b"\x01\x00\x00", b"\x00\x00\x00", b"\x03\x00\x00", b"\xff\xff\xff")
NAMED = bytes.fromhex(GATEWAYS[2])
FRAME = {"tmst": 1, "freq": 868.1, "stat": 1, "modu": "LORA", "datr": "SF7BW125", "lsnr": 1}
BODIES = (
    b"",
    b"{",
    b"[" * 60000,
    b"\xff\xfe\x00",
    b'{"rxpk":7}',
    b'{"rxpk":[7,null,{}]}',
    json.dumps({"rxpk": [{**FRAME, "rssi": -90, "data": "%%%"}]}).encode(),
    json.dumps({"rxpk": [{**FRAME, "rssi": "loud", "data": "QAAA"}]}).encode(),
    json.dumps({"rxpk": [{**FRAME, "rssi": -90, "data": "A" * 4000}]}).encode(),
    json.dumps({"rxpk": [{**FRAME, "rssi": -90, "tmst": 10**4000, "data": ""}]}).encode(),
    b'{"txpk_ack":{"error":["TOO_LATE"]}}',
    b'{"txpk_ack":7}',
)


def datagram(chance: random.Random) -> bytes:
    """A datagram that is wrong, or of a stranger: its EUI is one of 10,000."""
    which = chance.random()
    if which < 0.2:
        return chance.randbytes(chance.randrange(40))
    if which < 0.6:
        stranger = (0xC0FFEE0000000000 + chance.randrange(10_000)).to_bytes(8, "big")
        return b"\x02\x00\x01" + bytes([chance.choice((0, 2, 5))]) + stranger + b"{}"
    kind = bytes([chance.choice((0, 1, 3, 4, 5, 9))])
    return chance.choice(HEADS) + kind + NAMED + chance.choice(BODIES)


def flood(port: int, chance: random.Random, count: int) -> int:
    """Sends this many of them; how many those are."""
    with socket.socket(socket.AF_INET, socket.SOCK_DGRAM) as stranger:
        for _ in range(count):
            stranger.sendto(datagram(chance), (HOST, port))
    return count
