"""Rows of what is translated between packet forwarders and the network, each value by Semtech's
PROTOCOL.TXT and by docs/FORMATS.md."""

from typing import Any

import pytest
from bozintar import oracle, wire
from bozintar.fields import Wrong
from bridges import clocks, gwmp
from bridges.gwmp import Datagram

from .rows import outcome, table

EUI = bytes.fromhex("AA555A0000000101")
# of PROTOCOL.TXT: a frame of 32 bytes, without padding
DATA = "ysgRl452xNLep9S1NTIg2lomKDxUgn3DJ7DE+b00Ass"
PAYLOAD = bytes.fromhex("cac811978e76c4d2dea7d4b5353220da5a26283c54827dc327b0c4f9bd3402cb")
HEARD: dict[str, Any] = {
    "tmst": 3316387610,
    "chan": 0,
    "rfch": 0,
    "freq": 863.00981,
    "stat": 1,
    "modu": "LORA",
    "datr": "SF10BW125",
    "codr": "4/7",
    "rssi": -38,
    "lsnr": 5.5,
    "size": 32,
    "data": DATA,
}
DEEP = b"[" * 60000
HEAD = b"\x02\x12\x34"

# of a gateway of three antennas, two of which heard it as well as each other
ANTENNAS: dict[str, Any] = {
    "rssi": ...,
    "lsnr": ...,
    "rsig": [
        {"ant": 0, "chan": 7, "rssic": -80, "rssis": -85, "lsnr": 2.5},
        {"ant": 1, "chan": 39, "rssic": -91, "rssis": -95, "lsnr": 7.2},
        {"ant": 2, "chan": 40, "rssic": -90, "rssis": -96, "lsnr": 7.2},
    ],
}
# what a forwarder says of a frame: what differs from the one above, and the fields of the copy
RXPK: tuple = (
    ({}, (863009810, 2, 22, -38, 3316387610)),
    ({"data": DATA + "="}, (863009810, 2, 22, -38, 3316387610)),
    ({"lsnr": -19.8, "rssi": -119.6}, (863009810, 2, -79, -120, 3316387610)),
    ({"freq": 868.1, "datr": "SF12BW125"}, (868100000, 0, 22, -38, 3316387610)),
    ({"freq": 867.9, "datr": "SF7BW125", "tmst": 0}, (867900000, 5, 22, -38, 0)),
    ({"freq": 868, "lsnr": 7, "tmst": 2**32 - 1}, (868000000, 2, 28, -38, 2**32 - 1)),
    (ANTENNAS, (863009810, 2, 29, -90, 3316387610)),
    ({**ANTENNAS, "rsig": [{"ant": 0, "rssic": -80}]}, Wrong),
    ({**ANTENNAS, "rsig": [7]}, Wrong),
    ({**ANTENNAS, "rsig": []}, Wrong),
    ({"size": 33}, Wrong),
    ({"stat": -1}, "without_crc"),
    ({"stat": 0}, "without_crc"),
    ({"stat": None}, "without_crc"),
    ({"modu": "FSK", "datr": 50000}, "other_modulations"),
    ({"modu": "LR-FHSS", "datr": "M0CW137"}, "other_modulations"),
    ({"datr": "SF7BW250"}, "other_modulations"),
    ({"datr": "SF6BW125"}, "other_modulations"),
    ({"datr": ["SF7BW125"]}, "other_modulations"),
    ({"tmst": 2**32}, Wrong),
    ({"tmst": -1}, Wrong),
    ({"tmst": 1.5}, Wrong),
    ({"tmst": True}, Wrong),
    ({"freq": float("nan")}, Wrong),
    ({"freq": float("inf")}, Wrong),
    ({"freq": "868.1"}, Wrong),
    ({"lsnr": 1e300}, Wrong),
    ({"lsnr": 20}, (863009810, 2, 80, -38, 3316387610)),
    ({"lsnr": -32}, (863009810, 2, -128, -38, 3316387610)),
    ({"lsnr": 20.25}, Wrong),
    ({"lsnr": -32.25}, Wrong),
    ({"lsnr": 50}, Wrong),
    ({**ANTENNAS, "rsig": [{"rssic": -80, "lsnr": 7}, {"rssic": -80, "lsnr": 50}]}, Wrong),
    ({"rssi": None}, Wrong),
    ({"data": "%%%"}, Wrong),
    ({"data": "\u00e4AAA"}, Wrong),
    ({"data": 7}, Wrong),
    ({"data": "A" * 344}, Wrong),
)

# a downlink's content, and what is sent to a forwarder for each window
DOWN = b"\x11" + EUI
DOWNLINKS = (
    ("0000C350 33BE27A0 05 01 02", (1050000, 868.1, "SF7BW125"), (2050000, 869.525, "SF12BW125")),
    ("FFFFFFFF 33AEE560 00 05 06", (4999999, 867.1, "SF12BW125"), (5999999, 869.525, "SF12BW125")),
    ("FFF0BDC0 33BE27A0 03 01 00", (0, 868.1, "SF9BW125"), None),
    ("00000000 33BB1A60 04 0F 10", (15000000, 867.9, "SF8BW125"), (16000000, 869.525, "SF12BW125")),
)

# a datagram, and what is answered at once
DATAGRAMS: tuple = (
    (HEAD + b"\x00" + EUI + b'{"stat":{}}', HEAD + b"\x01"),
    (HEAD + b"\x02" + EUI, HEAD + b"\x04"),
    (b"\x01\x12\x34\x02" + EUI, b"\x01\x12\x34\x04"),
    (b"\x01\x12\x34\x00" + EUI, b"\x01\x12\x34\x01"),
    (b"", Wrong),
    (HEAD + b"\x02" + EUI[:7], Wrong),
    (b"\x00\x12\x34\x02" + EUI, Wrong),
    (b"\x03\x12\x34\x02" + EUI, Wrong),
    (HEAD + b"\x01" + EUI, Wrong),
    (HEAD + b"\x03" + EUI, Wrong),
    (HEAD + b"\xff" + EUI, Wrong),
)

# what a forwarder says of a downlink
ACKS: tuple = (
    (b"", "NONE"),
    (b"\0", "NONE"),
    (b'{"txpk_ack":{"error":"NONE"}}', "NONE"),
    (b'{"txpk_ack":{"warn":"TX_POWER","value":20}}', "NONE"),
    (b'{"txpk_ack":{"error":"COLLISION_PACKET"}}\0', "COLLISION_PACKET"),
    (b'{"txpk_ack":{"error":"TOO_LATE"}}', "TOO_LATE"),
    (b'{"txpk_ack":null}', "NONE"),
    (b'{"txpk_ack":{"error":null}}', "NONE"),
    (b'{"txpk_ack":{"error":""}}', "NONE"),
    (b'{"txpk_ack":{"error":7}}', Wrong),
    (b'{"txpk_ack":{"error":["TOO_LATE"]}}', Wrong),
    (b"[]", Wrong),
    (b"{", Wrong),
    (DEEP, Wrong),
)

# the texts of PUSH_DATA, and how many frames are in them
TEXTS: tuple = (
    (b'{"rxpk":[{},{}]}', 2),
    (b'{"rxpk":[{}]}\0', 1),
    (b'{"stat":{"rxnb":2}}', 0),
    (b'{"rxpk":{}}', Wrong),
    (b"7", Wrong),
    (b"\xff\xfe", Wrong),
    (b'{"rxpk":[', Wrong),
    (DEEP, Wrong),
)

# stamps with the seconds between them, and how often the clock began anew
CLOCKS = (
    ([(0, 100), (2, 2_000_100)], 0),
    ([(0, 2**32 - 1_000_000), (2, 1_000_000)], 0),
    ([(0, 3_000_000_000), (1, 5_000)], 1),
    ([(0, 5_000_000), (0, 3_500_000), (1, 6_000_000)], 0),
    ([(0, 0), (4294.967296 * 3, 0)], 0),
    ([(0, 0), (600, 900_000_000)], 1),
    # a clock that is slower than ours, and one that is quicker
    ([(100, 99_600_000 * second) for second in range(40)], 0),
    ([(100, 100_400_000 * second) for second in range(40)], 0),
)


def copied(changes: dict) -> Any:
    """What is counted, or the fields of a copy; its payload and its bytes are compared here."""
    said = {name: value for name, value in {**HEARD, **changes}.items() if value is not ...}
    heard = gwmp.frame_in(EUI.hex().upper(), said)
    copy = heard.copy
    how = (copy.frequency, copy.data_rate, copy.snr, copy.rssi, copy.stamp)
    due = oracle.copy_message(EUI.hex(), how, PAYLOAD)
    return how if heard.message() == due else heard.message()


def told(content: bytes) -> list:
    """What is sent to a forwarder for each window of a downlink."""
    downlink = wire.Downlink.read(content)
    txpk = [
        gwmp.txpk_of(downlink, window, 14) if window else None
        for window in (downlink.rx1, downlink.rx2)
    ]
    return [window and (window["tmst"], window["freq"], window["datr"]) for window in txpk]


# a window's delay in seconds after a stamp of 0 that came at 1000.0 s, when it is looked at, and
# whether it is still to come; ten seconds of slack are on both sides
DUE = (
    (1, 1000.2, True),
    (1, 1010.9, True),
    (1, 1011.1, False),
    (5, 1000.0, True),
    (5, 989.9, False),
    (15, 1024.9, True),
    (15, 1025.1, False),
)


@pytest.mark.parametrize("delay, moment, is_due", DUE)
def test_window_is_due(delay: Any, moment: Any, is_due: Any) -> None:
    """Whether a window is still to come."""
    clock = clocks.Clock()
    assert not clock.is_due(0, delay, moment), "of a clock of which nothing came"
    clock.hear(0, 1000.0)
    assert clock.is_due(0, delay, moment) == is_due


@table("changes, due", RXPK)
def test_heard(changes: Any, due: Any) -> None:
    """A frame that a forwarder heard: the fields of its copy, or what is counted."""
    assert outcome(copied, changes) == due


@table("text, first, second", DOWNLINKS)
def test_downlink(text: str, first: Any, second: Any) -> None:
    """What is sent to a forwarder for each window."""
    assert told(DOWN + bytes.fromhex(text) + PAYLOAD) == [first, second]


@table("data, due", DATAGRAMS)
def test_datagram(data: bytes, due: Any) -> None:
    """What is answered to a datagram at once."""
    assert outcome(lambda: Datagram.read(data).acknowledgement()) == due


@table("text, due", ACKS)
def test_acknowledgement(text: bytes, due: Any) -> None:
    """What a forwarder says of a downlink."""
    assert outcome(gwmp.error_in, text) == due


@table("text, due", TEXTS)
def test_frames_of_a_datagram(text: bytes, due: Any) -> None:
    """How many frames PUSH_DATA has."""
    assert outcome(lambda: len(gwmp.heard_in(text))) == due


@table("stamps, due", CLOCKS)
def test_clock_begins_anew(stamps: Any, due: Any) -> None:
    """How often a clock began anew."""
    clock, moment = clocks.Clock(), 1000.0
    for after, stamp in stamps:
        moment += after
        clock.hear(stamp, moment)
    assert clock.begun_anew == due
