"""Rows of what is translated between ChirpStack's gateway bridge and the network, each value by the
public texts of its events and by docs/FORMATS.md."""

import json

from typing import Any

from bozintar import wire
from bozintar.fields import Wrong
from bridges import gateway_events, named

from .parts import program_of_pilot
from .rows import outcome, table

STATION = bytes.fromhex("0016c001f153a14c")
# of ChirpStack's documentation of its gateway bridge's events
EVENT: dict[str, Any] = {
    "phyPayload": "AAEBAQEBAQEBAQEBAQEBAQGXFgz1VyE=",
    "txInfo": {
        "frequency": 868100000,
        "modulation": {
            "lora": {"bandwidth": 125000, "spreadingFactor": 7, "codeRate": "CR_4_5"},
        },
    },
    "rxInfo": {
        "gatewayId": "0016c001f153a14c",
        "uplinkId": 28008,
        "gwTime": None,
        "rssi": -57,
        "snr": 9.2,
        "channel": 2,
        "rfChain": 1,
        "location": {},
        "context": "GtzGww==",
        "crcStatus": "CRC_OK",
    },
}
JOIN = bytes.fromhex("00010101010101010101010101010101" "0197160cf55721")
CONTEXT = bytes.fromhex("1adcc6c3")

# what differs from that event, in txInfo, its modulation and rxInfo; and what is read
EVENTS: tuple = (
    ({}, {}, {}, (868100000, 5, 37, -57, CONTEXT)),
    ({}, {"spreadingFactor": 12}, {"snr": -20, "rssi": -130}, (868100000, 0, -80, -130, CONTEXT)),
    ({"frequency": 867100000}, {}, {"crcStatus": 2}, (867100000, 5, 37, -57, CONTEXT)),
    ({}, {}, {"snr": 0, "context": ""}, (868100000, 5, 0, -57, b"")),
    ({}, {}, {"crcStatus": "BAD_CRC"}, "without_crc"),
    ({}, {}, {"crcStatus": "NO_CRC"}, "without_crc"),
    ({}, {}, {"crcStatus": None}, "without_crc"),
    ({}, {"bandwidth": 250000}, {}, "other_modulations"),
    ({}, {"spreadingFactor": 6}, {}, "other_modulations"),
    ({"modulation": {"fsk": {"datarate": 50000}}}, {}, {}, "other_modulations"),
    ({"modulation": None}, {}, {}, Wrong),
    ({"frequency": "868100000"}, {}, {}, Wrong),
    ({"frequency": 2**32}, {}, {}, Wrong),
    ({}, {"spreadingFactor": 7.5}, {}, Wrong),
    ({}, {}, {"gatewayId": "0016c001f153a14d"}, Wrong),
    ({}, {}, {"gatewayId": 7}, Wrong),
    ({}, {}, {"snr": "NaN"}, Wrong),
    ({}, {}, {"snr": 20}, (868100000, 5, 80, -57, CONTEXT)),
    ({}, {}, {"snr": -32}, (868100000, 5, -128, -57, CONTEXT)),
    ({}, {}, {"snr": 20.25}, Wrong),
    ({}, {}, {"snr": -32.25}, Wrong),
    ({}, {}, {"snr": 50}, Wrong),
    ({}, {}, {"snr": float("nan")}, Wrong),
    ({}, {}, {"context": "*"}, Wrong),
    ({}, {}, {"context": "A" * 100}, Wrong),
)
LORA_DOWN: dict[str, Any] = {
    "bandwidth": 125000,
    "codeRate": "CR_4_5",
    "polarizationInversion": True,
}
FIRST: dict = {
    "phyPayload": "AAEBAQEBAQEBAQEBAQEBAQGXFgz1VyE=",
    "txInfo": {
        "frequency": 868100000,
        "power": 16,
        "modulation": {"lora": {**LORA_DOWN, "spreadingFactor": 7}},
        "timing": {"delay": {"delay": "5s"}},
        "context": "GtzGww==",
    },
}
SECOND: dict = {
    "phyPayload": "AAEBAQEBAQEBAQEBAQEBAQGXFgz1VyE=",
    "txInfo": {
        "frequency": 869525000,
        "power": 27,
        "modulation": {"lora": {**LORA_DOWN, "spreadingFactor": 12}},
        "timing": {"delay": {"delay": "6s"}},
        "context": "GtzGww==",
    },
}
# a downlink's content after its gateway, and the items of the command
ORDERS = (("00000007 33BE27A0 05 05 06", [FIRST, SECOND]), ("00000007 33BE27A0 05 05 00", [FIRST]))
STATUS_TEXTS: tuple = (
    (b'{"items":[{"status":"TOO_LATE"},{"status":"OK"}]}', ["TOO_LATE", "OK"]),
    (b'{"items":[{}]}', ["IGNORED"]),
    (b"{}", []),
    (b'{"items":7}', Wrong),
    (b'{"items":[7]}', Wrong),
)


def heard(tx: dict, lora: dict, rx: dict) -> Any:
    """What is read of an event."""
    modulation = {"lora": {**EVENT["txInfo"]["modulation"]["lora"], **lora}}
    tx = {**EVENT["txInfo"], "modulation": modulation, **tx}
    body = {**EVENT, "txInfo": tx, "rxInfo": {**EVENT["rxInfo"], **rx}}
    up = gateway_events.up(STATION.hex().upper(), 7, json.dumps(body).encode())
    copy = up.heard.copy
    if (copy.gateway, copy.stamp, up.heard.frame) != (STATION.hex().upper(), 7, JOIN):
        return up
    return copy.frequency, copy.data_rate, copy.snr, copy.rssi, up.context


@table("changes, due", [((tx, lora, rx), due) for tx, lora, rx, due in EVENTS])
def test_event_up(changes: Any, due: Any) -> None:
    """A frame that a gateway heard: the fields of its copy, or what is counted."""
    assert outcome(heard, *changes) == due


@table("text, items", ORDERS)
def test_command_down(text: str, items: Any) -> None:
    """What is sent to a gateway of a downlink."""
    content = b"\x11" + STATION + bytes.fromhex(text) + JOIN
    command = gateway_events.command(wire.Downlink.read(content), 12345, CONTEXT, (16, 27))
    due = {"downlinkId": 12345, "gatewayId": "0016c001f153a14c", "items": items}
    assert json.loads(command) == due


@table("text, due", STATUS_TEXTS)
def test_event_ack(text: bytes, due: Any) -> None:
    """What became of a downlink."""
    assert outcome(gateway_events.statuses, text) == due


def test_contexts() -> None:
    """The contexts of a gateway's last 1,024 uplinks are kept."""
    eui, body = STATION.hex().upper(), json.dumps(EVENT).encode()
    gateway = program_of_pilot("gateways-mqtt").Gateway(named.Named(eui), None)
    for stamp in range(1026):
        gateway.keep(gateway_events.up(eui, stamp, body))
    assert list(gateway.contexts) == list(range(2, 1026))
    assert gateway.contexts[1025] == CONTEXT


def test_command_topic() -> None:
    """The topic of a gateway's commands."""
    topic = gateway_events.command_topic("eu868", STATION.hex().upper())
    assert topic == "eu868/gateway/0016c001f153a14c/command/down"
