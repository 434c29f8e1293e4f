"""Events of the broker, as applications-mqtt publishes them: ChirpStack's fields, and nothing of
them is believed."""

from dataclasses import replace
from typing import Any

import pytest
from bozintar.fields import Wrong
from console import broker_events
from console.devices import Device
from console.network import Network

from .sites import DEVICE, GATEWAY, Clock, Console, event, up

EVIL = "\"'><script>alert(1)</script>"
# events, and what the device's page shows of each
SHOWN = [
    ("status", {"margin": 7, "batteryLevel": 61.42}, "Battery 61 %, 0 s ago"),
    ("status", {"margin": 7, "externalPowerSource": True, "batteryLevel": 0}, "Battery Mains, 0 s"),
    (
        "status",
        {"margin": 7, "batteryLevelUnavailable": True, "batteryLevel": 0},
        "Battery Unknown",
    ),
    ("ack", {"acknowledged": True, "queueItemId": "41"}, "Downlink 41 acknowledged"),
    ("ack", {"acknowledged": False, "queueItemId": "41"}, "Downlink 41 not acknowledged"),
    ("queued", {"queueItemId": "41"}, "Downlink queued: item 41"),
    # LinkADRAns of TS001-1.0.4 §5.2: bits 2, 1, 0 accept power, data rate, channels
    ("mac", {"commands": "0307"}, "MAC answer: LinkADRAns, accepted"),
    ("mac", {"commands": "0305"}, "MAC answer: LinkADRAns, refused: data rate"),
    ("mac", {"commands": "0302"}, "MAC answer: LinkADRAns, refused: power, channels"),
    # DevStatusAns of §5.5: the margin has six bits, signed
    ("mac", {"commands": "0307063B3F"}, "LinkADRAns, accepted, DevStatusAns, margin -1 dB"),
    ("mac", {"commands": "0B01"}, "MAC answer: 0B01"),
    # LinkADRReq of §5.2: data rate 3, power 0, which is 16 dBm in EU868
    ("macqueued", {"commands": "0330FF0001"}, "Downlink queued: LinkADRReq DR3, 16 dBm"),
    ("macqueued", {"commands": "06"}, "Downlink queued: DevStatusReq"),
    ("log", {"code": "QUEUE_FULL", "description": "16 items wait"}, "Error QUEUE_FULL: 16 items"),
]
# what adr reports of a device that it has asked for DR5 (0350FF0001)
ADR: dict[str, Any] = {"joinNonce": 1, "dr": 0, "txPower": 0, "isPowerKnown": True}
ADR |= {"asked": "0350FF0001", "tries": 1, "leftAlone": ""}
LISTENS: dict[str, Any] = {**ADR, "asked": "", "tries": 0}
# each event of adr, and what the device's page shows then
ADRS: list[tuple[dict, str]] = [
    (LISTENS, "Adaptive data rate Sends with DR0, 16 dBm Downlinks"),
    (ADR, "Sends with DR0, 16 dBm; asked for LinkADRReq DR5, 16 dBm, 0 s ago"),
    ({**ADR, "tries": 2}, "asked for LinkADRReq DR5, 16 dBm, 2 times, 0 s ago"),
    ({**ADR, "asked": "06"}, "asked for DevStatusReq, 0 s ago"),
    ({**LISTENS, "dr": 5, "txPower": 7}, "Sends with DR5, 2 dBm Downlinks"),
    ({**LISTENS, "isPowerKnown": False}, "Sends with DR0, 16 dBm (the power isn't known)"),
    ({**LISTENS, "leftAlone": "it is deaf"}, "Left alone: it is deaf. Sends with DR0, 16 dBm"),
    (
        {**LISTENS, "leftAlone": "it is deaf", "until": 516},
        "Left alone until counter 516: it is deaf. Sends with",
    ),
    # of a device that it must not ask adr knows nothing
    ({"leftAlone": "it is in the file of --except"}, "Left alone: it is in the file of --except"),
]
STATUS: dict[str, Any] = {"externalPowerSource": False, "batteryLevelUnavailable": False}
WRONG: list[tuple[str, bytes]] = [
    (f"application/3/device/{DEVICE.lower()}/event/up", b"{"),
    (f"application/3/device/{DEVICE.lower()}/event/up", b"[]"),
    (f"application/3/device/{DEVICE.lower()}/event/up", b"\xff\x00"),
    (f"application/3/device/{DEVICE.lower()}/event/up", b"[" * 5000),
    (f"application/3/device/{DEVICE.lower()}/event/up", b" " * 20_000),
    ("application/3/device/x/event/up", b"{}"),
    (f"application/16/device/{DEVICE.lower()}/event/up", b"{}"),
    (f"application/3/device/{DEVICE}/event/up", b"{}"),
    (f"application/3/device/{DEVICE.lower()}/event/up/more", b"{}"),
    up(DEVICE, 0, rate=6),
    up(DEVICE, 0, snr=99.0),
    up(DEVICE, -1),
    up(DEVICE, 2**32),
    up(DEVICE, 0, session=2**24),
    up(DEVICE, 0, rxInfo=[]),
    up(DEVICE, 0, rxInfo={}),
    up(DEVICE, 0, rxInfo=[7]),
    up(DEVICE, 0, rxInfo=[{"gatewayId": EVIL, "rssi": -90, "snr": 1}]),
    up(DEVICE, 0, rxInfo=[{"gatewayId": "b1", "rssi": -90, "snr": 1}]),
    up(DEVICE, 0, txInfo=7),
    up(DEVICE, 0, data="?"),
    up(DEVICE, 0, copies=True),
    up(DEVICE, 0, fPort="7"),
    event(DEVICE, "status", {}),
    event(DEVICE, "status", {**STATUS, "margin": 7, "batteryLevel": 101}),
    event(DEVICE, "status", {**STATUS, "margin": 99, "batteryLevel": 50}),
    event(DEVICE, "ack", {"acknowledged": "yes", "queueItemId": "41"}),
    event(DEVICE, "ack", {"acknowledged": True}),
    event(DEVICE, "mac", {"commands": 7}),
    event(DEVICE, "log", {"code": 7, "description": ""}),
    event(DEVICE, "adr", {}),
    event(DEVICE, "adr", {**ADR, "dr": 6}),
    event(DEVICE, "adr", {**ADR, "txPower": 8}),
    event(DEVICE, "adr", {**ADR, "isPowerKnown": 1}),
    event(DEVICE, "adr", {**ADR, "asked": 7}),
    event(DEVICE, "adr", {**ADR, "tries": -1}),
    event(DEVICE, "adr", {**ADR, "until": 2**32}),
    event(DEVICE, "adr", {"leftAlone": None}),
]


@pytest.mark.parametrize("kind, said, shown", SHOWN)
def test_events(console: Console, kind: str, said: dict, shown: str) -> None:
    """Each kind of event is shown."""
    console.events(event(DEVICE, kind, {**STATUS, **said} if kind == "status" else said))
    assert shown in console.get(f"/devices/{DEVICE}").text


@pytest.mark.parametrize("said, shown", ADRS)
def test_adr(console: Console, said: dict, shown: str) -> None:
    """What adr believes of a device, what it has asked for, and why it leaves the device alone."""
    assert "Nothing reported by adr" in console.device_page(up(DEVICE, 0))
    assert shown in console.device_page(event(DEVICE, "adr", said))


def test_events_of_adr(console: Console) -> None:
    """A change of what a device sends with is an event, and so is that it is left alone."""
    settings = (LISTENS, {**LISTENS, "dr": 5}, {**LISTENS, "dr": 5, "leftAlone": "it is deaf"})
    text = console.device_page(*(event(DEVICE, "adr", said) for said in (*settings, settings[-1])))
    assert text.count("ADR: it sends with DR5, 16 dBm") == 1
    assert text.count("ADR leaves it alone: it is deaf") == 1
    assert "Left alone by ADR 1" in console.get("/devices").text
    assert DEVICE in console.get("/devices?show=alone").text
    console.events(event(DEVICE, "adr", LISTENS))
    assert "Left alone by ADR 0" in console.get("/devices").text


@pytest.mark.parametrize("said", [said for said, _ in ADRS])
def test_adr_over_a_restart(console: Console, said: dict) -> None:
    """A console that starts again knows what adr has reported."""
    console.events(event(DEVICE, "adr", said))
    adaption = console.network.devices[DEVICE].adaption
    again = Network(console.kept).devices[DEVICE]
    assert again == replace(Device(DEVICE, application="3"), adaption=adaption)


@pytest.mark.parametrize("topic, payload", WRONG)
def test_wrong_events(console: Console, topic: str, payload: bytes) -> None:
    """An event that isn't one is refused, and nothing of it is kept."""
    before = console.get(f"/devices/{DEVICE}").text
    with pytest.raises(Wrong):
        broker_events.take(console.network, topic, payload)
    console.settle()
    assert console.get(f"/devices/{DEVICE}").text == before


def test_unknown_kinds(console: Console) -> None:
    """An event of a later bridge is ignored."""
    console.events(event("70B3D57ED0000099", "location", {"latitude": 1}))
    assert console.get("/devices/70B3D57ED0000099").status == 404


def test_counters(console: Console) -> None:
    """Counters that were passed over are missing, what comes twice isn't counted again, and each
    session counts by itself, from the first one that was heard on."""
    device = console.network.devices[DEVICE]
    console.events(*(up(DEVICE, counter) for counter in (5, 6, 9, 9, 6)))
    assert (device.stored, device.missing) == (3, 2)
    console.events(up(DEVICE, 0, session=2), up(DEVICE, 2, session=2), up(DEVICE, 10))
    assert (device.stored, device.missing) == (6, 3)
    assert (device.session, device.last_up) == (2, 2)
    assert len(console.kept.rows("SELECT 1 FROM uplinks")) == 6


def test_history(console: Console) -> None:
    """A console that starts again knows what the history has."""
    from console.network import Network

    console.events(*(up(DEVICE, counter) for counter in (0, 1, 4)))
    console.events(event(DEVICE, "status", {**STATUS, "margin": 7, "batteryLevel": 50}))
    console.network.rename(DEVICE, "Meter 1")
    console.network.save_minutes()
    console.settle()
    again = Network(console.kept)
    device, before = again.devices[DEVICE], console.network.devices[DEVICE]
    assert (device.stored, device.missing, device.margin) == (3, 2, before.margin)
    assert (device.uplink, device.report) == (before.uplink, before.report)
    assert again.name(DEVICE) == "Meter 1"
    assert again.total("missing", 60) == 2
    assert (again.gateways[GATEWAY].best, again.gateways[GATEWAY].is_linked) == (3, None)
    assert [one.text for one in again.events] == [one.text for one in console.network.events]


def test_no_payloads(console: Console) -> None:
    """Payloads aren't kept: they are the application's."""
    console.events(up(DEVICE, 0, data="c2VjcmV0"))
    console.kept.writing.execute("PRAGMA wal_checkpoint(TRUNCATE)")
    file = console.kept.rows("PRAGMA database_list")[0][2]
    with open(file, "rb") as database:
        content = database.read()
    assert b"c2VjcmV0" not in content and b"secret" not in content
    assert "secret" not in console.get(f"/devices/{DEVICE}").markup


def test_silent(console: Console, clock: Clock) -> None:
    """A device is silent once three of its intervals have passed without an uplink, and it says
    when the next one is due."""
    for counter in range(5):
        console.events(up(DEVICE, counter))
        clock.now += 900
    text = console.get(f"/devices/{DEVICE}").text
    assert "Next uplink now, every 15 min" in text
    clock.now += 1700
    assert "Silent" not in console.get(f"/devices/{DEVICE}").text
    clock.now += 200
    console.settle()
    assert "Silent" in console.get(f"/devices/{DEVICE}").text
    assert "1 device silent" in console.get("/").text
    console.events(up(DEVICE, 5))
    assert "Silent" not in console.get(f"/devices/{DEVICE}").text
