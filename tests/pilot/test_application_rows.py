"""Rows of what is translated between the network and applications, each value by the public text of
its format: ChirpStack's events and commands (version 4), docs/FORMATS.md."""

from pathlib import Path
from typing import Any

import pytest
from bozintar.fields import Wrong
from bridges.application_events import Translator, command_in, refusal, status
from bridges.names import IN_USE, Names

from .rows import outcome, table

DEVICE = "0101010101010101"
INFO = {"applicationId": "3", "devEui": DEVICE}
TIME = "2022-07-18T09:34:15.775023+00:00"
LORA = {"bandwidth": 125000, "spreadingFactor": 11, "codeRate": "CR_4_5"}
UP = {
    "time": TIME,
    "deviceInfo": INFO,
    "joinNonce": 5,
    "fCnt": 10,
    "fPort": 1,
    "dr": 1,
    "data": "qg==",
    "copies": 2,
    "rxInfo": [{"gatewayId": "0016c001f153a14c", "rssi": -36, "snr": 10.5}],
    "txInfo": {"frequency": 867100000, "modulation": {"lora": LORA}},
}
ITEM: dict[str, Any] = {"queueItemId": "5", "tag": 5}
KNOWN: dict[str, Any] = {"queueItemId": "3ac7e3c4", "tag": 9}
SPENT = {
    "level": "ERROR",
    "code": "FRAME_COUNTERS_SPENT",
    "joinNonce": 5,
    "description": "the session has no downlink counter left",
}
# words that a later server may add at the end of a line
LATER = "7 later words"
STATUS = {
    "margin": 20,
    "externalPowerSource": False,
    "batteryLevelUnavailable": False,
    "batteryLevel": 50.39,
}

# a line of an application, and the event: its kind, and what it says besides whose it is and when
LINES: tuple = (
    (f"acked {DEVICE} 5", ("ack", {**ITEM, "acknowledged": True})),
    (f"lost {DEVICE} 9", ("ack", {**KNOWN, "acknowledged": False})),
    (f"queued {DEVICE} 9", ("queued", KNOWN)),
    (f"spent {DEVICE} 5", ("log", SPENT)),
    (f"mac {DEVICE} 5 068014", ("status", STATUS)),
    (f"mac {DEVICE} 5 0307", ("mac", {"joinNonce": 5, "commands": "0307"})),
    (f"hello {DEVICE}", Wrong),
    (f"mac {DEVICE[:8]}/+ 5 0307", Wrong),
)

# MAC commands of a device, and the events of their line
MAC_LINES: tuple = (
    ("068014", ["status"]),
    ("0307", ["mac"]),
    ("0307068014", ["mac", "status"]),
    ("0680140307", ["mac", "status"]),
    ("0307068014068014", ["mac", "status", "status"]),
    # an incomplete one, and one after an identifier that isn't known
    ("03070680", ["mac"]),
    ("0307FF068014", ["mac"]),
)

# of a DevStatusAns: battery and margin (TS001-1.0.4 §5.5)
STATUSES = (
    ((0, 0x3F), (-1, True, False, 0)),
    ((255, 0x20), (-32, False, True, 0)),
    ((254, 0x1F), (31, False, False, 100.0)),
    ((127, 0), (0, False, False, 50.0)),
)

# a command `down`, and the line that is asked
COMMANDS: tuple = (
    ('{"devEui":"%s","confirmed":true,"fPort":10,"data":"qrs="}', "queue %s 8 10 c AABB"),
    ('{"fPort":10,"data":"qrs"}', "queue %s 8 10 u AABB"),
    ('{"fPort":255,"object":{},"flushQueue":false}', "queue %s 8 255 u -"),
    ('{"fPort":255,"flushQueue":1}', Wrong),
    ('{"fPort":10,"data":"","id":"x"}', "queue %s 8 10 u -"),
    ('{"devEui":"0202020202020202","fPort":10,"data":"qg=="}', Wrong),
    ('{"fPort":256,"data":"qg=="}', Wrong),
    ('{"fPort":true,"data":"qg=="}', Wrong),
    ('{"data":"qg=="}', Wrong),
    ('{"fPort":1,"data":"*"}', Wrong),
    ('{"fPort":1,"data":null}', Wrong),
    ('{"fPort":1,"confirmed":1}', Wrong),
    ('{"fPort":1,"id":7}', Wrong),
    ('{"fPort":1,"devEui":7}', Wrong),
)

# a command `mac`, and the line that is asked: LinkADRReq, DutyCycleReq, DevStatusReq
MAC_COMMANDS: tuple = (
    ('{"commands":"06","id":"x"}', "mac %s 06"),
    ('{"devEui":"%s","commands":"0300ff01010406"}', "mac %s 0300FF01010406"),
    ('{"commands":""}', Wrong),
    ('{"commands":"6"}', Wrong),
    ('{"commands":"06 06"}', Wrong),
    ('{"commands":"%s"}' % ("06" * 129), Wrong),
    ('{"id":"x"}', Wrong),
    ('{"commands":6}', Wrong),
)

# a line that refuses, and its code
REFUSED: tuple = (("refused 12", "QUEUE_FULL"), ("refused 99", "REFUSED_99"))
REFUSED += ((f"refused 12 {LATER}", "QUEUE_FULL"), ("refused 1 2", "REFUSED_1"))
REFUSED += tuple((line, "REFUSED") for line in ("refused", "refused ", "refused x", "refused x 12"))


def named(device: str, tag: int) -> str | None:
    """The id of an item."""
    return "3ac7e3c4" if (device, tag) == (DEVICE, 9) else None


def translated(line: str) -> tuple[str, dict]:
    """The kind of a line's event, and what it says besides whose it is and when."""
    event = Translator(3, named).event(line, TIME)
    if (event.body.pop("time"), event.body.pop("deviceInfo")) != (TIME, INFO):
        return "another device", {}
    return event.kind, event.body


def asked(text: str, kind: str = "down") -> str:
    """The request of a command."""
    topic = f"application/3/device/{DEVICE.lower()}/command/{kind}"
    return command_in(topic, 3, text.encode()).line(8)


@pytest.mark.parametrize("more", ("", f" {LATER}"), ids=("today", "later"))
def test_event_up(more: str) -> None:
    """The event of a reading. Its identifier is the same if it comes again."""
    line = f"up {DEVICE} 5 10 1 AA 2 0016C001F153A14C 867100000 1 42 -36{more}"
    event, again = (Translator(3, named).event(line, moment) for moment in (TIME, "later"))
    identifier = event.body.pop("deduplicationId")
    assert (event.kind, event.body) == ("up", UP)
    assert again.body["deduplicationId"] == identifier
    assert event.topic(3) == f"application/3/device/{DEVICE}/event/up"


# a reading, and others: of another device, session or counter
MARKS = (f"{DEVICE} 5 10", f"{DEVICE[:-1]}2 5 10", f"{DEVICE} 6 10", f"{DEVICE} 5 11")


def test_identifiers_of_readings() -> None:
    """Each reading has an identifier of its own."""
    lines = [f"up {mark} 1 AA 2 0016C001F153A14C 867100000 1 42 -36" for mark in MARKS]
    events = [Translator(3, named).event(line, TIME) for line in lines]
    assert len({event.body["deduplicationId"] for event in events}) == len(MARKS)


# an id, and whether it is a tag
IDS: tuple = (
    ("7", True),
    ("0", True),
    ("007", False),
    ("x", False),
    ("", False),
    ("1000000000", False),
)
IDS += (("999999999", True), ("\u0667", False), ("-7", False))


@table("text, is_tag", IDS)
def test_tag_of_an_id(text: str, is_tag: bool) -> None:
    """An id that is a number is the tag, as it is; a tag of another one is above all of these."""
    tag = Names().add(DEVICE, text)
    assert (tag == int(text)) if is_tag else (tag >= 10**9)


@pytest.mark.parametrize("more", ("", f" {LATER}"), ids=("today", "later"))
@table("line, due", LINES)
def test_event(line: str, more: str, due: Any) -> None:
    """The event of a line, also if a later server adds words."""
    assert outcome(translated, line + more) == due


@table("commands, due", MAC_LINES)
def test_events(commands: str, due: list[str]) -> None:
    """A status has an event of its own, also if it comes beside other MAC commands."""
    bodies: dict = {"mac": {"joinNonce": 5, "commands": commands}, "status": STATUS}
    events = Translator(3, named).events(f"mac {DEVICE} 5 {commands}", TIME)
    assert [event.kind for event in events] == due
    for event in events:
        assert event.body == {"time": TIME, "deviceInfo": INFO, **bodies[event.kind]}


@table("answer, due", STATUSES)
def test_status(answer: Any, due: Any) -> None:
    """A device's battery and margin."""
    assert tuple(status(*answer).values()) == due


@table("text, due", COMMANDS)
def test_command_down(text: str, due: Any) -> None:
    """What is asked for a command."""
    text, due = (word % DEVICE if "%s" in word else word for word in (text, str(due)))
    assert str(outcome(asked, text)) == due


@table("text, due", MAC_COMMANDS)
def test_command_mac(text: str, due: Any) -> None:
    """What is asked for a command with MAC commands."""
    text, due = (word.replace("%s", DEVICE) for word in (text, str(due)))
    assert str(outcome(asked, text, "mac")) == due


def test_ids_after_a_restart(folder: Path) -> None:
    """Ids are known to the next run: of an item that waits; of one that the device acknowledged,
    whose id is free; of one without acknowledgement, whose id is free a minute later; and of one
    without an answer, whose id is free at once."""
    now, file = 1e9, str(folder / "ids.db")
    names = Names(file, lambda: now)
    tags = {text: names.add(DEVICE, text) for text in ("waits", "done", "sent", "asked", "7")}
    for text in ("waits", "done"):
        names.hold(DEVICE, tags[text])
    names.free(DEVICE, tags["done"])
    names.free(DEVICE, tags["sent"], IN_USE)
    names.forget(DEVICE, 7)
    assert [names.is_in_use(DEVICE, text) for text in tags] == [True, False, True, True, False]
    later = Names(file, lambda: now)
    assert [later.text(DEVICE, tag) for tag in tags.values()] == [*list(tags)[:4], None]
    assert [later.is_in_use(DEVICE, text) for text in tags] == [True, False, True, False, False]
    now += IN_USE
    assert not later.is_in_use(DEVICE, "sent") and later.is_in_use(DEVICE, "waits")
    assert not later.is_in_use(DEVICE[::-1], "waits"), "of another device"


@table("line, code", REFUSED)
def test_refusal(line: str, code: str) -> None:
    """The code of what the network refuses."""
    assert refusal(line)[0] == code


def test_name_of_a_device() -> None:
    """A device's name is in its events, as ChirpStack has it."""
    translator = Translator(3, named)
    translator.devices = {DEVICE: "roof"}
    info = translator.event(f"acked {DEVICE} 5", TIME).body["deviceInfo"]
    assert info == {**INFO, "deviceName": "roof"}
