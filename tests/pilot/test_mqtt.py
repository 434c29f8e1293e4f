"""Applications by MQTT: devices from a file, readings, items, and what is stored."""

import base64
import json
import os
import signal
import sqlite3
from collections.abc import Iterable, Iterator
from contextlib import closing
from datetime import datetime, timedelta, timezone
from pathlib import Path
from typing import Any

import pytest
from bozintar.links import Application
from bozintar.meters import JOIN_EUI, Meter, Reading
from bozintar.processes import HOST, await_all, await_that

from .field import APPLICATION, GATEWAYS, counts_in
from .parts import Parts, run
from .rows import table
from .whole import Dashboard, Whole

TAG = 41
# readings: the device as an event has it, JoinNonce, counter; and what is printed of them
SESSIONS = (
    ("70b3d57ed0000002", 9, 7),
    ("70b3d57ed0000002", 10, 0),
    ("70b3d57ed0000002", 2, 900),
    ("00000000000000fe", 16_777_215, 1),
    ("70b3d57ed0000001", 1, 0),
)
HEAD = "DevEUI,JoinNonce"
# when they came
TIME = "2026-11-29T16:13:57.305031+00:00"
HIGHEST = ("00000000000000FE,16777215", "70B3D57ED0000001,1", "70B3D57ED0000002,10")
# nothing, no JSON, no object, no base64, too deep, no number
WRONG_COMMANDS = (b"", b"{", b"[]", b'{"fPort":7,"data":"%"}', b"[" * 60000, b'{"fPort":"7"}')


@pytest.fixture
def meters() -> int:
    """How many meters there are."""
    return 1


@pytest.mark.parametrize("meters", [4])
def test_readings(whole: Whole) -> None:
    """Readings are acknowledged and stored; each part ends by Ctrl-C."""
    for meter in whole.meters:
        assert whole.reading(meter), "a reading is acknowledged"
    assert whole.await_stored(whole.acknowledged()), "all are stored"
    for part in (whole.readings, whole.gateways, whole.applications):
        assert part.end(signal.SIGINT) == 0, f"{part.name} ends by Ctrl-C"


def test_event_up(whole: Whole, dashboard: Dashboard) -> None:
    """What an event `up` says."""
    meter = whole.meters[0]
    assert whole.reading(meter)
    await_that("an event", lambda: dashboard.of(meter.dev_eui, "up"))
    body = dashboard.of(meter.dev_eui, "up")[0]
    device = {"applicationId": str(APPLICATION), "devEui": meter.dev_eui.lower()}
    assert body["deviceInfo"] == device
    came = [body[name] for name in ("fCnt", "fPort", "dr", "joinNonce", "copies")]
    assert came == [0, 7, 5, 1, 3], "fCnt, fPort, dr, joinNonce, copies"
    assert base64.b64decode(body["data"]) == meter.sent[Reading(meter.dev_eui, 1, 0)]
    best = {"gatewayId": GATEWAYS[0].lower(), "rssi": -70, "snr": 8.0}
    assert body["rxInfo"] == [best]
    lora = {"bandwidth": 125000, "spreadingFactor": 7, "codeRate": "CR_4_5"}
    assert body["txInfo"] == {"frequency": 868100000, "modulation": {"lora": lora}}


def item_for(meter: Meter, payload: bytes) -> dict:
    """A confirmed item."""
    data = base64.b64encode(payload).decode()
    return {"devEui": meter.dev_eui.lower(), "fPort": 7, "confirmed": True, "data": data}


def test_item(whole: Whole, dashboard: Dashboard) -> None:
    """An item goes down, and is acknowledged."""
    meter, name = whole.meters[0], "3ac7e3c4-4401-4b8d-9386-a5c902f9202d"
    dashboard.down(meter.dev_eui, id=name, **item_for(meter, b"\xc0\xff\xee"))
    await_that("queued", lambda: dashboard.of(meter.dev_eui, "queued"))
    assert whole.reading(meter), "a reading, and the item after it"
    assert meter.items == [b"\xc0\xff\xee"]
    assert whole.reading(meter), "a reading that acknowledges"
    await_that("the acknowledgement", lambda: dashboard.of(meter.dev_eui, "ack"))
    came = dashboard.of(meter.dev_eui, "ack")[0]
    assert (came["queueItemId"], came["acknowledged"]) == (name, True)


def test_lost_item(whole: Whole, dashboard: Dashboard) -> None:
    """An item goes down, and its meter doesn't acknowledge it."""
    meter = whole.meters[0]
    dashboard.down(meter.dev_eui, id=str(TAG), **item_for(meter, b"\xc0\xff\xee"))
    await_that("queued", lambda: dashboard.of(meter.dev_eui, "queued"))
    assert whole.reading(meter), "a reading, and the item after it"
    meter.owes_ack = False
    assert whole.reading(meter), "a reading that doesn't acknowledge"
    await_that("the loss", lambda: dashboard.of(meter.dev_eui, "ack"))
    came = dashboard.of(meter.dev_eui, "ack")[0]
    assert (came["queueItemId"], came["tag"], came["acknowledged"]) == (str(TAG), TAG, False)


def test_refused_items(whole: Whole, dashboard: Dashboard) -> None:
    """Items that the network refuses, and commands that aren't in the format. An item that comes
    twice under one id is queued once."""
    device = whole.meters[0].dev_eui
    dashboard.down("00000000000000FF", fPort=7, data="AA==")
    dashboard.down(device, fPort=0, data="AA==")
    dashboard.down(device, fPort=7, data=base64.b64encode(bytes(243)).decode())
    topic = f"application/{APPLICATION}/device/{device}/command/down"
    for wrong in WRONG_COMMANDS:
        dashboard.say(topic, wrong)
    dashboard.say(topic.replace(device, "0x" + "0" * 14), b"{}")
    for name in ("the same", "the same", "last"):
        dashboard.down(device, fPort=8, data="AA==", id=name)
    queued = lambda: [body["queueItemId"] for body in dashboard.of(device, "queued")]
    await_that("queued", lambda: "last" in queued())
    assert queued() == ["the same", "last"]
    codes = [body["code"] for _, kind, body in dashboard.events if kind == "log"]
    due = ["UNKNOWN_DEVICE", "BAD_PORT", "DOWNLINK_PAYLOAD_SIZE", "ID_IN_USE"]
    assert sorted(codes) == sorted(due + ["BAD_COMMAND"] * len(WRONG_COMMANDS))


def test_status_of_a_device(whole: Whole, dashboard: Dashboard) -> None:
    """A DevStatusReq is queued by hand, and goes down after the next reading (TS001-1.0.4 §5.5)."""
    meter = whole.meters[0]
    topic = f"application/{APPLICATION}/device/{meter.dev_eui.lower()}/command/mac"
    dashboard.say(topic, b'{"commands":"06"}')
    await_that("queued", lambda: dashboard.of(meter.dev_eui, "macqueued"))
    assert whole.reading(meter), "a reading, and the request after it"
    dashboard.say(topic, b'{"commands":"0A"}')
    await_that("the event", lambda: dashboard.of(meter.dev_eui, "log"))
    assert dashboard.of(meter.dev_eui, "log")[0]["code"] == "BAD_MAC"


def wrong_events(good: dict) -> list:
    """Events that readings can't store."""
    wrong: list = [{**good, "fCnt": count} for count in (-1, 2**64, "7", 1.5)]
    wrong += [{**good, "joinNonce": count} for count in (-1, 2**24, 2**64, "7", True)]
    wrong += [{**good, "deviceInfo": {"devEui": eui}} for eui in (7, "\ud800", "B1", None)]
    wrong += [{**good, "data": text} for text in (7, "*", "\u00e4", "A")]
    return wrong + [{**good, "time": "\ud800"}, {"deviceInfo": 7}, {}, []]


def test_wrong_events(whole: Whole, dashboard: Dashboard) -> None:
    """An event that comes twice is stored once; what is no event is passed over."""
    meter = whole.meters[0]
    assert whole.reading(meter)
    assert whole.await_stored(whole.acknowledged())
    await_that("an event", lambda: dashboard.of(meter.dev_eui, "up"))
    before, good = whole.stored(), dashboard.of(meter.dev_eui, "up")[0]
    topic = f"application/{APPLICATION}/device/{meter.dev_eui.lower()}/event/up"
    bodies = [json.dumps(body).encode() for body in (*wrong_events(good), good)]
    for text in (b"", b"\xff", b"[" * 60000, *bodies):
        dashboard.say(topic, text)
    assert whole.reading(meter), "another reading"
    assert whole.await_stored(whole.acknowledged()), "it is stored"
    assert len(whole.stored()) - len(before) == 1, "readings that are new"


def test_retained_command(whole: Whole, dashboard: Dashboard) -> None:
    """A command that a broker retains is done when it comes, and not again at each new start."""
    device = whole.meters[0].dev_eui
    topic = f"application/{APPLICATION}/device/{device.lower()}/command/down"
    dashboard.client.publish(topic, b'{"fPort":9,"data":"AA=="}', 1, retain=True)
    await_that("queued", lambda: dashboard.of(device, "queued"))
    whole.applications.kill()
    whole.applications.start("devices are there")
    dashboard.down(device, fPort=9, data="AQ==", id="last")
    await_that("the last one", lambda: len(dashboard.of(device, "queued")) > 1)
    came = [body["queueItemId"] == "last" for body in dashboard.of(device, "queued")]
    assert came == [False, True]


@pytest.mark.parametrize("meters", [4])
def test_devices_again(whole: Whole) -> None:
    """The same file again, after it was away for a while, with a new line, a wrong one, and one of
    another application's device: it says what was there before."""
    part, other, third = whole.applications, Meter(99), Meter(98)
    link = Application(whole.pilot.address, APPLICATION + 1)
    link.asks(f"provision {third.dev_eui} {JOIN_EUI} {third.app_key.hex().upper()} 0 1")
    assert link.hears().startswith("provisioned ")
    link.close()
    os.rename(whole.file, f"{whole.file}.moved")
    part.send_signal(signal.SIGHUP)
    await_that("it isn't read", lambda: part.has_said(f"{whole.file}: [Errno 2]"))
    os.rename(f"{whole.file}.moved", whole.file)
    said = len(part.said())
    with open(whole.file, "a", encoding="utf-8") as file:
        file.write(f"{other.row()}\nno device\n# a comment\n{third.row()}\n")
    part.send_signal(signal.SIGHUP)
    await_that("told", lambda: part.has_said("devices are there", said))
    told = [line.partition("  ")[2] for line in part.said()[said:].splitlines()]
    assert f"line 6: {other.dev_eui} is provisioned, in slot 5" in told
    assert f"{whole.file} line 7: there is no JoinEUI, AppKey" in told
    of_another = "a device of another application has this DevEUI"
    assert f"line 9: {third.dev_eui}: {of_another}" in told
    due = "5 devices are there, 2 aren't; 4 were there before: their keys were not compared"
    assert told[-1].endswith(due)


CHECKED = (
    ("{row}\n", 0, ["{file}: 1 devices, 0 lines with a fault"]),
    (
        "{row}\n\n{row}0\n",
        1,
        ["{file} line 3: AppKey isn't 32 hex digits", "{file}: 1 devices, 1 lines with a fault"],
    ),
)


@table("text, status, due", CHECKED)
def test_check_of_a_file(text: str, status: int, due: list[str], folder: Path) -> None:
    """A file of devices is checked without a network or a broker."""
    file, row = folder / "devices.csv", ",".join(Meter(7).row().split(",")[:3])
    file.write_text(text.format(row=row), encoding="utf-8")
    said = "".join(f"{line.format(file=file)}\n" for line in due)
    assert run("applications-mqtt", "--check", "--devices", file) == (status, said, "")


class Stored:
    """Readings that are stored, of events that come on a broker."""

    def __init__(self, parts: Parts, *more: str) -> None:
        parts.broker().start("running")
        self.database, at = parts.file("readings.db"), f"{HOST}:{parts.broker_port}"
        words = ("--db", self.database, "--broker", at, "--application", APPLICATION)
        self.part = parts.own("readings", *words, *more).start("connected")
        self.dashboard = Dashboard(parts.broker_port)

    def say(self, readings: Iterable[tuple[str, int, int]], time: str = TIME) -> None:
        """Events of readings: the device, JoinNonce, counter."""
        for device, session, counter in readings:
            body = {"time": time, "deviceInfo": {"devEui": device}, "joinNonce": session}
            body |= {"fCnt": counter, "fPort": 7, "data": "AA=="}
            topic = f"application/{APPLICATION}/device/{device}/event/up"
            self.dashboard.say(topic, json.dumps(body).encode())

    def prints(self, *options: Any) -> tuple[int, str, str]:
        """What it prints of its database."""
        return run("readings", "--db", self.database, *options)


@pytest.fixture
def stored(parts: Parts) -> Iterator[Stored]:
    """A program that stores readings."""
    made = Stored(parts)
    with made.dashboard:
        yield made


def test_join_nonces(stored: Stored) -> None:
    """The highest JoinNonce of each device that is stored, also while readings are stored."""
    assert stored.prints("--join-nonces") == (0, f"{HEAD}\n", ""), "before a reading"
    stored.say(SESSIONS)
    due = (0, "\n".join([HEAD, *HIGHEST]) + "\n", "")
    await_all("all are stored", lambda: stored.prints("--join-nonces") == due)
    assert stored.part.end() == 0
    assert stored.prints("--join-nonces") == due, "of a database that nobody has open"


def test_two_programs_of_one_name(stored: Stored, parts: Parts) -> None:
    """Two programs that store the readings of one application say that another client has the name
    of theirs, and count it."""
    file, at = parts.file("readings.prom"), f"{HOST}:{parts.broker_port}"
    words = ("--db", parts.file("other.db"), "--broker", at, "--application", APPLICATION)
    other = parts.own("readings", *words, "--counts", file, name="other").start("connected")
    for part in (stored.part, other):
        is_logged = lambda: part.has_said("Another client may use this client's name")
        await_that("it is logged", is_logged)
    await_that("counted", lambda: counts_in(file)["readings_closed_soon"] > 0, 30, 0.5)


def test_counts_of_readings(parts: Parts) -> None:
    """What a program that stores readings says of itself."""
    file, time = parts.file("readings.prom"), datetime.now(timezone.utc) - timedelta(hours=2)
    stored = Stored(parts, "--counts", file)
    with stored.dashboard:
        stored.say([("70b3d57ed0000001", 1, 0)] * 2, time.isoformat())
        for wrong in (b"{}", b"\xff\x00", b"{}"):
            stored.dashboard.say("application/3/device/70b3d57ed0000001/event/up", wrong)
        names = [f"readings_{name}" for name in ("stored", "repeated", "wrong", "broker_connected")]
        counted = lambda: [counts_in(file)[name] for name in names] == [1, 1, 3, 1]
        await_that("the counts", lambda: os.path.exists(file) and counted(), 60, 0.5)
    assert stored.part.said().count("no reading, on") == 1
    numbers = counts_in(file)
    assert 7200 <= numbers["readings_late_seconds"] < 7300
    assert numbers["readings_disk_free_bytes"] > 0


# readings: the device, JoinNonce, counters; and what is printed of them
COUNTERS = (
    ("70b3d57ed0000001", 1, (0, 1, 2)),
    # a later session begins again
    ("70b3d57ed0000001", 2, (0, 1)),
    # three at the front are missing, and one in the middle
    ("70b3d57ed0000002", 7, (3, 5)),
    ("70b3d57ed0000003", 1, (0,)),
)
REPORT = (
    f"70B3D57ED0000001 stored 5 missing 0 last {TIME}",
    f"70B3D57ED0000002 stored 2 missing 4 last {TIME}",
    f"70B3D57ED0000003 stored 1 missing 0 last {TIME}",
    "readings 8 missing 4",
)


def test_report(stored: Stored) -> None:
    """How many readings are stored of each device, and how many counters are missing, of each
    session from 0 on."""
    marks = [(dev, session, each) for dev, session, counters in COUNTERS for each in counters]
    stored.say(marks)
    due = (0, "\n".join(REPORT) + "\n", "")
    await_all("all are stored", lambda: stored.prints("--report")[1].count("stored") == 3)
    await_all("the last one", lambda: REPORT[2] in stored.prints("--report")[1])
    assert stored.prints("--report") == due


# a list after a restore, by docs/FORMATS.md: the server took 3, 9 and 4 uplinks, of which the copy
# had 1, 3 and 4. Of the first device 2 are stored since (of the session 1025), of the second 1
HEARD_OF = (3, 9, 4)
LISTED = [
    f"{slot} 70B3D57ED000000{slot + 1} 1026 1 41 3 0 {heard}" for slot, heard in enumerate(HEARD_OF)
]
RESTORED = """devices 3
recorded 0
grants_left 16776103
above 70B3D57ED0000001 1024 1
above 70B3D57ED0000002 1031 3
above 70B3D57ED0000003 1025 4
"""
SINCE = (
    ("70b3d57ed0000001", 1025, 0),
    ("70b3d57ed0000001", 1025, 1),
    # the last session before the restore, and one after it
    ("70b3d57ed0000002", 1031, 0),
    ("70b3d57ed0000002", 1032, 0),
)
TAKEN_SINCE = (
    f"70B3D57ED0000001 stored 7 missing 0 taken 2 lost 0 restored last {TIME}",
    f"70B3D57ED0000002 stored 4 missing 4 taken 6 lost 5 restored last {TIME}",
    f"70B3D57ED0000003 stored 1 missing 0 taken 0 lost 0 restored last {TIME}",
    "readings 12 missing 4 lost 5",
)
# without what lnsd restore printed, a loss is only seen if it is greater than what was stored
# before
TAKEN = (
    f"70B3D57ED0000001 stored 7 missing 0 taken 3 lost 0 restored last {TIME}",
    f"70B3D57ED0000002 stored 4 missing 4 taken 9 lost 5 last {TIME}",
    f"70B3D57ED0000003 stored 1 missing 0 taken 4 lost 3 last {TIME}",
    "readings 12 missing 4 lost 8",
)


def test_report_after_a_restore(stored: Stored, parts: Parts) -> None:
    """What the server took, and what of it is lost, is counted from the restore on; no device's
    readings from before make up for another one's losses."""
    marks = [(dev, session, each) for dev, session, counters in COUNTERS for each in counters]
    stored.say([*marks, *SINCE])
    await_all("all are stored", lambda: "readings 12 " in stored.prints("--report")[1])
    words = ("--report", "--list", parts.file("list", "\n".join(LISTED) + "\n"))
    assert stored.prints(*words) == (0, "\n".join(TAKEN) + "\n", "")
    more = ("--restored", parts.file("restored", RESTORED))
    assert stored.prints(*words, *more) == (0, "\n".join(TAKEN_SINCE) + "\n", "")


def test_moved_device(stored: Stored, parts: Parts) -> None:
    """What a device sent after it had moved to another application isn't lost, if that one's
    database is named, too. Other devices of that one aren't in the report."""
    stored.say([("70b3d57ed0000001", 1, counter) for counter in (0, 1, 2)])
    await_all("they are stored", lambda: "readings 3 " in stored.prints("--report")[1])
    other = parts.file("other.db")
    with closing(sqlite3.connect(other)) as database, database:
        table = "device, session, counter, port, payload, came, earliest"
        database.execute(f"CREATE TABLE readings ({table})")
        for number, counters in ((1, (3, 4, 6)), (9, (0,))):
            rows = [(f"70B3D57ED000000{number}", 1, of, 7, b"", TIME, None) for of in counters]
            database.executemany("INSERT INTO readings VALUES (?, ?, ?, ?, ?, ?, ?)", rows)
    listed = ("--list", parts.file("list", "0 70B3D57ED0000001 1 1 6 3 0 7\n"))
    alone = stored.prints("--report", *listed)[1].splitlines()
    assert alone[0] == f"70B3D57ED0000001 stored 3 missing 0 taken 7 lost 4 last {TIME}"
    both = stored.prints("--report", *listed, "--also", other)[1].splitlines()
    assert both == [
        f"70B3D57ED0000001 stored 6 missing 1 taken 7 lost 1 last {TIME}",
        "readings 6 missing 1 lost 1",
    ]


def test_silent_devices(stored: Stored, parts: Parts) -> None:
    """Which devices are silent, the longest first, and since when; also those that never sent."""
    now = datetime.now(timezone.utc)
    times = [(now - timedelta(hours=hours)).isoformat() for hours in (47, 49, 72)]
    for number, time in enumerate(times):
        stored.say([(f"70b3d57ed000000{number}", 1, 0)], time)
    await_all("all are stored", lambda: "readings 3 " in stored.prints("--report")[1])
    due = [f"70B3D57ED0000002 last {times[2]}", f"70B3D57ED0000001 last {times[1]}"]
    assert stored.prints("--silent", "48h")[1].splitlines() == [*due, "silent 2 of 3"]
    file = parts.file("devices.csv", f"{Meter(7).row()}\n70b3d57ed0000000,{JOIN_EUI},{'0' * 32}\n")
    words = ("--silent", "2d", "--devices", file)
    never = f"{Meter(7).dev_eui} last -"
    assert stored.prints(*words)[1].splitlines() == [never, "silent 1 of 2"]


def test_readings_while_away(stored: Stored) -> None:
    """The broker keeps readings while the program that stores them is away."""
    assert stored.part.end() == 0
    stored.say(SESSIONS[:1])
    stored.part.start("connected")
    await_all("it is stored", lambda: ",9" in stored.prints("--join-nonces")[1])
