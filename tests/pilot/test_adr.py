"""The service adr beside a broker: what it publishes by the events of an application, what it knows
after a restart, and what it ignores. No network takes part; pilot/adr.md has the formats."""

import asyncio
import json
import re
import signal
import sqlite3
import subprocess
from collections.abc import Iterator
from datetime import datetime, timedelta, timezone
from typing import Any

import pytest
from bozintar.processes import HOST, Process, await_that

from .doors import Doors
from .field import GATEWAYS, counts_in
from .parts import Parts, program_of_pilot, run
from .rows import table
from .whole import Dashboard

FIRST, SECOND = "70B3D57ED0000001", "70B3D57ED0000002"
COMMANDS, BELIEFS = "application/3/device/+/command/+", "application/3/device/+/event/adr"
LATER = 867_100_000
# requests for DR5 and full power, and for the status
TO_5, STATUS = "0350FF0001", "06"


def event(counter: int, rate: int = 0, snr: float = 9.0, age: float = 0.0, **other: Any) -> dict:
    """An event `up`, of this age in seconds."""
    came = datetime.now(timezone.utc) - timedelta(seconds=age)
    said = {"time": came.isoformat(), "joinNonce": 1, "fCnt": counter, "fPort": 7, "dr": rate}
    said |= {"data": "", "rxInfo": [{"gatewayId": GATEWAYS[0].lower(), "rssi": -80, "snr": snr}]}
    return said | {"txInfo": {"frequency": LATER}} | other


class Service:
    """The service, and a client of the broker that publishes events and notes commands."""

    def __init__(self, parts: Parts, *words: Any, broker: Process | None = None) -> None:
        self.parts, self.database = parts, parts.file("adr.db")
        self.broker = broker or parts.broker().start("running")
        self.client = Dashboard(parts.broker_port, COMMANDS, BELIEFS)
        self.counts = parts.file("adr.prom")
        self.process: Process = parts.own("adr", *self.words(), *words)
        self.start()

    def words(self) -> tuple:
        """What each has. Words that follow may replace these."""
        at = ("--broker", f"{HOST}:{self.parts.broker_port}", "--application", 3)
        return (*at, "--db", self.database, "--counts", self.counts)

    def start(self) -> None:
        """Starts it, and waits until it has its topics."""
        before = self.subscribed()
        self.process.start("connected to")
        await_that("the topics", lambda: self.subscribed() > before)

    def subscribed(self) -> int:
        """How often the broker has granted its topics. By TLS its certificate has its name."""
        return len(re.findall("Sending SUBACK to (bozintar-adr|application)-3", self.broker.said()))

    def say(self, device: str, kind: str, body: Any) -> None:
        """Publishes an event."""
        payload = body if isinstance(body, bytes) else json.dumps(body).encode()
        self.client.say(f"application/3/device/{device.lower()}/event/{kind}", payload)

    def up(self, first: int, count: int = 1, device: str = FIRST, **how: Any) -> None:
        """This many uplinks, which the service has when this returns."""
        for counter in range(first, first + count):
            self.say(device, "up", event(counter, **how))
        self.await_known(device, first + count - 1)

    def await_known(self, device: str, counter: int) -> None:
        """Waits until the service has an uplink."""
        await_that("it is known", lambda: self.row(device)["counter"] == counter)

    def row(self, device: str) -> dict:
        """What is kept of a device."""
        opened = sqlite3.connect(f"file:{self.database}?mode=ro", uri=True)
        opened.row_factory = sqlite3.Row
        found = opened.execute("SELECT * FROM devices WHERE device = ?", (device,)).fetchone()
        opened.close()
        return dict(found) if found else {"counter": -1}

    def asked(self, count: int, device: str = FIRST) -> list[tuple[str, str]]:
        """The commands for a device and their ids, once there are this many."""
        found = lambda: self.client.of(device, "mac")
        await_that(f"{count} commands", lambda: len(found()) >= count)
        return [(body["commands"], body["id"]) for body in found()]

    def beliefs(self, count: int, device: str = FIRST) -> list[dict]:
        """The last events about what is believed of a device, once there are this many."""
        found = lambda: self.client.of(device, "adr")
        await_that(f"{count} events", lambda: len(found()) >= count)
        return found()


@pytest.fixture
def words() -> tuple:
    """The options of the service."""
    return ("--status", 0)


@pytest.fixture
def service(parts: Parts, words: tuple) -> Iterator[Service]:
    """The service beside a broker."""
    made = Service(parts, *words)
    with made.client:
        yield made


def test_request(service: Service) -> None:
    """A device is asked for a better data rate, and does so. What it sends with is logged."""
    service.up(0, 4)
    assert service.asked(1) == [(TO_5, "adr-1-3")]
    service.say(FIRST, "mac", {"joinNonce": 1, "commands": "0307"})
    service.up(4, rate=5)
    row = service.row(FIRST)
    assert (row["rate"], row["power"], row["asked_after"]) == (5, 0, None)
    assert f"{FIRST} sends with DR5, 16 dBm, before with DR0, 16 dBm" in service.process.said()
    assert service.process.end() == 0
    counts = counts_in(service.counts)
    names = ("uplinks", "requests", "accepted", "refused", "wrong_events")
    assert [counts[f"adr_{name}"] for name in names] == [5, 1, 1, 0, 0]


def test_refusal(service: Service) -> None:
    """A device that refuses a data rate is asked for less."""
    service.up(0, 4)
    service.asked(1)
    service.say(FIRST, "mac", {"joinNonce": 1, "commands": "06FF0503" + "05"})
    service.up(4)
    assert service.asked(2)[1][0] == "0340FF0001"
    assert f"{FIRST} refuses: data rate" in service.process.said()


@pytest.mark.parametrize("how", (signal.SIGTERM, signal.SIGKILL))
def test_restart(service: Service, how: int) -> None:
    """A service that was ended, or killed, knows what it has asked for, and what came of it while
    it was away."""
    service.up(0, 4)
    service.asked(1)
    service.process.end(how)
    service.say(FIRST, "mac", {"joinNonce": 1, "commands": "0307"})
    for counter in range(4, 6):
        service.say(FIRST, "up", event(counter, rate=5))
    service.start()
    service.await_known(FIRST, 5)
    service.up(6, rate=5)
    row = service.row(FIRST)
    assert (row["rate"], row["asked_after"], json.loads(row["snrs"])) == (5, None, [9.0] * 3)
    assert len(service.asked(1)) == 1


def test_not_queued(service: Service) -> None:
    """A command that the network doesn't take is decided anew, by its id; one that comes twice, or
    whose answer is missing, may wait in the network."""
    service.up(0, 4)
    for code, identifier in (
        ("ID_IN_USE", "adr-1-3"),
        ("UNANSWERED", "adr-1-3"),
        ("MAC_QUEUE_FULL", "adr-1-2"),
        ("MAC_QUEUE_FULL", None),
    ):
        service.say(FIRST, "log", {"code": code, "context": {"queue_item_id": identifier}})
    service.up(4)
    assert len(service.asked(1)) == 1
    context = {"queue_item_id": "adr-1-3"}
    service.say(FIRST, "log", {"code": "MAC_QUEUE_FULL", "context": context})
    service.up(5)
    assert [identifier for _, identifier in service.asked(2)] == ["adr-1-3", "adr-1-5"]


WRONG: tuple = (
    b"",
    b"[]",
    b"[" * 60_000,
    event(-1),
    event(7, rate=6),
    event(7, snr=21.0),
    event(7, time="yesterday"),
    event(7, time="2026-11-29T20:00:00"),
    event(7, joinNonce=2**24),
    event(7, joinNonce=True),
    event(7, rxInfo=[]),
    event(7, rxInfo=[{"gatewayId": 7, "snr": 9.0}]),
    event(7, txInfo=None),
)


def test_wrong_events(service: Service) -> None:
    """Events that aren't in the format are counted, and change nothing."""
    service.up(0, 3)
    for body in WRONG:
        service.say(FIRST, "up", body)
    for commands in ("03070", "zz", 7):
        service.say(FIRST, "mac", {"joinNonce": 1, "commands": commands})
    service.say(FIRST, "log", {"context": 7})
    service.say(SECOND, "mac", {"joinNonce": 1, "commands": "0307"})
    service.up(3)
    assert service.asked(1) == [(TO_5, "adr-1-3")]
    assert service.process.end() == 0
    assert counts_in(service.counts)["adr_wrong_events"] == len(WRONG) + 3


def test_except(service: Service, parts: Parts) -> None:
    """Devices of a file are never asked, also if they come into it while the service runs."""
    service.process.end()
    file = parts.file("except", f"# moves\n{FIRST.lower()}\n")
    service.process.words += ["--except", file]
    service.start()
    for counter in range(4):
        service.say(FIRST, "up", event(counter))
    service.up(0, 4, device=SECOND)
    assert len(service.asked(1, SECOND)) == 1 and service.client.of(FIRST, "mac") == []
    said = [body["leftAlone"] for body in service.beliefs(1)]
    assert said == ["it is in the file of --except"]
    parts.file("except", f"{SECOND}\n")
    service.process.send_signal(signal.SIGHUP)
    await_that("it is read", lambda: service.process.now().count("1 devices are never") == 2)
    for counter in range(4, 20):
        service.say(SECOND, "up", event(counter))
    service.up(4, 4)
    assert len(service.asked(1)) == 1 and len(service.client.of(SECOND, "mac")) == 1
    parts.file("except", "no device\n")
    service.process.send_signal(signal.SIGHUP)
    await_that(
        "it is complained of", lambda: service.process.has_said("line 1: no device is no EUI")
    )


@pytest.mark.parametrize("words", [("--status", 0, "--air", 2)])
def test_air_of_a_gateway(service: Service) -> None:
    """A gateway sends requests for at most so long in an hour. A LinkADRReq takes 1.2 s at DR0, so
    there is time for one."""
    service.up(0, 4)
    service.up(0, 4, device=SECOND)
    service.up(4, 1, device=SECOND, rxInfo=[{"gatewayId": GATEWAYS[1], "snr": 9.0}])
    assert [identifier for _, identifier in service.asked(1, SECOND)] == ["adr-1-4"]
    assert f"gateway {GATEWAYS[0]} has no time left" in service.process.said()


def test_beliefs(service: Service) -> None:
    """What is believed of a device, what it is asked for and why it is left alone is published when
    it changes, and when the service starts."""
    listens: dict[str, Any] = {"joinNonce": 1, "dr": 0, "txPower": 0, "isPowerKnown": True}
    listens |= {"asked": "", "tries": 0, "leftAlone": ""}
    asked = {**listens, "asked": TO_5, "tries": 1}
    alone = {**listens, "leftAlone": "it refuses the eight channels"}
    service.up(0, 4)
    service.asked(1)
    service.say(FIRST, "mac", {"joinNonce": 1, "commands": "0306"})
    service.up(4, 2)
    due = [listens, asked, alone]
    for body, more in zip(service.beliefs(3), due, strict=True):
        info = {"applicationId": "3", "devEui": FIRST.lower()}
        assert body == {"time": body["time"], "deviceInfo": info, **more}
        assert datetime.fromisoformat(body["time"]).tzinfo
    assert service.process.end() == 0
    service.start()
    assert service.beliefs(4)[3]["leftAlone"] == alone["leftAlone"]


def test_beliefs_by_channels(service: Service) -> None:
    """A device that was heard on the first three channels alone, and later on another one."""
    first: dict[str, Any] = {"txInfo": {"frequency": 868_100_000}}
    service.up(0, 19, **first)
    service.up(19, 1, **first)
    service.up(20, 1)
    reasons = [body["leftAlone"] for body in service.beliefs(3)]
    assert reasons == ["", "it was heard on the first three channels only", ""]
    assert [bool(body["asked"]) for body in service.beliefs(3)] == [False, False, True]


def test_old_uplinks(service: Service) -> None:
    """Uplinks that waited in the broker are history: nothing is asked for after them."""
    service.up(0, 30, age=3600.0)
    assert service.client.of(FIRST, "mac") == []
    service.up(30)
    assert [identifier for _, identifier in service.asked(1)] == ["adr-1-30"]


@pytest.mark.parametrize("words", [("--status", 24)])
def test_status(service: Service) -> None:
    """A device is asked for its status once a day, and not while another answer is awaited."""
    service.up(0, 4, snr=-10.0)
    assert service.asked(1) == [(STATUS, "adr-1-3")]
    service.up(4, 3)
    service.say(FIRST, "status", {"margin": 20, "batteryLevel": 50.39})
    service.up(7)
    # the mean of eight uplinks is -0.5 dB, so 5.5 dB count: 4 steps
    assert service.asked(2)[1] == ("0340FF0001", "adr-1-7")
    service.say(FIRST, "mac", {"joinNonce": 1, "commands": "0307"})
    service.up(8, 12, rate=4, snr=-3.0)
    assert len(service.asked(2)) == 2


async def uplinks_until_a_kill(adr: Any, parts: Parts, snr: float) -> list[tuple[str, str, int]]:
    """Four uplinks, a kill in place of the request that follows, a start, and five more uplinks:
    the commands that are published then, for which device, and which try each is."""
    own = ("--broker", f"{HOST}:{parts.broker_port}", "--application", 3)
    words = (*own, "--db", parts.file("adr.db"))
    given = adr.options_of().parse_args([str(word) for word in words])
    published: list[tuple[str, str, int]] = []

    def kill(*_request: Any) -> None:
        raise KeyboardInterrupt

    def note(name: str, _session: int, request: Any) -> None:
        published.append((name, request.command().hex().upper(), request.tries))

    for first, count, publish in ((0, 4, kill), (4, 5, note)):
        service = adr.Service(given, adr.Counts("pilot_adr", adr.COUNTED, None))
        service.publish = publish
        for counter in range(first, first + count):
            body = json.dumps(event(counter, snr=snr)).encode()
            try:
                service.take(f"application/3/device/{FIRST.lower()}/event/up", body)
            except KeyboardInterrupt:
                break
        else:
            assert publish is note, "no request was published in the first life"
    return published


@pytest.mark.parametrize("snr, command, tries", ((-10.0, STATUS, 1), (9.0, TO_5, 2)))
def test_request_after_a_kill(parts: Parts, snr: float, command: str, tries: int) -> None:
    """A service that is killed before it has published a request asks again, after four more
    uplinks without an answer. It knows that it has asked for a setting before."""
    published = asyncio.run(uplinks_until_a_kill(program_of_pilot("adr"), parts, snr))
    assert published == [(FIRST, command, tries)]


def test_away_broker(service: Service) -> None:
    """A broker that is away for a while."""
    service.up(0, 3)
    before, service.client.has_topic = service.subscribed(), False
    service.broker.end()
    service.broker.start("running")
    await_that("it is back", lambda: service.subscribed() > before)
    await_that("the client is back", lambda: service.client.has_topic)
    service.up(3)
    assert service.asked(1) == [(TO_5, "adr-1-3")]


def test_two_applications(service: Service, parts: Parts) -> None:
    """A service for each application: neither takes events of the other's, though both know a
    device by the same DevEUI."""
    database = parts.file("adr-4.db")
    at = ("--broker", f"{HOST}:{parts.broker_port}", "--application", 4, "--db", database)
    other = parts.own("adr", *at, "--status", 0, name="adr-4").start("connected to")
    topics = lambda: service.broker.said().count("Sending SUBACK to bozintar-adr-4")
    await_that("the topics of the other one", topics)
    with Dashboard(parts.broker_port, "application/4/device/+/command/+", name="other") as client:
        for counter in range(4):
            payload = json.dumps(event(counter, rate=3)).encode()
            client.say(f"application/4/device/{FIRST.lower()}/event/up", payload)
        await_that("a command", lambda: client.of(FIRST, "mac"))
        assert service.client.of(FIRST, "mac") == []
        service.up(0, 4, snr=-2.0)
        assert service.asked(1) == [("0320FF0001", "adr-1-3")]
        assert [body["commands"] for body in client.of(FIRST, "mac")] == [TO_5]
    assert other.end() == 0


def test_tls(doors: Doors) -> None:
    """From outside, with a certificate of its own: events come, and commands and beliefs go. By the
    broker's list it may send no items."""
    port, own = doors.open_broker(), doors.own
    certificate, key = own.of("application-3-adr")
    words: tuple = ("--broker", f"{HOST}:{port}", "--ca", f"{own.folder}/ca.crt")
    words += ("--certificate", certificate, "--key", key, "--status", "0")
    service = Service(doors.pilot, *words, broker=doors.broker)
    with service.client:
        service.up(0, 4)
        assert service.asked(1) == [(TO_5, "adr-1-3")]
        assert [body["asked"] for body in service.beliefs(2)] == ["", TO_5]
        assert service.process.end() == 0
        at = ("mosquitto_pub", "-h", HOST, "-p", str(port), "--cafile", f"{own.folder}/ca.crt")
        for kind in ("down", "mac"):
            topic = f"application/3/device/{FIRST.lower()}/command/{kind}"
            sent = (*at, "--cert", certificate, "--key", key, "-q", "1", "-t", topic, "-m", "{}")
            subprocess.run(sent, check=True, timeout=30)
        await_that("the second one", lambda: service.client.of(FIRST, "mac")[1:] == [{}])
        assert service.client.of(FIRST, "down") == []


MANY, GATEWAY_COUNT = 4096, 64


@pytest.mark.slow
@pytest.mark.parametrize("words", [("--status", 0, "--air", 3600)])
def test_many_devices(service: Service) -> None:
    """As many devices as a server has: each is asked once, and is known after a restart."""
    names = [f"70B3D57ED001{number:04X}" for number in range(MANY)]
    for counter in range(4):
        for number, name in enumerate(names):
            gateway = {"gatewayId": f"{number % GATEWAY_COUNT:016x}", "snr": 9.0}
            body = json.dumps(event(counter, rate=3, rxInfo=[gateway])).encode()
            topic = f"application/3/device/{name.lower()}/event/up"
            service.client.client.publish(topic, body, qos=1)
        last = names[-1]
        await_that("the service has them", lambda: service.row(last)["counter"] == counter, 120)
    commands = lambda: [body["id"] for _, kind, body in service.client.events if kind == "mac"]
    await_that("all commands", lambda: len(commands()) >= MANY, 120)
    assert commands() == ["adr-1-3"] * MANY
    assert service.process.end() == 0
    assert counts_in(service.counts)["adr_events_dropped"] == 0
    service.client.events.clear()
    service.start()
    beliefs = lambda: {of for of, kind, body in service.client.events if body.get("asked") == TO_5}
    await_that("what is believed of all", lambda: len(beliefs()) == MANY, 120)


WORDS: tuple = (
    (("--margin", 31), 2, "--margin: 31 is no number from 0 to 30"),
    (("--history", 3), 2, "--history: 3 is no number from 4 to 64"),
    (("--except", "/dev/null/x"), 1, "/dev/null/x: Not a directory"),
    (("--except", "/etc/passwd"), 1, "/etc/passwd, line 1: root:"),
    (("--db", "/dev/null/x"), 1, "/dev/null/x: unable to open database file"),
    (("--db", "/etc/passwd"), 1, "/etc/passwd: file is not a database"),
)


@table("more, status, due", WORDS)
def test_words(parts: Parts, more: tuple, status: int, due: str) -> None:
    """A wrong word, and files that can't be used: a line with the cause."""
    own = ("--broker", f"{HOST}:{parts.broker_port}", "--application", 3, "--db", parts.file("db"))
    ended, _, said = run("adr", *own, *more)
    assert (ended, len(said.splitlines())) == (status, 1)
    assert due in said
