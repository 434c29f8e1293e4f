"""Meters that are played beside the whole pilot with adr: they obey, refuse, are deaf, have their
ADR off or three channels. Parts are ended and started again in between. At the end each meter sends
with the setting that the service believes."""

import sqlite3
from collections.abc import Iterator
from dataclasses import dataclass
from typing import Any

import pytest
from adapting import states
from bozintar.frames import FIRST_CHANNELS, UP, crypted, data_mic, little
from bozintar.meters import PORT, Meter, Reading
from bozintar.processes import HOST, Process, await_that

from .field import APPLICATION, GATEWAYS
from .parts import Pilot
from .whole import Dashboard, Whole

HISTORY, UPLINKS = 8, 30
# how long a meter waits for its acknowledgement, in seconds, and uplinks after the last request
PATIENCE, MORE = 8.0, 20
# TS001-1.0.4 §4: the bits ADR and ACK of FCtrl
ADR, ACK = 0x80, 0x20
# the SNR that gateways report stops here, however loud a meter is
LOUDEST = 10.0


@dataclass(frozen=True)
class Kind:
    """What a meter does: its SNR at full power, the highest data rate and index of power that it
    takes, whether its ADR is on, it hears LinkADRReq, and has eight channels."""

    name: str
    level: float
    # its data rate at the end, by the rule with a margin of 12 dB
    rate: int
    most_rate: int = 5
    most_power: int = 7
    has_adr: bool = True
    is_deaf: bool = False
    has_eight: bool = True
    is_excepted: bool = False
    # why it is left alone
    why: str = ""


KINDS = (
    # (10 + 20 - 12) / 3 steps
    Kind("loud", 10.0, 5),
    # (3 + 20 - 12) / 3 steps, and one more at DR3
    Kind("middle", 3.0, 4),
    Kind("weak", -4.0, 1),
    Kind("very weak", -12.0, 0),
    Kind("not below 16 dBm", 10.0, 5, most_power=0),
    Kind("not DR5", 10.0, 4, most_rate=4),
    Kind("deaf", 10.0, 0, is_deaf=True, why=states.NO_ANSWER),
    Kind("own ADR", 10.0, 0, has_adr=False, why=states.OWN_ADR),
    Kind("three channels", 10.0, 0, has_eight=False),
    Kind("excepted", 10.0, 0, is_excepted=True),
)


class Played(Meter):
    """A meter that is played."""

    def __init__(self, number: int) -> None:
        super().__init__(number)
        self.kind = KINDS[number]
        self.rate, self.power, self.answers = 0, 0, b""
        self.asked: list[bytes] = []

    @property
    def snr(self) -> float:
        """How its gateway hears it."""
        return min(self.kind.level - 2 * self.power, LOUDEST)

    @property
    def hz(self) -> int:
        """The frequency of its next uplink."""
        channels = self.channels if self.kind.has_eight else FIRST_CHANNELS
        return channels[self.next_up % len(channels)]

    def reads(self, confirmed: bool = True, **_how: Any) -> bytes:
        """A frame with the next reading, and what it has to answer."""
        address, (network_key, app_key) = self.session()
        counter, self.next_up = self.next_up, self.next_up + 1
        payload = self.number.to_bytes(2, "big") + counter.to_bytes(4, "big")
        control = ADR * self.kind.has_adr | ACK * self.owes_ack | len(self.answers)
        message = (b"\x80" if confirmed else b"\x40") + little(address, 4) + bytes([control])
        message += little(counter & 0xFFFF, 2) + self.answers
        message += bytes([PORT]) + crypted(app_key, UP, address, counter, payload)
        self.awaited = Reading(self.dev_eui, self.join_nonce, counter)
        self.sent[self.awaited], self.answers, self.owes_ack = payload, b"", False
        return message + data_mic(network_key, UP, address, counter, message)

    def take_downlink(self, frame: bytes) -> str:
        """Takes a downlink, and the MAC commands in its FOpts."""
        words = super().take_downlink(frame)
        commands = frame[8 : 8 + (frame[5] & 15)]
        while commands:
            length = {3: 5, 6: 1}[commands[0]]
            self.obey(commands[:length])
            commands = commands[length:]
        return words

    def obey(self, command: bytes) -> None:
        """A LinkADRReq, or a DevStatusReq. With ADR off it accepts and changes nothing, as
        LoRaMac-node does."""
        self.asked.append(command)
        if command[0] == 6:
            self.answers += bytes([6, 200, 10])
        elif not self.kind.is_deaf:
            rate, power = command[1] >> 4, command[1] & 15
            has_channels = command[2:5] == b"\xff\x00\x01" and self.kind.has_eight
            status = has_channels | (rate <= self.kind.most_rate) << 1
            status |= (power <= self.kind.most_power) << 2
            if status == 7 and self.kind.has_adr:
                self.rate, self.power = rate, power
            self.answers += bytes([3, status])


class Field:
    """The whole pilot with played meters, and adr."""

    def __init__(self, pilot: Pilot) -> None:
        self.whole = Whole(pilot, len(KINDS))
        self.meters = [Played(number) for number in range(len(KINDS))]
        self.whole.air.meters[:] = self.meters
        self.database = pilot.file("adr.db")
        excepted = [meter.dev_eui for meter in self.meters if meter.kind.is_excepted]
        words: tuple = ("--broker", f"{HOST}:{pilot.broker_port}", "--application", APPLICATION)
        words += ("--db", self.database, "--history", HISTORY)
        words += ("--except", pilot.file("except", "\n".join(excepted) + "\n"))
        self.adr: Process = pilot.own("adr", *words).start("connected to")

    def row(self, meter: Played) -> dict:
        """What the service keeps of a meter."""
        opened = sqlite3.connect(f"file:{self.database}?mode=ro", uri=True)
        opened.row_factory = sqlite3.Row
        query = "SELECT * FROM devices WHERE device = ?"
        found = opened.execute(query, (meter.dev_eui,)).fetchone()
        opened.close()
        return dict(found) if found else {"counter": -1, "asked_after": None}

    def round(self, meters: list[Played]) -> None:
        """Each meter sends a reading, and waits for its acknowledgement; the service then has all
        readings that were acknowledged."""
        for meter in meters:
            gateway = self.whole.air.gateways[meter.number % len(GATEWAYS)]
            hz = meter.hz
            gateway.hears(meter.reads(), hz, meter.rate, meter.snr)
        is_done = lambda: all(meter.awaited in meter.acknowledged for meter in meters)
        self.whole.air.go_on(PATIENCE, is_done)
        for meter in meters:
            if meter.awaited in meter.acknowledged and not meter.kind.is_excepted:
                counter = meter.next_up - 1
                await_that("the service has it", lambda: self.row(meter)["counter"] >= counter)

    def heard(self, meter: Played) -> int:
        """How many of a meter's uplinks were acknowledged."""
        return sum(mark.device == meter.dev_eui for mark in meter.acknowledged)

    def play(self, count: int) -> None:
        """Each meter sends until this many uplinks were acknowledged in all."""
        for _ in range(count + MORE):
            left = [meter for meter in self.meters if self.heard(meter) < count]
            if not left:
                return
            self.round(left)
        raise AssertionError(f"{len(left)} meters were heard less than {count} times")

    def settle(self) -> None:
        """Meters send until no answer is awaited."""
        for _ in range(MORE):
            left = [meter for meter in self.meters if self.row(meter)["asked_after"] is not None]
            if not left:
                return
            self.round(left)
        raise AssertionError("answers are still awaited")

    def link(self) -> None:
        """Waits until the server has its links again."""
        due = {"gateways": str(len(GATEWAYS)), "applications": "1"}
        server = self.whole.pilot.program
        is_linked = lambda: due.items() <= server.status().items()
        assert self.whole.air.go_on(60, is_linked), "the server has its links"


@pytest.fixture
def field(pilot: Pilot) -> Iterator[Field]:
    """A field whose meters have joined."""
    made = Field(pilot)
    made.whole.link()
    assert made.whole.join(), "all meters join"
    yield made
    for forwarder in made.whole.air.gateways:
        forwarder.close()


@pytest.fixture
def dashboard(field: Field) -> Iterator[Dashboard]:
    """What notes the events."""
    with Dashboard(field.whole.pilot.broker_port) as made:
        yield made


def restart_broker(field: Field) -> None:
    """Ends the broker, which keeps sessions, and starts it again."""
    field.whole.broker.end()
    field.whole.broker.start("running")


def restart_server(field: Field) -> None:
    """Kills the server, and starts it again."""
    field.whole.pilot.restart_server()
    field.link()


def kill_service(field: Field) -> None:
    """Kills the service, and starts it again."""
    field.adr.kill()
    field.adr.start("connected to")


def restart_service(field: Field) -> None:
    """Ends the service, and starts it again."""
    assert field.adr.end() == 0
    field.adr.start("connected to")


# what happens after which uplink: in the middle of requests. The service isn't killed after the
# fourth one, when it asks for the first settings and statuses: what it has handed to the library
# and that hasn't sent it is lost, and a status is asked for once a day
BETWEEN = {5: kill_service, 6: restart_server, 13: restart_service, 16: restart_broker}


@pytest.mark.slow
def test_field(field: Field, dashboard: Dashboard) -> None:
    """After 30 uplinks of each, and when no answer is awaited, each meter sends with the setting
    that the service believes, and those that must not be asked were not."""
    for count, happens in BETWEEN.items():
        field.play(count)
        happens(field)
    field.play(UPLINKS)
    field.settle()
    for meter in field.meters:
        assert meter.rate == meter.kind.rate, meter.kind.name
        settings = [command for command in meter.asked if command[0] == 3]
        if meter.kind.is_excepted:
            assert meter.asked == [], meter.kind.name
            continue
        row = field.row(meter)
        assert (row["rate"], row["power"]) == (meter.rate, meter.power), meter.kind.name
        assert row["why"] == meter.kind.why, meter.kind.name
        assert meter.kind.has_eight or settings == [], meter.kind.name
        assert len(settings) <= 5, meter.kind.name
        assert b"\x06" in meter.asked, f"status of {meter.kind.name}"
    assert field.meters[0].power > 0, "the power of a loud meter"
    kinds = {kind for _, kind, _ in dashboard.events}
    assert {"status", "mac", "macqueued"} <= kinds, "events, some before the broker was away"
