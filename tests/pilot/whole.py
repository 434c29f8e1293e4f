"""A whole pilot: a field, the server, a broker, both bridges, a database."""

import json
import sqlite3
from typing import Any, TypeVar

from bozintar.meters import Reading
from bozintar.mqtt import client
from bozintar.processes import HOST, PATIENCE, Failed, await_that

from .field import APPLICATION, Field
from .parts import Pilot

# how long many devices may take on a busy machine, in seconds
LONG = 240.0
# has the bridge wait for a broker, at its end, longer than any trial waits
LEAVING = "program.LEAVING = 600.0"
COLUMNS = "device, session, counter, payload"
C = TypeVar("C", bound="Client")
EVENTS = f"application/{APPLICATION}/device/+/event/+"


class Client:
    """A client of the broker, which goes away at the end of a `with`."""

    client: Any

    def end(self) -> None:
        """Goes away."""
        self.client.disconnect()
        self.client.loop_stop()

    def __enter__(self: C) -> C:
        return self

    def __exit__(self, *_: Any) -> None:
        self.end()


class Dashboard(Client):
    """A client of the broker that notes the events that come, by their kinds."""

    def __init__(self, port: int, *topics: str, name: str = "dashboard") -> None:
        self.events: list[tuple[str, str, Any]] = []
        self.unread = 0
        self.client = client(name)
        self.client.on_message = self.note
        pairs = [(topic, 1) for topic in topics or (EVENTS,)]
        self.client.on_connect = lambda client, *_: client.subscribe(pairs)
        self.has_topic = False
        self.client.on_subscribe = lambda *_: setattr(self, "has_topic", True)
        self.client.connect(HOST, port)
        self.client.loop_start()
        await_that("the dashboard is connected", lambda: self.has_topic)

    def note(self, _client: Any, _data: Any, message: Any) -> None:
        """Notes an event, or counts what is none."""
        device, kind = message.topic.split("/")[-3::2]
        try:
            self.events.append((device.upper(), kind, json.loads(message.payload)))
        except (ValueError, RecursionError):
            self.unread += 1

    def of(self, device: str, kind: str) -> list[dict]:
        """The events of one kind of a device."""
        return [body for name, of, body in self.events if (name, of) == (device, kind)]

    def down(self, device: str, **body: Any) -> None:
        """Asks for an item."""
        topic = f"application/{APPLICATION}/device/{device.lower()}/command/down"
        self.client.publish(topic, json.dumps(body), qos=1).wait_for_publish(PATIENCE)

    def say(self, topic: str, payload: bytes) -> None:
        """Publishes anything."""
        self.client.publish(topic, payload, qos=1).wait_for_publish(PATIENCE)


class Whole(Field):
    """All of a pilot: a field, the server, a broker, both bridges, a database."""

    def __init__(self, pilot: Pilot, meters: int) -> None:
        self.broker = pilot.broker().start("running")
        super().__init__(pilot, meters)
        rows = ["DevEUI,JoinEUI,AppKey,Offset,Delay", *(meter.row() for meter in self.meters)]
        self.file = pilot.file("devices.csv", "\n".join(rows) + "\n")
        broker = ("--broker", f"{HOST}:{pilot.broker_port}", "--application", APPLICATION)
        counts: tuple = ("--devices", self.file, "--counts", pilot.file("applications.prom"))
        # so few that lines wait in the link too if the broker is away
        counts += ("--room", 50)
        words = ("--network", pilot.network, *broker, *counts)
        self.applications = pilot.own("applications-mqtt", *words, after=LEAVING)
        self.database = pilot.file("readings.db")
        self.readings = pilot.own("readings", "--db", self.database, *broker)
        self.readings.start("connected")
        self.applications.start()
        are_there = lambda: self.applications.has_said("devices are there")
        await_that("all devices are there", are_there, LONG)

    def stored(self) -> dict[Reading, bytes]:
        """What is in the database."""
        with sqlite3.connect(f"file:{self.database}?mode=ro", uri=True) as opened:
            rows = opened.execute(f"SELECT {COLUMNS} FROM readings").fetchall()
        return {Reading(*mark): payload for *mark, payload in rows}

    def acknowledged(self) -> dict[Reading, bytes]:
        """All readings that were acknowledged to their meters."""
        return {mark: meter.sent[mark] for meter in self.meters for mark in meter.acknowledged}

    def await_stored(self, due: dict, seconds: float = LONG) -> bool:
        """Waits until these readings are stored, and no others under their names."""
        try:
            await_that("stored", lambda: due.items() <= self.stored().items(), seconds, 0.1)
        except Failed:
            return False
        return True
