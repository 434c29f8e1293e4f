"""A load of the whole pilot: meters in their sessions send confirmed readings through many
gateways, and each is acknowledged by a downlink through the bridge that it came by."""

import base64
import json
import select
import socket
import sqlite3
import time
from dataclasses import dataclass, field
from typing import Any

from bozintar.frames import CHANNELS
from bozintar.mqtt import client
from bozintar.processes import HOST, await_that
from bozintar import load, store
from .parts import Pilot

GATEWAYS, DEVICES, APPLICATION = 64, 512, 0
WINDOW = 0.2
PULLS_EVERY = 5.0
# after the last reading, how long the rest is waited for, in seconds
REST = 10.0


def gateway_eui(number: int) -> str:
    return load.gateway_eui(number)


def frames(count: int) -> list[tuple[int, bytes]]:
    """This many confirmed readings, of all devices in turn, each with the gateway that hears it."""
    devices, made = [load.device(number) for number in range(DEVICES)], []
    for place in range(count):
        number, counter = place % DEVICES, 1 + place // DEVICES
        frame = devices[number].uplink(7, load.payload(number, counter), confirmed=True)
        made.append((number % GATEWAYS, frame))
    return made


@dataclass
class Outcome:
    """What became of a load."""

    sent: int
    waits: list[float] = field(default_factory=list)
    stored: int = 0
    seconds: float = 0.0
    # of each part: its processor time for an uplink in microseconds, and its memory in MiB
    parts: dict[str, tuple[float, float]] = field(default_factory=dict)

    def percentile(self, part: float) -> float:
        """Of the times beyond the window, in milliseconds."""
        waits = sorted(self.waits)
        return 1000 * waits[min(len(waits) - 1, int(part * len(waits)))] if waits else -1.0


class ByUdp:
    """64 packet forwarders in one."""

    def __init__(self, port: int) -> None:
        self.server = (HOST, port)
        self.moments: dict[tuple[int, int], float] = {}
        self.waits: list[float] = []
        self.euis = [bytes.fromhex(gateway_eui(number)) for number in range(GATEWAYS)]
        self.sockets = [socket.socket(socket.AF_INET, socket.SOCK_DGRAM) for _ in self.euis]
        self.poll = select.epoll()
        for own in self.sockets:
            own.connect(self.server)
            own.setblocking(False)
            self.poll.register(own.fileno(), select.EPOLLIN)
        self.by_number = {own.fileno(): place for place, own in enumerate(self.sockets)}
        self.next_pull = 0.0

    def look(self) -> None:
        """Asks for downlinks if it is time."""
        if time.monotonic() >= self.next_pull:
            self.next_pull = time.monotonic() + PULLS_EVERY
            for own, eui in zip(self.sockets, self.euis):
                own.send(b"\x02\x00\x01\x02" + eui)

    def hears(self, gateway: int, frame: bytes, hz: int) -> None:
        """A gateway hears a frame."""
        now = time.monotonic()
        stamp = round(now * 1e6) % 2**32
        rxpk = {"tmst": stamp, "freq": hz / 1e6, "stat": 1, "modu": "LORA", "datr": "SF7BW125"}
        rxpk |= {"codr": "4/5", "lsnr": 7, "rssi": -80, "size": len(frame)}
        rxpk["data"] = base64.b64encode(frame).decode()
        self.moments[gateway, stamp] = now
        body = json.dumps({"rxpk": [rxpk]}).encode()
        self.sockets[gateway].send(b"\x02\x00\x02\x00" + self.euis[gateway] + body)

    def read(self, wait: float) -> None:
        """Takes what comes."""
        for number, _ in self.poll.poll(max(0.0, wait)):
            place = self.by_number[number]
            data = self.sockets[place].recv(65536)
            if data[3] == 3:
                now, txpk = time.monotonic(), json.loads(data[4:])["txpk"]
                stamp = (txpk["tmst"] - 1_000_000) % 2**32
                self.waits.append(now - self.moments.pop((place, stamp)) - WINDOW)
                ack = b'{"txpk_ack":{"error":"NONE"}}'
                self.sockets[place].send(b"\x02" + data[1:3] + b"\x05" + self.euis[place] + ack)


class ByMqtt:
    """64 gateways behind ChirpStack's gateway bridges, in one."""

    def __init__(self, port: int) -> None:
        self.moments: dict[bytes, float] = {}
        self.waits: list[float] = []
        self.number = 0
        self.client = client("stations")
        self.client.max_inflight_messages_set(1000)
        self.client.on_message = self.note
        no_delay = (socket.IPPROTO_TCP, socket.TCP_NODELAY, 1)
        self.client.on_socket_open = lambda _client, _data, opened: opened.setsockopt(*no_delay)
        self.client.connect(HOST, port)
        self.client.subscribe("eu868/gateway/+/command/down", 1)
        self.client.loop_start()
        self.next_stats = 0.0

    def look(self) -> None:
        """Says how gateways do if it is time."""
        if time.monotonic() >= self.next_stats:
            self.next_stats = time.monotonic() + PULLS_EVERY
            for number in range(GATEWAYS):
                self.client.publish(
                    f"eu868/gateway/{gateway_eui(number).lower()}/event/stats", b"{}"
                )

    def hears(self, gateway: int, frame: bytes, hz: int) -> None:
        """A gateway hears a frame."""
        self.number += 1
        eui, context = gateway_eui(gateway).lower(), self.number.to_bytes(4, "big")
        lora = {"bandwidth": 125000, "spreadingFactor": 7, "codeRate": "CR_4_5"}
        rx = {"gatewayId": eui, "rssi": -80, "snr": 7, "crcStatus": "CRC_OK"}
        rx["context"] = base64.b64encode(context).decode()
        tx = {"frequency": hz, "modulation": {"lora": lora}}
        body = {"phyPayload": base64.b64encode(frame).decode(), "txInfo": tx, "rxInfo": rx}
        self.moments[context] = time.monotonic()
        self.client.publish(f"eu868/gateway/{eui}/event/up", json.dumps(body), 1)

    def note(self, _client: Any, _data: Any, message: Any) -> None:
        """A downlink came."""
        now, body = time.monotonic(), json.loads(message.payload)
        context = base64.b64decode(body["items"][0]["txInfo"]["context"])
        self.waits.append(now - self.moments.pop(context) - WINDOW)

    def read(self, wait: float) -> None:
        """Lets time pass."""
        time.sleep(max(0.0, wait))


class Loaded:
    """A pilot with devices in their sessions, and the parts whose cost is measured."""

    def __init__(self, pilot: Pilot, kind: str) -> None:
        self.pilot = pilot
        pilot.program.stop()
        store.put(pilot.program.store, [load.record(number, 1) for number in range(DEVICES)])
        pilot.program.run_on(96, port=pilot.address[1])
        broker = pilot.broker().start("running")
        at: tuple = ("--broker", f"{HOST}:{pilot.broker_port}")
        named = [word for number in range(GATEWAYS) for word in ("--gateway", gateway_eui(number))]
        words = ("--network", pilot.network, *named)
        if kind == "udp":
            udp = ("--udp", f"{HOST}:{pilot.udp_port}")
            bridge = pilot.own("gateways-udp", *words, *udp).start("listens on")
            self.gateways: ByUdp | ByMqtt = ByUdp(pilot.udp_port)
        else:
            bridge = pilot.own("gateways-mqtt", *words, *at).start("connected to")
            self.gateways = ByMqtt(pilot.broker_port)
        at += ("--application", APPLICATION)
        applications = pilot.own("applications-mqtt", "--network", pilot.network, *at)
        self.database = pilot.file("readings.db")
        readings = pilot.own("readings", "--db", self.database, *at).start("connected")
        applications.start("connected to")
        await_that("linked", lambda: "linked to" in applications.said())
        self.parts = [pilot.program.running(), bridge, broker, applications, readings]
        await_that("all gateways are linked", self.are_linked)

    def are_linked(self) -> bool:
        """Whether all gateways have their links."""
        self.gateways.look()
        self.gateways.read(0.1)
        return self.pilot.program.status()["gateways"] == str(GATEWAYS)

    def stored(self) -> int:
        """How many readings are stored."""
        with sqlite3.connect(f"file:{self.database}?mode=ro", uri=True) as database:
            return database.execute("SELECT count(*) FROM readings").fetchone()[0]

    def run(self, rate: int, seconds: int) -> Outcome:
        """Sends at this rate for this many seconds; what became of it."""
        plan, outcome = frames(rate * seconds), Outcome(rate * seconds)
        before = [part.processor() for part in self.parts]
        begun = time.monotonic()
        for place, (gateway, frame) in enumerate(plan):
            due = begun + place / rate
            while (left := due - time.monotonic()) > 0:
                self.gateways.read(left)
            self.gateways.look()
            self.gateways.hears(gateway, frame, CHANNELS[place % len(CHANNELS)])
        outcome.seconds = time.monotonic() - begun
        last = time.monotonic() + REST
        while len(self.gateways.waits) < len(plan) and time.monotonic() < last:
            self.gateways.read(0.05)
        while self.stored() < len(plan) and time.monotonic() < last:
            time.sleep(0.1)
        outcome.waits, outcome.stored = list(self.gateways.waits), self.stored()
        for part, took in zip(self.parts, before):
            each = 1e6 * (part.processor() - took) / len(plan)
            outcome.parts[part.name] = (each, part.memory(most=True) / 1024)
        return outcome
