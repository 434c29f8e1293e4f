"""Gateways behind ChirpStack's gateway bridge, by its public texts: what it publishes of a gateway
as JSON (version 4), and what it does with a command `down`."""

import base64
import json
import os
import socket
import time
from collections import deque
from typing import Any

from bozintar.mqtt import client
from bozintar.processes import HOST, Process

from .field import GATEWAYS
from .whole import Client, Whole

STATS_EVERY = 1.0


class Station(Client):
    """A gateway with its own gateway bridge."""

    def __init__(self, eui: str, port: int, prefix: str = "eu868") -> None:
        self.name, self.eui, self.prefix = eui, eui.lower(), prefix
        # what it wants to see again with a downlink
        self.contexts: set[str] = set()
        # what it answers instead of sending, in turn
        self.errors: deque[str] = deque()
        self.told: list[dict] = []
        self.commands: deque[Any] = deque()
        self.next_stats = 0.0
        self.heard, self.bell = socket.socketpair()
        self.sockets = [self.heard]
        self.client = client(f"station-{self.eui}")
        self.client.on_message = self.note
        topic = f"{prefix}/gateway/{self.eui}/command/#"
        self.client.on_connect = lambda client, *_: client.subscribe(topic, 1)
        self.connect(port)
        self.client.loop_start()

    def connect(self, port: int) -> None:
        """Connects to the broker on loopback."""
        self.client.connect_async(HOST, port)

    def note(self, _client: Any, _data: Any, message: Any) -> None:
        """Notes a command."""
        self.commands.append(message)
        self.bell.send(b"!")

    def publish(self, kind: str, body: Any) -> None:
        """Publishes an event, or bytes in its place."""
        text = body if isinstance(body, bytes) else json.dumps(body).encode()
        self.client.publish(f"{self.prefix}/gateway/{self.eui}/event/{kind}", text, qos=1)

    def up(self, frame: bytes, hz: int, data_rate: int, snr: float, rssi: int) -> dict:
        """What it says of a frame."""
        context = base64.b64encode(os.urandom(12)).decode()
        self.contexts.add(context)
        lora = {"bandwidth": 125000, "spreadingFactor": 12 - data_rate, "codeRate": "CR_4_5"}
        rx = {"gatewayId": self.eui, "uplinkId": 7, "rssi": rssi, "snr": snr, "channel": 2}
        rx |= {"rfChain": 1, "location": {}, "context": context, "crcStatus": "CRC_OK"}
        tx = {"frequency": hz, "modulation": {"lora": lora}}
        return {"phyPayload": base64.b64encode(frame).decode(), "txInfo": tx, "rxInfo": rx}

    def hears(
        self,
        frame: bytes,
        hz: int = 868_100_000,
        data_rate: int = 5,
        snr: float = 7.5,
        rssi: int = -80,
        times: int = 1,
    ) -> None:
        """Hears a frame, and says so, twice if the broker loses an acknowledgement."""
        body = self.up(frame, hz, data_rate, snr, rssi)
        for _ in range(times):
            self.publish("up", body)

    def look(self) -> None:
        """Says how it does if it is time."""
        if time.monotonic() >= self.next_stats:
            self.publish("stats", {"gatewayId": self.eui, "rxPacketsReceived": 1})
            self.next_stats = time.monotonic() + STATS_EVERY

    def read(self, heard: socket.socket) -> bytes | None:
        """Reads a command; a frame that it sends then."""
        heard.recv(1)
        body = json.loads(self.commands.popleft().payload)
        statuses: list[dict] = []
        frame = None
        for item in body["items"]:
            self.told.append(item["txInfo"])
            is_known = item["txInfo"]["context"] in self.contexts
            error = self.errors.popleft() if self.errors else "" if is_known else "TOO_EARLY"
            statuses.append({"status": error or "OK"})
            if not error:
                frame = base64.b64decode(item["phyPayload"])
                break
        told = {"gatewayId": self.eui, "downlinkId": body["downlinkId"], "items": statuses}
        self.publish("ack", told)
        return frame


class ByStations(Whole):
    """A whole pilot whose gateways come by MQTT."""

    def start_gateways(self) -> Process:
        broker = ("--broker", f"{HOST}:{self.pilot.broker_port}")
        return self.pilot.own("gateways-mqtt", *broker, *self.named).start("connected to")

    def make_gateways(self) -> list:
        return [Station(eui, self.pilot.broker_port) for eui in GATEWAYS]
