"""Packet forwarders of Semtech's protocol, by its public text (PROTOCOL.TXT of packet_forwarder):
what a gateway's own program sends over UDP, and what it does with the messages that it gets. `Air`
carries frames between gateways and meters."""

import base64
import json
import select
import socket
import time
from collections import deque
from collections.abc import Callable, Iterable
from typing import Any

from .meters import Meter
from .processes import HOST, PATIENCE, Failed

PULLS_EVERY = 1.0
SPREADING = {rate: f"SF{12 - rate}BW125" for rate in range(6)}


class Forwarder:
    """A gateway with a packet forwarder, whose clock begins at any microsecond. Like Semtech's it
    has a socket for what it heard, and another one by which it asks for downlinks."""

    up: socket.socket | None = None
    down: socket.socket
    # by how much a downlink may come after its moment, in seconds: a busy machine is late
    slack = 9.0

    def __init__(self, eui: str, port: int, version: int = 2, begins: int = 0, host: str = HOST):
        self.eui, self.version, self.server = bytes.fromhex(eui), version, (host, port)
        self.begun = time.monotonic() - begins / 1e6
        self.token, self.next_pull = 0, 0.0
        # its clock when it heard the last frame, and the newest datagram that was acknowledged
        self.stamp, self.acked = 0, 0
        # what it answers instead of sending, in turn
        self.errors: deque[str] = deque()
        self.told: list[dict] = []
        self.move()

    def move(self) -> None:
        """It has other ports from now on."""
        self.close()
        self.up, self.down = (socket.socket(socket.AF_INET, socket.SOCK_DGRAM) for _ in range(2))
        for own in self.sockets:
            own.connect(self.server)
        self.next_pull = 0.0

    @property
    def sockets(self) -> list[socket.socket]:
        """Its sockets."""
        return [self.up, self.down] if self.up else []

    @property
    def name(self) -> str:
        """Its EUI."""
        return self.eui.hex().upper()

    def close(self) -> None:
        """Closes its sockets."""
        for own in self.sockets:
            own.close()

    def restart(self, begins: int = 0) -> None:
        """It starts again: another port, and a clock from the beginning."""
        self.begun = time.monotonic() - begins / 1e6
        self.move()

    def clock(self) -> int:
        """Its clock."""
        return round((time.monotonic() - self.begun) * 1e6) % 2**32

    def say(self, kind: int, body: bytes = b"", token: int | None = None) -> None:
        """Sends a datagram."""
        self.token = (self.token + 1) % 65536
        number = self.token if token is None else token
        head = bytes([self.version]) + number.to_bytes(2, "big") + bytes([kind]) + self.eui
        own = self.up if self.up and kind == 0 else self.down
        try:
            own.send(head + body)
        except ConnectionRefusedError:
            pass  # nobody listens there, for example when the bridge is killed

    def rxpk(self, frame: bytes, hz: int, data_rate: int, snr: float, rssi: int) -> dict:
        """What it says of a frame."""
        self.stamp = self.clock()
        return {
            "tmst": self.stamp,
            "chan": 0,
            "rfch": 0,
            "freq": hz / 1e6,
            "stat": 1,
            "modu": "LORA",
            "datr": SPREADING[data_rate],
            "codr": "4/5",
            "lsnr": snr,
            "rssi": rssi,
            "size": len(frame),
            "data": base64.b64encode(frame).decode(),
        }

    def hears(
        self,
        frame: bytes,
        hz: int = 868_100_000,
        data_rate: int = 5,
        snr: float = 7.5,
        rssi: int = -80,
    ) -> None:
        """Hears a frame, and says so."""
        self.say(0, json.dumps({"rxpk": [self.rxpk(frame, hz, data_rate, snr, rssi)]}).encode())

    def look(self) -> None:
        """Asks for downlinks if it is time."""
        if time.monotonic() >= self.next_pull:
            self.say(2)
            self.next_pull = time.monotonic() + PULLS_EVERY

    def read(self, own: socket.socket) -> bytes | None:
        """Reads a datagram of one of its sockets; a frame that it sends then."""
        try:
            data = own.recv(65536)
        except ConnectionRefusedError:
            return None
        token = int.from_bytes(data[1:3], "big")
        if data[3] in (1, 4):
            self.acked = max(token, self.acked)
            return None
        txpk = json.loads(data[4:])["txpk"]
        self.told.append(txpk)
        error = self.errors.popleft() if self.errors else self.fault_of(txpk)
        self.say(5, json.dumps({"txpk_ack": {"error": error or "NONE"}}).encode(), token)
        return None if error else base64.b64decode(txpk["data"])

    def await_read(self) -> None:
        """Waits until the bridge has read all that was said, and all that it said then has come."""
        self.say(2)
        token = self.token
        if not Air([self], []).go_on(PATIENCE, lambda: self.acked >= token):
            raise Failed("the bridge doesn't answer")

    def fault_of(self, txpk: dict) -> str:
        """What a forwarder finds wrong with a moment."""
        left = (txpk["tmst"] - self.clock() + 2**31) % 2**32 - 2**31
        is_late = left < -self.slack * 1e6
        return "TOO_LATE" if is_late else "TOO_EARLY" if left > 20_000_000 else ""


class Air:
    """What gateways and meters have between them. A gateway has `name`, `sockets`, `look`, `read`
    and `hears`."""

    def __init__(self, gateways: Iterable[Any], meters: Iterable[Meter]):
        self.gateways, self.meters = list(gateways), list(meters)
        self.unheard = 0

    def go_on(self, seconds: float = 0.0, until: Callable[[], Any] | None = None) -> bool:
        """Time passes, at most so long; whether what was waited for is so."""
        last = time.monotonic() + seconds
        while not (until and until()):
            left = last - time.monotonic()
            if left < 0:
                return False
            for gateway in self.gateways:
                gateway.look()
            whose = {own: gateway for gateway in self.gateways for own in gateway.sockets}
            for ready in select.select(list(whose), [], [], min(left, 0.05))[0]:
                frame = whose[ready].read(ready)
                if frame:
                    self.carry(frame, whose[ready].name)
        return True

    def carry(self, frame: bytes, gateway: str) -> None:
        """A frame that a gateway sends, which one meter hears."""
        if not any(meter.takes(frame, gateway) for meter in self.meters):
            self.unheard += 1
