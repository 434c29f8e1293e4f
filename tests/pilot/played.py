"""Bridges beside a network that is played."""

import base64
import os
from typing import Any, TextIO

from bozintar.processes import HOST, Process, await_all

from .field import APPLICATION, GATEWAYS
from .networks import End, Network
from .parts import Parts
from .whole import Dashboard

FIRST, SECOND = "1112131415161718", "2122232425262728"
EUI = bytes.fromhex(GATEWAYS[0])
# a name that is looked up for a minute
SLOW = """import socket, time
real = socket.getaddrinfo
def slow(host, *of, **how):
    return time.sleep(60) if host == "slow.example" else real(host, *of, **how)
socket.getaddrinfo = slow
"""


def up(counter: int, device: str = FIRST) -> str:
    """A reading."""
    return f"up {device} 1 {counter} 7 04D2 1 {GATEWAYS[0]} 868100000 5 -20 -95"


class Bridge:
    """The bridge of an application, beside a network that is played, with a broker."""

    def __init__(self, parts: Parts, network: Network, *words: Any, after: str = "") -> None:
        self.broker = parts.broker().start("running")
        self.dashboard = Dashboard(parts.broker_port)
        self.file = parts.file("applications.prom")
        said: tuple = ("--network", network.at, "--broker", f"{HOST}:{parts.broker_port}")
        said += ("--application", APPLICATION, "--counts", self.file, *words)
        self.part = parts.own("applications-mqtt", *said, after=after)
        self.network = network
        self.link = self.start()

    def start(self) -> End:
        """Starts it; its link."""
        self.part.start("connected to")
        return self.network.link()

    def events(self, kind: str, device: str = FIRST, count: int = 1) -> list[dict]:
        """The events of a kind of a device, once there are this many."""
        found = lambda: self.dashboard.of(device, kind)
        await_all(f"{count} {kind}", lambda: len(found()) >= count)
        return found()

    def queued(self, device: str, text: str) -> str:
        """Has an item be queued under an id; its tag."""
        before = len(self.dashboard.of(device, "queued"))
        self.dashboard.down(device, fPort=7, data="AA==", id=text)
        tag = self.link.asked()[2]
        self.link.tell(f"queued {device} {tag}")
        self.events("queued", device, before + 1)
        return tag


def rxpk(stamp: int, payload: bytes, snr: float) -> dict:
    """A frame that was heard."""
    frame = {"tmst": stamp, "freq": 868.1, "stat": 1, "modu": "LORA", "datr": "SF7BW125"}
    frame |= {"codr": "4/5", "lsnr": snr, "rssi": -80, "size": len(payload)}
    return frame | {"data": base64.b64encode(payload).decode()}


def gateways(parts: Parts, network: str, *words: str, ready: str, **how: str) -> Process:
    """The bridge of gateways by UDP."""
    said = ("--network", network, "--udp", f"{HOST}:{parts.udp_port}", *words)
    return parts.own("gateways-udp", *said, **how).start(ready)


def nobody_reads() -> TextIO:
    """A pipe that nobody reads."""
    reader, writer = os.pipe()
    os.close(reader)
    return os.fdopen(writer, "w")
