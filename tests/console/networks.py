"""A whole network with a console on it, as processes: a server, a broker, gateways, an application,
a lookout, and what plays meters and gateways. What takes the console's requests is played."""

import asyncio
import threading
import urllib.request
from collections.abc import Callable
from pathlib import Path
from typing import Any

from bozintar.forwarders import Air, Forwarder
from bozintar.meters import Meter
from bozintar.processes import HOST, Process, free_port

from ..pilot.parts import Pilot
from .sites import Bridge

GATEWAYS = {"00000000000000B1": "Church tower", "00000000000000B2": "Water works"}
APPLICATION = 3


class PlayedBridge(Bridge):
    """A bridge that takes requests on a socket, in a thread of its own."""

    def __init__(self, path: str) -> None:
        super().__init__()
        self.loop = asyncio.new_event_loop()
        self.loop.run_until_complete(asyncio.start_unix_server(self.attend, path))
        self.thread = threading.Thread(target=self.loop.run_forever, daemon=True)
        self.thread.start()

    def end(self) -> None:
        """Ends the thread."""
        self.loop.call_soon_threadsafe(self.loop.stop)
        self.thread.join()
        self.loop.close()


class Whole:
    """The network. Meters are provisioned by the bridge of the application."""

    def __init__(self, program: str, meters: int, **how: Any) -> None:
        self.pilot = Pilot(program, **how)
        self.meters = [Meter(number) for number in range(1, meters + 1)]
        self.address = f"http://{HOST}:{free_port()}"
        self.lookout = self.control("lookout", self.pilot.program.store, "--socket", self.look)
        self.broker = self.pilot.broker()
        self.gateways, self.application = self.bridges()
        self.console = self.start_console()
        self.asked = PlayedBridge(self.ask)
        ports = enumerate(GATEWAYS)
        forwarders = [Forwarder(eui, self.pilot.udp_port, begins=n) for n, eui in ports]
        self.air = Air(forwarders, self.meters)

    def control(self, name: str, *words: Any) -> Process:
        """A program of pilot/console."""
        return self.pilot.own(f"console/{name}", *words)

    @property
    def look(self) -> str:
        """The lookout's socket."""
        return self.pilot.file("look")

    @property
    def ask(self) -> str:
        """The socket that takes requests."""
        return self.pilot.file("ask")

    def bridges(self) -> tuple[Process, Process]:
        """The bridges of gateways and of the application."""
        names = [word for eui in GATEWAYS for word in ("--gateway", eui)]
        counts = ("--counts", self.pilot.file("gateways-udp.prom"))
        udp = ("--udp", f"{HOST}:{self.pilot.udp_port}", "--network", self.pilot.network)
        gateways = self.pilot.own("gateways-udp", *udp, *names, *counts)
        rows = "".join(f"{meter.row()}\n" for meter in self.meters)
        devices = self.pilot.file("devices.csv", rows or "#\n")
        words = ("--application", APPLICATION, "--devices", devices)
        where = ("--network", self.pilot.network, "--broker", f"{HOST}:{self.pilot.broker_port}")
        return gateways, self.pilot.own("applications-mqtt", *where, *words)

    def start_console(self) -> Process:
        """The console, whose clients may write."""
        names = "".join(f"{eui},{name}\n" for eui, name in GATEWAYS.items())
        names += "".join(f"{meter.dev_eui},Meter {meter.number}\n" for meter in self.meters)
        words = ["--lookout", self.look, "--broker", f"{HOST}:{self.pilot.broker_port}"]
        words += ["--listen", self.address.removeprefix("http://"), "--loopback-writes"]
        words += ["--db", self.pilot.file("console.db"), "--netid", "00002A"]
        words += ["--names", self.pilot.file("names.csv", names), "--counts", self.pilot.folder]
        words += ["--asks", f"{APPLICATION}={self.ask}"]
        return self.control("web-console", *words)

    def start(self) -> None:
        """Starts all of it."""
        self.lookout.start("passes on what")
        self.broker.start("running")
        self.gateways.start("listens on")
        self.application.start()
        self.console.start("listens on")

    def send(self, frame: bytes, snr: float = 7.5, rssi: int = -80, data_rate: int = 5) -> None:
        """Both gateways hear a frame, the first one better."""
        for place, gateway in enumerate(self.air.gateways):
            gateway.hears(frame, data_rate=data_rate, snr=snr - 3 * place, rssi=rssi - 5 * place)

    def join(self, meter: Meter) -> bool:
        """A meter joins, by the third try at the latest."""
        for _ in range(3):
            self.send(meter.join_request())
            if self.air.go_on(10, lambda: bool(meter.keys)):
                return True
        return False

    def read(self, meter: Meter, **how: Any) -> None:
        """A meter sends a reading, which isn't confirmed."""
        self.send(meter.reads(confirmed=False), **how)
        self.air.go_on(0.6)

    def shows(self, path: str) -> bool:
        """Whether the console has a page."""
        try:
            with urllib.request.urlopen(f"{self.address}{path}", timeout=30) as response:
                return int(response.status) == 200
        except OSError:
            return False

    def end(self) -> None:
        """Ends all of it."""
        for gateway in self.air.gateways:
            gateway.close()
        self.asked.end()
        self.pilot.__exit__(None)

    def file(self, name: str) -> Path:
        """A file of its folder."""
        return Path(self.pilot.file(name))


# how a part is killed and started again, and what the console says meanwhile
KILLS: dict[str, tuple[Callable[[Whole], Any], Callable[[Whole], Any], str]] = {
    "console": (
        lambda network: network.console.kill(),
        lambda network: network.console.start("listens on"),
        "No answer from the console for",
    ),
    "lookout": (
        lambda network: network.lookout.kill(),
        lambda network: network.lookout.start("passes on what"),
        "No server answers",
    ),
    "broker": (
        lambda network: network.broker.kill(),
        lambda network: network.broker.start("running"),
        "The broker is away",
    ),
    "lnsd": (
        lambda network: network.pilot.program.kill(),
        lambda network: network.pilot.program.run_on(96, port=network.pilot.address[1]),
        "No server answers",
    ),
    "gateways": (
        lambda network: network.gateways.kill(),
        lambda network: network.gateways.start("listens on"),
        "Gateway Church tower is offline",
    ),
}
