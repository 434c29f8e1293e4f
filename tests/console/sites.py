"""A console without processes: a network that trials fill by lines and events, and a client of its
pages. The bridge of application 3 is played."""

import asyncio
import json
import re
import ssl
import time
from collections.abc import Coroutine
from pathlib import Path
from typing import Any, TypeVar

from aiohttp import ClientResponse
from aiohttp.test_utils import TestClient, TestServer
from bozintar.processes import HOST
from console import broker_events, server_lines
from console.access import Access
from console.history import History
from console.network import Network
from console.requests import Bridges
from console.site import Site

T = TypeVar("T")
GATEWAY, DEVICE, JOIN_EUI = "00000000000000B1", "70B3D57ED0000001", "0102030405060708"
KEY = "8D1E63A7F05B42C9964E7710AB3CD25F"
# a status of a server whose one gateway has sent a copy
STATUS = f"""listening 127.0.0.1:5600
places 96
links 2
gateways 1
applications 1
devices 2
slots 4096
made 4
dropped 0
syncs 9
longest_sync_us 400
last_copy_{GATEWAY} 5321
"""


def up(
    device: str, counter: int, session: int = 1, rate: int = 5, snr: float = 7.5, **other: Any
) -> tuple[str, bytes]:
    """An event `up`, as ChirpStack's events are and with this pilot's own fields."""
    said: dict[str, Any] = {
        "joinNonce": session,
        "fCnt": counter,
        "fPort": 7,
        "dr": rate,
        "data": "AAEC",
        "copies": 2,
        "rxInfo": [{"gatewayId": GATEWAY.lower(), "rssi": -90, "snr": snr}],
        "txInfo": {"frequency": 867_100_000},
    }
    return event(device, "up", {**said, **other})


def event(device: str, kind: str, said: dict, application: int = 3) -> tuple[str, bytes]:
    """An event of a device."""
    topic = f"application/{application}/device/{device.lower()}/event/{kind}"
    return topic, json.dumps(said).encode()


class Bridge:
    """What answers requests, as applications-mqtt --asks does: `says` has the answers in turn, and
    after these each request is done."""

    def __init__(self) -> None:
        self.asked: list[str] = []
        self.says: list[str] = []

    async def attend(self, reader: asyncio.StreamReader, writer: asyncio.StreamWriter) -> None:
        """Answers a client."""
        while line := (await reader.readline()).decode().rstrip("\n"):
            self.asked.append(line)
            writer.write(f"{self.says.pop(0) if self.says else self.done(line)}\n".encode())
            await writer.drain()
        writer.close()

    @staticmethod
    def done(line: str) -> str:
        """The line that a server answers with."""
        kind, device, *words = line.split(" ")
        if kind == "provision":
            return f"provisioned {device} 7"
        return (
            f"queued {device} {words[0]}" if kind == "queue" else f"macqueued {device} {words[0]}"
        )


class Page:
    """A page that a client got."""

    def __init__(self, response: ClientResponse, text: str) -> None:
        self.status, self.headers, self.markup = response.status, response.headers, text

    @property
    def text(self) -> str:
        """What a person reads."""
        bare = re.sub(r"<(script|style)\b.*?</\1>|<[^>]*>", " ", self.markup, flags=re.S)
        for name, sign in (("&lt;", "<"), ("&gt;", ">"), ("&#34;", '"'), ("&#39;", "'")):
            bare = bare.replace(name, sign)
        return re.sub(r"\s+", " ", bare.replace("&amp;", "&")).replace(" ,", ",").replace(" :", ":")

    @property
    def token(self) -> str:
        """The token of its forms."""
        found = re.search(r'name="token" value="([0-9a-f]+)"', self.markup)
        return found[1] if found else ""


class Console:
    """The console, with a client of it. `tls` has the contexts of server and clients by their
    names, for a console beyond loopback."""

    def __init__(
        self,
        folder: Path,
        may_write: bool = True,
        tls: dict[str, ssl.SSLContext] | None = None,
        net_ids: dict[str, int | None] | None = None,
        **how: Any,
    ) -> None:
        self.loop, self.tls = asyncio.new_event_loop(), tls or {}
        self.kept = History(str(folder / "console.db"))
        self.network, self.bridge = Network(self.kept, net_ids or {"": 0x2A}), Bridge()
        self.socket = str(folder / "ask")
        access = Access({HOST, "localhost"}, bool(tls), may_write and not tls)
        self.site = Site(self.network, access, Bridges({"3": self.socket}), self.refresh)
        self.refreshed = 0
        self.client = self.run(self.start())

    async def refresh(self) -> None:
        """The site wants the devices anew."""
        self.refreshed += 1

    async def start(self) -> TestClient:
        """Starts all of it."""
        self.listener = await asyncio.start_unix_server(self.bridge.attend, self.socket)
        scheme = "https" if self.tls else "http"
        server = TestServer(self.site.application(), host=HOST, scheme=scheme)
        await server.start_server(ssl=self.tls.get("server"))
        return TestClient(server)

    def run(self, work: Coroutine[Any, Any, T]) -> T:
        """Runs a coroutine to its end."""
        return self.loop.run_until_complete(work)

    def close(self) -> None:
        """Ends all of it."""
        self.run(self.client.close())
        self.listener.close()
        self.run(self.listener.wait_closed())
        self.kept.close()
        self.loop.close()

    def again(self) -> None:
        """It is killed, which loses what isn't written, and is started again."""
        self.kept.waiting.clear()
        self.close()
        self.__init__(Path(self.socket).parent)  # type: ignore[misc]
        self.serves(listed(0, DEVICE))

    # what it hears

    def serves(self, *devices: str) -> None:
        """A server answers, with these lines of devices."""
        server_lines.take_status(self.network, STATUS)
        server_lines.take_devices(self.network, "\n".join(devices))
        self.network.is_broker_there = True
        self.settle()

    def lines(self, *lines: str) -> None:
        """The lookout passes lines on."""
        for line in lines:
            server_lines.take_line(self.network, line)
        self.settle()

    def events(self, *events: tuple[str, bytes]) -> None:
        """The broker delivers events."""
        for topic, payload in events:
            broker_events.take(self.network, topic, payload)
        self.settle()

    def settle(self) -> None:
        """What has come is in the history, and is shown."""
        self.kept.write_waiting()
        self.site.found_at = 0.0

    # what it shows

    @property
    def origin(self) -> str:
        """The address of its pages."""
        return f"{'https' if self.tls else 'http'}://{HOST}:{self.client.port}"

    def get(self, path: str, **how: Any) -> Page:
        """A page."""
        return self.run(self.request("GET", path, **how))

    def device_page(self, *events: tuple[str, bytes]) -> str:
        """What the page of DEVICE shows after events."""
        self.events(*events)
        return self.get(f"/devices/{DEVICE}").text

    def post(self, path: str, form: Any, **how: Any) -> Page:
        """A form is sent as a browser sends it; the page that follows."""
        headers = {"Origin": self.origin, "Sec-Fetch-Site": "same-origin"}
        headers |= how.pop("headers", {})
        return self.run(self.request("POST", path, data=form, headers=headers, **how))

    def send(self, path: str, /, **fields: str) -> Page:
        """Fills in a form of a page, and sends it."""
        return self.post(path, {"token": self.get(path).token, **fields})

    async def request(self, method: str, path: str, **how: Any) -> Page:
        """A request and its answer."""
        async with self.client.request(method, path, **how) as response:
            return Page(response, await response.text())


def listed(
    slot: int,
    device: str,
    granted: int = 1,
    session: str = "1",
    age: float | None = None,
    heard: int | None = None,
) -> str:
    """A line of `lnsd devices`: heard last `age` seconds before the last copy of STATUS."""
    counters = "5 2" if session != "-" else "- -"
    last = "- - - -"
    if age is not None:
        last = f"{5321 - round(1000 * age)} {GATEWAY} -20 -95"
    uplinks = (6 if session != "-" else 0) if heard is None else heard
    return f"{slot} {device} {granted} {session} {counters} 0 {uplinks} {last}"


class Clock:
    """A clock that a trial sets, in place of time.time."""

    def __init__(self) -> None:
        self.now = time.time()

    def __call__(self) -> float:
        return self.now
