"""A console over several stores: their names beside devices and gateways, sums of their numbers,
and what one of them says of another one's devices."""

import signal
from collections.abc import Iterator
from pathlib import Path

import pytest
from bozintar.processes import HOST, free_port
from console import server_lines
from console.sources import counts_in, take_linked

from ..pilot.parts import Parts, run
from .sites import DEVICE, GATEWAY, STATUS, Clock, Console, listed, up

NET_IDS: dict[str, int | None] = {"d00": 0, "d01": 1, "d02": 0}
SECOND, THIRD, STRANGER = "70B3D57ED0000002", "70B3D57ED0000003", "70B3D57ED0000009"
OTHER = "00000000000000B2"
HEARD = f"{GATEWAY} 868100000 5 -20 -95"
OF_STORES = {"d00": DEVICE, "d01": SECOND, "d02": THIRD}


class City(Console):
    """A console over three stores, two of one NetID, each with a device."""

    def status(self, store: str, text: str) -> None:
        """A server answers, or doesn't."""
        server_lines.take_status(self.network, text, self.network.servers[store])
        self.settle()

    def line(self, store: str, text: str) -> None:
        """A lookout passes a line on."""
        server_lines.take_line(self.network, text, self.network.servers[store])
        self.settle()


@pytest.fixture
def city(folder: Path, clock: Clock) -> Iterator[City]:
    """The console, with a server for each store."""
    made = City(folder, net_ids=NET_IDS)
    for place, (store, device) in enumerate(OF_STORES.items()):
        text = STATUS.replace("dropped 0", f"dropped {place + 1}").replace("sync_us 4", "sync_us 7")
        made.status(store, text)
        server = made.network.servers[store]
        server_lines.take_devices(made.network, listed(0, device), server)
    made.network.is_broker_there = True
    made.settle()
    yield made
    made.close()


def test_names_of_stores(city: City) -> None:
    """Each device and gateway is shown with the names of its stores, and a search finds them."""
    city.events(up(DEVICE, 0), up(SECOND, 0))
    devices = city.get("/devices").text
    for store, device in OF_STORES.items():
        assert f"{device} {store}" in devices
        assert f"Store {store}" in city.get(f"/devices/{device}").text
    assert SECOND in city.get("/devices?q=d01").text
    assert DEVICE not in city.get("/devices?q=d01").text
    assert f"{GATEWAY} d00, d01, d02" in city.get("/gateways").text
    city.line("d01", f"linked gateway {OTHER}")
    assert f"{OTHER} d01 " in city.get("/gateways").text


def test_sums(city: City) -> None:
    """The overview has sums over all stores, and the page of servers a row of each."""
    text = city.get("/").text
    for due in (
        "Devices joined 3 of 3, 12288 slots",
        "Not sent 6 since the servers' start",
        "Longest sync 0.7 ms",
        "3 servers running",
    ):
        assert due in text, due
    text = city.get("/server").text
    for place, store in enumerate(OF_STORES):
        assert f"{store} ● Running 1 of 4096 2 {place + 1} 0.7 ms" in text
    assert "All 3 of 12288 6 0.7 ms" in text


def test_server_that_is_away(city: City) -> None:
    """If one server is away, the page says of which store; the others' numbers go on."""
    city.status("d01", "")
    text = city.get("/").text
    assert "No server of d01" in text and "No server answers for store d01" in text
    assert "d01: No server answers" in text
    assert city.get("/health").status == 503
    city.status("d01", STATUS)
    assert city.get("/health").status == 200


def test_store_that_is_nearly_full(city: City) -> None:
    """Each store has its own slots."""
    city.status("d02", STATUS.replace("slots 4096", "slots 1"))
    text = city.get("/").text
    assert "The store d02 is nearly full 1 of 1 slots" in text and text.count("nearly full") == 1


def test_links_that_come_and_go(city: City, folder: Path) -> None:
    """A gateway's links to stores come and go: only its bridge's counts say whether it is there."""
    for line in ("linked", "ended", "taken_over"):
        city.line("d00", f"{line} gateway {GATEWAY}")
    assert "offline" not in city.get("/").text and "Linked" not in city.get("/").text
    assert "Not known" in city.get("/gateways").text
    for value, due in (("1.0", "Online"), ("0.0", "Offline")):
        text = f'pilot_gateway_linked{{bridge="router",gateway="{GATEWAY}"}} {value}\n'
        (folder / "router.prom").write_text(text, encoding="ascii")
        take_linked(city.network, counts_in(str(folder)).linked)
        city.settle()
        assert due in city.get("/gateways").text
    assert f"Gateway {GATEWAY} is offline" in city.get("/").text
    city.line("d00", f"faulted gateway {GATEWAY}")
    assert "d00: Link closed: the server got a message" in city.get("/").text


@pytest.mark.parametrize(
    "store, line, is_shown",
    [
        # a Join-Request that all stores got
        ("d01", f"refused 7 UnknownDevEui join {DEVICE} 7 {HEARD}", False),
        ("d01", f"refused 7 UnknownDevEui join {STRANGER} 7 {HEARD}", True),
        ("d00", f"refused 4 BadMic join {DEVICE} 7 {HEARD}", True),
        # slot 0, session 1 of NetID 0 is a device of two stores
        ("d02", f"refused 4 BadMic data 00000001 9 {HEARD}", False),
        ("d01", f"refused 5 CounterGap data 02000001 9 {HEARD}", True),
    ],
)
def test_refused_by_another_store(store: str, line: str, is_shown: bool, city: City) -> None:
    """What a store refuses since it is another one's isn't shown."""
    city.line(store, line)
    assert bool(city.network.refused) == is_shown
    if " data 02" in line:
        assert "CounterGap" in city.get(f"/devices/{SECOND}").text, "of its own device"


def test_events_of_stores(city: City) -> None:
    """An event names the store of a device that no server has listed yet, if there is such a
    store."""
    city.events(up(STRANGER, 0, deviceInfo={"store": "d02"}))
    assert f"{STRANGER} d02" in city.get("/devices").text
    city.events(up("70B3D57ED000000A", 0, deviceInfo={"store": "d09"}))
    assert city.network.devices["70B3D57ED000000A"].store == ""


def test_unclaimed(city: City) -> None:
    """A device that is claimed for no store isn't added, and the page says why."""
    city.bridge.says.append("unclaimed")
    fields = {"application": "3", "eui": STRANGER, "join": "0102030405060708", "key": "00" * 16}
    assert "No claim says which store the device is for" in city.send("/add", **fields).text


# words, and what is said of them
WRONG = [
    (("--lookout", "d00=look"), "--lookout NAME=SOCKET needs --stores"),
    (("--lookout", "a", "--lookout", "b"), "--lookout NAME=SOCKET needs --stores"),
    (("--lookout", "d09=look", "--stores", "stores"), "d09 isn't one store of stores"),
    (("--lookout", "look", "--stores", "stores"), "a lookout isn't one store of stores"),
    (("--lookout", "d00=look", "--stores", "wrong"), "wrong, line 1: it isn't NAME NETID"),
]


@pytest.mark.parametrize("said, due", WRONG)
def test_wrong_words(said: tuple, due: str, folder: Path) -> None:
    """What is wrong with the options or with a file is one line, and status 2."""
    (folder / "stores").write_text("d00 000000 -\n", encoding="utf-8")
    (folder / "wrong").write_text("d00\n", encoding="utf-8")
    own = ("--broker", f"{HOST}:1", "--listen", f"{HOST}:2", "--db", "console.db")
    status, _, complaint = run("console/web-console", *own, *said, cwd=folder)
    assert status == 2 and due in complaint and complaint.count("\n") == 1


def test_program() -> None:
    """The program takes a lookout for each store."""
    with Parts() as parts:
        stores = parts.file("stores", "d00 000000 -\nd01 000001 -\n")
        words = [f"--lookout={name}={parts.file(name)}" for name in ("d00", "d01")]
        words += ["--stores", stores, "--broker", f"{HOST}:{free_port()}"]
        words += ["--db", parts.file("console.db"), "--listen", f"{HOST}:{free_port()}"]
        part = parts.own("console/web-console", *words).start("listens on")
        assert part.end(signal.SIGTERM) == 0
