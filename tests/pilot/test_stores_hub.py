"""Links to many stores, beside stores that are played: when a link is opened, when it is closed,
and what comes over it."""

from collections.abc import Iterator
from pathlib import Path
from typing import Any

import pytest
from bozintar.forwarders import Air, Forwarder
from bozintar.processes import HOST, PATIENCE, Process, await_that

from .field import GATEWAYS, counts_in
from .networks import Network
from .parts import WAITS, Parts, run
from .played import FIRST
from .stations import Station
from .stores import Stores, downlink_to, frame_of, join_request, uplink

ONE, OTHER = GATEWAYS[:2]
ANSWER = b"\x60" + bytes(11)
# a link that has been unused for a second gives way to another one, and not a bit sooner
HOLD, SOON = 1.0, 0.015625


class Hubbed:
    """Gateways by UDP over several stores."""

    def __init__(self, parts: Parts, stores: Stores) -> None:
        self.parts, self.stores, self.clock = parts, stores, parts.clock
        self.counts = parts.file("gateways.prom")
        self.part: Process | None = None
        self.forwarders = {eui: Forwarder(eui, parts.udp_port) for eui in (ONE, OTHER)}

    def start(self, *words: Any) -> Process:
        """Starts the bridge."""
        named = ("--gateway", ONE, "--gateway", OTHER, "--counts", self.counts)
        udp = ("--udp", f"{HOST}:{self.parts.udp_port}", "--stores", self.stores.file)
        after = f"{self.clock.line}\n{WAITS}"
        self.part = self.parts.own("gateways-udp", *udp, *named, *words, after=after)
        return self.part.start("listens on")

    def hears(self, frame: bytes, eui: str = ONE) -> None:
        """A gateway hears a frame."""
        self.forwarders[eui].look()
        self.forwarders[eui].hears(frame)

    def counted(self, *names: str) -> list[int]:
        """What the bridge counted until its end, of all that was heard."""
        self.forwarders[ONE].await_read()
        assert self.part and self.part.end() == 0
        counts = counts_in(self.counts)
        return [counts[f"gateways_udp_{name}"] for name in names]


@pytest.fixture
def hubbed(parts: Parts, stores: Stores) -> Iterator[Hubbed]:
    """A bridge, which isn't started yet."""
    made = Hubbed(parts, stores)
    yield made
    for forwarder in made.forwarders.values():
        forwarder.close()


def test_link_on_demand(hubbed: Hubbed, stores: Stores) -> None:
    """A frame opens the link to its store, and no other. A downlink comes back to its gateway."""
    hubbed.start()
    gateway = hubbed.forwarders[ONE]
    gateway.await_read()
    stores.links_none("d00")
    hubbed.hears(uplink(1, b"first"))
    link = stores.link("d01")
    assert link.greeting == b"\0" + bytes.fromhex(ONE)
    content = link.hears() or b""
    assert frame_of(content, ONE) == uplink(1, b"first")
    link.say(downlink_to(content, ANSWER))
    assert Air([gateway], []).go_on(PATIENCE, lambda: gateway.told)
    hubbed.hears(uplink(1, b"second"))
    assert frame_of(link.hears(), ONE) == uplink(1, b"second"), "on the same link"
    stores.links_none("d00", "d01")
    hubbed.hears(uplink(0x3F))
    assert hubbed.counted("opened", "nowhere", "downlinks", "out_of_time") == [1, 1, 1, 0]


def test_by_mqtt(parts: Parts, stores: Stores) -> None:
    """The same for gateways behind ChirpStack's gateway bridge."""
    parts.broker().start("running")
    words = ("--broker", f"{HOST}:{parts.broker_port}", "--stores", stores.file, "--gateway", ONE)
    part = parts.own("gateways-mqtt", *words).start("connected to")
    with Station(ONE, parts.broker_port) as gateway:
        air = Air([gateway], [])
        gateway.hears(uplink(1))
        link = stores.link("d01")
        content = link.hears() or b""
        assert frame_of(content, ONE) == uplink(1)
        link.say(downlink_to(content, ANSWER))
        assert air.go_on(PATIENCE, lambda: gateway.told)
        stores.links_none("d00")
    assert part.end() == 0
    assert part.said().count("opened 1") == 1


def test_link_that_ended(hubbed: Hubbed, stores: Stores) -> None:
    """A link that the store closes, as it does when another bridge takes the name, isn't opened
    again before the next frame for this store."""
    hubbed.start()
    hubbed.hears(uplink(0, b"1"))
    first = stores.link("d00")
    assert first.hears()
    first.close()
    hubbed.hears(uplink(1))
    other = stores.link("d01")
    assert other.hears()
    stores.links_none("d00", seconds=3)
    hubbed.hears(uplink(0, b"2"))
    second = stores.link("d00")
    assert frame_of(second.hears(), ONE) == uplink(0, b"2")
    opened, closed_soon = hubbed.counted("opened", "closed_soon")
    assert opened == 3 and closed_soon <= 1, "a closed link counts if it was new"


def test_least_recently_used(hubbed: Hubbed, stores: Stores) -> None:
    """With one name, the link of another gateway gives way once it has been unused for a second.
    What came over it until then is read to its end."""
    hubbed.start("--names", 1)
    hubbed.hears(uplink(0, b"1"))
    first = stores.link("d00")
    content = first.hears() or b""
    hubbed.clock.go_on(HOLD - SOON)
    hubbed.hears(uplink(0, b"2"), OTHER)
    await_that("it is crowded", lambda: hubbed.part and hubbed.part.has_said("no free name"))
    hubbed.clock.go_on(SOON)
    hubbed.hears(uplink(0, b"3"), OTHER)
    other = stores.link("d00")
    assert frame_of(other.hears(), OTHER) == uplink(0, b"3")
    assert first.hears() is None, "the first one's input has ended"
    first.say(downlink_to(content, ANSWER))
    gateway = hubbed.forwarders[ONE]
    assert Air([gateway], []).go_on(PATIENCE, lambda: gateway.told), "a late downlink"
    assert hubbed.counted("crowded", "gave_way", "opened") == [1, 1, 2]


def test_silent_links(hubbed: Hubbed, stores: Stores) -> None:
    """A link that is unused for long is closed, although its gateway isn't silent."""
    hubbed.start("--silent", 2)
    hubbed.hears(uplink(0))
    link, gateway = stores.link("d00"), hubbed.forwarders[ONE]
    assert link.hears()
    for _ in range(4):
        assert link.hears(0.01) == b"nothing"
        hubbed.clock.go_on(0.6)
        gateway.await_read()
    assert link.hears() is None
    assert hubbed.counted("links_silent", "gave_way") == [0, 0]


def test_store_that_moves(hubbed: Hubbed, stores: Stores) -> None:
    """When a store is served elsewhere, its links are broken off, and the next frame goes there;
    while it isn't served, frames for it are counted."""
    part = hubbed.start()
    hubbed.hears(uplink(0))
    old = stores.link("d00")
    assert old.hears()
    with Network() as network:
        stores.write(d00=network.at)
        assert old.hears() is None
        hubbed.hears(uplink(0, b"new"))
        new = network.link()
        assert frame_of(new.hears(), ONE) == uplink(0, b"new")
        stores.write(d00="-")
        assert new.hears() is None
        hubbed.hears(uplink(0, b"nobody"))
        await_that("it is read", lambda: part.said().count("/stores is read") == 2)
        stores.links_none("d00")
    assert hubbed.counted("moved", "unserved", "opened") == [2, 1, 2]


def test_store_that_is_late(hubbed: Hubbed, stores: Stores) -> None:
    """A copy waits up to two seconds for a store that begins to listen, and for one that the file
    names then."""
    with Network() as network:
        stores.write(d00=f"{HOST}:1")
        hubbed.start()
        hubbed.hears(uplink(0, b"early"))
        await_that("it is tried", lambda: hubbed.part and hubbed.part.has_said("no link to"))
        stores.write(d00=network.at)
        link = network.link()
        assert frame_of(link.hears(), ONE) == uplink(0, b"early")
        hubbed.hears(uplink(0, b"next"))
        assert frame_of(link.hears(), ONE) == uplink(0, b"next"), "on the same link"
        stores.links_none("d00")
    assert hubbed.counted("copies", "unlinked", "caught_up", "moved") == [1, 1, 1, 1]


def test_join_requests(hubbed: Hubbed, stores: Stores) -> None:
    """A Join-Request goes to the store that the file names, also one that is added; those of
    strangers go nowhere."""
    file = stores.replace("devices", "# none yet\n")
    part = hubbed.start("--devices", file)
    hubbed.hears(join_request(FIRST))
    hubbed.forwarders[ONE].await_read()
    stores.links_none("d00", "d01", seconds=0.5)
    stores.replace("devices", f"{FIRST} d01\n")
    await_that("it is read", lambda: part.has_said(f"{file} is read"))
    hubbed.hears(join_request(FIRST))
    assert frame_of(stores.link("d01").hears(), ONE) == join_request(FIRST)
    assert hubbed.counted("nowhere", "opened") == [1, 1]


def test_strangers(hubbed: Hubbed, stores: Stores) -> None:
    """A frame of a session that a listed store can't have opens no link, and keeps none; over one
    that is open it is handed in."""
    sessions = stores.replace("sessions", f"d00 0 {FIRST} 1 1 0 0 0 1\nd00 now 7\n")
    hubbed.start("--sessions", sessions, "--names", 1)
    hubbed.hears(uplink(0, b"of another network", slot=9, join_nonce=99))
    stores.links_none("d00", seconds=0.5)
    hubbed.hears(uplink(0, b"own"))
    link = stores.link("d00")
    assert frame_of(link.hears(), ONE) == uplink(0, b"own")
    hubbed.clock.go_on(HOLD)
    stranger = uplink(0, b"again", slot=9, join_nonce=99)
    hubbed.hears(stranger)
    assert frame_of(link.hears(), ONE) == stranger
    hubbed.hears(uplink(0, b"of the other"), OTHER)
    assert frame_of(stores.link("d00").hears(), OTHER) == uplink(0, b"of the other")
    assert hubbed.counted("nowhere", "gave_way", "crowded") == [1, 1, 0]


def test_numbers_of_stores(hubbed: Hubbed, stores: Stores) -> None:
    """Each store has numbers of its own; a gateway that isn't silent counts as linked."""
    stores.write(d01="-")
    hubbed.start()
    hubbed.hears(uplink(0))
    link = stores.link("d00")
    hubbed.hears(uplink(1))
    assert link.hears()
    # what a downlink makes of it doesn't matter
    assert hubbed.counted("unserved") == [1]
    with open(hubbed.counts, encoding="utf-8") as file:
        found = set(file.read().splitlines())
    assert found >= {
        'pilot_store_served{bridge="udp",store="d00"} 1.0',
        'pilot_store_served{bridge="udp",store="d01"} 0.0',
        'pilot_store_opened_total{bridge="udp",store="d00"} 1.0',
        'pilot_store_copies_total{bridge="udp",store="d00"} 1.0',
        'pilot_store_crowded_total{bridge="udp",store="d01"} 0.0',
        f'pilot_gateway_linked{{bridge="udp",gateway="{ONE}"}} 1.0',
        f'pilot_gateway_linked{{bridge="udp",gateway="{OTHER}"}} 0.0',
    }


# words, and what is said of them
WRONG: tuple = (
    ((), "either --network or --stores is needed"),
    (("--network", "h:1", "--devices", "devices"), "--devices needs --stores"),
    (("--stores", "stores", "--names", 64), "64 is no number from 1 to 63"),
    (("--stores", "wrong"), "wrong, line 1: it isn't NAME NETID HOST:PORT"),
    (("--stores", "stores", "--hearing", "wrong"), "wrong, line 1: 'd00' is no EUI of 16 hex"),
)


@pytest.mark.parametrize("said, due", WRONG)
def test_wrong_words(said: tuple, due: str, stores: Stores) -> None:
    """What is wrong with the options or with a file is one line, and status 2."""
    stores.parts.file("wrong", "d00\n")
    own = ("--udp", f"{HOST}:1", "--gateway", ONE)
    ended = run("gateways-udp", *said, *own, cwd=stores.parts.folder)
    assert ended[0] == 2 and due in ended[2] and ended[2].count("\n") == 1, ended


@pytest.mark.parametrize("name", ["gateways-udp", "gateways-mqtt", "router"])
def test_no_file(name: str, folder: Path) -> None:
    """Without the file of stores the status is 1."""
    own = {"gateways-udp": "--udp", "gateways-mqtt": "--broker", "router": "--listen"}
    named = () if name == "router" else ("--gateway", ONE)
    ended = run(name, "--stores", "gone", own[name], f"{HOST}:1", *named, cwd=folder)
    assert (ended[0], ended[2]) == (1, f"{name}: gone: No such file or directory\n")
