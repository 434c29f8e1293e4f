"""Gateways that speak the protocol of lnsd, and the router in its place, beside stores that are
played."""

import signal
from typing import Any

import pytest
from bozintar import oracle
from bozintar.links import Ended, Gateway, Link
from bozintar.processes import HOST, Process, await_that, free_port
from bozintar.wire import Copy

from .field import GATEWAYS, counts_in
from .parts import Parts
from .rows import table
from .stores import Stores, downlink_to, frame_of, uplink

ONE, OTHER = GATEWAYS[:2]
GREETING = oracle.message(b"\0" + bytes.fromhex(ONE))
HOW = (868_100_000, 5, 30, -95, 50_000)
SECONDS = 60.0
# lets the program open 64 files at first
FEW_FILES = """import resource
resource.setrlimit(resource.RLIMIT_NOFILE, (64, resource.getrlimit(resource.RLIMIT_NOFILE)[1]))
"""
# copies that are more than fit between a hub and a store that doesn't read
MANY = 20_000
# what a link says that isn't read further: by docs/FORMATS.md
FAULTS: tuple = (
    ("no greeting", oracle.copy_message(ONE, HOW, uplink(0))),
    ("an application", oracle.message(b"\2\3")),
    ("a short greeting", oracle.message(b"\0" + bytes(7))),
    ("a second greeting", GREETING + GREETING),
    ("a copy of another gateway", GREETING + oracle.copy_message(OTHER, HOW, uplink(0))),
    ("a short copy", GREETING + oracle.copy_message(ONE, HOW, b"")[:-1][:1] + b"\x15" + b"\1" * 21),
    ("a long message", GREETING + b"\x02\xbd" + bytes(701)),
)


class Routed:
    """The router, and its stores."""

    def __init__(self, parts: Parts, stores: Stores) -> None:
        self.parts, self.stores, self.at = parts, stores, (HOST, free_port())
        self.counts = parts.file("router.prom")
        self.part: Process | None = None

    def start(self, *words: Any, before: str = "", after: str = "") -> Process:
        """Starts it, with something of it changed."""
        at = ("--listen", f"{HOST}:{self.at[1]}", "--stores", self.stores.file)
        said = (*at, "--counts", self.counts, *words)
        self.part = self.parts.own("router", *said, before=before, after=after)
        return self.part.start("listens on")

    def gateway(self, eui: str = ONE) -> Gateway:
        """A gateway that is linked."""
        return Gateway(self.at, eui, patience=SECONDS)

    def counted(self, *names: str) -> list[int]:
        """What it counted until its end."""
        assert self.part and self.part.end() == 0
        counts = counts_in(self.counts)
        return [counts[f"router_{name}"] for name in names]


@pytest.fixture
def routed(parts: Parts, stores: Stores) -> Routed:
    """Two stores, and a router that isn't started yet."""
    return Routed(parts, stores)


def test_looks_like_one(routed: Routed) -> None:
    """A copy reaches its store as it was, and its downlink the gateway."""
    routed.start()
    with routed.gateway() as gateway, routed.gateway(OTHER) as other:
        for name, net_id, of in (("d00", 0, gateway), ("d01", 1, gateway), ("d00", 0, other)):
            copy = Copy(of.eui, *HOW)
            of.hands_in(uplink(net_id), copy)
            link = routed.stores.link(name)
            assert link.greeting == b"\0" + bytes.fromhex(of.eui)
            content = link.hears() or b""
            assert content == oracle.copy_message(of.eui, HOW, uplink(net_id))[2:]
            link.say(downlink_to(content, b"\x60" + bytes(11)))
            assert of.read() == oracle.downlink(
                of.eui, 50_000, HOW[:2] + (1,), 2, b"\x60" + bytes(11)
            )
            link.close()
    assert routed.counted("opened", "copies", "caught_up", "downlinks") == [3, 0, 3, 3]


@table("name, said", FAULTS)
def test_faults(name: str, said: bytes, routed: Routed) -> None:
    """A link that sends what is no message is closed, and others go on."""
    part = routed.start()
    with routed.gateway(OTHER) as other, Link(routed.at, patience=SECONDS) as link:
        link.say(said)
        assert link.rest() == [], name
        other.hands_in(uplink(1), Copy(OTHER, *HOW))
        store = routed.stores.link("d01")
        assert frame_of(store.hears(), OTHER) == uplink(1)
    assert "is closed: " in part.said()
    assert routed.counted("faulted") == [1]


def test_name_is_taken_over(routed: Routed) -> None:
    """A second link of a gateway takes its name over, and gets its downlinks."""
    routed.start()
    with routed.gateway() as first:
        first.hands_in(uplink(0), Copy(ONE, *HOW))
        store = routed.stores.link("d00")
        content = store.hears() or b""
        with routed.gateway() as second:
            assert first.rest() == []
            store.say(downlink_to(content, b"\x60" + bytes(11)))
            assert second.order().frame == b"\x60" + bytes(11)
    assert routed.counted("taken_over", "downlinks", "not_sent") == [1, 1, 0]


def test_gateway_that_has_gone(routed: Routed) -> None:
    """A downlink for a gateway without a link is counted; a store that names another gateway than
    its link's isn't heard."""
    part = routed.start()
    with routed.gateway() as gateway:
        gateway.hands_in(uplink(0), Copy(ONE, *HOW))
        store = routed.stores.link("d00")
        content = store.hears() or b""
    more = oracle.downlink(OTHER, 50_000, HOW[:2] + (1,), 2, b"\x60" + bytes(11))
    with routed.gateway(OTHER) as other:
        store.say(more, downlink_to(content, b"\x60" + bytes(11)))
        await_that("it is read", lambda: part.has_said("names another gateway"))
        other.hands_in(uplink(1), Copy(OTHER, *HOW))
        assert routed.stores.link("d01").hears()
        assert not other.contents
    assert routed.counted("downlinks", "not_sent") == [0, 1]


def test_most_links(routed: Routed) -> None:
    """With one place a second link is closed. One that doesn't greet is closed, too."""
    routed.start("--links", 1, after="program.PATIENCE = 0.5")
    with Link(routed.at, patience=SECONDS) as silent:
        with Link(routed.at, patience=SECONDS) as second:
            assert second.rest() == []
        assert silent.rest() == []
    assert routed.counted("too_many", "ungreeted") == [1, 1]


def test_named_gateways(routed: Routed) -> None:
    """With a list, only its gateways are linked. After SIGHUP it is the new one; one with a fault
    changes nothing."""
    file = routed.parts.file("gateways", f"{ONE}\n")
    part = routed.start("--gateways", file)
    with routed.gateway(OTHER) as stranger:
        assert stranger.rest() == []
    with routed.gateway() as gateway:
        for text, due in (("B1\n", "B1 is no EUI"), (f"{OTHER}\n", "1 gateways are named")):
            routed.parts.file("gateways", text)
            part.send_signal(signal.SIGHUP)
            await_that(due, lambda: part.has_said(due))
        assert gateway.rest() == []
    with routed.gateway(OTHER) as other:
        other.hands_in(uplink(0), Copy(OTHER, *HOW))
        assert routed.stores.link("d00").hears()
        assert routed.counted("unknown_gateways") == [1]
        with pytest.raises(Ended):
            other.read()


def test_signal_without_a_list(routed: Routed) -> None:
    """SIGHUP ends no router that has no list."""
    part = routed.start()
    part.send_signal(signal.SIGHUP)
    with routed.gateway() as gateway:
        gateway.hands_in(uplink(0), Copy(ONE, *HOW))
        assert routed.stores.link("d00").hears()
    assert part.end() == 0


def test_store_that_hangs(routed: Routed) -> None:
    """What is for a store that doesn't read is dropped and counted, and other stores get theirs."""
    routed.start()
    with routed.gateway() as gateway:
        gateway.hands_in(uplink(0), Copy(ONE, *HOW))
        hangs = routed.stores.link("d00")
        for number in range(MANY):
            gateway.hands_in(uplink(0, number.to_bytes(240, "big")), Copy(ONE, *HOW))
        gateway.hands_in(uplink(1), Copy(ONE, *HOW))
        store = routed.stores.link("d01", SECONDS)
        assert frame_of(store.hears(SECONDS), ONE) == uplink(1)
        hangs.close()
    opened, unlinked, caught_up = routed.counted("opened", "unlinked", "caught_up")
    assert opened >= 2 and unlinked - caught_up > 1000


def test_many_files(routed: Routed) -> None:
    """Each link is an open file, so the program may open as many as the system lets it."""
    part = routed.start(before=FEW_FILES)
    with open(f"/proc/{part.pid}/limits", encoding="ascii") as limits:
        line = next(line for line in limits if line.startswith("Max open files"))
    soft, hard = line.split()[3:5]
    assert soft == hard != "64"
