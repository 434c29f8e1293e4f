"""One application over many stores, which are played: where its devices are added, where commands
go, and what is said of the stores."""

import signal
import socket
from collections.abc import Iterator
from pathlib import Path
from typing import Any

import pytest
from bozintar.processes import HOST, Process, await_all, await_that, free_port

from .field import APPLICATION
from .networks import End, Network
from .parts import Parts, run
from .played import FIRST, SECOND, up
from .stores import Stores
from .whole import Dashboard

THIRD, FOURTH = "3132333435363738", "4142434445464748"
# how a link ends that the bridge breaks off, perhaps before it has read all
ENDED = (None, b"reset")
ITEM: dict[str, Any] = {"fPort": 7, "data": "AA=="}
ROW = "{},0102030405060708,2B7E151628AED2A6ABF7158809CF4F3C,0,1\n"


class Applied:
    """The bridge of an application, beside two stores, with a broker."""

    def __init__(self, parts: Parts, stores: Stores) -> None:
        self.parts, self.stores = parts, stores
        self.broker = parts.broker().start("running")
        self.dashboard = Dashboard(parts.broker_port)
        self.counts, self.claims = parts.file("applications.prom"), stores.replace("claims", "#\n")
        self.part: Process | None = None
        self.links: dict[str, End] = {}
        # the devices of each store
        self.devices: dict[str, set[str]] = {name: set() for name in stores.at}

    def start(self, *words: Any) -> Process:
        """Starts it; its links."""
        # an address that isn't used, as in a unit
        said: tuple = ("--network", "h:1", "--stores", self.stores.file)
        said += ("--broker", f"{HOST}:{self.parts.broker_port}")
        said += ("--application", str(APPLICATION), "--counts", self.counts)
        self.part = self.parts.own("applications-mqtt", *said, *words).start("connected to the")
        for name, at in self.stores.at.items():
            if at != "-":
                self.links[name] = self.stores.link(name)
                assert self.links[name].greeting == bytes([2, APPLICATION])
        return self.part

    def claim(self, *lines: str) -> None:
        """Replaces the claims."""
        self.stores.replace("claims", "".join(f"{line}\n" for line in lines))

    def events(self, kind: str, device: str = FIRST, count: int = 1) -> list[dict]:
        """The events of a kind of a device, once there are this many."""
        found = lambda: self.dashboard.of(device, kind)
        await_all(f"{count} {kind}", lambda: len(found()) >= count)
        return found()

    def queues(self, name: str, device: str = FIRST, **more: Any) -> None:
        """Asks for an item, which a store takes and the other isn't asked for."""
        self.dashboard.down(device, **ITEM, **more)
        kind, whose, tag, *_ = self.links[name].asked()
        assert (kind, whose) == ("queue", device)
        self.links[name].tell(f"queued {device} {tag}")

    def serve(self, texts: list[str]) -> list[tuple[str, str]]:
        """Answers as stores do, until the bridge has printed these texts; which devices were
        added, and to which stores."""
        added: list[tuple[str, str]] = []

        def serve_once() -> bool:
            for name, link in self.links.items():
                content = link.hears(0.02) or b"the end"
                kind, device, *_ = (
                    content[1:].decode().split(" ") if content[:1] == b"\3" else ("", "")
                )
                if kind == "queue":
                    link.tell("refused 15" if device in self.devices[name] else "refused 7")
                elif kind == "provision":
                    added.append((name, device))
                    self.devices[name].add(device)
                    link.tell(f"provisioned {device} 7")
            said = self.part.said() if self.part else ""
            return all(text in said for text in texts)

        await_that(texts[-1], serve_once)
        return sorted(added)

    def hear_nothing(self, *names: str) -> None:
        """These stores are asked nothing."""
        for name in names:
            assert self.links[name].hears(0.3) == b"nothing", name


@pytest.fixture
def applied(parts: Parts, stores: Stores) -> Iterator[Applied]:
    """A bridge, which isn't started yet."""
    made = Applied(parts, stores)
    yield made
    made.dashboard.end()


def test_devices_are_claimed(applied: Applied) -> None:
    """A device is added to the store that it is claimed for. One that isn't claimed is added when
    it is. If a claim changes, its device is asked for again; one that another store has isn't
    added, whatever the claim: no device can move."""
    applied.claim(f"{FIRST} d01", f"{SECOND} d00", f"{THIRD} d09")
    rows = "".join(ROW.format(device) for device in (FIRST, SECOND, THIRD, FOURTH))
    file = applied.parts.file("devices.csv", rows)
    part = applied.start("--devices", file, "--claims", applied.claims)
    texts = [
        f"line 2: {SECOND} is provisioned, in slot 7 of d00",
        f"line 3: {THIRD} is claimed for d09, which is no store",
        f"line 4: {FOURTH} is claimed for no store",
        f"{file}: 2 lines aren't asked for",
        f"{file}, d00: 1 devices are there, 0 aren't",
        f"{file}, d01: 1 devices are there, 0 aren't",
    ]
    assert applied.serve(texts) == [("d00", SECOND), ("d01", FIRST)]
    rest = (f"{SECOND} d00", f"{THIRD} d00", f"{FOURTH} d01")
    applied.claim(f"{FIRST} d01", *rest)
    texts = [
        f"{file}, {name}: 2 devices are there, 0 aren't; 1 were there before"
        for name in ("d00", "d01")
    ]
    assert applied.serve(texts) == [("d00", THIRD), ("d01", FOURTH)]
    applied.claim(f"{FIRST} d00", *rest)
    await_that("it is read", lambda: part.said().count("claims is read") == 2)
    text = f"line 1: {FIRST} isn't added to d00: d01 has it, and no device can move"
    assert applied.serve([text]) == []


def test_devices_without_a_store(applied: Applied, stores: Stores) -> None:
    """A store that is away keeps no device of another store waiting."""
    stores.write(d01="-")
    applied.claim(f"{FIRST} d01", f"{SECOND} d00")
    file = applied.parts.file("devices.csv", ROW.format(FIRST) + ROW.format(SECOND))
    applied.start("--devices", file, "--claims", applied.claims)
    text = f"{file}, d00: 1 devices are there, 0 aren't"
    assert applied.serve([text]) == [("d00", SECOND)]


def test_commands_and_events(applied: Applied) -> None:
    """Events have the store's name. A command goes to the store that has the device, by its last
    line, or that it is claimed for."""
    applied.claim(f"{FIRST} d01")
    part = applied.start("--claims", applied.claims)
    applied.queues("d01", id="claimed")
    assert applied.events("queued")[0]["deviceInfo"]["store"] == "d01"
    applied.links["d00"].tell(up(0, SECOND))
    assert applied.events("up", SECOND)[0]["deviceInfo"] == {
        "applicationId": str(APPLICATION),
        "devEui": SECOND.lower(),
        "store": "d00",
    }
    applied.queues("d00", SECOND)
    assert applied.events("queued", SECOND)
    applied.links["d00"].tell(up(0))
    assert applied.events("up")[0]["deviceInfo"]["store"] == "d00"
    await_that("a line", lambda: part.has_said(f"{FIRST} is claimed for d01, and d00 has it"))
    applied.queues("d00")
    applied.links["d01"].tell(up(1))
    applied.events("up", count=2)
    applied.queues("d01", id="again")
    applied.hear_nothing("d00", "d01")


def test_unknown_store(applied: Applied) -> None:
    """If nobody knows a device's store, each store is asked until one has it."""
    applied.start()
    applied.dashboard.down(FIRST, **ITEM, id="1")
    assert applied.links["d00"].asked()[:2] == ["queue", FIRST]
    applied.links["d00"].tell("refused 7")
    tag = applied.links["d01"].asked()[2]
    applied.links["d01"].tell(f"queued {FIRST} {tag}")
    assert applied.events("queued")[0]["deviceInfo"]["store"] == "d01"
    applied.queues("d01")
    applied.hear_nothing("d00")
    for name in ("d00", "d01"):
        if name == "d00":
            applied.dashboard.down(SECOND, **ITEM, id="2")
        assert applied.links[name].asked()[:2] == ["queue", SECOND]
        applied.links[name].tell("refused 7")
    event = applied.events("log", SECOND)[0]
    assert event["code"] == "UNKNOWN_DEVICE" and "store" not in event["deviceInfo"]


def test_unknown_store_at_the_start(applied: Applied, stores: Stores) -> None:
    """A command that comes before all stores are linked, for a device of which nobody knows the
    store, waits for them."""
    late = free_port()
    stores.write(d01="-")
    applied.start()
    stores.write(d01=f"{HOST}:{late}")
    await_that("it is tried", lambda: applied.part and applied.part.has_said("no link to"))
    applied.dashboard.down(FIRST, **ITEM, id="1")
    applied.hear_nothing("d00")
    with socket.create_server((HOST, late)) as listener:
        listener.settimeout(60)
        with listener.accept()[0] as other:
            link = End(other)
            assert applied.links["d00"].asked()[:2] == ["queue", FIRST]
            applied.links["d00"].tell("refused 7")
            assert link.hears() == bytes([2, APPLICATION])
            assert link.asked()[:2] == ["queue", FIRST]


def test_store_that_is_away(applied: Applied, stores: Stores) -> None:
    """A command waits for its store, and keeps no command for another store waiting. For a device
    of which nobody knows the store, a store that is away is an answer that is missing."""
    stores.write(d01="-")
    applied.claim(f"{FIRST} d01", f"{SECOND} d00")
    applied.start("--claims", applied.claims)
    applied.dashboard.down(FIRST, **ITEM, id="1")
    applied.queues("d00", SECOND)
    applied.dashboard.down(THIRD, **ITEM, id="3")
    assert applied.links["d00"].asked()[:2] == ["queue", THIRD]
    applied.links["d00"].tell("refused 7")
    assert applied.events("log", THIRD)[0]["code"] == "UNANSWERED"
    with Network() as network:
        stores.write(d01=network.at)
        link = network.link()
        assert link.asked()[:2] == ["queue", FIRST]
        link.close()


def test_store_that_moves(applied: Applied, stores: Stores) -> None:
    """A link follows its store, and ends when nobody serves the store. Commands for one that isn't
    in the file any more get an event."""
    applied.claim(f"{FIRST} d01")
    applied.start("--claims", applied.claims)
    with Network() as network:
        stores.write(d01=network.at)
        assert applied.links["d01"].hears() in ENDED
        link = network.link()
        assert link.greeting == bytes([2, APPLICATION])
        stores.write(d01="-")
        assert link.hears() in ENDED
        for text in ("1", "2"):
            applied.dashboard.down(FIRST, **ITEM, id=text)
        applied.hear_nothing("d00")
        del stores.net_ids["d01"]
        stores.write()
        codes = {event["code"] for event in applied.events("log", count=2)}
        assert codes == {"UNANSWERED", "STORE_GONE"}, "of the one in hand, and of the other"
        stores.net_ids["d02"] = 2
        stores.write(d02=network.at)
        link = network.link()
        link.tell(up(0, SECOND))
        assert applied.events("up", SECOND)[0]["deviceInfo"]["store"] == "d02"
        link.close()


def test_end(applied: Applied) -> None:
    """At the end what each store has sent is read, and published."""
    part = applied.start()
    for counter, link in enumerate(applied.links.values()):
        link.tell(up(counter))
    part.send_signal(signal.SIGTERM)
    for link in applied.links.values():
        assert link.hears() is None
        link.tell(up(10 + link.socket.fileno()))
        link.close()
    assert part.ended() == 0
    assert len(applied.events("up", count=4)) == 4
    with open(applied.counts, encoding="utf-8") as file:
        found = set(file.read().splitlines())
    name, labels = "pilot_applications_mqtt_store", 'application="3",store='
    assert found >= {
        f'{name}_lines_total{{{labels}"d00"}} 2.0',
        f'{name}_linked{{{labels}"d01"}} 0.0',
        f'{name}_waiting{{{labels}"d01"}} 0.0',
    }


def test_asks(applied: Applied) -> None:
    """A request of another program goes to the device's store; a device that isn't claimed is
    added to none."""
    applied.claim(f"{FIRST} d01")
    path = applied.parts.file("ask")
    applied.start("--asks", path, "--claims", applied.claims)
    await_that("the socket", lambda: applied.part and applied.part.has_said("takes requests"))
    with socket.socket(socket.AF_UNIX) as client:
        client.settimeout(60)
        client.connect(path)
        line = f"provision {FIRST} 0102030405060708 2B7E151628AED2A6ABF7158809CF4F3C 0 1"
        for text, name, answer in (
            (line, "d01", f"provisioned {FIRST} 0"),
            (line.replace(FIRST, SECOND), "", "unclaimed"),
            (f"mac {FIRST} 06", "d01", f"macqueued {FIRST} 06"),
            ("mac x 06", "d00", "refused 51"),
        ):
            client.sendall(f"{text}\n".encode())
            if name:
                assert " ".join(applied.links[name].asked()) == text
                applied.links[name].tell(answer)
            assert client.recv(100).decode() == f"{answer}\n"


# words, and what is said of them
WRONG: tuple = (
    ((), "--network or --stores, --broker and --application are needed"),
    (("--network", "h:1", "--claims", "claims"), "--claims needs --stores"),
    (("--stores", "stores", "--devices", "claims"), "with --stores, --devices needs --claims"),
    (("--stores", "claims"), "claims, line 1: it isn't NAME NETID HOST:PORT"),
    (("--stores", "stores", "--claims", "stores"), "stores, line 1: it isn't DEVEUI NAME"),
)


@pytest.mark.parametrize("said, due", WRONG)
def test_wrong_words(said: tuple, due: str, folder: Path) -> None:
    """What is wrong with the options or with a file is one line, and status 2."""
    (folder / "stores").write_text("d00 000000 -\n", encoding="utf-8")
    (folder / "claims").write_text("d00\n", encoding="utf-8")
    own = ("--broker", f"{HOST}:1", "--application", "3")
    ended = run("applications-mqtt", *said, *own, cwd=folder)
    assert ended[0] == 2 and due in ended[2] and ended[2].count("\n") == 1, ended
