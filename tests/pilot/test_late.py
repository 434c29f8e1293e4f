"""Copies that come too late for the window of their frame: by rows, with a real server, and with
played stores."""

from collections.abc import Iterator
from typing import Any

import pytest
from bozintar.counts import Counts
from bozintar.processes import PATIENCE, await_that
from bozintar.wire import Copy, copy_of
from bridges import late

from .parts import Parts, Pilot
from .rows import table
from .stores import Stores, frame_of, uplink
from .test_lasting import Slow
from .test_stores_router import HOW, ONE, OTHER, Routed
from .test_udp import Linked

# When a copy is heard, when it is sent if that is later, and over which gateway's link: A or B for
# a confirmed uplink, a or b for another one. "A ended" is the end of a link. Which of the copies
# are handed in, and how many are late, or begin a repetition
ROWS: tuple = (
    ("in the window", "0 A, 0.199 B, 0.199 A", "ABA", 0, 0),
    ("at its end", "0 A, 0.2 B", "A", 1, 0),
    ("a datagram comes again", "0 A, 0.3 A, 0.5 a", "Aa", 1, 0),
    ("at 999 ms", "0 A, 0.5 B, 0.999 B", "A", 2, 0),
    ("the device repeats it", "0 A, 1 B, 1.1 A, 1.25 A", "ABA", 1, 1),
    ("after the longest delay of RX1", "0 A, 14.999 B, 30 A", "ABA", 0, 1),
    ("after another link", "0 A, A ended, 0.1 B, 0.9 A, 1 A", "AA", 2, 1),
    ("unconfirmed", "0 a, 0.3 b", "a", 1, 0),
    ("unconfirmed, after another link", "0 a, a ended, 0.9 b", "ab", 0, 0),
    ("it waited too long", "0 A, 0.1-0.2 B", "A", 1, 0),
    ("it waited for two seconds", "0 A, 0.1-2 B", "A", 1, 0),
    ("it waited, and is in the window", "0 A, 0.1-0.19 B", "AB", 0, 0),
    ("the first one waited", "0-1.5 A, 1-1.6 B", "AB", 0, 1),
    ("both waited", "0-1.5 A, 0.9-1.6 B, 0.9-1.75 A", "AB", 1, 0),
)


class Judged:
    """What is handed in of played copies."""

    def __init__(self) -> None:
        self.counts, self.came = Counts("", late.COUNTED), list[str]()
        self.late, self.links = late.Late(self.counts), dict[str, Any]()

    def comes(self, name: str, heard: float, sent: float, number: int = 0) -> None:
        """A link of this name could take a copy of an uplink."""
        link = self.links.setdefault(name.upper(), Slow())
        frame = bytes([0x80 if name.isupper() else 0x40]) + number.to_bytes(11, "big")
        if self.late.lets(copy_of(frame, Copy(ONE)), heard, sent, link):
            self.came.append(name)


@table("name, steps, due, late_copies, repetitions", ROWS)
def test_rows(name: str, steps: str, due: str, late_copies: int, repetitions: int) -> None:
    """What is handed in of an uplink's copies, and what is counted."""
    judged = Judged()
    for first, second in (step.split(" ") for step in steps.split(", ")):
        if second == "ended":
            judged.links.pop(first.upper()).has_ended = True
        else:
            heard, _, sent = first.partition("-")
            judged.comes(second, float(heard), float(sent or heard))
    assert "".join(judged.came) == due, name
    assert list(judged.counts.values.values()) == [late_copies, repetitions], name


def test_most_uplinks() -> None:
    """Of 2,000 uplinks the newest 1,024 are known, and no more are kept."""
    judged = Judged()
    for number in range(2000):
        judged.comes("A", 0, 0, number)
    for number in reversed(range(2000)):
        judged.comes("B", 0.5, 0.5, number)
    assert judged.counts.values["late_copies"] == 1024 == len(judged.late.firsts)
    assert judged.came == ["A"] * 2000 + ["B"] * 976


@pytest.fixture
def clocked(pilot: Pilot, monkeypatch: pytest.MonkeyPatch) -> Iterator[Linked]:
    """A field of two meters, which have joined, and a bridge whose clock the trial sets."""
    monkeypatch.setattr(Linked, "after", pilot.clock.line)
    made = Linked(pilot, 2)
    made.link()
    made.provision()
    assert made.join()
    yield made
    made.application.close()


@pytest.mark.parametrize("place, due", ((0, [2, 0, 0]), (1, [1, 1, 0])))
def test_one_acknowledgement(place: int, due: list[int], clocked: Linked) -> None:
    """A confirmed reading whose second copy comes 300 ms after the first one, of the same gateway
    or another one, is acknowledged once. What another meter sends then shows that no more comes."""
    (meter, next_one), heard_by = clocked.meters, clocked.air.gateways
    before = [len(gateway.told) for gateway in heard_by]
    frame = meter.reads()
    clocked.send(frame, by=heard_by[:1])
    assert clocked.air.go_on(PATIENCE, lambda: meter.awaited in meter.acknowledged)
    clocked.pilot.clock.go_on(0.3)
    clocked.send(frame, by=[heard_by[place]])
    assert clocked.reading(next_one, by=[heard_by[place]])
    assert [len(gateway.told) - then for gateway, then in zip(heard_by, before)] == due
    assert clocked.counted("late_copies") == [1]


def test_stores(parts: Parts) -> None:
    """By the router: each store has a first copy of its own, one that is served only when the
    second copy comes; and a device's repetition goes to both."""
    with Stores(parts, d00=0, d01=0) as stores:
        at, routed = stores.at["d01"], Routed(parts, stores)
        stores.write(d01="-")
        part = routed.start(after=parts.clock.line)
        with routed.gateway() as gateway, routed.gateway(OTHER) as other:
            gateway.hands_in(uplink(0), Copy(ONE, *HOW))
            first = stores.link("d00")
            assert frame_of(first.hears(), ONE) == uplink(0)
            stores.write(d01=at)
            await_that("it is read", lambda: part.has_said("/stores is read"))
            parts.clock.go_on(0.3)
            for more in (b"", b"next"):
                other.hands_in(uplink(0, more), Copy(OTHER, *HOW))
            links = [stores.link(name) for name in ("d00", "d01")]
            for link, due in zip(links, ((b"next",), (b"", b"next"))):
                assert [frame_of(link.hears(), OTHER)[12:] for _ in due] == list(due)
            parts.clock.go_on(1)
            other.hands_in(uplink(0), Copy(OTHER, *HOW))
            assert [frame_of(link.hears(), OTHER) for link in links] == [uplink(0)] * 2
        assert routed.counted("late_copies", "repetitions") == [1, 2]
