"""JoinNonces that are granted twice, and readings that differ: what is one, what isn't, and how an
operator confirms it."""

import random
import re
from typing import Any

import pytest
from console import server_lines

from .sites import DEVICE, GATEWAY, Console, listed, up

SECOND, OTHER = "70B3D57ED0000002", "00000000000000B2"
TWICE, DIFFER = "A JoinNonce was granted twice", "Two readings of one counter differ"
PROBLEM = re.compile(r'<li class="level(\d)"><a [^>]*>([^<]*)</a>')


def joined(nonce: int, device: str = DEVICE) -> str:
    """A line of the server."""
    return f"joined {device} {nonce} {GATEWAY}"


def attention(console: Console) -> list[tuple[int, str]]:
    """What needs attention, with its level, in the order of the page."""
    return [(int(level), what) for level, what in PROBLEM.findall(console.get("/").markup)]


def confirms(console: Console, kind: str, seen: int) -> str:
    """What follows the form of the overview."""
    form = {"token": console.get("/gateways").token, "kind": kind, "seen": str(seen)}
    return console.post("/", form).text


# what the list has as a device's JoinNonce, those that it is granted then, and how many of these
# it had before. The list may have a JoinNonce before the line of its join comes
JOINS = [(1, (1, 2, 3, 9), 0), (0, (5, 5), 1), (0, (5, 4, 3, 6), 2), (7, (7, 8), 0), (7, (6, 7), 1)]


@pytest.mark.parametrize("is_killed", [False, True])
@pytest.mark.parametrize("granted, nonces, count", JOINS)
def test_joins(console: Console, granted: int, nonces: tuple, count: int, is_killed: bool) -> None:
    """A JoinNonce that isn't above all that the device had is the gravest alarm, also if the
    console is killed after each line. Another device has JoinNonces of its own."""
    console.serves(listed(0, DEVICE, granted))
    for line in (*map(joined, nonces), joined(1, SECOND)):
        console.lines(line)
        if is_killed:
            console.again()
    text = console.get("/").text
    assert text.count("Joined, by gateway") == len(nonces) + 1
    assert attention(console) == [(0, TWICE)] * bool(count)
    assert not count or f"1 device, {count} time" in text and "■ JoinNonce granted twice" in text
    assert console.get("/health").status == (503 if count else 200)


# how a reading comes once more, and whether they differ
READINGS: list[tuple[dict[str, Any], bool]] = [
    ({"snr": -3.0, "time": "later", "delayed": True, "copies": 1}, False),
    ({"data": "AAED"}, True),
    ({"fPort": 8}, True),
    ({"data": "AAED", "recovered": True}, False),
    ({"data": "AAED", "device": SECOND}, False),
    ({"data": "AAED", "counter": 6}, False),
    ({"data": "AAED", "session": 2}, False),
]


@pytest.mark.parametrize("life", ["same", "killed", "of an earlier version"])
@pytest.mark.parametrize("more, differs", READINGS)
def test_readings(console: Console, more: dict, differs: bool, life: str) -> None:
    """Two readings of one place that differ are a warning, since anybody may have published them.
    One that comes again, comes late, or was recovered is none. Of those that an earlier version
    stored it isn't known."""
    first: dict[str, Any] = {"device": DEVICE, "session": 1, "counter": 5}
    console.events(up(**first), up(DEVICE, 7))
    assert len(console.kept.rows("SELECT 1 FROM uplinks")) == 2
    if life == "of an earlier version":
        console.kept.writing.execute("ALTER TABLE uplinks DROP COLUMN hash")
        differs = False
    if life != "same":
        console.again()
    console.events(up(**{**first, **more}))
    assert attention(console) == [(2, DIFFER)] * differs
    assert ("JoinNonce 1, counter 5: two readings differ" in console.get("/").text) == differs
    assert console.get("/health").status == 200


def test_late_events(console: Console) -> None:
    """A thousand events that come late, in any order, raise nothing; one of other data does."""
    events = [up(DEVICE, counter, data=f"A{counter % 10}==") for counter in range(1000)]
    console.events(*events, *random.Random(102).sample(events, 1000))
    console.events(*random.Random(103).sample(events, 1000))
    assert console.network.devices[DEVICE].stored == 1000 and attention(console) == []
    console.events(up(DEVICE, 500, data="AAED"))
    assert attention(console) == [(2, DIFFER)]


def test_order(console: Console) -> None:
    """What needs attention is in the order of its gravity."""
    console.events(up(SECOND, 0), up(DEVICE, 5, snr=-7.4))
    console.serves(listed(0, DEVICE), listed(1, SECOND, 9, "-"))
    console.lines("slow_sync 900", f"linked gateway {OTHER}", f"ended gateway {OTHER}")
    found = [(1, f"Gateway {OTHER} is offline"), (2, "1 device without a session")]
    found += [(2, "The disk is slow"), (3, "1 device with a weak signal")]
    assert attention(console) == found and "Restart those by hand" in console.get("/").text
    console.lines(*[joined(9, SECOND)] * 2)
    assert attention(console) == [(0, TWICE), *found]
    assert "Restart those by hand" not in console.get("/").text
    assert console.get("/health").markup == f'{{"problems": ["{TWICE}", "{found[0][1]}"]}}'


def test_confirmation(console: Console) -> None:
    """What wasn't seen isn't confirmed. A confirmed alarm is gone, also if the console is killed
    then, and its count is kept: a later repeat raises it anew."""
    console.lines(joined(5), joined(5))
    server_lines.take_line(console.network, joined(9, SECOND))
    server_lines.take_line(console.network, joined(9, SECOND))
    console.again()  # before a second has passed, in which the rest is written
    form = 'name="kind" value="joined"><input type="hidden" name="seen" value="2">'
    assert form in console.get("/").markup
    for kind, seen in (("joined", 1), ("joined", 3), ("up", 2), ("x", 0)):
        assert "It isn't as you saw it any more" in confirms(console, kind, seen)
    assert console.get("/health").status == 503
    assert "Confirmed." in confirms(console, "joined", 2)
    assert f"Confirmed: {TWICE}, 2 times, by loopback" in console.get("/").text
    assert console.get("/health").status == 200
    console.again()
    assert attention(console) == []
    console.lines(joined(4))
    assert attention(console) == [(0, TWICE)] and "1 device, 2 times" in console.get("/").text
