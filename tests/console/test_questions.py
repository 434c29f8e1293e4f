"""What a new operator asks, beginning at the first page: each answer is on a page that links lead
to."""

import html
import re

import pytest

from .sites import DEVICE, GATEWAY, STATUS, Clock, Console, Page, event, listed, up

HOUR = 3600
SILENT, NEW, KEPT = "70B3D57ED0000002", "70B3D57ED0000003", "70B3D57ED0000004"
NAMES = {DEVICE: "Mill", SILENT: "School", NEW: "Bath", KEPT: "Tower"}
LINK = re.compile(r'<a [^>]*?href="?([^" >]+)[^>]*>(.*?)</a>', re.S)


class Operator:
    """Somebody who sees a page, and follows its links by their words."""

    def __init__(self, console: Console) -> None:
        self.console = console
        self.page: Page = console.get("/")

    def follow(self, words: str) -> str:
        """Follows the first link with these words; what the page after it shows."""
        for address, label in LINK.findall(self.page.markup):
            if words in " ".join(re.sub("<[^>]+>", " ", html.unescape(label)).split()):
                self.page = self.console.get(html.unescape(address))
                return self.page.text
        raise AssertionError(f"no link {words!r} on {self.page.text}")

    def lists(self) -> list[str]:
        """The names in a list of devices."""
        rows = re.findall(r'<td class="first">.*?<b>(.*?)</b>', self.page.markup)
        return [html.unescape(row) for row in rows]


@pytest.fixture
def operator(console: Console, clock: Clock) -> Operator:
    """Four meters send each hour, for two days. One has been silent for the last ten hours, another
    one had a gap of seven yesterday, and a new one has another key than the one provisioned."""
    joined = [listed(slot, eui) for slot, eui in enumerate((DEVICE, SILENT, KEPT))]
    console.serves(*joined, listed(3, NEW, 0, "-"))
    for eui, name in NAMES.items():
        console.network.rename(eui, name)
    for hour in range(48):
        senders = {DEVICE: hour not in range(20, 27), SILENT: hour < 38, KEPT: True}
        console.events(*(up(eui, hour) for eui, sends in senders.items() if sends))
        clock.now += HOUR
    clock.now -= HOUR
    console.lines(f"refused 4 BadMic join {NEW} 7 {GATEWAY} 868100000 5 -20 -95")
    alone = {"joinNonce": 1, "dr": 5, "txPower": 0, "isPowerKnown": True, "asked": "", "tries": 0}
    console.events(event(KEPT, "adr", {**alone, "leftAlone": "its own ADR is off"}))
    return Operator(console)


def test_silent_meters(operator: Operator) -> None:
    """Which meters are silent?"""
    assert "1 device silent" in operator.page.text
    operator.follow("1 device silent")
    assert operator.lists() == ["School"]


def test_after_a_restore(console: Console, operator: Operator, clock: Clock) -> None:
    """Which meters haven't come back after a restore?"""
    found = zip((DEVICE, SILENT, KEPT), ("-", "-", "1025"))
    console.serves(*(listed(slot, eui, 1025, of, None, 9) for slot, (eui, of) in enumerate(found)))
    operator.page = console.get("/")
    assert "2 devices without a session After a restore each device has to join again" in (
        operator.page.text
    )
    operator.follow("2 devices without a session")
    assert set(operator.lists()) == {"Mill", "School", "Bath"}
    assert "No session" in operator.page.text
    operator.page = console.get("/devices?show=silent")
    assert operator.lists() == ["School"]
    assert "If it doesn't do so by itself, restart it by hand." in operator.follow("School")
    clock.now += 40 * 24 * HOUR
    console.settle()
    assert "without a session" not in console.get("/").text, "it may be retired"


def test_join(operator: Operator) -> None:
    """Why does this one not join?"""
    text = operator.follow("1 device can't join: BadMic")
    assert "Bath" in text and "The device's key isn't the AppKey that was provisioned." in text
    assert "Join refused: BadMic" in operator.follow("Bath")


def test_disk(console: Console, operator: Operator) -> None:
    """Is the disk slow?"""
    assert "The disk is slow" not in operator.page.text
    from console import server_lines

    slow = STATUS.replace("longest_sync_us 400", "longest_sync_us 350000")
    server_lines.take_status(console.network, slow)
    console.settle()
    operator.page = console.get("/")
    assert "A sync took 350 ms in the last hour, so downlinks may come too late" in (
        operator.page.text
    )
    assert "350" in operator.follow("The disk is slow")


def test_missing_readings(operator: Operator) -> None:
    """How many readings are missing this week?"""
    assert "Missing, 1 hour 0" in operator.page.text
    assert "Missing, 7 days 7 5.2 % of all" in operator.follow("7 days")
    operator.follow("Missing, 7 days")
    assert operator.lists() == ["Mill"]
    assert "Readings 41 stored, 7 missing" in operator.follow("Mill")


def test_data_rate(operator: Operator) -> None:
    """Which meter doesn't ADR adapt, and why?"""
    operator.follow("Devices")
    operator.follow("Left alone by ADR 1")
    assert operator.lists() == ["Tower"]
    assert "Left alone: its own ADR is off. Sends with DR5, 16 dBm" in operator.follow("Tower")
