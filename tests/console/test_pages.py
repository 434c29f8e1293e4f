"""Pages: what they show of lines and events, and that all of it is text."""

import re

import pytest

from .sites import DEVICE, GATEWAY, Console, event, listed, up

PAGES = ("/", "/devices", f"/devices/{DEVICE}", "/gateways", "/refused", "/add", "/server")
EVIL = "\"'><script>alert(1)</script>"


@pytest.mark.parametrize("path", PAGES)
def test_pages(console: Console, path: str) -> None:
    """Each page is there, also its middle alone, which isn't sent again while it stays as it is."""
    page = console.get(path)
    assert page.status == 200
    part = console.get(path, params={"part": "1"})
    assert part.status == 200 and "<main" not in part.markup
    same = console.get(path, params={"part": "1"}, headers={"If-None-Match": part.headers["ETag"]})
    assert same.status in (200, 304)
    assert same.status == 304 or same.headers["ETag"] != part.headers["ETag"]


@pytest.mark.parametrize("path", [*PAGES, "/none", "/devices/70B3D57ED0000099", "/health"])
def test_policies(console: Console, path: str) -> None:
    """Each answer, also an error, has the policies, and nothing inline."""
    page = console.get(path)
    policy = page.headers["Content-Security-Policy"]
    assert "default-src 'none'" in policy and "frame-ancestors 'none'" in policy
    assert "unsafe" not in policy
    assert page.headers["X-Content-Type-Options"] == "nosniff"
    assert page.headers["Cache-Control"] == "no-store"
    assert not re.search(r"<style|<script(?! src=)|\sstyle=|\son[a-z]+=", page.markup)


@pytest.mark.parametrize("path", PAGES)
def test_names_are_text(console: Console, path: str) -> None:
    """A name, an event or a query that is shaped like a script is text."""
    console.network.rename(DEVICE, EVIL)
    console.network.rename(GATEWAY, EVIL)
    console.events(
        up(DEVICE, 0),
        event(DEVICE, "log", {"code": EVIL, "description": EVIL}),
        event(DEVICE, "ack", {"acknowledged": True, "queueItemId": EVIL}),
        event(DEVICE, "mac", {"commands": EVIL}),
    )
    console.lines(
        f"faulted {EVIL}", f"refused 4 BadMic join {DEVICE} 7 {GATEWAY} 868100000 5 -2 -95"
    )
    query = {"q": EVIL, "show": EVIL, "sort": EVIL, "span": EVIL, "eui": EVIL, "done": EVIL}
    for page in (console.get(path), console.get(path, params=query)):
        assert page.status == 200
        assert "<script>alert" not in page.markup
        assert "\"'>" not in page.markup


@pytest.mark.parametrize("path", PAGES)
def test_empty(empty: Console, path: str) -> None:
    """Before anything has come each page is there, and says what to do next."""
    page = empty.get(path)
    if path == f"/devices/{DEVICE}":
        assert page.status == 404
        return
    assert page.status == 200
    steps = {
        "/": "Connect a gateway",
        "/devices": "Add a device",
        "/gateways": "No gateways yet",
        "/refused": "no gateway hears it",
        "/add": "Operators add devices",
        "/server": "systemctl status lnsd",
    }
    assert steps[path] in page.text


def test_static(console: Console) -> None:
    """The style sheet, the script and the icon are there, and no other file is."""
    kinds = {
        "console.css": "text/css",
        "console.js": "text/javascript",
        "icon.svg": "image/svg+xml",
    }
    for name, kind in kinds.items():
        page = console.get(f"/static/{name}")
        assert page.status == 200 and page.headers["Content-Type"].startswith(kind)
    for name in ("../site.py", "%2e%2e/site.py", "console.py", ""):
        assert console.get(f"/static/{name}").status == 404


def test_overview(console: Console) -> None:
    """The numbers of the overview are those that came."""
    console.serves(listed(0, DEVICE), listed(1, "70B3D57ED0000002", 0, "-"))
    console.events(*(up(DEVICE, counter) for counter in (0, 1, 4)))
    console.lines(f"refused 6 Repeat data 54000001 4 {GATEWAY} 868100000 5 -20 -95")
    text = console.get("/").text
    assert "Devices joined 1 of 2, 4096 slots" in text
    assert "Gateways online 1 of 1" in text
    assert "Uplinks, 1 hour 3" in text
    assert "Missing, 1 hour 2 40.0 % of all" in text
    assert "Refused, 1 hour 1" in text
    assert "Nothing needs attention." in text
    assert "Missing, 7 days 2" in console.get("/?span=7d").text


def test_device(console: Console) -> None:
    """A device's page has its state, its counters and plots with the gap."""
    console.events(*(up(DEVICE, counter, rate=3, snr=-3.25) for counter in (0, 1, 4)))
    page = console.get(f"/devices/{DEVICE.lower()}")
    assert "Joined" in page.text and "Data rate DR3, SF9" in page.text
    assert "Readings 3 stored, 2 missing" in page.text
    # DR3 is heard from -12.5 dB on
    assert "Margin above the floor 9 dB" in page.text
    assert "1 gap:" in page.text
    summaries = re.findall(r'aria-label="([^"]+)"', page.markup)
    assert "Counter. reading: 0 to 4, last 4; 1 gaps." in summaries
    assert "SNR. SNR: −3.2 to −3.2, last −3.2 dB; floor of the data rate: −12.5 to −12.5, " in (
        " ".join(summaries)
    )


def test_refused(console: Console) -> None:
    """A refused join has its reason and its remedy, until a later one is accepted."""
    other = "70B3D57ED0000009"
    console.lines(
        f"refused 4 BadMic join {DEVICE} 7 {GATEWAY} 868100000 5 -20 -95",
        f"refused 4 BadMic join {DEVICE} 8 {GATEWAY} 868100000 5 -20 -95",
        f"refused 7 UnknownDevEui join {other} 1 {GATEWAY} 868100000 5 -20 -95",
    )
    text = console.get("/refused").text
    assert "The device's key isn't the AppKey that was provisioned." in text
    assert "Add the device if it is yours. Add 1" in text
    assert f"{other} ■ UnknownDevEui" in text
    assert "1 device can't join: BadMic" in console.get("/").text
    assert "1 unknown device asked to join" in console.get("/").text
    assert "Join refused: BadMic, 2 times" in console.get(f"/devices/{DEVICE}").text
    console.lines(f"joined {DEVICE} 2 {GATEWAY}")
    assert "Joined since" in console.get("/refused").text
    assert "can't join: BadMic" not in console.get("/").text


def test_gateways(console: Console) -> None:
    """A gateway has its link, its share and its SNR."""
    other = "00000000000000B2"
    console.events(*(up(DEVICE, counter, snr=6.0) for counter in range(3)))
    console.lines(f"linked gateway {other}", f"ended gateway {other}")
    text = console.get("/gateways").text
    assert f"{GATEWAY} ● Online" in text and "100 % 6.0 dB" in text
    assert f"{other} ■ Offline not seen yet" in text
    assert f"Gateway {other} is offline" in console.get("/").text


def test_health(console: Console) -> None:
    """A monitor gets 200 if all is well, and 503 with what is wrong otherwise."""
    page = console.get("/health")
    assert (page.status, page.markup) == (200, '{"problems": []}')
    console.lines("gone")
    page = console.get("/health")
    assert (page.status, page.markup) == (503, '{"problems": ["No server answers"]}')
    console.lines(f"ended gateway {GATEWAY}")
    console.network.is_broker_there = False
    console.settle()
    problems = console.get("/health").markup
    assert "The broker is away" in problems and f"Gateway {GATEWAY} is offline" in problems
