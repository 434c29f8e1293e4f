"""The list of devices: filters, search, sorting, pages."""

import re

import pytest

from .sites import DEVICE, Clock, Console, event, listed, up

NAMES = {"70B3D57ED0000001": "Mill", "70B3D57ED0000002": "School", "70B3D57ED0000003": "Bath"}
FIRST, SECOND, THIRD, FOURTH = (f"70B3D57ED000000{number}" for number in range(1, 5))


@pytest.fixture
def field(console: Console, clock: Clock) -> Console:
    """Four devices: one is silent and has missing readings, one is weak with a low battery, one has
    joined, was never heard, and is left alone by ADR, one has never joined."""
    joined = [listed(slot, eui) for slot, eui in enumerate((FIRST, SECOND, THIRD))]
    console.serves(*joined, listed(3, FOURTH, 0, "-"))
    for eui, name in NAMES.items():
        console.network.rename(eui, name)
    for counter in (0, 1, 2, 5):
        console.events(up(FIRST, counter, rate=3))
        clock.now += 60
    clock.now += 900
    console.events(up(SECOND, 0, rate=5, snr=-6.0))
    battery = {"margin": 1, "externalPowerSource": False, "batteryLevelUnavailable": False}
    console.events(event(SECOND, "status", {**battery, "batteryLevel": 9.0}))
    console.events(event(THIRD, "adr", {"leftAlone": "it is in the file of --except"}))
    return console


def shown(console: Console, query: str) -> list[str]:
    """The devices of a page, in their order."""
    found = re.findall(r'href="/devices/([0-9A-F]{16})"', console.get(f"/devices?{query}").markup)
    return list(dict.fromkeys(found))


@pytest.mark.parametrize(
    "show, devices",
    [
        ("all", {FIRST, SECOND, THIRD, FOURTH}),
        ("joined", {FIRST, SECOND, THIRD}),
        ("not", {FOURTH}),
        ("silent", {FIRST}),
        ("missing", {FIRST}),
        ("weak", {SECOND}),
        ("battery", {SECOND}),
        ("alone", {THIRD}),
        ("unknown", {FIRST, SECOND, THIRD, FOURTH}),
    ],
)
def test_filters(field: Console, show: str, devices: set[str]) -> None:
    """Each filter shows its devices, and their number."""
    assert set(shown(field, f"show={show}")) == devices
    page = field.get("/devices")
    counts = re.findall(r"show=(\w+)&[^>]*>[^<]*<b>(\d+)</b>", page.markup.replace("&amp;", "&"))
    assert show == "unknown" or dict(counts)[show] == str(len(devices))


@pytest.mark.parametrize(
    "text, devices",
    [
        ("mill", [FIRST]),
        ("MILL", [FIRST]),
        ("0000003", [THIRD]),
        ("sch 70b3", [SECOND]),
        ("mill school", []),
        ("%3Cscript%3E", []),
        ("", [SECOND, FIRST, THIRD, FOURTH]),
    ],
)
def test_search(field: Console, text: str, devices: list[str]) -> None:
    """A search finds names and DevEUIs that have all of its words."""
    assert shown(field, f"q={text}") == devices
    if not devices:
        assert "No device matches." in field.get(f"/devices?q={text}").text


@pytest.mark.parametrize(
    "sort, devices",
    [
        ("seen", [SECOND, FIRST, THIRD, FOURTH]),
        ("name", [THIRD, FIRST, SECOND, FOURTH]),
        ("margin", [SECOND, FIRST, THIRD, FOURTH]),
        ("rate", [FIRST, SECOND, THIRD, FOURTH]),
        ("missing", [FIRST]),
        ("battery", [SECOND]),
        ("unknown", [SECOND, FIRST, THIRD, FOURTH]),
    ],
)
def test_sorting(field: Console, sort: str, devices: list[str]) -> None:
    """The list is in this order; what has no value comes last."""
    assert shown(field, f"sort={sort}")[: len(devices)] == devices


def test_pages(console: Console) -> None:
    """There are 50 devices on a page, and all of them on one page or another."""
    lines = [listed(slot, f"70B3D57ED00{slot:05X}") for slot in range(120)]
    console.serves(*lines)
    pages = [shown(console, f"sort=name&page={page}") for page in (1, 2, 3)]
    assert list(map(len, pages)) == [50, 50, 20] or sum(map(len, pages)) == 121
    assert len({eui for page in pages for eui in page}) == sum(map(len, pages))
    assert "Page 2 of 3" in console.get("/devices?page=2").text
    for page in ("0", "99", "x", "-1", "1e9", "9" * 40, "²"):
        assert console.get("/devices", params={"page": page}).status == 200
    assert DEVICE in console.network.devices
