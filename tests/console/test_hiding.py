"""What alarms aren't for: devices that are retired or hidden, gateways that are hidden or forgotten.
And what events say of devices: names and applications."""

from datetime import datetime, timezone
from pathlib import Path

import pytest
from console import server_lines
from console.sources import counts_in, take_copies, take_lists

from .sites import DEVICE, GATEWAY, STATUS, Clock, Console, event, listed, up

OTHER, SECOND = "00000000000000B2", "70B3D57ED0000002"
PATH = f"/devices/{DEVICE}"
BAD_MIC = f"refused 4 BadMic join {DEVICE} 7 {GATEWAY} 868100000 5 -2 -95"
LINKED = 'pilot_gateway_linked{{bridge="{}",gateway="{}"}} 1.0'


def health(console: Console) -> tuple[int, str]:
    """What a monitor sees."""
    console.settle()
    page = console.get("/health")
    return page.status, page.markup


def retired(console: Console, clock: Clock) -> None:
    """A device was heard, has no session any more, and asks to join under an unknown key."""
    console.events(*(up(DEVICE, counter) for counter in range(4)))
    for counter in range(4, 8):
        clock.now += 60
        console.events(up(DEVICE, counter))
    clock.now += 7200
    console.serves(listed(0, DEVICE, session="-", heard=8))
    console.lines(BAD_MIC)


ALARMS = ("1 device silent", "1 device without a session", "1 device can't join: BadMic")


@pytest.mark.parametrize("what, state", [("retire", "Retired"), ("hide", "Hidden")])
def test_devices(console: Console, clock: Clock, what: str, state: str) -> None:
    """An operator takes a device out of all alarms, also for later consoles, and back again."""
    retired(console, clock)
    before = console.get("/").text
    assert all(alarm in before for alarm in ALARMS) and "Compare both keys" in before
    console.send(PATH, what=what)
    for _ in range(2):
        assert not any(alarm in console.get("/").text for alarm in ALARMS)
        page = console.get(PATH).text
        assert f"{state} " in page and "Compare both keys" not in page
        assert "Silent 0" in console.get("/devices").text
        assert DEVICE in console.get("/devices?show=hidden").text
        console.settle()
        console.again()
        retired(console, clock)
    console.send(PATH, what="unhide")
    assert all(alarm in console.get("/").text for alarm in ALARMS)


def test_retired_device_that_joins(console: Console, clock: Clock) -> None:
    """A retired device whose join is accepted isn't retired: alarms are for it again."""
    retired(console, clock)
    console.send(PATH, what="retire")
    console.lines(f"joined {DEVICE} 2 {GATEWAY}")
    assert "Retired" not in console.get("/devices").text
    console.send(PATH, what="hide")
    console.lines(f"joined {DEVICE} 3 {GATEWAY}")
    assert "Hidden from alarms 1" in console.get("/devices").text


def test_gateways(console: Console) -> None:
    """An operator hides a gateway, shows it again, and forgets it for good."""
    console.lines(f"linked gateway {OTHER}", f"ended gateway {OTHER}")
    offline = f"Gateway {OTHER} is offline"
    assert health(console) == (503, f'{{"problems": ["{offline}"]}}')
    console.send("/gateways", eui=OTHER, what="hide")
    assert health(console)[0] == 200 and "Hidden" in console.get("/gateways").text
    console.send("/gateways", eui=OTHER, what="unhide")
    assert health(console)[0] == 503
    assert "Forgotten." in console.send("/gateways", eui=OTHER, what="forget").text
    console.lines(f"ended gateway {OTHER}")
    assert health(console)[0] == 200 and OTHER not in console.network.gateways
    assert "Not forgotten" in console.send("/gateways", eui=GATEWAY, what="forget").text
    console.again()
    assert OTHER not in console.network.gateways and GATEWAY in console.network.gateways


def counted(console: Console, folder: Path, **lists: list[str]) -> None:
    """The bridges' counts are read; each has these gateways in its list, or none if it's away."""
    for bridge, euis in lists.items():
        lines = [LINKED.format(bridge, eui) for eui in euis]
        file = folder / f"gateways-{bridge}.prom"
        file.write_text("\n".join([*lines, ""]), encoding="ascii")
        if not euis:
            file.unlink()
    found = counts_in(str(folder))
    take_copies(console.network, found.copies)
    take_lists(console.network, found.lists)


@pytest.mark.parametrize("is_again", [False, True])
def test_lists(console: Console, folder: Path, is_again: bool) -> None:
    """A gateway that is taken out of its bridge's list is forgotten, also if the console was away
    then. One whose bridge is away, and one that no bridge had, are not."""
    heard = [{"gatewayId": OTHER.lower(), "rssi": -90, "snr": 7.5}]
    console.events(up(DEVICE, 0, rxInfo=heard))
    counted(console, folder, udp=[GATEWAY, OTHER], mqtt=[OTHER])
    console.lines(f"ended gateway {OTHER}")
    assert "Not forgotten" in console.send("/gateways", eui=OTHER, what="forget").text
    counted(console, folder, udp=[], mqtt=[])
    assert OTHER in console.network.gateways and health(console)[0] == 503
    counted(console, folder, udp=[GATEWAY], mqtt=[OTHER])
    assert OTHER in console.network.gateways
    if is_again:
        console.network.save_minutes()
        console.settle()
        console.again()
        assert OTHER in console.network.gateways
    counted(console, folder, udp=[GATEWAY], mqtt=[])
    assert OTHER not in console.network.gateways and health(console)[0] == 200
    server_lines.take_status(console.network, STATUS)
    console.settle()
    console.again()
    assert OTHER not in console.network.gateways


def named(device: str, counter: int, name: str | None, application: int = 3) -> tuple[str, bytes]:
    """A reading of a device that has a name in the list of devices."""
    topic, payload = up(device, counter, deviceInfo={} if name is None else {"deviceName": name})
    return topic.replace("/3/", f"/{application}/"), payload


def test_names_of_events(console: Console) -> None:
    """A device has the name that its events have, unless an operator gave it another one."""
    console.events(named(DEVICE, 0, "Mill\u202e lane"), named(SECOND, 0, "School", 4))
    shown = console.get("/devices").text
    assert "Mill lane" in shown and "School" in shown
    console.events(named(DEVICE, 1, None), named(DEVICE, 2, "Mill road"))
    assert console.network.name(DEVICE) == "Mill road"
    console.send(PATH, what="name", name="Old mill")
    console.events(named(DEVICE, 3, "Mill street"))
    assert console.network.name(DEVICE) == "Old mill"
    console.settle()
    console.again()
    assert [console.network.name(eui) for eui in (DEVICE, SECOND)] == ["Old mill", "School"]
    console.send(PATH, what="name", name="")
    assert console.network.name(DEVICE) == "Mill street"


def test_applications(console: Console) -> None:
    """The list shows the application of each device, and one application's devices alone, also
    after a restart."""
    console.events(named(DEVICE, 0, None))
    assert "All applications" not in console.get("/devices").text
    console.events(named(SECOND, 0, None, 4))
    for _ in range(2):
        shown = console.get("/devices").text
        assert "application 3" in shown and "application 4" in shown
        shown = console.get("/devices?application=4").text
        assert SECOND in shown and DEVICE not in shown and "All 1" in shown
        assert "Application 4" in console.get(f"/devices/{SECOND}").text
        console.settle()
        console.again()


def test_queue(console: Console, clock: Clock) -> None:
    """A device's page says how many items wait, since when, and why, until none waits."""
    waits = listed(0, DEVICE).replace(" 5 2 0 ", " 5 2 2 ")
    console.serves(waits)
    clock.now += 300
    console.serves(waits)
    assert "Downlinks waiting 2, since 5 min ago " in console.get(PATH).text
    why = "the item has been first for 8 uplinks: it has 242 bytes, and 115 fit at DR3"
    console.events(event(DEVICE, "log", {"code": "ITEM_TOO_LONG", "description": why}))
    assert f"Downlinks waiting 2, since 5 min ago: {why}" in console.get(PATH).text
    console.serves(listed(0, DEVICE))
    assert "Downlinks waiting 0 " in console.get(PATH).text


def test_repeated_requests(console: Console) -> None:
    """MAC commands that are asked for again and again are one event."""
    for commands in ("06", "06", "06", "0330FF0001", "06"):
        console.events(event(DEVICE, "macqueued", {"commands": commands}))
    shown = console.get(PATH).text
    assert shown.count("Downlink queued: DevStatusReq") == 2 and shown.count("LinkADRReq") >= 1


@pytest.mark.parametrize(
    "lag, since, shown",
    [
        (30 * 86_400, 3600, "is 30 days slow"),
        (-40 * 86_400, 3600, "is 40 days fast"),
        (-40 * 86_400, 0, "is 40 days fast"),
        # it may have waited in the broker, or in the server
        (30 * 86_400, 0, ""),
        (600, 3600, ""),
    ],
)
def test_clocks(console: Console, clock: Clock, lag: int, since: int, shown: str) -> None:
    """A bridge whose clock is wrong by more than an hour is named, until it is right."""
    console.network.broker_since = clock.now - since
    for counter, late in ((0, lag), (1, 0)):
        came = datetime.fromtimestamp(clock.now - late, timezone.utc).isoformat()
        console.events(up(DEVICE, counter, time=came))
        page = console.get("/").text
        wrong = "The clock of application 3's bridge"
        assert (f"{wrong} {shown}" in page) if shown and late else wrong not in page


def test_around(console: Console, folder: Path, clock: Clock) -> None:
    """The server's page has what the counts say of copies, certificates and disks."""
    lines = [f"pilot_copy_seconds {clock.now - 7200:.1f}"]
    lines += [f'pilot_certificate_end_seconds{{file="/x/a.crt"}} {clock.now + 864_000:e}']
    lines += ['pilot_certificate_end_seconds{file="/x/b.crt"} 0.0', "pilot_copy_seconds 1e"]
    (folder / "lnsd.prom").write_text("\n".join(lines), encoding="ascii")
    free = 'pilot_readings_disk_free_bytes{application="3"} 2.5e+09'
    (folder / "readings-3.prom").write_text(free, encoding="ascii")
    console.network.around = counts_in(str(folder)).around
    shown = console.get("/server").text
    for text in (
        "Copy of the store 2 h ago",
        "Certificate ends /x/a.crt in 10 days",
        "/x/b.crt it has ended",
        "Free on the disk of readings 3 2.5 GB",
    ):
        assert text in shown
