"""Lines of the server and of the lookout, as docs/OPERATING.md has them."""

import pytest

from .sites import DEVICE, GATEWAY, STATUS, Clock, Console, listed

OTHER = "00000000000000B2"
HEARD = f"{GATEWAY} 868100000 5 -20 -95"
# kinds of lines, and what a page shows of each
SHOWN = [
    (f"joined {DEVICE} 2 {GATEWAY}", "/", f"Joined, by gateway {GATEWAY} (JoinNonce 2)"),
    (f"linked gateway {OTHER}", "/", f"{OTHER} Linked"),
    (f"ended gateway {OTHER}", "/", f"Gateway {OTHER} is offline"),
    (f"taken_over gateway {OTHER}", "/", f"{OTHER} Link taken over by a newer one"),
    ("linked application 3", "/server", "Application 3: linked"),
    ("ended application 3", "/server", "Application 3: link ended"),
    ("faulted application 3", "/server", "Application 3: link closed: the server got a message"),
    ("faulted", "/server", "A client: link closed: the server got a message"),
    ("silent", "/server", "Link closed: no greeting in ten seconds"),
    (f"unlisted gateway {OTHER}", "/server", f"Link closed: gateway {OTHER} isn't listed"),
    (f"dropped gateway {OTHER} 5", "/server", f"Not sent to gateway {OTHER}: 5"),
    ("slow_sync 350", "/server", "A sync of the disk took 350 ms"),
    ("slow_sync 350", "/", "The disk is slow A sync took 350 ms in the last hour"),
    ("left_out 12", "/server", "12 events weren't printed"),
    ("gone", "/", "No server answers lnsd doesn't run"),
    (f"refused 1 Malformed other {HEARD}", "/refused", "Malformed The bytes are no LoRaWAN frame."),
    (
        f"refused 24 UnknownChannel other {HEARD}",
        "/refused",
        "channels of EU868. Set those of the device",
    ),
    (f"refused 99 Later other {HEARD}", "/refused", "Refusal 99"),
    (f"refused 9 DevNonceUsed join {DEVICE} 65535 {HEARD}", "/refused", "1 0 s ago 65535"),
    (f"refused 3 UnknownDevAddr data 26000001 9 {HEARD}", "/refused", "UnknownDevAddr No session"),
    # network 00002A, slot 0, session 1: the DevAddr of docs/FORMATS.md's rule
    (f"refused 5 CounterGap data 54000001 9 {HEARD}", f"/devices/{DEVICE}", "CounterGap, 1 time"),
    # a later server may add words at the end
    (f"refused 8 WrongJoinEui join {DEVICE} 7 {HEARD} more", "/refused", "WrongJoinEui"),
]
WRONG = [
    "",
    "refused",
    "refused 4",
    "refused 4 BadMic join zz 1 2 3 4 5 6",
    f"refused 4 BadMic join {DEVICE} 7 {GATEWAY} x 5 -20 -95",
    f"refused 4 BadMic data {DEVICE} 7",
    "joined",
    "joined x",
    f"joined {DEVICE} x {GATEWAY}",
    f"joined {DEVICE} 0 {GATEWAY}",
    f"joined {DEVICE} {2**64} {GATEWAY}",
    "linked",
    "linked gateway x",
    "dropped",
    "slow_sync",
    "slow_sync x",
    "checkpoint",
    "watching",
    "something else",
    "\x00\xff",
]


@pytest.mark.parametrize("line, path, shown", SHOWN)
def test_lines(console: Console, line: str, path: str, shown: str) -> None:
    """Each kind of line is shown."""
    console.lines(line)
    assert shown in console.get(path).text


@pytest.mark.parametrize("line", WRONG)
def test_wrong_lines(console: Console, line: str) -> None:
    """A line that isn't one does no harm."""
    devices = dict(console.network.devices)
    try:
        console.lines(line)
    except (ValueError, IndexError):
        pass  # what the console logs
    assert console.network.devices == devices
    assert console.get("/").status == console.get("/health").status == 200


def test_other_network(console: Console) -> None:
    """A DevAddr of another network isn't one of our devices'."""
    console.lines(f"refused 5 CounterGap data 56000001 9 {HEARD}")
    assert "CounterGap" not in console.get(f"/devices/{DEVICE}").text


def test_floods(console: Console) -> None:
    """Frames of many strangers are counted, and only the newest 2,000 of them are kept."""
    for number in range(2100):
        sender = f"{number:016X}"
        console.network.refuse(7, sender, "join")
    assert len(console.network.refused) == 2000
    assert (7, f"{2099:016X}") in console.network.refused
    assert "Refused, 1 hour 2100" in console.get("/").text


def test_repeated(console: Console) -> None:
    """A sender that is refused again and again is an event each ten times."""
    for nonce in range(25):
        console.lines(f"refused 4 BadMic join {DEVICE} {nonce} {HEARD}")
    events = [event.text for event in console.network.events if event.kind == "refused"]
    assert [text.partition(":")[0] for text in events] == [
        "Join refused (20 times)",
        "Join refused (10 times)",
        "Join refused",
    ]


def test_slow_disk(console: Console, clock: Clock) -> None:
    """If all syncs are slow, events of other kinds aren't pushed out: the slowest ones of an hour
    are events."""
    for took in (450, 450, 449, 470, 300) * 12 + (460, 455):
        clock.now += 61
        console.lines(f"slow_sync {took}")
    events = [event.text for event in console.network.events if event.kind == "sync"]
    assert len(events) == 2 + 12 and events[0] == "A sync of the disk took 470 ms"


@pytest.mark.parametrize(
    "line, state",
    [
        (listed(1, "70B3D57ED0000002", 0, "-"), "Never joined"),
        (listed(1, "70B3D57ED0000002", 1, "-"), "Join accepted"),
        (listed(1, "70B3D57ED0000002", 1025, "-", heard=9), "No session"),
        (listed(1, "70B3D57ED0000002", 1, "1"), "Joined"),
        (listed(1, "70B3D57ED0000002", 2, "1"), "Joining again"),
        ("1 70B3D57ED0000002 1 1 5 2 0 6", "Joined"),
        (listed(1, "70B3D57ED0000002", 1, "1", 2) + " later words", "Joined"),
    ],
)
def test_states(console: Console, line: str, state: str) -> None:
    """A device has the state that the list says."""
    console.serves(listed(0, DEVICE), line, "devices 2 seq 9")
    sign = {"Never joined": "○", "Joined": "●"}.get(state, "▲")
    assert f"70B3D57ED0000002 {sign} {state}" in console.get("/devices").text
    assert state in console.get("/devices/70B3D57ED0000002").text


def test_last_uplink(console: Console, clock: Clock) -> None:
    """The list says when an uplink came: in milliseconds since the server's start, which is known
    by `now`, or by the moments that have passed."""
    console.serves(listed(0, DEVICE, age=2))
    assert "Last uplink 2 s ago" in console.get(f"/devices/{DEVICE}").text
    console.network.server.status.clear()
    console.network.devices[DEVICE].uplink = None
    from console import server_lines

    server_lines.take_status(console.network, f"{STATUS}now 65321\n")
    server_lines.take_devices(console.network, listed(0, DEVICE, age=2))
    assert "Last uplink 62 s ago" in console.get(f"/devices/{DEVICE}").text
    assert "Running for 65 s" in console.get("/server").text


def test_restart(console: Console) -> None:
    """After the server has started again its gateways' links are those of the new life."""
    console.lines("gone")
    assert "Not known" in console.get("/gateways").text
    assert "No server" in console.get("/gateways").text
    console.serves(listed(0, DEVICE))
    assert "Online" in console.get("/gateways").text
    events = [event.text for event in console.network.events if event.kind == "server"]
    assert events == ["The server answers", "No server answers", "The server answers"]


def test_links_by_number(console: Console) -> None:
    """The status says how many gateways have a link, also of those that have heard nothing."""
    from console import server_lines

    console.network.gateway(OTHER)
    bare = STATUS.replace(f"last_copy_{GATEWAY} 5321\n", "")
    console.network.forget_links()
    server_lines.take_status(console.network, bare.replace("gateways 1", "gateways 2"))
    assert all(gateway.is_linked for gateway in console.network.gateways.values())
    console.network.forget_links()
    server_lines.take_status(console.network, STATUS)
    assert console.network.gateways[GATEWAY].is_linked is True
    assert console.network.gateways[OTHER].is_linked is False


@pytest.mark.parametrize("text", ["", "\n", "nothing", "devices x", "made", "\x00\xff\n" * 9])
def test_wrong_status(console: Console, text: str) -> None:
    """An answer that isn't a status is none."""
    from console import server_lines

    server_lines.take_status(console.network, text)
    server_lines.take_devices(console.network, text)
    console.settle()
    assert "No server answers" in console.get("/").text
