"""Forms: the lines that they send to the bridge, by docs/FORMATS.md, and what pages show of the
answers."""

import os

import aiohttp
import pytest

from .sites import DEVICE, GATEWAY, JOIN_EUI, KEY, Console, listed, up

PATH = f"/devices/{DEVICE}"
NEW = "70B3D57ED0000005"
DONE = "Queued. It is sent after the device's next uplink."
NO_ANSWER = "No answer came. It may have been done: check before you send it again."
NOT_SENT = "Not sent: the console doesn't reach the bridge. Its journal says why;"


@pytest.mark.parametrize(
    "form, line",
    [
        ({"what": "item", "port": "7", "payload": "C0FFEE"}, "7 u C0FFEE"),
        ({"what": "item", "port": "223", "payload": " c0 ff-ee:00 "}, "223 u C0FFEE00"),
        ({"what": "item", "port": "1", "payload": "", "confirmed": "on"}, "1 c -"),
        ({"what": "item", "port": "7", "payload": "00" * 242}, f"7 u {'00' * 242}"),
    ],
)
def test_items(console: Console, form: dict, line: str) -> None:
    """An item is queued under a tag of its own, and is an event with the client's name."""
    page = console.send(PATH, **form)
    assert page.status == 200 and DONE in page.text
    kind, eui, tag, *words = console.bridge.asked[0].split(" ")
    assert (kind, eui, " ".join(words)) == ("queue", DEVICE, line)
    assert 0 <= int(tag) < 10**9
    console.settle()
    size = 0 if words[2] == "-" else len(words[2]) // 2
    text = f"Downlink queued: item {tag}, port {form['port']}, {size} bytes, by loopback"
    assert text in console.get(PATH).text


@pytest.mark.parametrize(
    "form, line, text",
    [
        # DevStatusReq (TS001-1.0.4 §5.5)
        ({"what": "status"}, "06", "DevStatusReq"),
        # LinkADRReq: data rate and power, ChMask, Redundancy (§5.2); TXPower 0 is 16 dBm, each step
        # 2 dB less (RP002, EU863-870)
        ({"what": "adr", "rate": "3", "power": "0"}, "0330FF0001", "LinkADRReq DR3, 16 dBm"),
        ({"what": "adr", "rate": "5", "power": "7"}, "0357FF0001", "LinkADRReq DR5, 2 dBm"),
    ],
)
def test_commands(console: Console, form: dict, line: str, text: str) -> None:
    """MAC commands are queued."""
    assert DONE in console.send(PATH, **form).text
    assert console.bridge.asked == [f"mac {DEVICE} {line}"]
    console.settle()
    assert f"Downlink queued: {text}, by loopback" in console.get(PATH).text


@pytest.mark.parametrize(
    "form, why",
    [
        ({"what": "item", "port": "7", "payload": "C0F"}, "The payload has to be hex"),
        ({"what": "item", "port": "7", "payload": "xy"}, "The payload has to be hex"),
        ({"what": "item", "port": "7", "payload": "00" * 243}, "242 bytes at most"),
        ({"what": "item", "port": "0", "payload": ""}, "The port has to be a number from 1 to 223"),
        ({"what": "item", "port": "224", "payload": ""}, "The port has to be"),
        ({"what": "item", "port": "", "payload": ""}, "The port has to be"),
        ({"what": "item", "port": "7\n8", "payload": ""}, "The port has to be"),
        ({"what": "item", "payload": ""}, "The port has to be"),
        ({"what": "adr", "rate": "6", "power": "0"}, "The data rate has to be"),
        ({"what": "adr", "rate": "5", "power": "8"}, "The power has to be"),
        ({"what": "adr", "rate": "٣", "power": "0"}, "The data rate has to be"),
        ({"what": "stop"}, "The form has no command."),
        ({}, "The form has no command."),
    ],
)
def test_wrong_commands(console: Console, form: dict, why: str) -> None:
    """A form that isn't right says why, and nothing is sent."""
    page = console.send(PATH, **form)
    assert page.status == 200 and why in page.text
    assert console.bridge.asked == []


@pytest.mark.parametrize(
    "answer, shown",
    [
        ("refused 12", "16 items wait for the device."),
        ("refused 14", "The payload has more than 242 bytes."),
        ("refused 30", "The network has no memory left."),
        ("refused 99", "Refused 99."),
        ("refused", "Refused ."),
        ("unanswered", NO_ANSWER),
        ("", NO_ANSWER),
        ("<script>", NO_ANSWER),
    ],
)
def test_refusals(console: Console, answer: str, shown: str) -> None:
    """What the network refuses is shown with the reason, and is noted as not done."""
    console.bridge.says = [answer]
    page = console.send(PATH, what="status")
    assert shown in page.text and DONE not in page.text
    console.settle()
    assert f"DevStatusReq (not done: {shown}), by loopback" in console.get(PATH).text


def test_loading_again(console: Console) -> None:
    """The page after a form can be loaded again: nothing is sent twice. Only the user that sent the
    form sees its result."""
    page = console.send(PATH, what="status")
    assert DONE in page.text and len(console.bridge.asked) == 1
    key = next(iter(console.site.outcomes))
    assert DONE in console.get(f"{PATH}?done={key}").text
    assert len(console.bridge.asked) == 1
    console.site.outcomes[key].user = "operator-alice"
    assert DONE not in console.get(f"{PATH}?done={key}").text


def test_bridge_away(console: Console, capfd: pytest.CaptureFixture[str]) -> None:
    """If the bridge can't be reached, nothing was sent, and the page and the log say so."""
    console.listener.close()
    console.run(console.listener.wait_closed())
    assert NOT_SENT in console.send(PATH, what="status").text
    form = {"eui": NEW, "join": JOIN_EUI, "key": KEY, "application": "3"}
    assert f"{NEW}: {NOT_SENT}" in console.send("/add", **form).text
    why = "the bridge of application 3 isn't reached by"
    assert f"{why} {console.socket!r}: Connection refused" in capfd.readouterr().out
    os.unlink(console.socket)
    assert NOT_SENT in console.send(PATH, what="status").text
    assert f"{console.socket!r}: No such file or directory" in capfd.readouterr().out


def test_no_answer(console: Console, capfd: pytest.CaptureFixture[str]) -> None:
    """If the bridge ends before it answers, the log says so."""
    console.bridge.says = ["x" * 100_000]
    assert NO_ANSWER in console.send(PATH, what="status").text
    assert "the bridge of application 3 doesn't answer by" in capfd.readouterr().out


def test_other_application(console: Console) -> None:
    """A device's requests go to its own application, also if no bridge has it. One that isn't
    reached may be the device's."""
    console.events(up(DEVICE, 0))
    assert console.network.devices[DEVICE].application == "3"
    console.network.devices[DEVICE].application = ""
    console.site.bridges.sockets["1"] = console.socket
    console.bridge.says = ["refused 7"]
    assert DONE in console.send(PATH, what="status").text
    assert console.bridge.asked == [f"mac {DEVICE} 06"] * 2
    console.site.bridges.sockets["0"] = f"{console.socket}-0"
    assert DONE in console.send(PATH, what="status").text
    console.bridge.says = ["refused 7"] * 2
    assert NOT_SENT in console.send(PATH, what="status").text


def test_names(console: Console) -> None:
    """A device and a gateway get names."""
    page = console.send(PATH, what="name", name="  Mill \n  lane ")
    assert "Saved." in page.text and "Mill lane" in page.text
    assert "Saved." in console.send("/gateways", eui=GATEWAY, name="Tower").text
    console.settle()
    assert "Mill lane" in console.get("/devices").text and "Tower" in console.get("/gateways").text
    assert "Name set to 'Mill lane', by loopback" in console.get(PATH).text
    console.send(PATH, what="name", name="x" * 99)
    assert console.network.names[DEVICE] == "x" * 60
    console.send(PATH, what="name", name="")
    assert DEVICE in console.get("/devices").text
    assert console.bridge.asked == []
    token = console.get("/gateways").token
    assert console.post("/gateways", {"eui": "x", "name": "y", "token": token}).status == 404


def test_one_device(console: Console) -> None:
    """A device is added by a form."""
    form = {"eui": "70-b3-d5-7e-d0-00-00-05", "join": JOIN_EUI, "key": KEY.lower()}
    form |= {"offset": "2", "delay": "5", "name": "Mill #4, lane", "application": "3"}
    page = console.send("/add", **form)
    assert "Mill #4, lane: Added, in slot 7." in page.text
    assert console.bridge.asked == [f"provision {NEW} {JOIN_EUI} {KEY} 2 5"]
    assert console.refreshed == 1
    assert console.network.devices[NEW].application == "3"


@pytest.mark.parametrize(
    "name, value, why",
    [
        ("eui", "70B3", "DevEUI isn't 16 hex digits."),
        ("join", "", "there is no JoinEUI."),
        ("join", "1", "JoinEUI isn't 16 hex digits."),
        ("key", "", "there is no AppKey."),
        ("key", KEY[1:], "AppKey isn't 32 hex digits."),
        ("offset", "6", "Offset isn't a number from 0 to 5."),
        ("delay", "16", "Delay isn't a number from 1 to 15."),
    ],
)
def test_wrong_device(console: Console, name: str, value: str, why: str) -> None:
    """A form that isn't right says why, and still has what was typed, except the key."""
    form = {"eui": NEW, "join": JOIN_EUI, "key": KEY, "offset": "0", "delay": "1", "name": "Mill"}
    page = console.send("/add", **{**form, name: value, "application": "3"})
    assert why in page.text and 'value="Mill"' in page.markup
    assert KEY not in page.markup and console.bridge.asked == []


LINES = f"""DevEUI;JoinEUI;AppKey;offset;delay;name
70B3D57ED0000011,{JOIN_EUI},{KEY}
70B3D57ED0000012;{JOIN_EUI};{KEY};1;5;"Mill"
# a comment

70B3D57ED0000013\t{JOIN_EUI}\t{KEY}\t\t2\tSchool   # another one
x,y,z
70B3D57ED0000014,{JOIN_EUI}
"""
DUE = [
    f"provision 70B3D57ED0000011 {JOIN_EUI} {KEY} 0 1",
    f"provision 70B3D57ED0000012 {JOIN_EUI} {KEY} 1 5",
    f"provision 70B3D57ED0000013 {JOIN_EUI} {KEY} 0 2",
]


@pytest.mark.parametrize("is_file", [False, True])
def test_many_devices(console: Console, is_file: bool) -> None:
    """Devices are added by lines or a file, and each line has its result."""
    form = aiohttp.FormData()
    form.add_field("token", console.get("/add").token)
    form.add_field("application", "3")
    form.add_field("lines", "" if is_file else LINES)
    content = f"\ufeff{LINES}".encode() if is_file else b""
    form.add_field("file", content, filename="devices.csv", content_type="text/csv")
    console.bridge.says = ["provisioned 70B3D57ED0000011 1", "refused 16"]
    page = console.post("/add", form)
    assert page.status == 200 and console.bridge.asked == DUE
    assert "70B3D57ED0000011: Added, in slot 1." in page.text
    assert "70B3D57ED0000012: A device has this DevEUI already; it stays as it was." in page.text
    assert "School: Added, in slot 7." in page.text
    faults = [text for text in page.text.split("✗") if "Line " in text]
    assert [fault.split(".")[0].strip() for fault in faults] == [
        "Line 7: DevEUI isn't 16 hex digits",
        "Line 8: there is no AppKey",
    ]
    assert console.network.names == {"70B3D57ED0000013": "School"}


@pytest.mark.parametrize(
    "form, why",
    [
        ({"lines": ""}, "There was no device in the form."),
        ({"lines": "# nothing\n\n"}, "There was no device in the form."),
        ({"lines": "a\n" * 4097}, "There are more than 4096 devices."),
        ({"lines": f"{NEW},{JOIN_EUI},{KEY}", "application": "9"}, NOT_SENT),
    ],
)
def test_wrong_lines(console: Console, form: dict, why: str) -> None:
    """Lines that aren't right say why."""
    assert why in console.send("/add", **{"application": "3", **form}).text
    assert console.bridge.asked == []


def test_too_large(console: Console) -> None:
    """A form that is too large is refused before all of it is read."""
    token = console.get("/add").token
    large = {"token": token, "application": "3", "lines": "x" * 500_000}
    assert console.post("/add", large).status == 413
    form = aiohttp.FormData()
    form.add_field("token", token)
    form.add_field("file", b"x" * 500_000, filename="devices.csv")
    assert console.post("/add", form).status == 413
    assert console.get("/").status == 200


def test_no_bridge(console: Console) -> None:
    """Without a bridge devices can be named, and nothing else."""
    console.site.bridges.sockets.clear()
    page = console.get(PATH)
    assert "Send a command" not in page.text and "Save" in page.text
    assert "has no bridge" in console.get("/add").text
    assert "Saved." in console.send(PATH, what="name", name="Mill").text


def test_unknown_device(console: Console) -> None:
    """A form for a device that isn't there is refused."""
    token = console.get(PATH).token
    form = {"what": "status", "token": token}
    assert console.post("/devices/70B3D57ED0000099", form).status == 404
    console.serves(listed(0, DEVICE))
    assert console.bridge.asked == []
