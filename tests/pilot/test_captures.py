"""Frames in a file for Wireshark, whose terminal program tshark reads them with keys of its own
table: the outside judge of what gateways send and hear."""

import base64
import os
import subprocess
from collections.abc import Iterator

import pytest
from bozintar import wire
from bozintar.processes import HOST, Process, command
from bridges.captures import HEAD, Capture

from .field import GATEWAYS
from .parts import Parts, Pilot, run
from .stations import ByStations
from .whole import Dashboard, Whole

# of tshark: what is printed of each frame
FIELDS = (
    *("loratap.channel.frequency", "loratap.channel.sf", "loratap.rssi.packet", "loratap.rssi.snr"),
    *("lorawan.mhdr.mtype", "lorawan.fport", "lorawan.mic.status", "lorawan.frmpayload_decrypted"),
    *("lorawan.fhdr.fctrl.foptslen", "frame.len"),
)
# the lengths of LoRaTap's header, and of a data frame's MHDR, FHDR without FOpts, and MIC
LORATAP, BARE = 15, 1 + 7 + 4
# the kinds of frames (TS001-1.0.4 §4.2.1), and a good MIC
JOIN_REQUEST, JOIN_ACCEPT, GOOD = "0", "1", "1"
UP = ("2", "4")
ITEM = b"\xc0\xff\xee"


class ByUdp(Whole):
    """A whole pilot whose gateways come by UDP."""

    capture = ""

    def start_gateways(self) -> Process:
        udp = ("--udp", f"{HOST}:{self.pilot.udp_port}", "--capture", captured(self.pilot))
        return self.pilot.own("gateways-udp", *udp, *self.named).start("listens on")


class ByMqtt(ByStations):
    """A whole pilot whose gateways come by MQTT."""

    def start_gateways(self) -> Process:
        broker = ("--broker", f"{HOST}:{self.pilot.broker_port}")
        words = (*broker, *self.named, "--capture", captured(self.pilot))
        return self.pilot.own("gateways-mqtt", *words).start("connected to")


def captured(parts: Parts) -> str:
    """The path of the capture."""
    return parts.file("frames.pcap")


@pytest.fixture(params=(ByUdp, ByMqtt), ids=("udp", "mqtt"))
def played(request: pytest.FixtureRequest, pilot: Pilot) -> Iterator[Whole]:
    """A pilot with a capture, whose two meters have joined."""
    made = request.param(pilot, 2)
    made.link()
    assert made.join(), "all meters join"
    yield made
    for gateway in made.air.gateways:
        (gateway.close if isinstance(made, ByUdp) else gateway.end)()


def read(capture: str, keys: list[str]) -> list[dict[str, str]]:
    """What tshark says of each frame of a capture, with these rows of keys."""
    words = [command("tshark"), "-r", capture, "-T", "fields", "-E", "separator=;"]
    for row in keys:
        words += ["-o", f"uat:encryption_keys_lorawan:{row}"]
    for name in FIELDS:
        words += ["-e", name]
    ended = subprocess.run(words, capture_output=True, text=True, check=True)
    rows = [dict(zip(FIELDS, line.split(";"))) for line in ended.stdout.splitlines()]
    assert rows, ended.stderr
    return rows


def has_port(frame: dict[str, str]) -> bool:
    """Whether a frame has an FPort: tshark 4.0 doesn't see that one has none, and takes part of the
    MIC for it."""
    options = frame["lorawan.fhdr.fctrl.foptslen"]
    return options != "" and int(frame["frame.len"]) > LORATAP + BARE + int(options, 0)


def test_tshark(played: Whole) -> None:
    """tshark finds each frame's kind, a good MIC in each with an FPort, and the payloads that the
    meters sent and got."""
    meter = played.meters[0]
    with Dashboard(played.pilot.broker_port) as dashboard:
        dashboard.down(meter.dev_eui, fPort=7, data=base64.b64encode(ITEM).decode())
        for one in (*played.meters, meter):
            assert played.reading(one), "a reading is acknowledged"
    assert played.gateways.end() == 0
    status, said, wrong = run("wireshark-keys", captured(played.pilot), "--devices", played.file)
    assert (status, wrong) == (0, "")
    frames = read(captured(played.pilot), said.splitlines())
    kinds = [frame["lorawan.mhdr.mtype"] for frame in frames]
    assert {JOIN_REQUEST, JOIN_ACCEPT} < set(kinds)
    assert kinds.count(JOIN_REQUEST) >= len(GATEWAYS) * len(played.meters), "of each gateway"
    with_port = [frame for frame in frames if has_port(frame)]
    assert {frame["lorawan.mic.status"] for frame in with_port} == {GOOD}
    payloads: dict[str, set[str]] = {}
    for frame in with_port:
        way = "up" if frame["lorawan.mhdr.mtype"] in UP else "down"
        payloads.setdefault(way, set()).add(frame["lorawan.frmpayload_decrypted"])
    sent = {payload.hex() for one in played.meters for payload in one.sent.values()}
    assert payloads == {"up": sent, "down": {ITEM.hex()}}
    ups = [frame for frame in frames if frame["lorawan.mhdr.mtype"] in UP]
    assert {frame["loratap.channel.frequency"] for frame in ups} == {"868100000"}
    assert {frame["loratap.channel.sf"] for frame in ups} == {"7"}
    # -70, -71 and -72 dBm above -139, and 8, 7 and 6 dB in quarters
    signals = {(frame["loratap.rssi.packet"], frame["loratap.rssi.snr"]) for frame in ups}
    assert signals == {("69", "32"), ("68", "28"), ("67", "24")}


def test_two_files_in_turn(parts: Parts) -> None:
    """A capture never has more than two files of its size; the newest frames are in the first."""
    file = captured(parts)
    capture = Capture(file, 1)
    for number in range(10_000):
        capture.up(wire.Heard(wire.Copy(GATEWAYS[0]), b"%0255d" % number))
    contents = []
    for name in (f"{file}.old", file):
        with open(name, "rb") as part:
            contents.append(part.read())
        assert contents[-1].startswith(HEAD) and len(contents[-1]) <= 10**6
        assert os.stat(name).st_mode & 0o777 == 0o600, "frames are for the operator alone"
    files = sorted(name for name in os.listdir(parts.folder) if name.startswith("frames"))
    assert files == ["frames.pcap", "frames.pcap.old"]
    assert contents[1].endswith(b"%0255d" % 9_999)
    last = int(contents[0][-255:])
    assert b"%0255d" % (last + 1) in contents[1], "no frame is left out between them"


def test_capture_that_cant_be_written(parts: Parts) -> None:
    """A special file isn't taken for a capture, and is left as it was."""
    words = ("--network", "h:1", "--udp", "127.0.0.1:1", "--gateway", GATEWAYS[0])
    status, _, said = run("gateways-udp", *words, "--capture", "/dev/null")
    assert (status, said) == (1, "gateways-udp: /dev/null: File exists\n")
