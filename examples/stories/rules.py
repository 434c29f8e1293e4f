"""The rules of docs/FORMATS.md, tried one by one."""

from dataclasses import replace

from bozintar.wire import Copy

from .people import APP_KEY, B1, JOIN_EUI, METER, meter, provision, session, told, up
from .story import Story

NEAR = Copy(B1)
READING = bytes.fromhex("04D2")
LINK_ADR_REQ = bytes.fromhex("0350070001")


class Rules(Story):
    """A story whose turns show how many decisions each event makes."""

    def __init__(self, *words):
        super().__init__(*words)
        self.made, self.moment = 0, 0

    def event(self, script, decisions=0, refused=None):
        """An event, and its turn."""
        before, self.made = self.made, self.made + decisions
        because = f" refused {refused}" if refused else ""
        self.line(script, f"turn {before} {self.made}{because}")

    def heard(self, frame, decisions, copy=NEAR):
        """A frame is heard, and its window is closed a second later."""
        self.moment += 1000
        hex_text = frame.hex().upper() or "-"
        self.event(f"hear {self.moment} {copy.heard()} {copy.stamp} {hex_text}")
        self.event(f"tick {self.moment + 200}", decisions)

    def asks(self, name, words, decisions=1, refused=None):
        """The application asks for something."""
        self.event(f"{name} {self.moment} 3 {words}", decisions, refused)


def words(story):
    """The ranges of words."""
    story.part("Words and their ranges")
    story.line("format 00002A 1", f"formatted {32 + 2 * (30 + 4305 + 1_048_576)}")
    gateway = f"hear 0 {B1}"
    for line in (
        f"{gateway} 868100000 256 0 0 0 00",
        f"{gateway} 4294967296 5 0 0 0 00",
        f"{gateway} 868100000 5 32768 0 0 00",
        f"{gateway} 868100000 5 -0 0 0 00",
        f"{gateway} 868100000 5 0 0 4294967296 00",
        f"{gateway} 868100000 5 0 0 0 0a",
        f"{gateway} 868100000 5 0 0 0 {'00' * 256}",
        "tick 9223372036854775808",
        "tick 01",
        "tick  1",
        "take 0",
        "take 65",
        f"provision 0 16 {METER} {JOIN_EUI} {APP_KEY} 0 1",
        f"provision 0 3 {METER} {JOIN_EUI} {APP_KEY} 6 1",
        f"provision 0 3 {METER} {JOIN_EUI} {APP_KEY} 0 16",
        f"queue 0 3 {METER} 4294967296 1 u 00",
        f"queue 0 3 {METER} 1 256 u 00",
        f"queue 0 3 {METER} 1 1 x 00",
        "crash",
    ):
        story.line(line, "bad line")
    story.say("A line with a word out of its range is no step, and changes nothing.")
    story.event(f"{gateway} 868100000 6 0 0 0 00", refused=24)
    story.event(f"{gateway} 866900000 5 0 0 0 00", refused=24)
    story.event(f"{gateway} 868100000 5 -32768 -32768 4294967295 00")
    for line in ("take 64", "call", "release", "emit"):
        story.line(line, "idle")
    story.say(
        "A data rate above 5 and a frequency that is no channel's are in the ranges of their "
        "words, but the copy is refused (24). There is nothing to take, call, release or emit."
    )


def requests(story):
    """The refusals of requests, in order."""
    story.part("What an application may ask")
    story.event(provision(0), 1)
    story.event(provision(0), refused=16)
    story.event(provision(0).replace(METER, "00000000000000FF"), refused=17)
    story.asks("queue", f"00000000000000FF 1 0 u {'00' * 243}", 0, 7)
    story.asks("queue", f"{METER} 1 0 u {'00' * 243}", 0, 14)
    story.asks("queue", f"{METER} 1 0 u 00", 0, 15)
    story.asks("queue", f"{METER} 1 224 u -", 0, 15)
    story.asks("mac", "00000000000000FF 02", 0, 7)
    for bytes_text in ("-", "02", "0350", "0605", "04"):
        story.asks("mac", f"{METER} {bytes_text}", 0, 18)
    story.asks("mac", f"{METER} {'06' * 129}", 0, 13)
    story.say(
        "The device is provisioned. If two refusals apply, the first in order is answered: a "
        "device that doesn't exist (7) before a payload that is too long (14), and that before a "
        "bad port (15). MAC commands must be whole commands of 03, 04 and 06 (18), and at most "
        "128 bytes of them wait (13)."
    )


def joins(story, device):
    """The device joins."""
    story.part("Frames that are refused")
    wrong = bytearray(device.join_request())
    wrong[-1] ^= 1
    for frame in ("", "E0", "E1", "20" + "00" * 16, "600000005400000001020304", "4000"):
        story.heard(bytes.fromhex(frame), 0)
    story.heard(bytes(wrong), 0)
    story.heard(device.join_request(), 0, replace(NEAR, frequency=867_100_000))
    story.say(
        "The network refuses an empty frame, a proprietary one, one of another major version, a "
        "Join-Accept, a downlink, an uplink that is cut off, a Join-Request with a wrong MIC, and "
        "a right one on a channel on which no device joins. None makes a decision, and no line "
        "reports them."
    )
    # its DevNonces weren't used up by that
    device.dev_nonce = 0
    request = device.join_request()
    story.moment += 1000
    told_frame = f"868100000 0 -40 -99 7 {request.hex().upper()}"
    for number in range(32, 0, -1):
        story.event(f"hear {story.moment} {number:016X} {told_frame}")
    story.event(f"hear {story.moment} {33:016X} {told_frame}", refused=22)
    story.event(f"tick {story.moment + 200}", 1)
    best = Copy("0000000000000001", data_rate=0, snr=-40, rssi=-99, stamp=7)
    line = session(1, 1).accept(best)
    story.commit(2, [told(f"provisioned {METER} 0"), line])
    story.downlink(line, device.take_accept)
    story.say(
        "32 gateways hear the Join-Request equally well. The one with the smallest EUI gets the "
        "accept. A 33rd copy is refused (22)."
    )


def ports(story, device, network):
    """Which payloads are forwarded."""
    story.part("Ports, and what the application gets")
    story.heard(device.uplink(5, b""), 1)
    story.heard(device.uplink(224, READING), 1)
    story.heard(device.uplink(None, b""), 1)
    story.heard(device.uplink(0, bytes.fromhex("0307" "0D" "06FF05")), 1)
    story.heard(device.uplink(0, b"\x0D", f_opts=b"\x0D"), 0)
    story.heard(device.uplink(9, READING, f_opts=bytes.fromhex("0D" "FF" "0307")), 1)
    line = network.downlink(NEAR, 0)
    story.heard(device.uplink(None, b"", asks=True), 1)
    empty = up(0, 5, b"", 1, NEAR)
    story.commit(6, [empty, told(f"mac {METER} 1 030706FF05"), up(5, 9, READING, 1, NEAR), line])
    story.downlink(line, device.take_downlink)
    story.say(
        "The application gets an empty payload on port 5 as `-`. It gets no line for port 224 and "
        "for an uplink without a port. Of the commands on port 0 it gets LinkADRAns and "
        "DevStatusAns, and not DeviceTimeReq (0D), which gets no answer either. An uplink with "
        "commands both in FOpts and on port 0 is refused (11). The next one has `0DFF0307` in "
        "FOpts. FF is no identifier, so nothing after it is read, and the application gets only "
        "the payload. The last uplink has ADRACKReq, and is answered by an empty downlink."
    )


def items(story, device, network):
    """Which items leave, and with what."""
    story.part("Which items leave")
    slow = replace(NEAR, data_rate=0)
    story.asks("queue", f"{METER} 1 9 u {'AA' * 52}")
    story.asks("queue", f"{METER} 2 9 u {'BB' * 51}")
    story.heard(device.uplink(7, READING), 1, slow)
    story.say(
        "At data rate 0 an item of 52 bytes doesn't fit, since 7 + 0 + 1 + 52 is above 59. The "
        "item after it waits, too. Nothing else is due, so no downlink is sent."
    )
    story.heard(device.uplink(7, READING), 1)
    first = network.downlink(NEAR, 1, (9, b"\xAA" * 52, False), pending=True)
    story.heard(device.uplink(7, READING), 1, slow)
    second = network.downlink(slow, 2, (9, b"\xBB" * 51, False))
    queued = [told(f"queued {METER} 1"), told(f"queued {METER} 2")]
    ups = [up(7, 7, READING, 1, slow), up(8, 7, READING, 1, NEAR), up(9, 7, READING, 1, slow)]
    story.commit(5, [*queued, ups[0], ups[1], first, ups[2], second])
    story.downlink(first, device.take_downlink)
    story.downlink(second, device.take_downlink)
    story.say(
        "At data rate 5 the first item leaves. It leaves in RX1 only, since its MACPayload has "
        "more than 59 bytes. FPending says that more waits. At data rate 0 the item of 51 bytes "
        "leaves. No line reports that either item has left."
    )


def items_behind_commands(story, device, network):
    """What leaves in FOpts in front of an item."""
    story.asks("mac", f"{METER} {(LINK_ADR_REQ * 3).hex().upper()}")
    story.asks("queue", f"{METER} 3 9 c CC")
    story.heard(device.uplink(None, b"", f_opts=b"\x02"), 1)
    options = bytes([0x02, (-20 + 30) // 4, 1]) + LINK_ADR_REQ * 2
    line = network.downlink(NEAR, 3, (9, b"\xCC", True), options, pending=True)
    story.commit(
        3,
        [
            told(f"macqueued {METER} {(LINK_ADR_REQ * 3).hex().upper()}"),
            told(f"queued {METER} 3"),
            line,
        ],
    )
    story.downlink(line, device.take_downlink)
    story.say(
        "LinkCheckAns (3 bytes) and two LinkADRReq (10) fit into FOpts. A third would make 18 "
        "bytes, so it waits. The item leaves after them, in the same frame."
    )


def counters(story, device):
    """How far a counter may be, and a new session."""
    story.part("Counters, and a new session")
    last = device.next_up - 1
    device.next_up = last + 16_385
    story.heard(device.uplink(7, READING, ack=True), 0)
    story.say(f"The last uplink had counter {last}. A counter 16,385 above it is refused (5).")
    request = device.join_request()
    story.heard(request, 1)
    again = session(2, 2)
    line = again.accept(NEAR)
    story.commit(1, [line])
    story.downlink(line, device.take_accept)
    device.next_up = 16_384
    story.heard(device.uplink(7, READING, ack=True), 0)
    device.next_up = 16_383
    story.heard(device.uplink(7, READING, ack=True), 1)
    line = again.downlink(NEAR, 0, f_opts=LINK_ADR_REQ)
    story.commit(1, [told(f"lost {METER} 3"), up(16_383, 7, READING, 1, NEAR, 2), line])
    story.downlink(line, device.take_downlink)
    story.say(
        "The device joins again. The first counter of a session is at most 16,383. With it the "
        "new session is in use. The item of tag 3, which was sent in the old one, is lost, "
        "although the uplink has ACK. The LinkADRReq that waited leaves in the new session, under "
        "its counter 0."
    )


def failing_disk(story):
    """What a failing disk does."""
    story.part("A disk that fails")
    durable = story.made
    story.asks("queue", f"{METER} 4 9 u DD")
    story.line("fail", "armed")
    story.take(1)
    for line, answer in (
        ("take 64", "idle"),
        ("call", "refused 40"),
        ("call", "idle"),
        ("take 64", "refused 41"),
        ("checkpoint", "refused 41"),
        ("release", "idle"),
        ("fail", "armed"),
        ("crash new", "refused 40"),
        ("list", "idle"),
        ("tick 0", "idle"),
        ("crash new", f"opened 1 {durable}"),
        ("take 64", "idle"),
    ):
        story.line(line, answer)
    story.line("list", f"0 {METER} 2 2 16383 1 0 11", f"devices 1 seq {durable}")
    story.say(
        "A device call fails (40). After that the store takes nothing (41) until it is opened "
        "again. The first opening fails, too, and each step after it is idle. The second opening "
        "finds what was durable."
    )


def story():
    """All of it."""
    story = Rules(
        "rules",
        "The rules of FORMATS, tried one by one",
        "This page is for those who build a gateway or an application. It tries what "
        "docs/FORMATS.md says of words, requests, frames, ports, items, counters and a failing "
        "disk, one after another.",
    )
    device = meter()
    words(story)
    requests(story)
    joins(story, device)
    network = session(1, 1)
    ports(story, device, network)
    items(story, device, network)
    items_behind_commands(story, device, network)
    counters(story, device)
    failing_disk(story)
    return story
