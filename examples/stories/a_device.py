"""A device's way, from its provisioning to a repeat of a confirmed uplink."""

from dataclasses import replace

from bozintar.wire import Copy

from .people import B1, B2, B3, METER, listed, meter, provision, session, told, up
from .story import Story

LINK_CHECK = b"\x02"
DEV_STATUS_REQ = b"\x06"
DEV_STATUS_ANS = bytes.fromhex("06FF0A")


def heard_by_three(story, made):
    """A Join-Request and the turn that grants it; what is due at the best gateway."""
    device = meter()
    request = device.join_request()
    far, best, farthest = (
        Copy(B1, snr=-20, rssi=-95, stamp=1_000_000),
        Copy(B2, snr=12, rssi=-80, stamp=5_030_000),
        Copy(B3, snr=-40, rssi=-110, stamp=9_070_000),
    )
    story.hear(1000, far, request, f"turn {made} {made}")
    story.hear(1030, best, request, f"turn {made} {made}")
    story.hear(1070, farthest, request, f"turn {made} {made}")
    story.hear(1090, far, request, f"turn {made} {made} refused 21")
    story.line("tick 1199", f"turn {made} {made}")
    story.line("tick 1200", f"turn {made} {made + 1}")
    story.say(
        "Three gateways hear one Join-Request. The first gateway hands it in twice, and its "
        "second copy is refused (21, SameGateway). The frame's window stays open for 200 ms from "
        "the first copy, so nothing happens at moment 1199. At 1200 the window is closed, and "
        "decision 2 grants the join."
    )
    return device, best


def joins(story):
    """The device is provisioned and joins."""
    story.part("Provisioned")
    story.line("format 00002A 8", "formatted 2166124")
    story.line(provision(0), "turn 0 1")
    story.line(provision(1), "turn 1 1 refused 16")
    story.commit(1, [told(f"provisioned {METER} 0")])
    story.say(
        "Application 3 provisions a device with RX1DROffset 0 and an RX delay of 1 s. That is "
        "decision 1. A second request is refused (16, DevEuiTaken). Once the decision is "
        "committed, the application's line says that the device has slot 0."
    )
    story.part("It joins, and three gateways hear it")
    device, best = heard_by_three(story, 1)
    network = session(1, device.dev_nonce)
    line = network.accept(best)
    story.commit(1, [line])
    story.line("list", f"0 {METER} 1 - - - 0 0", "devices 1 seq 2")
    story.downlink(line, device.take_accept)
    story.say(
        "The Join-Accept goes to gateway B2, which has the greatest SNR, with that gateway's "
        "stamp. It is due in RX1, 5 s after the request, on its frequency and at its data rate, "
        "or in RX2 after 6 s. The list says that JoinNonce 1 was granted and that no session is "
        "in use yet. The new session waits for its first uplink."
    )
    return device, network


def first_uplinks(story, device):
    """The first uplink and a repeat of it."""
    reading = bytes.fromhex("04D2")
    story.part("Its first uplink, and a repeat")
    near = Copy(B1, 867_100_000, 5, 8, -90, 10_000_000)
    far = Copy(B2, 867_100_000, 5, -3, -99, 14_030_000)
    frame = device.uplink(7, reading)
    story.hear(10_000, near, frame, "turn 2 2")
    story.hear(10_050, far, frame, "turn 2 2")
    story.line("tick 10200", "turn 2 3")
    story.commit(1, [up(0, 7, reading, 2, near)])
    story.line("list", *listed(1, 0, 0, 0, 1, 3))
    story.say(
        "Two gateways hear the first uplink, counter 0, with a reading on port 7. It is on 867.1 "
        "MHz, one of the channels that the accept has added. Now the session is in use. The "
        "application gets the payload in clear, with the number of copies and how B1, the best "
        "gateway, heard it. Nothing is due to the device, so no downlink is sent."
    )
    story.hear(12_000, near, frame, "turn 3 3")
    story.line("tick 12200", "turn 3 3")
    story.say(
        "The same frame comes again two seconds later and opens a new window. When that is "
        "closed, the frame is refused (6, Repeat). No line reports it. Only the turn shows it, "
        "which made no decision."
    )


def acked_item(story, device, network):
    """A confirmed item that is acknowledged."""
    story.part("A confirmed item is acknowledged")
    story.line(f"queue 20000 3 {METER} 7001 9 c 0102", "turn 3 4")
    story.line(f"queue 20001 3 {METER} 7001 0 c 0102", "turn 4 4 refused 15")
    story.line(f"queue 20002 4 {METER} 7001 9 c 0102", "turn 4 4 refused 7")
    story.commit(1, [told(f"queued {METER} 7001")])
    story.say(
        "The application queues an item under tag 7001 for port 9, which the device is to "
        "acknowledge. Port 0 is refused (15, BadPort), and so is another application (7, "
        "UnknownDevEui)."
    )
    copy = Copy(B1, 867_900_000, 4, 0, -90, 30_000_000)
    frame = device.uplink(7, bytes.fromhex("04D3"))
    story.hear(30_000, copy, frame, "turn 4 4")
    story.line("tick 30200", "turn 4 5")
    line = network.downlink(copy, 0, (9, bytes.fromhex("0102"), True))
    story.commit(1, [up(1, 7, bytes.fromhex("04D3"), 1, copy), line])
    story.downlink(line, device.take_downlink)
    story.say(
        "The item leaves in the answer to the next uplink. The gateway sends this downlink in "
        "RX1, on the uplink's channel and 1 s after its stamp."
    )
    copy = replace(copy, stamp=40_000_000)
    frame = device.uplink(7, bytes.fromhex("04D4"), ack=True)
    story.hear(40_000, copy, frame, "turn 5 5")
    story.line("tick 40200", "turn 5 6")
    story.commit(1, [told(f"acked {METER} 7001"), up(2, 7, bytes.fromhex("04D4"), 1, copy)])
    story.say("The device's next uplink has the bit ACK: the item of tag 7001 is acknowledged.")


def lost_item(story, device, network):
    """A confirmed item that is lost."""
    story.part("Another one is lost")
    story.line(f"queue 45000 3 {METER} 7002 9 c 0304", "turn 6 7")
    copy = Copy(B1, 867_900_000, 4, 0, -90, 50_000_000)
    frame = device.uplink(7, bytes.fromhex("04D5"))
    story.hear(50_000, copy, frame, "turn 7 7")
    story.line("tick 50200", "turn 7 8")
    line = network.downlink(copy, 1, (9, bytes.fromhex("0304"), True))
    story.commit(2, [told(f"queued {METER} 7002"), up(3, 7, bytes.fromhex("04D5"), 1, copy), line])
    copy = replace(copy, stamp=60_000_000)
    frame = device.uplink(7, bytes.fromhex("04D6"))
    story.hear(60_000, copy, frame, "turn 8 8")
    story.line("tick 60200", "turn 8 9")
    story.commit(1, [told(f"lost {METER} 7002"), up(4, 7, bytes.fromhex("04D6"), 1, copy)])
    story.line("list", *listed(1, 4, 2, 0, 5, 9))
    story.say(
        "The device misses the downlink with the item of tag 7002. Its next uplink has no ACK, so "
        "the item is lost. The item isn't sent again, and counter 1 isn't used again."
    )


def link_check(story, device, network):
    """LinkCheckReq is answered."""
    story.part("LinkCheckReq is answered")
    near = Copy(B1, 868_100_000, 5, 12, -85, 70_000_000)
    far = Copy(B3, 868_100_000, 5, 2, -99, 78_070_000)
    frame = device.uplink(7, bytes.fromhex("04D7"), f_opts=LINK_CHECK)
    story.hear(70_000, near, frame, "turn 9 9")
    story.hear(70_010, far, frame, "turn 9 9")
    story.line("tick 70200", "turn 9 10")
    # margin: (12 + 30) quarter dB above the floor of data rate 5, in whole dB; two gateways
    line = network.downlink(near, 2, f_opts=bytes([0x02, (12 + 30) // 4, 2]))
    story.commit(1, [up(5, 7, bytes.fromhex("04D7"), 2, near), line])
    story.downlink(line, device.take_downlink)
    story.say(
        "The device asks how well it is heard (LinkCheckReq, 02). The answer is 02, the margin of "
        "the best copy, and the number of gateways, 2. The best copy has an SNR of 3 dB, above a "
        "floor of -7.5 dB, so the margin is 10 whole dB. The application gets no line for this "
        "command."
    )


def mac_command(story, device, network):
    """A MAC command is queued and answered."""
    near = Copy(B1, 868_100_000, 5, 12, -85, 80_000_000)
    story.part("A MAC command is queued and answered")
    story.line(f"mac 75000 3 {METER} 06", "turn 10 11")
    story.line(f"mac 75001 3 {METER} 02", "turn 11 11 refused 18")
    frame = device.uplink(None, b"")
    story.hear(80_000, near, frame, "turn 11 11")
    story.line("tick 80200", "turn 11 12")
    line = network.downlink(near, 3, f_opts=DEV_STATUS_REQ)
    story.commit(2, [told(f"macqueued {METER} 06"), line])
    story.downlink(line, device.take_downlink)
    story.say(
        "The application queues DevStatusReq (06). It may not queue 02 (18, BadMac). The device "
        "sends an empty uplink without a port. The application gets no line for it, but the "
        "command leaves in FOpts."
    )
    near = replace(near, stamp=90_000_000)
    frame = device.uplink(7, bytes.fromhex("04D8"), f_opts=DEV_STATUS_ANS)
    story.hear(90_000, near, frame, "turn 12 12")
    story.line("tick 90200", "turn 12 13")
    story.commit(1, [told(f"mac {METER} 1 06FF0A"), up(7, 7, bytes.fromhex("04D8"), 1, near)])
    story.say(
        "The device answers: battery FF, unknown, and an SNR of 10 dB. The application gets this."
    )


def repeats(story, device, network):
    """A confirmed uplink, and a repeat of it."""
    story.part("A confirmed uplink comes again")
    copy = Copy(B2, 868_300_000, 0, -70, -120, 4_291_900_000)
    frame = device.uplink(7, bytes.fromhex("04D9"), confirmed=True)
    story.hear(100_000, copy, frame, "turn 13 13")
    story.line("tick 100200", "turn 13 14")
    line = network.downlink(copy, 4, ack=True)
    story.commit(1, [up(8, 7, bytes.fromhex("04D9"), 1, copy), line])
    story.say("A confirmed uplink is forwarded and acknowledged by a downlink, which is lost.")
    again = Copy(B2, 868_500_000, 0, -70, -120, 4_294_900_000)
    story.hear(103_000, again, frame, "turn 14 14")
    story.line("tick 103200", "turn 14 15")
    line = network.downlink(again, 5, ack=True)
    story.commit(1, [line])
    story.line("list", *listed(1, 8, 6, 0, 9, 15))
    story.downlink(line, device.take_downlink)
    story.say(
        "So the device sends the frame again, on another channel. The frame is acknowledged under "
        "a new counter, 5, and isn't forwarded again. RX1 is 1 s after the stamp. In between the "
        "gateway's clock goes back to 0."
    )


def story():
    """All of it."""
    story = Story(
        "a-device",
        "A device's way",
        "A meter is provisioned, joins, sends readings, and gets items and MAC commands. Some "
        "frames are lost, and some come again. The power stays on.",
    )
    device, network = joins(story)
    first_uplinks(story, device)
    acked_item(story, device, network)
    lost_item(story, device, network)
    link_check(story, device, network)
    mac_command(story, device, network)
    repeats(story, device, network)
    return story
