"""The shortest story with a radio frame and a power cut in it."""

from bozintar.wire import Copy

from .people import B1, METER, listed, meter, provision, session, told, up
from .story import Story

NEAR = Copy(B1)
READING = bytes.fromhex("04D2")


def joins(story):
    """The device is provisioned and joins."""
    story.part("The device joins")
    story.line("format 00002A 8", "formatted 2166124")
    story.line(provision(0), "turn 0 1")
    story.say(
        "The first line makes a store for network 00002A and 8 devices, on a disk in memory. "
        "Application 3 provisions its device, a meter: decision 1."
    )
    device = meter()
    request = device.join_request()
    story.hear(1000, NEAR, request, "turn 1 1")
    story.line("tick 1200", "turn 1 2")
    story.say(
        "A gateway heard a Join-Request on 868.1 MHz at data rate 5. Other gateways may have "
        "heard it, too, so the network waits for 200 ms. Then decision 2 grants the join."
    )
    granted = session(1, device.dev_nonce)
    line = granted.accept(NEAR)
    story.commit(2, [told(f"provisioned {METER} 0"), line])
    story.downlink(line, device.take_accept)
    story.say(
        "Four device calls commit both decisions. They write them, sync them, mark them as valid "
        "by one byte, the gate, and sync that byte. Only then do the effects leave: the "
        "application gets its line, and the gateway gets the Join-Accept."
    )
    return device


def cut_off(story, uplink):
    """Its first uplink is decided, and the power is cut."""
    story.part("The power is cut")
    story.hear(9000, NEAR, uplink, "turn 2 2")
    story.line("tick 9200", "turn 2 3")
    story.say(
        "The device sends its first uplink, counter 0, with the reading 04D2 on port 7: decision "
        "3."
    )
    story.take(1)
    story.call(2)
    story.line("crash new", "opened 1 2")
    story.say(
        "The power is cut when the decision is written and synced, and before its gate is open. "
        "The store opens with one device and with decision 2. Decision 3 is gone, and nothing of "
        "it had left."
    )


def sends_again(story, uplink):
    """The same frame again."""
    story.part("The device sends the frame again")
    story.hear(500, NEAR, uplink, "turn 0 0")
    story.line("tick 700", "turn 0 1")
    story.commit(1, [up(0, 7, READING, 1, NEAR)])
    story.line("list", *listed(1, 0, 0, 0, 1, 3))
    story.say(
        "Moments and turns begin anew after a crash. The same frame is accepted, since the store "
        "has no uplink of this session yet. The application gets the reading for the first and "
        "only time. The list has the session of JoinNonce 1, with last uplink counter 0 and next "
        "downlink counter 0, no waiting item, one new uplink, and decision 3."
    )


def story():
    """A device joins, and the power is cut while its first uplink is being kept."""
    story = Story(
        "first-uplink",
        "A first uplink, and a power cut",
        "A device joins and sends its first payload. The power is cut while the network writes "
        "that to its disk. The device sends the frame again, and the application gets the payload "
        "once.",
    )
    device = joins(story)
    uplink = device.uplink(7, READING)
    cut_off(story, uplink)
    sends_again(story, uplink)
    return story
