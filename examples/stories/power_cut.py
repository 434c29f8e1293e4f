"""Power cuts at each moment of a commit: what the device sees when it sends again."""

from bozintar.wire import Copy

from .people import B1, METER, listed, meter, provision, session, told, up
from .story import Story

COPY = Copy(B1)


def joined(story):
    """A meter that has joined and sent one uplink, all durable: decisions 1 to 3."""
    device = meter()
    story.part("Before")
    story.line("format 00002A 8", "formatted 2166124")
    story.line(provision(0), "turn 0 1")
    story.hear(1000, COPY, device.join_request(), "turn 1 1")
    story.line("tick 1200", "turn 1 2")
    network = session(1, device.dev_nonce)
    line = network.accept(COPY)
    story.commit(2, [told(f"provisioned {METER} 0"), line])
    story.downlink(line, device.take_accept)
    reading = bytes.fromhex("04D2")
    story.hear(9000, COPY, device.uplink(7, reading), "turn 2 2")
    story.line("tick 9200", "turn 2 3")
    story.commit(1, [up(0, 7, reading, 1, COPY)])
    story.say(
        "A meter is provisioned, joins, and sends its first uplink, as in `first-uplink`. "
        "Decisions 1 to 3 are durable, and their effects have left."
    )
    return device, network


def sent(story, frame, moment, made):
    """The device sends a frame, which is decided."""
    story.hear(moment, COPY, frame, f"turn {made} {made}")
    story.line(f"tick {moment + 200}", f"turn {made} {made + 1}")


def cut_before_the_gate(story, frame):
    """The power is cut five times, each at another moment before the gate's write."""
    story.part("A confirmed uplink, cut five times")
    sent(story, frame, 20_000, 3)
    story.take(1)
    story.line("crash new", "opened 1 3")
    story.say("The decision is taken, but no device call was made. After the cut it is gone.")
    cuts = [
        (1, "old", "The batch is written but not synced. The disk kept nothing of it."),
        (1, "new", "The batch is written but not synced. The disk kept all. Its gate is closed."),
        (
            1,
            "fill",
            "The batch is written but not synced. The disk has A5 everywhere the batch was "
            "written. That includes the next batch's gate, which reads open. But the batch's own "
            "gate is closed, and nothing after a closed gate is read.",
        ),
        (2, "fill", "The batch is written and synced, so it is kept. Its gate is closed."),
    ]
    for calls, image, words in cuts:
        sent(story, frame, 500, 0)
        story.take(1)
        story.call(calls)
        story.line(f"crash {image}", "opened 1 3")
        story.say(f"The device got no answer and sends again. {words} Decision 4 is gone.")


def before_the_gate():
    """Cuts while the batch is written and synced."""
    story = Story(
        "power-cut-before-gate",
        "The power is cut before a batch's gate is open",
        "A commit is four device calls: the batch is written after a closed gate, the batch is "
        "synced, the gate is opened, and the gate is synced. If the power is cut before the gate "
        "is opened, the batch doesn't count, however much of it the disk kept. Nothing of it had "
        "left. So the device may send its frame again, as if it had never been heard.",
    )
    device, network = joined(story)
    reading = bytes.fromhex("04D3")
    frame = device.uplink(7, reading, confirmed=True)
    cut_before_the_gate(story, frame)
    story.part("At last the power stays on")
    sent(story, frame, 500, 0)
    line = network.downlink(COPY, 0, ack=True)
    story.commit(1, [up(1, 7, reading, 1, COPY), line])
    story.line("list", *listed(1, 1, 1, 0, 2, 4))
    story.downlink(line, device.take_downlink)
    story.say(
        "The sixth time the commit is complete. The application gets the reading once, and the "
        "device gets its acknowledgement under counter 0, which no frame had before."
    )
    return story


def gate_lost_or_kept(story, device, network):
    """The disk lost the gate, and then it kept it."""
    story.part("The disk lost the gate")
    frame = device.uplink(7, bytes.fromhex("04D3"), confirmed=True)
    sent(story, frame, 20_000, 3)
    story.take(1)
    story.call(3)
    story.line("crash old", "opened 1 3")
    story.say("The gate reads as before, so decision 4 is gone. The device sends again.")
    story.part("The disk kept the gate")
    sent(story, frame, 500, 0)
    story.take(1)
    story.call(3)
    story.line("crash new", "opened 1 4")
    story.line("list", *listed(1, 1, 1, 0, 2, 4))
    story.say(
        "Now the gate is open, and decision 4 is there. Its effects are the reading and an answer "
        "with counter 0. Neither has left, and neither will. Both counters are used up and won't "
        "be used again. The application never gets this reading from the network: forwarding is "
        "at most once."
    )
    sent(story, frame, 500, 0)
    line = network.downlink(COPY, 1, ack=True)
    story.commit(1, [line])
    story.downlink(line, device.take_downlink)
    story.say(
        "The device sends again. The network knows the frame, so it doesn't forward it. It "
        "acknowledges the frame under counter 1."
    )


def at_the_gate():
    """Cuts between the gate's write and its sync."""
    story = Story(
        "power-cut-at-gate",
        "The power is cut between a batch's gate and its sync",
        "The gate is one byte. If it was written and not synced, the disk may have kept it or "
        "not. So the batch is there or it isn't. Either is safe, since nothing leaves before the "
        "last sync.",
    )
    device, network = joined(story)
    gate_lost_or_kept(story, device, network)
    story.part("The disk filled the gate")
    frame = device.uplink(7, bytes.fromhex("04D4"), confirmed=True)
    sent(story, frame, 20_000, 1)
    story.take(1)
    story.call(3)
    story.line("crash fill", "opened 1 6")
    sent(story, frame, 500, 0)
    line = network.downlink(COPY, 3, ack=True)
    story.commit(1, [line])
    story.line("list", *listed(1, 2, 4, 0, 3, 7))
    story.downlink(line, device.take_downlink)
    story.say(
        "A disk that leaves A5 in the byte leaves an open gate. So this is as above: decision 6 "
        "is there, counter 2 is used up without a frame, and the repeat is acknowledged under "
        "counter 3."
    )
    return story


def cut_before_the_release(story, device, network):
    """The batch is durable, and nothing of it was released."""
    story.part("Before the release")
    frame = device.uplink(7, bytes.fromhex("04D3"), confirmed=True)
    sent(story, frame, 20_000, 4)
    story.take(1)
    story.call(4)
    story.line("crash old", "opened 1 5")
    story.line("emit", "idle")
    story.line("list", *listed(1, 1, 1, 0, 2, 5))
    story.say(
        "The effects of decision 5 are the reading 04D3 and the item. Both are lost with the cut: "
        "the queue is empty, and counter 0 is used up. An unconfirmed item is sent at most once."
    )
    sent(story, frame, 500, 0)
    line = network.downlink(COPY, 1, ack=True)
    story.commit(1, [line])
    story.downlink(line, device.take_downlink)
    story.say("The device sends again. It is acknowledged under counter 1.")


def cut_after_the_release(story, device, network):
    """The batch is released, and nothing of it has left."""
    story.part("After the release, before anything is emitted")
    reading = bytes.fromhex("04D4")
    frame = device.uplink(7, reading, confirmed=True)
    sent(story, frame, 20_000, 1)
    story.take(1)
    story.call(4)
    story.line("release", "released 2")
    story.line("crash new", "opened 1 7")
    story.line("emit", "idle")
    sent(story, frame, 500, 0)
    line = network.downlink(COPY, 3, ack=True)
    story.commit(1, [line])
    story.downlink(line, device.take_downlink)
    story.say(
        "Effects that were released and weren't emitted when the power is cut never are. The "
        "repeat is acknowledged under counter 3. The lost answer had counter 2."
    )


def cut_once_told(story, device, network):
    """One effect of the batch has left, and the other hasn't."""
    story.part("The application has its line, the device has no answer yet")
    reading = bytes.fromhex("04D5")
    frame = device.uplink(7, reading, confirmed=True)
    sent(story, frame, 20_000, 1)
    story.take(1)
    story.call(4)
    story.line("release", "released 2")
    story.line("emit", up(3, 7, reading, 1, COPY))
    story.line("crash fill", "opened 1 9")
    sent(story, frame, 500, 0)
    line = network.downlink(COPY, 5, ack=True)
    story.commit(1, [line])
    story.line("list", *listed(1, 3, 6, 0, 4, 10))
    story.downlink(line, device.take_downlink)
    story.say(
        "The application has the reading 04D5, and doesn't get it a second time. The device gets "
        "its acknowledgement under counter 5."
    )


def after_the_commit():
    """Cuts once the batch is durable."""
    story = Story(
        "power-cut-after-commit",
        "The power is cut once a batch is durable",
        "After the fourth device call the batch is durable: it is in every image that a cut may "
        "leave. Its effects may be released then. Effects that weren't emitted when the power is "
        "cut never are.",
    )
    device, network = joined(story)
    story.line(f"queue 10000 3 {METER} 9 9 u 0102", "turn 3 4")
    story.commit(1, [told(f"queued {METER} 9")])
    story.say("The application queues an unconfirmed item under tag 9: decision 4.")
    cut_before_the_release(story, device, network)
    cut_after_the_release(story, device, network)
    cut_once_told(story, device, network)
    return story


def join_cut_twice(story, device):
    """Cuts before and after the gate of a join is open; the second request."""
    story.part("Cut before the gate is open")
    request = device.join_request()
    sent(story, request, 1000, 1)
    story.take(1)
    story.call(2)
    story.line("crash new", "opened 1 1")
    story.line("list", f"0 {METER} 0 - - - 0 0", "devices 1 seq 1")
    story.say(
        "Decision 2 granted JoinNonce 1 for DevNonce 1. It is gone, and nothing of it had left."
    )
    story.part("Cut after the gate is open")
    request = device.join_request()
    sent(story, request, 1000, 0)
    story.take(1)
    story.call(3)
    story.line("crash new", "opened 1 2")
    story.line("list", f"0 {METER} 1 - - - 0 0", "devices 1 seq 2")
    story.say(
        "The device got no accept, and asks again with DevNonce 2. JoinNonce 1 is granted and "
        "kept, but its accept never leaves."
    )
    return request


def join_again(story, device, request):
    """The request that was granted comes again, and a new one."""
    story.part("The same request again, and a new one")
    story.hear(1000, COPY, request, "turn 0 0")
    story.line("tick 1200", "turn 0 0")
    story.say("The request of DevNonce 2 is replayed. It is refused (9, DevNonceUsed).")
    request = device.join_request()
    sent(story, request, 2000, 0)
    network = session(2, device.dev_nonce)
    line = network.accept(COPY)
    story.commit(1, [line])
    story.downlink(line, device.take_accept)
    story.say("The device asks with DevNonce 3, and gets JoinNonce 2.")
    reading = bytes.fromhex("04D2")
    sent(story, device.uplink(7, reading), 9000, 1)
    story.commit(1, [up(0, 7, reading, 1, COPY, 2)])
    story.line("list", *listed(2, 0, 0, 0, 1, 4, 2))
    story.say(
        "The device sends its first uplink in that session. The application gets the payload with "
        "JoinNonce 2."
    )


def of_a_join():
    """Cuts while joins are granted."""
    story = Story(
        "power-cut-join",
        "The power is cut while a device joins",
        "If an accept left and its JoinNonce were granted again, two sessions would have one "
        "name. If the DevNonce were accepted twice, too, they would have the same keys. A power "
        "cut can cause neither.",
    )
    device = meter()
    story.line("format 00002A 8", "formatted 2166124")
    story.line(provision(0), "turn 0 1")
    story.commit(1, [told(f"provisioned {METER} 0")])
    story.say("The meter is provisioned: decision 1.")
    request = join_cut_twice(story, device)
    join_again(story, device, request)
    return story
