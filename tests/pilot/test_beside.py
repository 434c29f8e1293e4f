"""Bridges beside a network that is played: what applications ask for under ids, what a bridge does
at its end, and what a gateway's bridge does if something around it fails."""

import json
import signal
import socket
import subprocess
import sys
import time
from collections.abc import Callable, Iterator
from typing import TextIO

import pytest
from bozintar.forwarders import Air, Forwarder
from bozintar.processes import HOST, PATIENCE, Process, await_that

from .field import GATEWAYS, counts_in
from .networks import End, Network
from .parts import PILOT, Parts
from .played import EUI, FIRST, SECOND, SLOW, Bridge, gateways, nobody_reads, rxpk, up

# downlinks at a time: more than four bits can number
MANY = 40
# as many wake-ups as a busy loop of events may find waiting, and then a signal
BUSY = """import asyncio, os, signal, sys, time
from bozintar.running import until_told
async def busy():
    for _ in range(2000):
        asyncio.get_running_loop().call_soon_threadsafe(int)
    os.kill(os.getpid(), signal.SIGTERM)
    await asyncio.sleep(60)
    print("goes on")
asyncio.run(until_told(busy()))
"""


@pytest.fixture
def bridge(parts: Parts, network: Network) -> Iterator[Bridge]:
    """The bridge of an application."""
    made = Bridge(parts, network)
    yield made
    made.dashboard.end()


def test_ids_of_two_devices(bridge: Bridge) -> None:
    """Items of two devices under one id: a number is the tag of both."""
    for text in ("41", "x"):
        tags = [bridge.queued(device, text) for device in (FIRST, SECOND)]
        assert (tags == ["41", "41"]) == (text == "41"), f"tags of {text}"
        bridge.link.tell(*(f"acked {dev} {tag}" for dev, tag in zip((FIRST, SECOND), tags)))
    for device in (FIRST, SECOND):
        came = [body["queueItemId"] for body in bridge.events("ack", device, 2)]
        assert came == ["41", "x"], f"what {device} acknowledged"


@pytest.mark.parametrize("report", ("acked", "lost"))
@pytest.mark.parametrize("text", ("42", "x"))
def test_id_that_comes_again(bridge: Bridge, text: str, report: str) -> None:
    """An id that is in use isn't asked for again, which an event says; it is once the device has
    acknowledged the item, or hasn't."""
    ask = lambda: bridge.dashboard.down(FIRST, fPort=7, data="AA==", id=text, confirmed=True)
    ask()
    tag = bridge.link.asked()[2]
    bridge.link.tell(f"queued {FIRST} {tag}")
    ask()
    log = bridge.events("log")[0]
    assert (log["code"], log["context"]["queue_item_id"]) == ("ID_IN_USE", text)
    bridge.link.tell(f"{report} {FIRST} {tag}")
    assert bridge.events("ack")[0]["queueItemId"] == text
    ask()
    assert bridge.link.asked()[:2] == ["queue", FIRST], "what is asked next"


def test_queue_that_cant_be_flushed(bridge: Bridge) -> None:
    """A command that asks for the queue to be flushed isn't queued, which an event says."""
    bridge.dashboard.down(FIRST, fPort=7, data="AA==", id="x", flushQueue=True)
    log = bridge.events("log")[0]
    assert (log["code"], log["context"]["queue_item_id"]) == ("FLUSH_QUEUE", "x")
    bridge.dashboard.down(FIRST, fPort=7, data="AA==", id="x", flushQueue=False)
    assert bridge.link.asked()[:2] == ["queue", FIRST]


def test_name_of_another_client(bridge: Bridge) -> None:
    """A link that the network closes soon may have lost its name to another client: this is logged
    once, and counted."""
    for _ in range(3):
        bridge.link.close()
        bridge.link = bridge.network.link()
    assert (
        bridge.part.said().count("another client may use this name, or it isn't in the list") == 1
    )
    assert bridge.part.end() == 0
    assert counts_in(bridge.file)["applications_mqtt_closed_soon"] >= 2


def test_return_of_a_link(bridge: Bridge) -> None:
    """A network that is away for some tries is logged once, and so is its return."""
    at = bridge.network.listener.getsockname()
    bridge.network.listener.close()
    bridge.link.close()
    time.sleep(2.0)
    before = len(bridge.part.said())
    bridge.network.listener = socket.create_server(at)
    bridge.link = bridge.network.link()
    await_that("its return is logged", lambda: "linked to" in bridge.part.said()[before:])


def test_mac_commands(bridge: Bridge) -> None:
    """MAC commands are queued, or refused, and an event says which."""
    topic = f"application/3/device/{FIRST.lower()}/command/mac"
    for answer in (f"macqueued {FIRST} 06", "refused 13"):
        bridge.dashboard.say(topic, b'{"commands":"06","id":"%s"}' % answer[:3].encode())
        assert bridge.link.asked() == ["mac", FIRST, "06"]
        bridge.link.tell(answer)
    queued = bridge.events("macqueued")[0]
    assert (queued["queueItemId"], queued["commands"]) == ("mac", "06")
    log = bridge.events("log")[0]
    assert (log["code"], log["context"]["queue_item_id"]) == ("MAC_QUEUE_FULL", "ref")


def test_status_beside_an_answer(bridge: Bridge) -> None:
    """A DevStatusAns in the same uplink as a LinkADRAns has an event of its own."""
    bridge.link.tell(f"mac {FIRST} 5 0307068014")
    assert bridge.events("mac")[0]["commands"] == "0307068014"
    assert bridge.events("status")[0]["margin"] == 20


def test_ids_over_a_kill(parts: Parts, network: Network) -> None:
    """A bridge that is killed knows the ids of commands afterwards, if it keeps them in a file."""
    bridge = Bridge(parts, network, "--ids", parts.file("ids.db"))
    with bridge.dashboard:
        bridge.dashboard.down(FIRST, fPort=7, data="AA==", id="uuid-abc", confirmed=True)
        tag = bridge.link.asked()[2]
        bridge.link.tell(f"queued {FIRST} {tag}")
        bridge.events("queued")
        bridge.part.kill()
        bridge.link.close()
        bridge.link = bridge.start()
        bridge.dashboard.down(FIRST, fPort=7, data="AA==", id="uuid-abc", confirmed=True)
        assert bridge.events("log")[0]["code"] == "ID_IN_USE"
        bridge.link.tell(f"acked {FIRST} {tag}")
        assert bridge.events("ack")[0]["queueItemId"] == "uuid-abc"


def test_labels_of_counts(bridge: Bridge) -> None:
    """No count has the name and labels of another application's."""
    assert bridge.part.end() == 0
    with open(bridge.file, encoding="utf-8") as counts:
        bare = [line for line in counts if line[0] != "#" and '{application="3"} ' not in line]
    assert bare == []


@pytest.mark.parametrize(
    "line, code", (("refused 12", "QUEUE_FULL"), ("refused", "REFUSED"), ("refused x", "REFUSED"))
)
def test_refused_item(bridge: Bridge, line: str, code: str) -> None:
    """What the network refuses, in any words, may be asked for again."""
    for count in (1, 2):
        bridge.dashboard.down(FIRST, fPort=7, data="AA==", id="y")
        assert bridge.link.asked()[:2] == ["queue", FIRST]
        bridge.link.tell(line)
        body = bridge.events("log", count=count)[-1]
        assert body["code"].startswith(code) and body["level"] == "ERROR"
        assert body["context"]["queue_item_id"] == "y"


def test_answer_with_a_word_more(bridge: Bridge) -> None:
    """An answer that says more than its format has is the answer all the same."""
    bridge.dashboard.down(FIRST, fPort=7, data="AA==", id="more")
    bridge.link.tell(" ".join(["queued", *bridge.link.asked()[1:3], "more"]))
    assert bridge.events("queued")[-1]["queueItemId"] == "more"


def test_unanswered_item(bridge: Bridge) -> None:
    """An item whose link ended before its answer may be asked for again. If it waits all the same,
    its events have its id."""
    bridge.dashboard.down(FIRST, fPort=7, data="AA==", id="z")
    tag = bridge.link.asked()[2]
    bridge.link.close()
    bridge.link = bridge.network.link()
    assert bridge.events("log")[-1]["code"] == "UNANSWERED"
    assert bridge.queued(FIRST, "z") != tag, "it is asked for again"
    bridge.link.tell(f"queued {FIRST} {tag}", f"acked {FIRST} {tag}")
    for kind, count in (("queued", 2), ("ack", 1)):
        assert bridge.events(kind, count=count)[-1]["queueItemId"] == "z", f"whose {kind} it is"


def test_answer_for_another_item(bridge: Bridge) -> None:
    """An answer of an earlier link, which comes first, isn't the answer for an item."""
    bridge.dashboard.down(FIRST, fPort=7, data="AA==", id="x")
    assert bridge.link.asked()[:2] == ["queue", FIRST]
    bridge.link.tell(f"queued {FIRST} 77", "refused 12")
    log = bridge.events("log")[-1]
    assert (log["code"], log["context"]["queue_item_id"]) == ("QUEUE_FULL", "x")
    assert [body["queueItemId"] for body in bridge.events("queued")] == ["77"]


def test_command_while_away(bridge: Bridge) -> None:
    """The broker keeps commands that come while the bridge is away."""
    bridge.part.send_signal(signal.SIGTERM)
    bridge.link.hears()
    bridge.link.close()
    assert bridge.part.ended() == 0
    bridge.dashboard.down(FIRST, fPort=7, data="AA==", id="41")
    bridge.link = bridge.start()
    assert bridge.link.asked()[:3] == ["queue", FIRST, "41"]


def ends_well(bridge: Bridge, *lines: str) -> None:
    """Ends the bridge by SIGTERM; these lines come on its link then."""
    bridge.part.send_signal(signal.SIGTERM)
    assert bridge.link.hears() is None, "the end of its link"
    bridge.link.tell(*lines)
    bridge.link.close()
    assert bridge.part.ended() == 0


def test_end(bridge: Bridge) -> None:
    """On SIGTERM a bridge reads what is in its link; a later run has other tags."""
    tag = int(bridge.queued(FIRST, "x"))
    bridge.link.tell(*map(up, range(300)))
    ends_well(bridge, *map(up, range(300, 305)))
    bridge.events("up", count=305)
    counters = [body["fCnt"] for body in bridge.dashboard.of(FIRST, "up")]
    assert counters == list(range(305)), "readings that came"
    bridge.link = bridge.start()
    apart = abs(int(bridge.queued(FIRST, "later")) - tag)
    assert apart > 1000, "a tag of a later run isn't near an earlier one's"


def test_commands_at_the_end(bridge: Bridge) -> None:
    """What becomes of commands that wait at the end is published and counted."""
    for text in "abcd":
        bridge.dashboard.down(FIRST, fPort=7, data="AA==", id=text)
    bridge.link.asked()
    ends_well(bridge)
    logs = bridge.events("log", count=4)
    came = [(body["context"]["queue_item_id"], body["code"]) for body in logs]
    due = [("a", "UNANSWERED"), ("b", "ENDED"), ("c", "ENDED"), ("d", "ENDED")]
    assert sorted(came) == due
    counts = counts_in(bridge.file)
    names = ("commands_dropped", "unanswered")
    assert [counts[f"applications_mqtt_{name}"] for name in names] == [3, 1], names


def test_broker_that_hangs(parts: Parts, network: Network) -> None:
    """A broker that takes nothing: a command waits for its answer, and the end is cut short."""
    after = "program.PATIENCE, program.LEAVING, counts.EVERY = 0.5, 600, 0.1"
    bridge = Bridge(parts, network, "--room", "5", after=f"from bozintar import counts; {after}")
    waiting = lambda: counts_in(bridge.file)["applications_mqtt_waiting"]
    with bridge.dashboard:
        bridge.dashboard.down(FIRST, fPort=7, data="AA==", id="x")
        tag = bridge.link.asked()[2]
        bridge.broker.send_signal(signal.SIGSTOP)
        bridge.link.tell(*map(up, range(50)), f"queued {FIRST} {tag}")
        await_that("five wait, and the others in the link", lambda: waiting() == 5)
        assert bridge.link.hears(1.5) == b"nothing", "its link meanwhile"
        bridge.broker.send_signal(signal.SIGCONT)
        bridge.events("queued")
        assert len(bridge.events("up", count=50)) == 50
        await_that("the broker has them", lambda: waiting() == 0)
        bridge.broker.send_signal(signal.SIGSTOP)
        bridge.link.tell(*map(up, range(50, 53)))
        await_that("the bridge has read them", lambda: waiting() == 3)
        bridge.part.send_signal(signal.SIGTERM)
        assert bridge.link.hears() is None, "the end of its link"
        bridge.link.close()
        time.sleep(0.3)
        assert bridge.part.poll() is None, "it waits for the broker"
        bridge.part.send_signal(signal.SIGTERM)
        assert bridge.part.ended() == 0
        assert "3 events are lost" in bridge.part.said()
        bridge.broker.send_signal(signal.SIGCONT)


def test_busy_loop() -> None:
    """A signal that comes while a loop of events has much to do is heard."""
    ended = subprocess.run(
        [sys.executable, "-c", BUSY],
        cwd=PILOT.parent / "python",
        capture_output=True,
        text=True,
        check=False,
    )
    assert (ended.returncode, ended.stdout, ended.stderr) == (0, "", "")


@pytest.fixture
def more_words() -> tuple[str, ...]:
    """More options of the gateways' bridge."""
    return ()


@pytest.fixture
def part(parts: Parts, network: Network, more_words: tuple[str, ...]) -> Process:
    """The bridge of gateways by UDP."""
    words = ("--gateway", GATEWAYS[0], "--counts", parts.file("gateways.prom"), *more_words)
    return gateways(parts, network.at, *words, after=parts.clock.line, ready="listens on")


@pytest.fixture
def forwarder(parts: Parts, part: Process) -> Iterator[Forwarder]:
    """A gateway that comes by it."""
    made = Forwarder(GATEWAYS[0], parts.udp_port)
    yield made
    made.close()


@pytest.fixture
def link(forwarder: Forwarder, network: Network) -> Iterator[End]:
    """Its link."""
    forwarder.look()
    made = network.link()
    yield made
    made.close()


def counted(parts: Parts, part: Process, *names: str) -> list[int]:
    """What the bridge counted until its end."""
    assert part.end() == 0
    counts = counts_in(parts.file("gateways.prom"))
    return [counts[f"gateways_udp_{name}"] for name in names]


def test_frames_of_one_datagram(forwarder: Forwarder, link: End) -> None:
    """Frames of one datagram are handed in as they came, and one of two channels once."""
    assert link.greeting == b"\x00" + EUI
    heard = [rxpk(1, b"older", 1), rxpk(2, b"newer", 7), rxpk(2, b"newer", 9), rxpk(3, b"x", 2)]
    forwarder.say(0, json.dumps({"rxpk": heard}).encode())
    contents = [link.hears() or b"" for _ in range(3)]
    came = [(int.from_bytes(one[14:16], "big"), one[22:]) for one in contents]
    assert came == [(4, b"older"), (36, b"newer"), (8, b"x")]


def downlink_after(link: End, payload: bytes = bytes(12)) -> bytes:
    """A downlink after the frame that comes on a link."""
    stamp = (link.hears() or b"")[18:22]
    return b"\x11" + EUI + stamp + bytes.fromhex("33BE27A0 05 05 06") + payload


WINDOWS = {
    "": 1,
    "TOO_LATE": 2,
    "COLLISION_PACKET": 2,
    "COLLISION_BEACON": 2,
    "TX_FREQ": 2,
    "TX_POWER": 2,
    "TOO_EARLY": 1,
    "GPS_UNLOCKED": 1,
}


@pytest.mark.parametrize("more_words", [("--power", "14", "--rx2-power", "27")])
def test_second_window(forwarder: Forwarder, link: End) -> None:
    """If RX1 can't be sent in, RX2 is tried: it's later, on another frequency, with a power of its
    own. A moment that is too far away isn't nearer in RX2."""
    air = Air([forwarder], [])
    for error, windows in WINDOWS.items():
        forwarder.hears(bytes(12))
        forwarder.told.clear()
        forwarder.errors.append(error)
        link.say(downlink_after(link))
        air.go_on(PATIENCE, lambda: len(forwarder.told) == windows)
        forwarder.await_read()
        powers = [told["powe"] for told in forwarder.told]
        assert powers == [14, 27][:windows], f"windows after {error}"


def test_second_window_is_the_last(
    forwarder: Forwarder, link: End, parts: Parts, part: Process
) -> None:
    """A downlink that can't be sent in RX2 either isn't tried again."""
    forwarder.hears(bytes(12))
    forwarder.errors.extend(["TOO_LATE"] * 10)
    link.say(downlink_after(link))
    Air([forwarder], []).go_on(PATIENCE, lambda: len(forwarder.told) == 2)
    forwarder.await_read()
    assert len(forwarder.told) == 2
    assert counted(parts, part, "in_rx2", "not_sent", "sent") == [1, 1, 0]


def test_answer_that_comes_twice(
    forwarder: Forwarder, link: End, parts: Parts, part: Process
) -> None:
    """If a TX_ACK comes twice, RX2 is tried once."""
    forwarder.hears(bytes(12))
    link.say(downlink_after(link))
    forwarder.down.settimeout(PATIENCE)
    while (data := forwarder.down.recv(65536))[3] != 3:
        pass
    for _ in range(2):
        forwarder.say(5, b'{"txpk_ack":{"error":"TOO_LATE"}}', int.from_bytes(data[1:3], "big"))
    forwarder.await_read()
    assert counted(parts, part, "in_rx2", "unasked_acks") == [1, 1]


def test_many_downlinks_at_once(forwarder: Forwarder, link: End) -> None:
    """Each downlink has a token of its own, so that each answer is of one."""
    tokens: set[bytes] = set()
    for _ in range(MANY):
        forwarder.hears(bytes(12))
        link.say(downlink_after(link))
    forwarder.down.settimeout(PATIENCE)
    while len(tokens) < MANY:
        data = forwarder.down.recv(65536)
        if data[3] == 3:
            assert data[1:3] not in tokens, "a token that waits for its answer"
            tokens.add(data[1:3])


def test_downlink_of_another_clock(
    forwarder: Forwarder, link: End, parts: Parts, part: Process
) -> None:
    """A downlink whose gateway has begun its clock anew is sent at no moment of the new one, and
    the next one is sent."""
    forwarder.hears(bytes(12))
    downlink = downlink_after(link)
    forwarder.restart(begins=2_000_000_000)
    forwarder.look()
    forwarder.hears(bytes(12))
    link.say(downlink, downlink_after(link))
    Air([forwarder], []).go_on(PATIENCE, lambda: forwarder.told)
    forwarder.await_read()
    assert [told["tmst"] for told in forwarder.told] == [forwarder.stamp + 5_000_000]
    assert counted(parts, part, "clocks_begun_anew", "out_of_time") == [1, 1]


def test_silent_gateway(
    forwarder: Forwarder, link: End, network: Network, parts: Parts, part: Process
) -> None:
    """The address of a gateway that is silent isn't used any more: once it hears a frame, it has to
    ask for downlinks first."""
    parts.clock.go_on(121)  # a gateway is silent after 120 s
    await_that("it is silent", lambda: "is silent" in part.said())
    assert link.hears() is None
    forwarder.hears(bytes(12))
    later = network.link()
    later.say(downlink_after(later))
    await_that("a downlink is lost", lambda: part.has_said("hasn't asked for downlinks"))
    forwarder.await_read()
    assert forwarder.told == []
    assert counted(parts, part, "not_pulled") == [1]


def next_link(network: Network, forwarder: Forwarder, seconds: float = 20.0) -> End:
    """The next link, of a gateway that asks until it is there."""
    last = time.monotonic() + seconds
    while True:
        forwarder.say(2)
        try:
            return network.link(0.3)
        except TimeoutError:
            if time.monotonic() > last:
                raise


@pytest.mark.parametrize(
    "output", (nobody_reads, lambda: open("/dev/full", "w")), ids=("a pipe", "a full disk")
)
def test_output_that_cant_be_written(
    parts: Parts, network: Network, output: Callable[[], TextIO]
) -> None:
    """What a program prints can't be written: its gateways are linked, and linked again."""
    at = ("--network", network.at, "--udp", f"{HOST}:{parts.udp_port}")
    words = (sys.executable, str(PILOT / "gateways-udp"), *at, "--gateway", GATEWAYS[0])
    with output() as file:
        program = subprocess.Popen(words, stdout=file, stderr=subprocess.PIPE, text=True)
        try:
            forwarder = Forwarder(GATEWAYS[0], parts.udp_port)
            next_link(network, forwarder).close()
            next_link(network, forwarder).close()
        finally:
            program.terminate()
            said = program.communicate(timeout=20)[1]
    assert (program.returncode, said) == (0, "")


def test_end_while_a_name_is_looked_up(parts: Parts) -> None:
    """A name server that says nothing for a minute doesn't delay the end; a list of gateways may
    begin with a byte order mark."""
    named = ("--gateways", parts.file("gateways", f"\ufeff{GATEWAYS[0]}\r\n"))
    part = gateways(parts, "slow.example:1", *named, before=SLOW, ready="for 1 gateways")
    Forwarder(GATEWAYS[0], parts.udp_port).say(2)
    time.sleep(0.3)
    assert part.end() == 0


def test_too_many_gateways(parts: Parts) -> None:
    """It says how many there may be."""
    named = [word for number in range(65) for word in ("--gateway", f"{number:016X}")]
    part = gateways(parts, "127.0.0.1:1", *named, ready="for 65 gateways")
    assert " 64 " in part.said()


def test_end_without_a_broker(parts: Parts) -> None:
    """Neither the network nor a broker is there."""
    words = ("--network", "127.0.0.1:1", "--broker", "127.0.0.1:1", "--application", "3")
    part = parts.own("applications-mqtt", *words).start("no link to")
    await_that("it says so", lambda: part.has_said("no broker at"))
    assert part.end() == 0
