"""Items that wait: one that is too long for the data rate is reported, and so are wrong commands."""

import pytest
from bridges.waiting import Waiting

from .networks import Network
from .parts import Parts
from .played import FIRST, Bridge, up

# the most bytes of payload at DR0 to DR5 (RP002, EU863-870)
ROOM = {0: 51, 1: 51, 2: 51, 3: 115, 4: 242, 5: 242}


def queue(tag: int, size: int, kind: str = "u") -> str:
    """A request for an item."""
    return f"queue {FIRST} {tag} 7 {kind} {'00' * size or '-'}"


@pytest.mark.parametrize("rate", ROOM)
@pytest.mark.parametrize("offset", (0, 2))
def test_rooms(rate: int, offset: int) -> None:
    """The data rate of RX1 is lower than the uplink's by the offset, and says what fits."""
    room = ROOM[max(0, rate - offset)]
    for more in (0, 1):
        waiting = Waiting(2, lambda _: offset)
        waiting.add(queue(1, room + more))
        found = [waiting.hear(FIRST, rate) for _ in range(4)]
        assert [bool(of) for of in found] == [False, room + more not in ROOM.values(), False, False]


def test_order() -> None:
    """The first item alone is looked at, once the one before it is sent or its end is known."""
    waiting = Waiting(1, lambda _: 0)
    for tag, size, kind in ((1, 1, "u"), (2, 9, "c"), (3, 9, "c"), (4, 0, "u"), (5, 200, "c")):
        waiting.add(queue(tag, size, kind))
    assert [waiting.hear(FIRST, 3) for _ in range(4)] == [None] * 4
    waiting.take(FIRST, 2)
    waiting.take(FIRST, 9)
    assert waiting.hear(FIRST, 3) is None
    waiting.take(FIRST, 3)
    assert waiting.hear(FIRST, 3) is None
    found = waiting.hear(FIRST, 3)
    assert found and found.item.tag == 5
    assert found.description == (
        "the item has been first for 1 uplinks: it has 200 bytes, and 115 fit at DR3. Those after "
        "it wait, too"
    )


def test_blocked(parts: Parts, network: Network) -> None:
    """An item that is too long for the data rate is queued, and after three uplinks an event names
    the limit, and a number counts it. It goes on waiting."""
    bridge = Bridge(parts, network, "--blocked", 3)
    bridge.dashboard.down(FIRST, fPort=7, data="AAAA" * 50, confirmed=True, id="long")
    _, _, tag, *_ = bridge.link.asked()
    bridge.link.tell(f"queued {FIRST} {tag}")
    bridge.events("queued")
    for counter in range(5):
        bridge.link.tell(up(counter).replace(" 868100000 5 ", " 868100000 3 "))
    bridge.events("up", count=5)
    (found,) = bridge.events("log")
    assert found["code"] == "ITEM_TOO_LONG" and found["context"] == {"queue_item_id": "long"}
    assert "it has 150 bytes, and 115 fit at DR3" in found["description"]
    bridge.part.end()
    assert "blocked 1" in bridge.part.said()


WRONG = {
    b"{": "no JSON",
    b"[]": "no object",
    b'{"id":"41","fPort":7,"data":"%"}': "data is no base64",
    b'{"id":"41","fPort":256,"data":""}': "fPort is no number from 0 to 255",
}


def test_wrong_commands(parts: Parts, network: Network) -> None:
    """Each command that isn't one is an event with the reason, and its id if that can be read. The
    log has a line a minute."""
    bridge = Bridge(parts, network)
    topic = f"application/3/device/{FIRST.lower()}/command"
    for body in WRONG:
        bridge.dashboard.say(f"{topic}/down", body)
    bridge.dashboard.say(f"{topic}/mac", b'{"commands":"0"}')
    found = bridge.events("log", count=len(WRONG) + 1)
    assert {of["code"] for of in found} == {"BAD_COMMAND"}
    assert [of["context"]["queue_item_id"] for of in found] == ["", "", "41", "41", ""]
    assert [of["description"] for of in found[:-1]] == list(WRONG.values())
    assert bridge.part.said().count("that isn't one") == 1
