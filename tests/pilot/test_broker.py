"""How much a bridge holds of what comes by MQTT."""

import asyncio
from types import SimpleNamespace
from typing import Any

from bozintar.broker import LONGEST, MOST_BYTES, Access, Broker
from bozintar.words import Address

TOPIC = "a/topic"
ROOM = MOST_BYTES // (LONGEST + len(TOPIC))


def message(length: int, retain: bool = False) -> Any:
    """A message of the library, with a payload of this length."""
    return SimpleNamespace(topic=TOPIC, payload=bytes(length), retain=retain)


async def held() -> tuple[list[int], list[int]]:
    """The lengths that are read of many messages that come while the loop does something else, and
    of more later; and how many were dropped each time."""
    lengths: list[int] = []
    take = lambda _topic, payload: lengths.append(len(payload))
    broker, dropped = Broker(Access((Address("h", 1),)), "one", [], take, is_kept=False), []
    for length in [LONGEST] * (ROOM + 5) + [LONGEST + 1]:
        broker.on_message(None, None, message(length))
    dropped.append(broker.dropped())
    await asyncio.sleep(0.01)
    broker.on_message(None, None, message(LONGEST))
    broker.on_message(None, None, message(3, retain=True))
    await asyncio.sleep(0.01)
    return lengths, [*dropped, broker.dropped()]


def test_bytes_that_wait() -> None:
    """Eight mebibytes wait at most, and no message of more than 64 KiB."""
    assert 8 * 2**20 - LONGEST <= ROOM * LONGEST < 8 * 2**20
    assert asyncio.run(held()) == ([LONGEST] * (ROOM + 1), [6, 1])
