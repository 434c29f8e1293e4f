"""What a link of a bridge does with what is heard while the network doesn't read, and when it is
opened again."""

import asyncio
from collections.abc import AsyncIterator
from types import SimpleNamespace
from typing import Any

import pytest
from bozintar import lasting, oracle, wire
from bozintar.lasting import Link
from bozintar.words import Address

# how long links last, or None for a try after which there is none; and the pauses after these, in
# seconds
PAUSES: tuple = (
    ("restarts nine seconds apart", (9, 9, 9, 9), (1, 1, 1, 1)),
    ("restarts that take some seconds", (9, None, None, 9, None, 9), (1, 2, 2, 1, 2, 1)),
    ("restarts that are seen twice", (9, None, 6, None, 6, None, 6), (1, 2, 1, 2, 1, 2, 1)),
    ("a server that is away for long", (100, None, None, None, None), (1, 2, 2, 2, 2)),
    ("no server yet", (None, None, None), (1, 2, 2)),
    (
        "a second client, after equal pauses",
        (1, 1, 2, 4, 8, 16),
        (1, 2, 4, 8, 16, 1),
    ),
    ("places that are all taken", (0, 0, 0, 0, 0, 0, 0, 11), (1, 2, 4, 8, 16, 30, 30, 1)),
    ("a server that goes away meanwhile", (0, 0, 0, None, 0, 0), (1, 2, 4, 2, 1, 2)),
)

# what these links bring
CONTENTS: tuple[bytes, ...] = ()


class Slow:
    """A link's network that doesn't read while `size` bytes wait for it."""

    def __init__(self) -> None:
        self.size, self.said, self.transport, self.has_ended = 0, b"", self, False

    def get_write_buffer_size(self) -> int:
        """As of a transport."""
        return self.size

    def is_closing(self) -> bool:
        """As of a transport."""
        return self.has_ended

    def write(self, said: bytes) -> None:
        """As of a transport."""
        self.said += said


@pytest.fixture
def slow() -> Any:
    """A network that reads, until its `size` is set."""
    return Slow()


@pytest.fixture
def link(slow: Any) -> Link:
    """A link to it."""
    made = Link("one", Address("h", 1), oracle.message(b""))
    made.writer = slow
    return made


def test_slow_network(link: Link, slow: Any) -> None:
    """What is heard while the network doesn't read is handed in once it does, and before others.
    Nothing is sent after the link's end."""
    for size, said in ((0, b"1"), (10**6, b"2"), (10**6, b"3"), (0, b"4")):
        slow.size = size
        is_now = link.say_soon(wire.framed(said))
        assert is_now == (size == 0), f"{said!r} is sent now"
    assert slow.said == b"\0\x011\0\x012\0\x013\0\x014", "all that was said"
    assert link.caught_up == 2, "and how much of it later"
    link.is_ending = True
    assert not link.say(b"late")


@pytest.mark.parametrize("pause, is_said", ((0.0, True), (1.9, True), (2.1, False), (1800, False)))
def test_old_frame(
    link: Link, slow: Any, pause: float, is_said: bool, monkeypatch: pytest.MonkeyPatch
) -> None:
    """What was heard two seconds ago is of no use any more."""
    now = 1000.0
    monkeypatch.setattr(link, "clock", lambda: now)
    slow.size = 10**6
    assert not link.say_soon(b"old")
    now, slow.size = now + pause, 0
    assert link.say_soon(b"new")
    assert slow.said == (b"oldnew" if is_said else b"new")
    assert link.caught_up == is_said


def test_judge(link: Link, slow: Any, monkeypatch: pytest.MonkeyPatch) -> None:
    """What isn't let through isn't sent, and doesn't wait. What waited is judged when it is sent,
    with the moment when it was meant to be."""
    now, judged = 0.0, dict[bytes, tuple]()
    monkeypatch.setattr(link, "clock", lambda: now)
    link.judge = lambda said, *of: judged.setdefault(said, of) is of and said != b"2"
    for now, slow.size, said in (5, 0, b"1"), (6, 9**9, b"2"), (7, 9**9, b"3"), (7.5, 0, b"4"):
        link.say_soon(said)
    assert slow.said == b"134"
    due = {b"1": (5, 5), b"2": (6, 7.5), b"3": (7, 7.5), b"4": (7.5, 7.5)}
    assert judged == {said: (*row, slow) for said, row in due.items()}


def test_most_frames(link: Link, slow: Any) -> None:
    """The newest 64 wait."""
    slow.size = 10**6
    for number in range(100):
        link.say_soon(bytes([number]))
    slow.size = 0
    link.catch_up()
    assert slow.said == bytes(range(36, 100))


@pytest.mark.parametrize(
    "tries, pauses", [row[1:] for row in PAUSES], ids=[row[0] for row in PAUSES]
)
def test_pauses(tries: tuple, pauses: tuple, monkeypatch: pytest.MonkeyPatch) -> None:
    """After how long a link is opened again: soon, unless it was closed soon."""
    now, left, came = 1000.0, list(tries), []
    link = Link("one", Address("h", 1), b"")

    async def of_one() -> AsyncIterator[bytes]:
        nonlocal now
        lasts = left.pop(0) if left else 0
        if lasts is None:
            raise ConnectionRefusedError("nobody listens")
        link.opened += 1
        now += lasts
        for content in CONTENTS:
            yield content

    async def sleep(seconds: float) -> None:
        nonlocal now
        now += seconds
        came.append(seconds)
        link.is_ending = not left

    monkeypatch.setattr(lasting, "time", SimpleNamespace(monotonic=lambda: now))
    monkeypatch.setattr(lasting, "asyncio", SimpleNamespace(sleep=sleep, TimeoutError=TimeoutError))
    monkeypatch.setattr(link, "of_one", of_one)

    async def read() -> None:
        async for _ in link.contents():
            pass

    asyncio.run(read())
    assert tuple(came) == pauses
