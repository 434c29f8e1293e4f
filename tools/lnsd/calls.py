"""The calls that a program made of its disk, as tools/preloads.py logs them, and the images that a
power cut after each of them may leave."""

import struct
from collections.abc import Callable, Sequence
from dataclasses import dataclass
from itertools import product
from pathlib import Path

# of this many unsynced writes each subset may have reached the disk; of more all, or none
FEW = 4
# a place, and the bytes that were written there
Write = tuple[int, bytes]


@dataclass(frozen=True)
class Call:
    """A write with its place and bytes, or another call; and where it ends in the log."""

    kind: bytes
    place: int
    content: bytes
    end: int

    @property
    def is_write(self) -> bool:
        """Whether it is a write."""
        return self.kind == b"w"


def logged(path: str | Path) -> list[Call]:
    """The calls in a log."""
    with open(path, "rb") as file:
        log = file.read()
    calls, at, head = [], 0, struct.Struct("=cqI")
    while at < len(log):
        kind, place, length = head.unpack_from(log, at)
        at += head.size + length
        calls.append(Call(kind, place, log[at - length : at], at))
    return calls


def kinds_of(log: str | Path) -> str:
    """The kinds of the calls in a log, of which this many writes in a row count once."""
    kinds = b"".join(call.kind for call in logged(log)).decode()
    return "".join(
        kind for place, kind in enumerate(kinds) if kind != "w" or kinds[place - 1 : place] != "w"
    )


class Disk:
    """A disk: what it held at the last sync, and the writes since."""

    def __init__(self, content: bytes) -> None:
        self.synced = bytes(content)
        self.writes: list[Write] = []

    def make(self, call: Call) -> None:
        """One more call was made."""
        if call.is_write:
            self.writes.append((call.place, call.content))
        else:
            self.synced, self.writes = self.with_writes(self.writes), []

    def with_writes(self, writes: Sequence[Write]) -> bytes:
        """What was synced, with these writes after it."""
        content = bytearray(self.synced)
        for place, written in writes:
            content[place : place + len(written)] = written
        return bytes(content)

    def subsets(self) -> list[list[Write]]:
        """Which of the writes may have reached the disk; a half of the last one may, too."""
        *before, (place, written) = self.writes
        last = [(place, written), (place, written[: len(written) // 2]), (place, b"")]
        chosen: list[list[Write]] = [before, []]
        if len(self.writes) <= FEW:
            picks = product((True, False), repeat=len(before))
            chosen = [[write for write, is_in in zip(before, pick) if is_in] for pick in picks]
        return [[*some, end] for some in chosen for end in last]

    def filled(self, value: Callable[[int], int]) -> bytes:
        """What was synced, with these values at every byte that was written."""
        places = ((place, range(place, place + len(written))) for place, written in self.writes)
        return self.with_writes([(place, bytes(map(value, each))) for place, each in places])

    def images(self) -> set[bytes]:
        """All that a power cut may leave now, each once: every subset of the writes, and at every
        byte that was written A5, or the low eight bits of its place."""
        if not self.writes:
            return {self.synced}
        found = {self.with_writes(writes) for writes in self.subsets()}
        return found | {self.filled(lambda _: 0xA5), self.filled(lambda place: place & 0xFF)}
