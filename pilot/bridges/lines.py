"""Files with a line for each thing."""

import asyncio
from collections.abc import Callable, Generator
from typing import TypeVar

T = TypeVar("T")
# what reads a file piece by piece, and returns what is in it
Reading = Generator[None, None, T]
# lines of a piece, which takes a few milliseconds
PIECE = 1000


def each(file: str, take: Callable[[str], None]) -> Reading[None]:
    """Gives each line that has something to `take`, without its comment, which begins with #. A
    `ValueError` of `take` names the file and the line."""
    with open(file, encoding="utf-8-sig", errors="replace") as lines:
        for place, line in enumerate(lines, 1):
            if bare := line.partition("#")[0].strip():
                try:
                    take(bare)
                except ValueError as why:
                    raise ValueError(f"{file}, line {place}: {why}") from None
            if not place % PIECE:
                yield


def table(file: str, entry: Callable[[str], tuple[str, T]]) -> Reading[dict[str, T]]:
    """The entries of a file's lines by their names, each of which is there once."""
    found: dict[str, T] = {}

    def take(line: str) -> None:
        name, value = entry(line)
        if name in found:
            raise ValueError(f"{name} is listed twice")
        found[name] = value

    yield from each(file, take)
    return found


def read(reading: Reading[T]) -> T:
    """Reads a whole file."""
    while True:
        try:
            next(reading)
        except StopIteration as end:
            return end.value


async def read_on(reading: Reading[T]) -> T:
    """Reads a whole file while the event loop goes on with other work. (A thread would slow that
    down more: it takes the interpreter for 5 ms after each call of the system.)"""
    while True:
        try:
            next(reading)
        except StopIteration as end:
            return end.value
        await asyncio.sleep(0)
