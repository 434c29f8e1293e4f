"""What trials wait for in place of a time: a clock that they move, and a server that is at rest."""

import ctypes
import fcntl
import mmap
import os
import re
import signal
import termios
import time
from collections.abc import Callable, Iterator, Sequence
from contextlib import contextmanager, suppress
from glob import glob
from pathlib import Path

from bozintar.links import Link
from bozintar.processes import await_that
from bozintar.server import Program

# a clock, its program, what each read and each write of 1,024 descriptors has seen, and its thread
Words = ctypes.c_int64 * (2 + 4 * 1024)
SLEEPS = re.compile(r"\nState:\t(.).*\nvoluntary_ctxt_switches:\t([0-9]+)", re.DOTALL)


class Clock:
    """The clock of servers in the environment `how`, as the comment on preloads.CLOCK says."""

    def __init__(self, with_disk: Callable[..., dict[str, str]], file: Path):
        self.file, self.how = file, with_disk(CLOCK=file)
        file.write_bytes(bytes(Words()))
        with file.open("r+b") as opened:
            self.words = Words.from_buffer(mmap.mmap(opened.fileno(), 0))
        self.stands()

    def begins(self) -> None:
        """It stands still, for another server: no read or write has seen it yet."""
        self.words[1:] = [0] * (len(self.words) - 1)
        self.stands()

    def stands(self, is_so: bool = True) -> None:
        """It stands still from now on, or runs as the system's clock."""
        self.words[0] = time.monotonic_ns() if is_so else 0

    def moves(self, seconds: float) -> None:
        """Moves the clock on. All reads and writes that wait have seen it then."""
        self.words[0] += round(seconds * 1e9)
        await_that("all have seen the clock", self.is_seen)

    def is_seen(self) -> bool:
        """Wakes the threads that haven't seen the clock, and the closer; whether all have that are
        still there."""
        seen, threads = self.words[2:2050], self.words[2050:]
        late = {str(thread) for at, thread in zip(seen, threads) if at not in (0, self.words[0])}
        there = list(map(Path, glob(f"/proc/{self.words[1]}/task/*")))
        for task in there:
            with suppress(OSError):
                if task.name in late or (task / "comm").read_text() == "closer\n":
                    ctypes.CDLL(None).tgkill(self.words[1], int(task.name), signal.SIGURG)
        return late.isdisjoint(task.name for task in there)

    def passes(self, seconds: float, server: Program, links: Sequence[Link]) -> None:
        """Moves the clock on, once the server has done all that it does before that."""
        await_rest(server, links)
        self.moves(seconds)


def sleeps(server: Program) -> list[tuple[str, str]]:
    """The state of each thread of a server, and how often it has gone to sleep."""
    found: list[tuple[str, str]] = []
    for file in glob(f"/proc/{server.running().pid}/task/*/status"):
        with suppress(OSError):
            found += SLEEPS.findall(Path(file).read_text("ascii"))
    return found


def await_rest(server: Program, links: Sequence[Link] = ()) -> None:
    """Waits until all that was said on these links has come to the server, and all its threads
    slept at one moment, since none has woken between two looks. Or the server has ended."""

    def rests() -> bool:
        unsent = [any(fcntl.ioctl(link.socket, termios.TIOCOUTQ, bytes(4))) for link in links]
        before = sleeps(server)
        sleep = before == sleeps(server) and all(state == "S" for state, _ in before)
        return server.running().poll() is not None or sleep and not any(unsent)

    await_that("the server is at rest", rests)


@contextmanager
def held_syncs(server: Program) -> Iterator[None]:
    """Locks a server's folder meanwhile: if that is HELD_SYNCS, the server's syncs wait."""
    lock = os.open(server.folder, os.O_RDONLY)
    try:
        fcntl.flock(lock, fcntl.LOCK_EX)
        yield
    finally:
        os.close(lock)


@contextmanager
def stepped_syncs(pipe: Path) -> Iterator[Callable[[], None]]:
    """If this pipe is HELD_SYNCS of a server, each sync waits meanwhile. What this yields lets the
    one go that waits, as long as the server is at rest. Later ones wait at a new pipe."""
    new, old = pipe.with_suffix(".new"), pipe.with_suffix(".old")

    def step() -> None:
        os.mkfifo(new)
        os.link(pipe, old)
        new.rename(pipe)
        os.close(os.open(old, os.O_WRONLY | os.O_NONBLOCK))
        old.unlink()

    os.mkfifo(pipe)
    yield step
    pipe.rename(old)
    os.close(os.open(old, os.O_WRONLY | os.O_NONBLOCK))
