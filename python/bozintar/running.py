"""A program for asyncio that runs until a signal ends it, and what other threads give to its event
loop."""

import asyncio
import signal
import threading
from collections.abc import Callable, Coroutine, Iterable
from typing import Any, TypeVar

T = TypeVar("T")


def on_signals(numbers: Iterable[int], what: Callable[[], Any]) -> None:
    """Lets the event loop do something whenever one of these signals comes. asyncio's own handlers
    share one pipe with all that other threads have for the loop, and lose a signal if that is
    full."""
    loop = asyncio.get_running_loop()

    def came(*_: Any) -> None:
        if not loop.is_closed():
            loop.call_soon_threadsafe(what)

    for number in numbers:
        signal.signal(number, came)


async def until_told(work: Coroutine) -> None:
    """Runs a coroutine until it ends, or SIGTERM or SIGINT comes; a second signal cuts short what
    it does at its end."""
    task = asyncio.ensure_future(work)
    on_signals((signal.SIGTERM, signal.SIGINT), task.cancel)
    try:
        await task
    except asyncio.CancelledError:
        pass


async def within(seconds: float, work: Coroutine[Any, Any, T]) -> T:
    """The result of a coroutine, or TimeoutError if it takes longer. asyncio.wait_for loses a
    cancellation that comes as the work ends, before Python 3.12, so that a program goes on."""
    task = asyncio.ensure_future(work)
    try:
        await asyncio.wait({task}, timeout=seconds)
        if not task.done():
            raise asyncio.TimeoutError
        return task.result()
    finally:
        task.cancel()


class Handover:
    """Gives things from another thread to `take`, in the event loop that this was made in. The
    loop is woken up once for all that wait: it can't be woken up much more often than it looks,
    since wake-ups wait in a pipe of some hundred places."""

    def __init__(self, take: Callable[[list], None]):
        self.take, self.loop = take, asyncio.get_running_loop()
        self.lock = threading.Lock()
        self.waiting: list[Any] = []

    def give(self, thing: Any) -> None:
        """Gives one, in any thread."""
        with self.lock:
            self.waiting.append(thing)
            is_first = len(self.waiting) == 1
        if is_first:
            try:
                self.loop.call_soon_threadsafe(self.look)
            except RuntimeError:
                pass  # the loop has ended

    def look(self) -> None:
        """Takes all that wait."""
        self.take(self.rest())

    def rest(self) -> list:
        """All that wait, which then don't any more."""
        with self.lock:
            found, self.waiting = self.waiting, []
        return found
