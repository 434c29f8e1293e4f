"""Requests of other programs on this machine, over a Unix socket: so AppKeys needn't go over the
broker, whose other clients may see them."""

import asyncio
import os
import re
from collections.abc import Awaitable, Callable

from bozintar.local import listener
from bozintar.logs import log

from .application_events import refusal

# a request of docs/FORMATS.md, and which of its words its answer repeats
REQUESTS = {"provision": ("provisioned", 1), "queue": ("queued", 2), "mac": ("macqueued", 2)}
LINE = re.compile(r"[0-9A-Za-z -]{1,640}")
BAD_MESSAGE, UNANSWERED = "refused 51", "unanswered"
# a device can't be provisioned, since no claim says in which of several stores
UNCLAIMED = "unclaimed"
# nor can one if the network doesn't know devices that it had
HELD = "held"
# asks the network for a line, whose answer begins so; None if none came
Ask = Callable[[str, str], Awaitable[str | None]]


def due_of(line: str) -> str | None:
    """How the answer to a request begins; None if the line is no request."""
    kind, *words = line.split(" ")
    if kind not in REQUESTS or not LINE.fullmatch(line):
        return None
    answer, count = REQUESTS[kind]
    return " ".join([answer, *words[:count]]) if len(words) >= count else None


def probe_of(device: str) -> str:
    """A request that is refused for its port if the application has this device."""
    return f"queue {device} 0 0 u -"


def is_there(answer: str | None) -> bool:
    """Whether the answer to a probe says that the application has the device."""
    return answer is not None and refusal(answer)[0] == "BAD_PORT"


class Asks:
    """The socket. Each line that comes is asked for, one at a time, and answered by a line: the
    network's, or `unanswered` if the link ended before it. (It may have been done then.) With many
    stores a device that is claimed for none is answered `unclaimed`. While the network doesn't know
    devices that it had, each device is answered `held`."""

    def __init__(self, path: str, ask: Ask):
        self.path, self.ask = path, ask

    async def answer(self, line: str) -> str:
        """The answer to a line."""
        due = due_of(line)
        return (await self.ask(line, due) or UNANSWERED) if due else BAD_MESSAGE

    async def attend(self, reader: asyncio.StreamReader, writer: asyncio.StreamWriter) -> None:
        """Answers one client, until it ends."""
        try:
            while line := await reader.readline():
                answer = await self.answer(line.decode("ascii").rstrip("\n"))
                writer.write(f"{answer}\n".encode("ascii"))
                await writer.drain()
        except (OSError, ValueError):
            pass  # the client has ended, or sends something else than lines
        finally:
            writer.close()

    async def serve(self) -> None:
        """Serves without end."""
        server = await asyncio.start_unix_server(self.attend, sock=listener(self.path))
        log(f"takes requests by {self.path}")
        try:
            await server.serve_forever()
        finally:
            if os.path.exists(self.path):
                os.unlink(self.path)
