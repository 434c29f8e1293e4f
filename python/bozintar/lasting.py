"""A link to the network, for asyncio, that is opened again whenever it has ended."""

import asyncio
import socket
import time
from collections import deque
from collections.abc import AsyncIterator, Callable

from . import wire
from .links import refuse_itself
from .logs import Seldom, log
from .lookups import connected
from .running import within
from .words import Address

# seconds between two tries: the first, and the longest, to which they double
PAUSES = (1.0, 30.0)
CLOSED = "the network has closed it"
# after how long a link counts as well again, and how long a connection may take, in seconds
LASTING, PATIENCE = 10.0, 5.0
# how many bytes may wait for a network that doesn't read: what is heard is of no use later
MOST_WAITING = 65536
# what is heard while no link takes it is sent on the first that does, if it is younger, in seconds.
# So while nobody listens there, tries are no further apart
LATEST, MOST_EARLY = 2.0, 64
# a link that lasted this many times as long as the pause before it counts as well, too: two clients
# of one name end each other's links after a pause
STEADY = 4
# a link has no signs of life, so the system asks for them
KEEPALIVE = ((socket.TCP_KEEPIDLE, 60), (socket.TCP_KEEPINTVL, 15), (socket.TCP_KEEPCNT, 4))

# whether a message is sent: it, when it was meant to be sent, now, and where it goes
Judge = Callable[[bytes, float, float, asyncio.WriteTransport], bool]


class Link:
    """The link of one name: what is sent while there is none is refused, and what comes is read
    on. Messages are sent, if `judge` lets them, and contents are read."""

    # how long messages wait is measured by it
    clock: Callable[[], float] = staticmethod(time.monotonic)

    def __init__(
        self,
        name: str,
        address: Address,
        greeting: bytes,
        pauses: tuple[float, float] = PAUSES,
        judge: Judge = lambda *_: True,
    ):
        self.judge = judge
        self.name, self.address, self.greeting, self.pauses = name, address, greeting, pauses
        self.writer: asyncio.StreamWriter | None = None
        self.opened, self.is_ending = 0, False
        # a link that comes and goes is logged at most once a minute; its return, if its end was
        self.seldom, self.is_logged = Seldom(), True
        # what is sent as soon as a link takes it, with when it was meant to; and how much was
        self.early: deque[tuple[float, bytes]] = deque(maxlen=MOST_EARLY)
        self.caught_up = 0
        # links that the network closed soon, as it does if another client takes the name
        self.closed_soon = 0

    def say(self, message: bytes, meant: float = 0.0) -> bool:
        """Sends a message, if `judge` lets it; whether there was a link that takes it."""
        if not self.writer or self.is_ending:
            return False
        transport = self.writer.transport
        if transport.is_closing() or transport.get_write_buffer_size() > MOST_WAITING:
            return False
        if self.judge(message, meant, self.clock(), transport):
            transport.write(message)
        return True

    def say_soon(self, message: bytes) -> bool:
        """Sends a message now, or as soon as a link takes it, if that isn't long; whether it was
        now. What waits is sent before it, since an older message is of no use after it."""
        if self.early:
            self.catch_up()
        now = self.clock()
        is_said = not self.early and self.say(message, now)
        if not is_said:
            self.early.append((now, message))
        return is_said

    def catch_up(self) -> None:
        """Sends what waited for a link, if one takes it now."""
        last = self.clock() - LATEST
        while self.early:
            moment, message = self.early[0]
            if moment > last and not self.say(message, moment):
                return
            self.early.popleft()
            self.caught_up += moment > last

    def end_well(self) -> bool:
        """Ends what this end sends: what comes is read on until the network closes the link, which
        is the last one. Whether there is a link."""
        if not self.writer or self.writer.is_closing():
            return False
        try:
            self.writer.write_eof()
        except OSError:
            return False  # it is broken already
        self.is_ending = True
        return True

    def end(self) -> None:
        """Breaks the link off, if there is one."""
        if self.writer:
            self.writer.transport.abort()

    async def contents(self) -> AsyncIterator[bytes]:
        """What comes over all links of this name, one after the other, until one of them was ended
        well."""
        clock, self.is_logged, pause, was_away = time.monotonic, True, 0.0, False
        while True:
            begun, opened = clock(), self.opened
            try:
                async for content in self.of_one():
                    yield content
                why = CLOSED
            except (OSError, asyncio.TimeoutError, wire.NoMessage) as fault:
                why = str(fault) or "nothing answers"
            if self.is_ending:
                return
            lasted = clock() - begun
            if why == CLOSED and lasted <= LASTING:
                self.closed_soon += 1
                why += "; another client may use this name, or it isn't in the list of names"
            is_linked = self.opened > opened
            # a server that was away has ended the link before, and not another client
            pause = self.next_pause(0.0 if was_away and is_linked else pause, lasted, is_linked)
            was_away = not is_linked
            text = f"{self.name}: no link to {self.address}, again in {pause:.1f} s: {why}"
            self.is_logged |= self.seldom.warn(why, text)
            await asyncio.sleep(pause)

    def next_pause(self, pause: float, lasted: float, was_linked: bool) -> float:
        """The pause after a try, of which this was the pause before: whether it made a link, and
        how long that lasted."""
        first, longest = self.pauses
        if was_linked and lasted > min(LASTING, STEADY * pause):
            return first
        most = longest if was_linked else min(LATEST, longest)
        return min(max(first, 2 * pause), most)

    async def of_one(self) -> AsyncIterator[bytes]:
        """What comes over one link."""
        connection = await within(PATIENCE, connected(self.address))
        reader, writer = await asyncio.open_connection(sock=connection)
        try:
            self.prepare(writer.get_extra_info("socket"))
            writer.write(self.greeting)
            self.writer, self.opened = writer, self.opened + 1
            if self.is_logged:
                log(f"{self.name}: linked to {self.address}")
            self.is_logged = False
            self.catch_up()
            frames = wire.Frames()
            while piece := await reader.read(65536):
                for content in frames.feed(piece):
                    yield content
        finally:
            self.writer = None
            writer.close()

    @staticmethod
    def prepare(connection: socket.socket) -> None:
        """Lets the system find out if the other end is gone without a word."""
        refuse_itself(connection)
        connection.setsockopt(socket.SOL_SOCKET, socket.SO_KEEPALIVE, 1)
        for option, value in KEEPALIVE:
            connection.setsockopt(socket.IPPROTO_TCP, option, value)
