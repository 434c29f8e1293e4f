"""Links to the network: TCP connections over which a gateway or an application talks. These wait
for what comes; `lasting` has links for asyncio, which are opened again and again."""

import socket
import time
from collections import deque
from typing import Any, TypeVar

from . import wire

# how long a client tries to be linked, and waits for an answer, in seconds: a machine that does
# much else may take long
PATIENCE = 30.0
L = TypeVar("L", bound="Link")


class Ended(Exception):
    """The other end has closed the link."""


class Silent(Exception):
    """Nothing came in time."""


def refuse_itself(connection: socket.socket) -> None:
    """If nobody listens on a port of this machine, TCP may connect the port with itself: then
    nobody is there."""
    if connection.getsockname() == connection.getpeername():
        raise ConnectionRefusedError("nobody listens there")


def connected(
    address: tuple[str, int], patience: float = PATIENCE, room: int | None = None
) -> socket.socket:
    """A connection, once somebody listens there. `room` is what it holds unread, in bytes."""
    last = time.monotonic() + patience
    while True:
        connection = socket.socket(socket.AF_INET6 if ":" in address[0] else socket.AF_INET)
        try:
            if room:
                connection.setsockopt(socket.SOL_SOCKET, socket.SO_RCVBUF, room)
            connection.settimeout(max(0.1, last - time.monotonic()))
            connection.connect(address)
            refuse_itself(connection)
            connection.setsockopt(socket.IPPROTO_TCP, socket.TCP_NODELAY, 1)
            return connection
        except OSError:
            connection.close()
        if time.monotonic() >= last:
            raise Silent(f"nobody listens on {address[0]}:{address[1]}")
        time.sleep(0.01)


class Link:
    """One end of a link: it sends bytes of messages, and reads contents."""

    def __init__(
        self,
        address: tuple[str, int],
        greeting: bytes = b"",
        patience: float = PATIENCE,
        room: int | None = None,
    ):
        self.patience = patience
        self.socket = connected(address, patience, room)
        self.frames = wire.Frames()
        self.contents: deque[bytes] = deque()
        self.is_over = False
        # how many bytes were sent
        self.said = 0
        if greeting:
            self.say(greeting)

    def say(self, said: bytes) -> None:
        """Sends bytes."""
        try:
            self.socket.settimeout(self.patience)
            self.socket.sendall(said)
        except TimeoutError:
            raise Silent("the network doesn't read") from None
        except OSError:
            raise Ended("the network has closed the link") from None
        self.said += len(said)

    def more(self, patience: float) -> bool:
        """Waits for a piece; whether one came, and not the end."""
        self.socket.settimeout(max(patience, 0.001))
        try:
            piece = self.socket.recv(65536)
        except TimeoutError:
            raise Silent("nothing came in time") from None
        except OSError:
            piece = b""
        self.contents.extend(self.frames.feed(piece))
        self.is_over = not piece
        return not self.is_over

    def read(self, patience: float | None = None) -> bytes:
        """The next content."""
        last = time.monotonic() + (self.patience if patience is None else patience)
        while not self.contents:
            if self.is_over or not self.more(last - time.monotonic()):
                raise Ended("the network has closed the link")
        return self.contents.popleft()

    def rest(self, patience: float | None = None) -> list[bytes]:
        """All contents until the network closes the link."""
        last = time.monotonic() + (self.patience if patience is None else patience)
        while not self.is_over:
            self.more(last - time.monotonic())
        left = list(self.contents)
        self.contents.clear()
        return left

    def end(self) -> None:
        """Ends what this end sends. What comes can be read on."""
        try:
            self.socket.shutdown(socket.SHUT_WR)
        except OSError:
            pass

    def reset(self) -> None:
        """Breaks the link off, so that the other end gets a reset."""
        self.socket.setsockopt(socket.SOL_SOCKET, socket.SO_LINGER, b"\1\0\0\0\0\0\0\0")
        self.socket.close()

    def close(self) -> None:
        """Closes the link."""
        self.socket.close()

    def __enter__(self: L) -> L:
        return self

    def __exit__(self, *_: Any) -> None:
        self.close()


class Gateway(Link):
    """A gateway's link."""

    def __init__(self, address: tuple[str, int], eui: str, **how: Any):
        self.eui = eui
        super().__init__(address, wire.gateway_greeting(eui), **how)

    def hands_in(self, frame: bytes, copy: wire.Copy) -> None:
        """Sends a frame, and how it was heard."""
        self.say(wire.copy_of(frame, copy))

    def order(self, patience: float | None = None) -> wire.Downlink:
        """The next downlink that it is to send."""
        return wire.Downlink.of(self.eui, self.read(patience))


class Application(Link):
    """An application's link."""

    def __init__(self, address: tuple[str, int], number: int, **how: Any):
        self.number = number
        super().__init__(address, wire.application_greeting(number), **how)

    def asks(self, line: str) -> None:
        """Sends a request."""
        self.say(wire.request(line))

    def hears(self, patience: float | None = None) -> str:
        """The next line for it."""
        return wire.line_of(self.read(patience))
