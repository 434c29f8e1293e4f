"""A network that is played, by docs/FORMATS.md: it sends what a trial wants, and notes what bridges
send. It speaks by `bozintar.oracle`, which shares no line with the codec of the bridges."""

import socket
import time
from typing import Any

from bozintar import oracle
from bozintar.processes import HOST, PATIENCE, Failed


# what bridges ask now and then, to find out what they have read; a network refuses it
NO_REQUEST = b"\x03"


class End:
    """The network's end of a link."""

    def __init__(self, connection: socket.socket) -> None:
        self.socket, self.stream = connection, oracle.Stream()
        self.contents: list[bytes] = []
        self.greeting: bytes | None = None

    def say(self, *contents: bytes) -> None:
        """Sends contents."""
        self.socket.sendall(b"".join(map(oracle.message, contents)))

    def tell(self, *lines: str) -> None:
        """Sends lines for an application."""
        self.socket.sendall(b"".join(map(oracle.line_message, lines)))

    def hears(self, seconds: float = PATIENCE) -> bytes | None:
        """The next content; None for the end of what is sent, or "reset", or "nothing"."""
        last = time.monotonic() + seconds
        while not self.contents:
            self.socket.settimeout(max(0.01, last - time.monotonic()))
            try:
                piece = self.socket.recv(65536)
            except TimeoutError:
                return b"nothing"
            except OSError:
                return b"reset"
            if not piece:
                return None
            for content in self.stream.contents(piece):
                if content == NO_REQUEST:
                    self.say(b"\x13refused 51")
                else:
                    self.contents.append(content)
        return self.contents.pop(0)

    def asked(self, seconds: float = PATIENCE) -> list[str]:
        """The words of the next request."""
        content = self.hears(seconds) or b"the end"
        if content[0] != 3:
            raise Failed(f"no request: {content.decode(errors='replace')}")
        return content[1:].decode().split(" ")

    def close(self) -> None:
        """Closes the link."""
        self.socket.close()


class Network:
    """What listens, as a network does."""

    def __init__(self) -> None:
        self.listener = socket.create_server((HOST, 0))
        self.at = f"{HOST}:{self.listener.getsockname()[1]}"

    def link(self, seconds: float = PATIENCE) -> End:
        """The next link, after its greeting."""
        self.listener.settimeout(seconds)
        end = End(self.listener.accept()[0])
        end.greeting = end.hears()
        return end

    def __enter__(self) -> "Network":
        return self

    def __exit__(self, *_: Any) -> None:
        self.listener.close()
