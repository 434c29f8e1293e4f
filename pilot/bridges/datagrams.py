"""A socket for datagrams, for asyncio. asyncio's own endpoint reads one datagram each time that it
wakes up, which is too slow for a flood: what real gateways send is lost in the socket's buffer
then."""

import asyncio
import socket
from collections.abc import Callable
from typing import Any

# how much may wait in the system, in bytes. Without a privilege the system gives no more than
# net.core.rmem_max. It counts 768 bytes for the shortest datagram
BUFFER = 4 * 2**20
# datagrams that are read before the loop does something else
MOST_AT_ONCE = 64
LONGEST = 65_536


class Datagrams:
    """Gives what comes on a bound socket to `take`: a datagram, and where it came from."""

    def __init__(self, bound: socket.socket, take: Callable[[bytes, Any], None]):
        self.socket, self.take = bound, take
        self.piece = memoryview(bytearray(LONGEST))
        enlarge(bound)
        asyncio.get_running_loop().add_reader(bound, self.read)

    def read(self) -> None:
        """Reads some of the datagrams that wait."""
        for _ in range(MOST_AT_ONCE):
            try:
                length, where = self.socket.recvfrom_into(self.piece)
            except OSError:
                return  # nothing waits, or an earlier datagram couldn't be delivered
            self.take(bytes(self.piece[:length]), where)

    def end(self) -> None:
        """Reads nothing more: what comes while the program ends would begin new work."""
        asyncio.get_running_loop().remove_reader(self.socket)

    def say(self, data: bytes, where: Any) -> None:
        """Sends a datagram. If it can't be sent, it is lost, as any may be."""
        try:
            self.socket.sendto(data, where)
        except OSError:
            pass


def enlarge(bound: socket.socket) -> None:
    """Has the system let more wait for a socket."""
    for option in (socket.SO_RCVBUF, getattr(socket, "SO_RCVBUFFORCE", 33)):
        try:
            bound.setsockopt(socket.SOL_SOCKET, option, BUFFER)
        except PermissionError:
            pass
