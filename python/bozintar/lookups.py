"""Addresses of hosts by their names. The system may take minutes for a name if its name servers are
away, and asyncio waits for that before a program can end; so threads do it that nobody waits
for."""

import asyncio
import socket
import threading
from typing import Any

from .words import Address

# what is being looked up: one thread for a name, however often it is asked for
under_way: dict[Address, asyncio.Future] = {}


async def looked_up(address: Address) -> list[tuple]:
    """A name's addresses, as `socket.getaddrinfo` has them."""
    if address not in under_way:
        loop = asyncio.get_running_loop()
        under_way[address] = loop.create_future()
        threading.Thread(target=look_up, args=(address, loop), daemon=True).start()
    found = await asyncio.shield(under_way[address])
    if isinstance(found, OSError):
        raise found
    return found


def look_up(address: Address, loop: asyncio.AbstractEventLoop) -> None:
    """Looks a name up, in a thread of its own."""
    found: Any
    try:
        found = socket.getaddrinfo(address.host, address.port, type=socket.SOCK_STREAM)
    except OSError as why:
        found = why
    except UnicodeError:
        found = OSError("no name of a host")
    try:
        loop.call_soon_threadsafe(lambda: under_way.pop(address).set_result(found))
    except RuntimeError:
        pass  # the program ends


async def connected(address: Address) -> socket.socket:
    """A connection to the first of a name's addresses that takes one."""
    fault = OSError("the name has no address")
    for family, kind, *_, where in await looked_up(address):
        connection = socket.socket(family, kind)
        try:
            connection.setblocking(False)
            await asyncio.get_running_loop().sock_connect(connection, where)
            return connection
        except OSError as why:
            connection.close()
            fault = why
        except asyncio.CancelledError:
            connection.close()
            raise
    raise fault


async def bound(address: Address) -> socket.socket:
    """A socket for datagrams to the first of a name's addresses that is this machine's."""
    fault = OSError("the name has no address")
    for family, *_, where in await looked_up(address):
        found = socket.socket(family, socket.SOCK_DGRAM)
        try:
            found.setblocking(False)
            found.bind(where)
            return found
        except OSError as why:
            found.close()
            fault = why
    raise fault
