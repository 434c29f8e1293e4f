"""How much of what was said on a link the server on this machine has read, as Linux has it in
/proc/net/tcp."""

import socket
import sys
import time

from bozintar.links import Link
from bozintar.processes import await_that

TABLE = "/proc/net/tcp"
# before each look whether the server has read what was said, in seconds
STEP = 0.001


def name_of(address: tuple[str, int]) -> str:
    """An address as Linux writes it there."""
    host = int.from_bytes(socket.inet_aton(address[0]), sys.byteorder)
    return f"{host:08X}:{address[1]:04X}"


def unread(link: Link) -> int | None:
    """How many bytes of what has come on a link the server hasn't read; None if it has closed its
    end."""
    server, client = link.socket.getpeername(), link.socket.getsockname()
    ends = f" {name_of(server)} {name_of(client)} "
    with open(TABLE, encoding="ascii") as file:
        row = next((line for line in file if ends in line), None)
    return int(row.split()[4].rpartition(":")[2], 16) if row else None


def await_read(link: Link) -> None:
    """Waits until the server has read all that was said, or has closed its end."""
    time.sleep(STEP)
    await_that("the server has read all", lambda: not unread(link), link.patience, STEP)
