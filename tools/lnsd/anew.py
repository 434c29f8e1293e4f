"""Links to a running server that come anew over and over, and what the server has then."""

import os
from typing import Any

from bozintar.links import Application, Gateway, Link
from bozintar.processes import await_that
from bozintar.server import Program

# how long a trial waits for the server, in seconds
PATIENCE = 60
# memory in KiB, descriptors, threads
Used = tuple[int, int, int]


def await_status(program: Program, **due: Any) -> dict[str, str]:
    """Waits until the status has these values."""

    def found() -> dict[str, str] | None:
        status = program.status()
        is_so = all(status.get(name) == str(value) for name, value in due.items())
        return status if is_so else None

    status = await_that(f"the status has {due}", found, PATIENCE)
    assert status
    return status


def used(program: Program) -> Used:
    """The memory in KiB, the descriptors and the threads that the server has."""
    server = program.running()
    folder = f"/proc/{server.pid}"
    return server.memory(), len(os.listdir(f"{folder}/fd")), len(os.listdir(f"{folder}/task"))


def connect_anew(program: Program, count: int) -> Used:
    """This many links come and end; what the server has then."""
    assert program.address
    last: Link | None = None
    for number in range(count):
        link: Link
        if number % 2:
            link = Application(program.address, number % 16)
        else:
            link = Gateway(program.address, f"{number % 40:016X}")
        if number % 3 == 0:
            link.reset()
        elif number % 3 == 1:
            link.end()
            link.rest(PATIENCE)
            link.close()
        else:
            # taken over by the next one of its name, if that comes first
            if last:
                last.close()
            last = link
    if last:
        last.close()
    await_status(program, links=0)
    return used(program)
