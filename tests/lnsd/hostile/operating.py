"""Operators of a server whose links come and go (`lnsd run`), as docs/OPERATING.md has them."""

import os
import re
import select
import socket
import subprocess
from typing import Any

from bozintar import wire
from bozintar.processes import Failed
from bozintar.server import Ended, Program
from bozintar.wire import Copy
from lnsd.anew import PATIENCE

from ..pairs import EUI, HEARD

# places of a server
PLACES = 96
# how long a link may take to greet, in seconds
GREETING = 10
COUNTS = ("dropped", "faulted", "taken_over", "silent")
# the lines of `lnsd watch`
NAME = r"(gateway|application) ([0-9A-F]{16}|[0-9]|1[0-5])"
FRAME = r"(join [0-9A-F]{16} [0-9]+|data [0-9A-F]{8} [0-9]+|other)"
RECEPTION = r"[0-9A-F]{16} [0-9]+ [0-9]+ -?[0-9]+ -?[0-9]+"
LINES = re.compile(
    rf"refused [0-9]+ [A-Za-z]+ {FRAME} {RECEPTION}|joined [0-9A-F]{{16}} [0-9]+ [0-9A-F]{{16}}|"
    rf"(linked|ended|taken_over|unlisted|faulted) {NAME}|faulted|silent|dropped {NAME} [0-9]+|checkpoint|"
    r"slow_sync [0-9]+|left_out [0-9]+"
)
NOTHING_MORE: tuple[list[str], int, str] = ([], 0, "")


def failure(text: str, status: int = 1) -> Ended:
    """How a command ends that fails and prints this."""
    return status, "", f"lnsd: {text}\n"


def assert_stopped(program: Program, **due: int) -> None:
    """The server is stopped, and ends well with these counts, and 0 for the others."""
    counts = "".join(f"{name} {due.get(name, 0)}\n" for name in COUNTS)
    assert program.stop() == (0, "", counts)


def heard(frame: bytes, gateway: str = EUI) -> bytes:
    """A copy of a frame by a gateway."""
    return wire.copy_of(frame, HEARD if gateway == EUI else Copy(gateway))


def operator(program: Program, order: bytes = b"") -> socket.socket:
    """A connection to the control socket."""
    connection = socket.socket(socket.AF_UNIX)
    connection.settimeout(PATIENCE)
    connection.connect(program.store + ".control")
    connection.sendall(order)
    return connection


def all_of(connection: socket.socket) -> bytes:
    """All that comes until the connection ends, or is broken off after bytes that nobody read."""
    came = b""
    with connection:
        try:
            while piece := connection.recv(65536):
                came += piece
        except ConnectionResetError:
            pass
    return came


class Watcher:
    """An operator who watches, and the lines that came."""

    def __init__(self, program: Program) -> None:
        words = [program.path, "watch", program.store]
        how: dict[str, Any] = {"stdout": subprocess.PIPE, "stderr": subprocess.PIPE}
        self.process = subprocess.Popen(words, stdin=subprocess.DEVNULL, **how)
        self.came = b""
        self.lines: list[str] = []

    def next(self) -> str:
        """The next line."""
        assert self.process.stdout
        out = self.process.stdout.fileno()
        while b"\n" not in self.came:
            if not select.select([out], [], [], PATIENCE)[0]:
                raise Failed("lnsd watch prints nothing")
            piece = os.read(out, 65536)
            if not piece:
                raise Failed("lnsd watch has ended")
            self.came += piece
        line, _, self.came = self.came.partition(b"\n")
        return line.decode()

    def line(self) -> str:
        """The next line of what happens."""
        self.note(self.next())
        return self.lines[-1]

    def note(self, line: str) -> None:
        """A line that has come is one of those that there are."""
        assert LINES.fullmatch(line), "a line that lnsd watch doesn't have"
        self.lines.append(line)

    def await_line(self, due: str) -> list[str]:
        """The lines up to one that begins with these words."""
        came = [self.line()]
        while not f"{came[-1]} ".startswith(f"{due} "):
            came.append(self.line())
        return came

    def rest(self) -> tuple[list[str], int, str]:
        """The lines until the server ends, the status of the command, and its errors."""
        out, errors = self.process.communicate(timeout=PATIENCE)
        lines = (self.came + out).decode().splitlines()
        for line in lines:
            self.note(line)
        return lines, self.process.returncode, errors.decode()

    def leave(self, number: int) -> None:
        """A signal ends it."""
        self.process.send_signal(number)
        self.process.communicate(timeout=PATIENCE)

    def clean(self) -> None:
        """Ends it, if it hasn't ended."""
        if self.process.poll() is None:
            self.process.kill()
            self.process.communicate(timeout=PATIENCE)
