"""The server of a store, as a child of its keeper."""

import asyncio
import os
from dataclasses import dataclass

from bozintar.logs import log

# how long a command of lnsd, and the server's own status, may take, in seconds
PATIENCE, STATUS_PATIENCE = 120.0, 3.0
# a server dies with its keeper; one whose keeper has died already doesn't begin
WITH_ITS_KEEPER = ("setpriv", "--pdeathsig", "KILL", "sh", "-c")
IF_IT_LIVES = 'test "$PPID" = "$0" && exec "$@"'


class Failed(Exception):
    """lnsd does something else than it should."""


@dataclass(frozen=True)
class Ended:
    """How a command ended, and what it printed."""

    status: int
    out: str
    errors: str


class Lnsd:
    """The program lnsd on a store's file."""

    def __init__(self, program: str, file: str):
        self.program, self.file = program, file

    async def run(self, word: str) -> Ended:
        """Runs a command on the file to its end."""
        pipe = asyncio.subprocess.PIPE
        made = await asyncio.create_subprocess_exec(
            self.program,
            word,
            self.file,
            stdin=asyncio.subprocess.DEVNULL,
            stdout=pipe,
            stderr=pipe,
        )
        try:
            out, errors = await asyncio.wait_for(made.communicate(), PATIENCE)
        except asyncio.TimeoutError:
            made.kill()
            raise Failed(f"lnsd {word} takes too long") from None
        return Ended(made.returncode or 0, out.decode(), errors.decode().strip())

    async def last(self) -> int:
        """The number of the last durable decision of a file that nobody serves."""
        ended = await self.run("list")
        number = ended.out.rpartition(" seq ")[2].strip()
        if ended.status or not number.isdecimal():
            raise Failed(f"lnsd list says {ended.errors or ended.out[-80:]!r}")
        return int(number)

    async def status(self) -> dict[str, str]:
        """The server's status; nothing if it doesn't answer in time."""
        try:
            return await asyncio.wait_for(self.asked("status"), STATUS_PATIENCE)
        except (OSError, asyncio.TimeoutError, UnicodeDecodeError):
            return {}

    async def durable(self) -> int:
        """The number of a decision that is durable, as are all before it; 0 if nobody says it."""
        number = (await self.status()).get("durable", "")
        return int(number) if number.isdecimal() else 0

    async def asked(self, word: str) -> dict[str, str]:
        """The lines of an answer of the server's control socket."""
        control = f"{os.path.realpath(self.file)}.control"
        reader, writer = await asyncio.open_unix_connection(control)
        try:
            writer.write(f"{word}\n".encode())
            text = (await reader.read(-1)).decode()
        finally:
            writer.close()
        return dict(line.split(" ", 1) for line in text.splitlines() if " " in line)


class Server:
    """`lnsd run`, from its start to its end. `ended` is a task that has its status."""

    def __init__(self, lnsd: Lnsd, listen: str):
        self.lnsd, self.listen = lnsd, listen
        self.process: asyncio.subprocess.Process | None = None
        # it is to end, also if it hasn't begun yet
        self.is_killed = False
        self.ended: asyncio.Task[int] | None = None
        # its first line was read, or its end: two coroutines can't read at once
        self.has_begun = asyncio.Event()

    async def start(self) -> str:
        """Starts it; its address, or nothing if it has ended."""
        words = [self.lnsd.program, "run", self.lnsd.file, "--listen", self.listen]
        self.process = await asyncio.create_subprocess_exec(
            *WITH_ITS_KEEPER,
            IF_IT_LIVES,
            str(os.getpid()),
            *words,
            stdin=asyncio.subprocess.DEVNULL,
            stdout=asyncio.subprocess.PIPE,
        )
        self.ended = asyncio.ensure_future(self.to_the_end(self.process))
        if self.is_killed:
            self.kill()
        out = self.process.stdout
        try:
            said = (await out.readline()).decode().split() if out else []
        finally:
            self.has_begun.set()
        return said[1] if said[:1] == ["listening"] else ""

    async def to_the_end(self, process: asyncio.subprocess.Process) -> int:
        """Waits for its end; its status."""
        status = await process.wait()
        await self.has_begun.wait()
        if process.stdout and (rest := (await process.stdout.read()).decode().split("\n")):
            log(f"the server ended with status {status}: {', '.join(filter(None, rest)) or '-'}")
        return status

    def kill(self) -> None:
        """Ends it at once, or as soon as it has begun."""
        self.is_killed = True
        if self.process and self.process.returncode is None:
            self.process.kill()
