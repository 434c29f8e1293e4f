"""The program lnsd, run on a store in a folder of its own."""

import os
import shutil
import subprocess
import tempfile
from argparse import ArgumentTypeError
from pathlib import Path
from typing import Any

from .processes import HOST, Failed, Late, Process, await_that, free_port
from .words import Words, is_program

BUILT = str(Path(__file__).resolve().parents[2] / "crates/lnsd/out/lnsd")
Ended = tuple[int, str, str]
# the lines of devices, and a moment
Listed = tuple[list[str], int]


class ProgramWords(Words):
    """The words of a command that runs lnsd: --program names it. Whether that is there is checked
    last, once all other words are right."""

    def __init__(self, text: str | None):
        super().__init__(text)
        self.add_argument(
            "--program",
            metavar="FILE",
            default=BUILT,
            help="the program lnsd, for example out/unproved/lnsd, which bin/unproved lnsd makes "
            "(crates/lnsd/out/lnsd, which bin/build lnsd makes)",
        )

    def parse_args(self, args: Any = None, namespace: Any = None) -> Any:
        given = super().parse_args(args, namespace)
        try:
            given.program = program(given.program)
        except ArgumentTypeError as missing:
            self.error(str(missing))
        return given


def program(path: str) -> str:
    """A program that is there."""
    if not is_program(path):
        more = "; bin/build lnsd makes it" if path == BUILT else ""
        raise ArgumentTypeError(f"there is no program {path}{more}")
    return os.path.abspath(path)


class Program:
    """The program, the folder of its store, and the server if it runs."""

    def __init__(self, path: str | None = None, folder: str | None = None):
        self.path = os.path.abspath(path or BUILT)
        self.folder = tempfile.mkdtemp(prefix="lnsd-", dir=folder)
        self.store = os.path.join(self.folder, "store")
        self.server: Process | None = None
        self.address: tuple[str, int] | None = None

    def run(self, *words: str, seconds: float = 60, **how: Any) -> Ended:
        """Runs a command of the program; its status, standard output and standard error."""
        try:
            ended = subprocess.run(
                [self.path, *words],
                stdin=subprocess.DEVNULL,
                capture_output=True,
                timeout=seconds,
                check=False,
                **how,
            )
        except subprocess.TimeoutExpired:
            raise Late(f"lnsd {words[0]} had not ended after {seconds} seconds") from None
        return ended.returncode, ended.stdout.decode(), ended.stderr.decode()

    def format(self, net_id: str = "00002A", slots: int = 8) -> Ended:
        """Makes the store."""
        return self.run("format", self.store, "--netid", net_id, "--slots", str(slots))

    def list(self) -> list[str]:
        """The store's list, as lines."""
        status, out, said = self.run("list", self.store)
        if status or said:
            raise Failed(f"lnsd list ended with status {status}: {said.strip()}")
        return out.splitlines()

    def serve(self, links: int, port: int | None = None, **how: Any) -> tuple[str, int]:
        """Starts the server for this many links, which stay; its address."""
        return self.start("serve", links, port, **how)

    def run_on(
        self, links: int = 96, port: int | None = None, names: str = "", **how: Any
    ) -> tuple[str, int]:
        """Starts the server for links that come and go, with a file of names if there is one; its
        address, once it listens there."""
        more = ("--names", names) if names else ()
        address = self.start("run", links, port, *more, **how)
        server = self.running()
        is_there = lambda: "\n" in server.now() or not server.is_running()
        await_that("the server listens", is_there, step=0.005)
        said = server.now()
        if said != f"listening {HOST}:{address[1]}\n":
            raise Failed(f"the server printed {said!r}, and ended so: {self.ended()}")
        return address

    def start(
        self, mode: str, links: int, port: int | None = None, *more: str, **how: Any
    ) -> tuple[str, int]:
        """Starts the server in this mode, with more options; its address."""
        self.address = (HOST, port or free_port())
        words = [mode, self.store, "--listen", f"{HOST}:{self.address[1]}"]
        words += ["--links", str(links), *more]
        self.server = Process("server", self.folder, self.path, *words, apart=True)
        self.server.start(**how)
        return self.address

    def running(self) -> Process:
        """The server, if it was started."""
        if not self.server:
            raise Failed("the server wasn't started")
        return self.server

    def stop(self, seconds: float = 60) -> Ended:
        """Stops a server whose links come and go; how it ended."""
        stopped = self.run("stop", self.store, seconds=seconds)
        if stopped != (0, "", ""):
            raise Failed(f"lnsd stop ended so: {stopped}")
        return self.ended(seconds)

    def status(self, wait: int = 0) -> dict[str, str]:
        """The status of a server whose links come and go: values by their names."""
        status, out, said = self.run("status", self.store, "--wait", str(wait))
        if status or said:
            raise Failed(f"lnsd status ended with status {status}: {said.strip()}")
        return dict(line.split(" ", 1) for line in out.splitlines())

    def devices(self, store: str = "", **how: Any) -> Listed:
        """The lines of the devices of a server whose links come and go, and the moment, in
        milliseconds since its start."""
        status, out, said = self.run("devices", store or self.store, **how)
        if status or said:
            raise Failed(f"lnsd devices ended with status {status}: {said.strip()}")
        *lines, last = out.splitlines()
        name, _, now = last.partition(" ")
        if name != "now" or not now.isdecimal():
            raise Failed(f"lnsd devices printed no moment, but: {last}")
        return lines, int(now)

    def ended(self, seconds: float = 60) -> Ended:
        """Waits for the server's end; its status, what it printed on standard output after it
        listened, and on standard error."""
        server = self.running()
        try:
            status = server.running().wait(seconds)
        except subprocess.TimeoutExpired:
            raise Late(f"the server had not ended after {seconds} seconds") from None
        self.server, out = None, server.now()
        listening, _, rest = out.partition("\n")
        return status, rest if listening.startswith("listening ") else out, server.errors()

    def kill(self) -> None:
        """Ends the server by SIGKILL, at any moment."""
        self.running().running().kill()
        self.ended()

    def clean(self) -> None:
        """Ends the server if it runs, and removes the folder."""
        if self.server:
            self.kill()
        shutil.rmtree(self.folder, ignore_errors=True)

    def __enter__(self) -> "Program":
        return self

    def __exit__(self, *_: Any) -> None:
        self.clean()
