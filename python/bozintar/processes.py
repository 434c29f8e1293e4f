"""Processes that this program starts: their folders and ports, what they print, and how they end.
Each is ended by its own id, also after a failure."""

import itertools
import os
import random
import shutil
import signal
import socket
import subprocess
import sys
import tempfile
import time
from collections.abc import Callable, Iterator
from contextlib import suppress
from functools import partial
from typing import Any, TypeVar

HOST = "127.0.0.1"
PATIENCE = 60.0
SBIN = "/usr/sbin:/usr/bin:/sbin"
T = TypeVar("T")
S = TypeVar("S", bound="Processes")
# the signals by which the system ends a program that did what it may not
CRASHES = (signal.SIGABRT, signal.SIGBUS, signal.SIGFPE, signal.SIGILL, signal.SIGSEGV)
# what was started since `forget_started`
STARTED: list[subprocess.Popen] = []


class Failed(Exception):
    """A program did something else than it should have."""


class Late(Failed):
    """What was awaited didn't come in time, or no port was free. That may be the machine's fault."""


def own_ports() -> Iterator[int]:
    """The ports of LNSD_PORTS, which each worker of pytest has for itself, or all that connections
    don't get by themselves, one after another; so no two of a process are the same before all have
    been."""
    first, _, last = (os.environ.get("LNSD_PORTS") or "20000-31999").partition("-")
    ports = range(int(first), int(last) + 1)
    return itertools.cycle(random.sample(ports, len(ports)))


PORTS = own_ports()


def free_port() -> int:
    """A port that nobody listens on."""
    for port in itertools.islice(PORTS, 200):
        with socket.socket() as probe:
            try:
                probe.bind((HOST, port))
                return port
            except OSError:
                pass
    raise Late("no port is free")


def command(name: str) -> str:
    """Where a program of the system is, also one of /usr/sbin."""
    found = shutil.which(name) or shutil.which(name, path=SBIN)
    if not found:
        raise Failed(f"there is no program {name}; pilot/install has the system install it")
    return found


def await_that(
    what: str,
    is_so: Callable[[], T],
    seconds: float = PATIENCE,
    step: float = 0.02,
    fault: type[Failed] = Late,
) -> T:
    """Waits until something is so; what it is then."""
    last = time.monotonic() + seconds
    while not (value := is_so()):
        if time.monotonic() > last:
            raise fault(f"{what}: not so after {seconds:.0f} seconds")
        time.sleep(step)
    return value


# Waits for readings: what isn't there after a minute is lost, and not late.
await_all = partial(await_that, fault=Failed)


def has_crashed() -> bool:
    """Whether a process that was started since `forget_started` has crashed."""
    return any(-(process.poll() or 0) in CRASHES for process in STARTED)


def forget_started() -> None:
    """Forgets what was started so far."""
    STARTED.clear()


class Process:
    """A process, which may be killed and started again, and what it prints, in files of a folder:
    one file, or one for each of standard output and standard error if these are `apart`."""

    def __init__(self, name: str, folder: str, *words: Any, apart: bool = False):
        self.name, self.words = name, [str(word) for word in words]
        self.log = os.path.join(folder, f"{name}.log")
        self.out = os.path.join(folder, f"{name}.out") if apart else self.log
        self.process: subprocess.Popen | None = None
        # what the files held when it was started last
        self.begun = (0, 0)

    def start(self, ready: str = "", **how: Any) -> "Process":
        """Starts it, and waits until it has printed that."""
        with open(self.out, "ab") as out, open(self.log, "ab") as log:
            self.begun = out.tell(), log.tell()
            self.process = subprocess.Popen(
                self.words, stdin=subprocess.DEVNULL, stdout=out, stderr=log, **how
            )
        STARTED.append(self.process)
        if ready:
            await_that(f"{self.name} prints {ready!r}", lambda: self.has_said(ready))
        return self

    @property
    def pid(self) -> int:
        """Its id."""
        return self.running().pid

    def running(self) -> subprocess.Popen:
        """The process, once it was started."""
        if not self.process:
            raise Failed(f"{self.name} wasn't started")
        return self.process

    def has_said(self, text: str, behind: int | None = None) -> bool:
        """Whether it has printed that since it was started, or after this many characters of all
        that it has printed."""
        has_ended = not self.is_running()
        if text in (self.now() if behind is None else self.said()[behind:]):
            return True
        if has_ended:
            raise Failed(f"{self.name} has ended: {self.said()[-400:]}")
        return False

    def poll(self) -> int | None:
        """Its status, or None while it runs."""
        return self.running().poll()

    def is_running(self) -> bool:
        """Whether it was started, and hasn't ended."""
        return self.process is not None and self.process.poll() is None

    def said(self) -> str:
        """All that it has printed, in all its runs."""
        return read(self.log)

    def now(self) -> str:
        """What it has printed on standard output since it was started."""
        return read(self.out, self.begun[0])

    def errors(self) -> str:
        """What it has printed on standard error since it was started."""
        return read(self.log, self.begun[1])

    def send_signal(self, number: int) -> None:
        """Sends it a signal."""
        self.running().send_signal(number)

    def end(self, how: int = signal.SIGTERM, seconds: float = 20.0) -> int:
        """Ends it by a signal; its status."""
        self.send_signal(how)
        return self.ended(seconds)

    def ended(self, seconds: float = 20.0) -> int:
        """Waits for its end; its status."""
        process = self.running()
        try:
            return process.wait(seconds)
        except subprocess.TimeoutExpired:
            process.kill()
            process.wait()
            raise Late(f"{self.name} didn't end in {seconds:.0f} seconds") from None

    def kill(self) -> None:
        """Ends it by SIGKILL."""
        self.end(signal.SIGKILL)

    def clean(self) -> None:
        """Ends it if it runs, also if it was stopped."""
        if self.is_running():
            self.send_signal(signal.SIGCONT)
            self.kill()

    def memory(self, most: bool = False) -> int:
        """What it has in memory, or had at most, in KiB."""
        name = "VmHWM" if most else "VmRSS"
        with open(f"/proc/{self.pid}/status", encoding="ascii") as file:
            return next(int(line.split()[1]) for line in file if line.startswith(name))

    def processor(self) -> float:
        """What it took of a processor, in seconds."""
        with open(f"/proc/{self.pid}/stat", encoding="ascii") as file:
            fields = file.read().rpartition(")")[2].split()
        return sum(map(int, fields[11:13])) / os.sysconf("SC_CLK_TCK")


def read(path: str, start: int = 0) -> str:
    """A file's text from this byte on; nothing if there is no file."""
    try:
        with open(path, "rb") as file:
            file.seek(start)
            return file.read().decode(errors="replace")
    except FileNotFoundError:
        return ""


class Processes:
    """The processes that were started in a folder, which is removed."""

    def __init__(self, prefix: str = "bozintar-", folder: str = ""):
        self.folder = folder or tempfile.mkdtemp(prefix=prefix)
        self.all: list[Process] = []

    def process(self, name: str, *words: Any) -> Process:
        """A process of this folder."""
        made = Process(name, self.folder, *words)
        self.all.append(made)
        return made

    def python(self, path: Any, *words: Any, name: str = "") -> Process:
        """A Python program of this folder, by its path."""
        return self.process(name or os.path.basename(path), sys.executable, path, *words)

    def file(self, name: str, text: str = "") -> str:
        """A file of this folder, with this text."""
        path = os.path.join(self.folder, name)
        if text:
            with open(path, "w", encoding="utf-8") as file:
                file.write(text)
        return path

    def clean(self) -> None:
        """Removes the folder."""
        shutil.rmtree(self.folder, ignore_errors=True)

    def __enter__(self: S) -> S:
        return self

    def __exit__(self, kind: type | None, *_: Any) -> None:
        try:
            for process in self.all:
                with suppress(Failed):  # it got its signal, and the others get theirs
                    process.clean()
            torn = [process.said() for process in self.all if "Traceback" in process.said()]
        finally:
            self.clean()
        if torn and not kind:
            raise Failed(f"a traceback: {torn[0][torn[0].index('Traceback'):][-800:]}")
