"""Pauses of the machine."""

import os
import threading
import time
from pathlib import Path
from typing import Any

# how long the machine may keep a process of a trial waiting, and how often that is read, in seconds
MOST, EACH = float(os.environ.get("LONGEST_PAUSE", "0.1")), 0.25
TICKS = os.sysconf("SC_CLK_TCK")
STOLEN = "stolen"


def family(pid: int) -> list[Path]:
    """The threads of a process, and of all that it started."""
    found: list[Path] = []
    try:
        tasks = list(Path(f"/proc/{pid}/task").iterdir())
    except OSError:  # it has ended
        return found
    for task in tasks:
        found.append(task)
        for child in read(task / "children").split():
            found += family(int(child))
    return found


def read(file: Path) -> str:
    """A file of the system; nothing if its thread has ended."""
    try:
        return file.read_text(encoding="ascii")
    except OSError:
        return ""


def waits() -> dict[str, float]:
    """For how many seconds each thread of this process, and of all that it started, had to wait for
    a processor so far; and for how many the host took processors from this machine."""
    found = {STOLEN: int(read(Path("/proc/stat")).split()[8]) / TICKS}
    for task in family(os.getpid()):
        _, waited, *_ = read(task / "schedstat").split() or ("0", "0")
        found[task.name] = int(waited) / 1e9
    return found


class Pauses:
    """How long a process of the trial was kept from running at most, within a quarter of a second.
    If it was long, a limit of time that was exceeded says nothing of the program."""

    def __init__(self) -> None:
        self.longest, self.is_over = 0.0, threading.Event()
        self.thread = threading.Thread(target=self.look, daemon=True)

    def look(self) -> None:
        """Notes the longest pause."""
        before, is_over = waits(), False
        while not is_over:
            begun = time.monotonic()
            is_over = self.is_over.wait(EACH)
            late = 0.0 if is_over else time.monotonic() - begun - EACH
            now = waits()
            found = (waited - before.get(name, 0.0) for name, waited in now.items())
            self.longest, before = max(self.longest, late, *found), now

    def is_spoilt(self) -> bool:
        """Whether a limit of time that was exceeded says nothing."""
        return self.longest >= MOST

    def __enter__(self) -> "Pauses":
        self.thread.start()
        return self

    def __exit__(self, *_: Any) -> None:
        self.is_over.set()
        self.thread.join()
