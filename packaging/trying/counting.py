"""What a trial counts and prints, and the programs that it runs."""

import subprocess
import time
from contextlib import ExitStack
from pathlib import Path

from bozintar.processes import Failed


class Trials(ExitStack):
    """Counts what passed and failed, and prints each step with its time. What it was given to call
    back is called at its end, the last first."""

    def __init__(self) -> None:
        super().__init__()
        self.passed = self.failed = 0
        self.begun = self.last = time.monotonic()

    def holds(self, what: str, is_so: object, seen: object = "") -> None:
        """Counts a comparison, and prints it if it failed."""
        if is_so:
            self.passed += 1
            return
        self.failed += 1
        print(f"FAILED: {what}: {str(seen)[-1500:]}", flush=True)

    def same(self, what: str, actual: object, due: object) -> None:
        """Counts whether two values are equal."""
        self.holds(what, actual == due, f"{actual!r}, and not {due!r}")

    def step(self, text: str) -> None:
        """Prints a step that has ended: how long it took, and when it ended."""
        now = time.monotonic()
        print(f"{now - self.begun:7.1f} s  {now - self.last:6.1f} s  {text}", flush=True)
        self.last = now


def run(*words: str | Path, timeout: float = 600) -> tuple[int, str, str]:
    """Runs a program: its status, and both outputs."""
    ended = subprocess.run(
        [str(word) for word in words],
        stdin=subprocess.DEVNULL,
        capture_output=True,
        text=True,
        errors="replace",
        timeout=timeout,
        check=False,
    )
    return ended.returncode, ended.stdout, ended.stderr


def needed(*words: str | Path, timeout: float = 600) -> str:
    """What a program prints that has to end well."""
    status, out, said = run(*words, timeout=timeout)
    if status:
        raise Failed(f"{' '.join(map(str, words))}: status {status}: {(said or out)[-1500:]}")
    return out
