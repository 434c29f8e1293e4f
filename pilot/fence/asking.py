"""What the servers of all stores say, each asked on its own machine."""

import shlex
import subprocess
import sys
import threading
from collections.abc import Callable, Iterator
from concurrent.futures import ThreadPoolExecutor
from dataclasses import dataclass

from bozintar.logs import complain

from .records import Serving

# how long a machine may take for a list, in seconds, and how many are asked at once
PATIENCE, AT_ONCE = 60, 8


@dataclass(frozen=True)
class Way:
    """How commands of lnsd are run on the machines of stores: those of this one by themselves, and
    others by ssh."""

    ssh: str
    lnsd: str
    host: str

    def words(self, word: str, serving: Serving) -> list[str]:
        """The command that asks a store's server."""
        command = [self.lnsd, word, serving.file]
        if serving.host == self.host:
            return command
        return [*shlex.split(self.ssh), serving.host, shlex.join(command)]

    def list_of(self, name: str, serving: Serving) -> list[str] | None:
        """The devices of a store's server, a line each; None if it can't be asked."""
        words = self.words("devices", serving)
        try:
            ended = subprocess.run(
                words,
                stdin=subprocess.DEVNULL,
                capture_output=True,
                text=True,
                errors="replace",
                timeout=PATIENCE,
                check=False,
            )
            why = ended.stderr.strip() or f"status {ended.returncode}"
        except (OSError, subprocess.TimeoutExpired) as fault:
            complain(f"{name} on {serving.host} can't be asked: {fault}")
            return None
        if ended.returncode:
            complain(f"{name} on {serving.host} can't be asked: {why[-200:]}")
            return None
        return [line for line in ended.stdout.splitlines() if line[:1].isdecimal()]

    def lists(self, served: dict[str, Serving]) -> dict[str, list[str] | None]:
        """The devices of all stores."""
        with ThreadPoolExecutor(AT_ONCE) as pool:
            found = pool.map(lambda name: self.list_of(name, served[name]), sorted(served))
            return dict(zip(sorted(served), found))

    def watch(self, served: dict[str, Serving], show: Callable[[str], None]) -> None:
        """Shows what all servers report, each line after its store's name, until all have ended or
        the program is to end. Each store has a process and a thread."""
        processes = {name: self.begun(name, serving) for name, serving in served.items()}
        threads = [
            threading.Thread(target=pass_on, args=(name, process, show), daemon=True)
            for name, process in processes.items()
            if process
        ]
        try:
            for thread in threads:
                thread.start()
            for thread in threads:
                thread.join()
        finally:
            for process in filter(None, processes.values()):
                process.kill()
                process.wait()

    def begun(self, name: str, serving: Serving) -> subprocess.Popen | None:
        """The command that watches a store's server."""
        words = self.words("watch", serving)
        try:
            return subprocess.Popen(
                words, stdin=subprocess.DEVNULL, stdout=subprocess.PIPE, text=True, errors="replace"
            )
        except OSError as why:
            complain(f"{name} on {serving.host} can't be asked: {why}")
            return None


def pass_on(name: str, process: subprocess.Popen, show: Callable[[str], None]) -> None:
    """Shows the lines of a process, to its end."""
    for line in process.stdout or ():
        show(f"{name} {line.rstrip()}")
    show(f"{name} gone")


def of_files(files: list[str]) -> Iterator[tuple[str, list[str]]]:
    """The lines of lists in files."""
    for file in files:
        with open(file, encoding="ascii", errors="replace") as lines:
            yield file, [line for line in lines if line[:1].isdecimal()]


def shown(line: str) -> None:
    """Prints a line at once."""
    sys.stdout.write(f"{line}\n")
    sys.stdout.flush()
