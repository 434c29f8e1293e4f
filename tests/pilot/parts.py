"""The parts of a pilot, as processes in a folder of their own: the server, a broker, bridges."""

import os
import subprocess
import sys
import tempfile
import time
from importlib.machinery import SourceFileLoader
from importlib.util import module_from_spec, spec_from_loader
from pathlib import Path
from types import ModuleType
from typing import Any

from bozintar.processes import HOST, Failed, Process, Processes, command, free_port
from bozintar.server import Program

PILOT = Path(__file__).resolve().parents[2] / "pilot"
# has a program run with something of it changed: by a line before it is read, and one after it
CHANGED = """import os, sys
path, before, after = sys.argv[1:4]
sys.argv[:4] = [path]
sys.path.insert(0, os.path.dirname(path))
exec(before)
from importlib import machinery, util
loader = machinery.SourceFileLoader("program", path)
program = sys.modules["program"] = util.module_from_spec(util.spec_from_loader("program", loader))
loader.exec_module(program)
exec(after)
program.words.end_with(program.main)
"""
AFTER = 5  # the place of the lines after it among the words of such a process
# has a copy that waits for a link not become too old
WAITS = "from bozintar import lasting; lasting.LATEST = 600.0"


def program_of_pilot(name: str) -> ModuleType:
    """A program of pilot/ as a module: what is tried of it without a process."""
    loader = SourceFileLoader(name.replace("/", "_").replace("-", "_"), str(PILOT / name))
    spec = spec_from_loader(loader.name, loader)
    assert spec
    module = module_from_spec(spec)
    loader.exec_module(module)
    return module


def run(name: str, *words: Any, **how: Any) -> tuple[int, str, str]:
    """Runs a program of pilot/ to its end; its status, and what it prints and complains."""
    program = [sys.executable, str(PILOT / name), *map(str, words)]
    ended = subprocess.run(program, capture_output=True, text=True, check=False, **how)
    return ended.returncode, ended.stdout, ended.stderr


class Clock:
    """A clock that a trial sets. Programs of pilot/ that its `line` changes read it as the time of
    a file."""

    def __init__(self) -> None:
        self.file, self.now = tempfile.NamedTemporaryFile(), float(int(time.time()))
        self.line = f"""import os; from bozintar import lasting; from bridges import gateways, hub
clock = lambda *_: os.stat({self.file.name!r}).st_mtime
hub.Hub.clock = gateways.Gateways.clock = lasting.Link.clock = clock"""
        self.go_on(0)

    def go_on(self, seconds: float) -> None:
        """Time passes."""
        self.now += seconds
        os.utime(self.file.name, (self.now, self.now))


class Parts(Processes):
    """Bridges and a broker."""

    def __init__(self, folder: str = "") -> None:
        super().__init__("pilot-", folder)
        self.clock = Clock()
        self.broker_port, self.udp_port = free_port(), free_port()

    def own(
        self, program: str, *words: Any, name: str = "", before: str = "", after: str = ""
    ) -> Process:
        """A program of pilot/, which lines before and after it is read may change."""
        if not (before or after):
            return self.python(PILOT / program, *words, name=name)
        changed = (sys.executable, "-c", CHANGED, PILOT / program, before, after)
        return self.process(name or os.path.basename(program), *changed, *words)

    def broker(self, more: str = "") -> Process:
        """A broker of its own, which keeps what waits for clients that come back."""
        text = (PILOT / "mosquitto.conf").read_text(encoding="utf-8")
        text = text.replace("listener 1883 127.0.0.1", f"listener {self.broker_port} {HOST}")
        # what Debian's own file says before it
        head = f"persistence true\npersistence_location {self.folder}/\n"
        text = head + ("user root\n" if os.getuid() == 0 else "") + text + more
        conf = self.file("mosquitto.conf", text)
        return self.process("mosquitto", command("mosquitto"), "-v", "-c", conf)


class Pilot(Parts):
    """A server on an empty store, and what was started beside it."""

    def __init__(self, path: str, slots: int = 256) -> None:
        self.program = Program(path)
        super().__init__(self.program.folder)
        made = self.program.format(slots=slots)
        if made != (0, "", ""):
            raise Failed(f"lnsd format ended so: {made}")
        self.address = self.program.run_on(96)

    @property
    def network(self) -> str:
        """Where the server listens."""
        return f"{HOST}:{self.address[1]}"

    def restart_server(self, is_killed: bool = True) -> None:
        """Ends the server in one way or the other, and starts it again."""
        if is_killed:
            self.program.kill()
        else:
            self.program.stop()
        self.program.run_on(96, port=self.address[1])

    def clean(self) -> None:
        self.program.clean()
