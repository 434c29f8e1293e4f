"""The units of the package, whose commands run with the places of a trial."""

import os
import re
import shlex
import subprocess
import sys
from pathlib import Path

from bozintar.processes import Process, Processes

from .clusters import PILOT

PACKAGING = PILOT.parent / "packaging"
INSTALLED = "/usr/lib/bozintar/pilot/"


def values_of(text: str, key: str) -> list[str]:
    """The values of a setting, with lines that go on joined."""
    found = re.findall(rf"^{key}=((?:.*\\\n)*.*)", text, re.MULTILINE)
    return [value.replace("\\\n", "") for value in found]


class Unit:
    """A unit of the package, with the places of a trial."""

    def __init__(self, name: str, places: dict[str, str], settings: dict[str, str]):
        self.text = (PACKAGING / "systemd" / name).read_text(encoding="utf-8")
        self.places, self.settings = places, settings

    def words(self, key: str) -> list[str]:
        """The words of its command, the last one of that key. A setting $NAME is several words, and
        ${NAME} is one."""
        line = values_of(self.text, key)[-1]
        line = line.removeprefix("+")
        for place, now in self.places.items():
            line = line.replace(place, now)
        words = []
        for word in shlex.split(line):
            if re.fullmatch(r"\$[A-Z_]+", word):
                words += shlex.split(self.settings.get(word[1:], ""))
            else:
                words.append(re.sub(r"\$\{([A-Z_]+)\}", lambda name: self.settings[name[1]], word))
        return words

    def program(self) -> list[str]:
        """The words of its program, as a program of the clone."""
        program, *words = self.words("ExecStart")
        assert program.startswith(INSTALLED)
        return [sys.executable, str(PILOT / program.removeprefix(INSTALLED)), *words]


def settings_of(name: str) -> dict[str, str]:
    """The settings of a file of the package, with those that are comments there."""
    text = (PACKAGING / "files" / name).read_text(encoding="utf-8")
    return dict(re.findall(r"^#?([A-Z_]+)=(.*)$", text, re.MULTILINE))


def started(processes: Processes, unit: Unit) -> Process:
    """What a unit runs, after what it runs first."""
    if values_of(unit.text, "ExecStartPre"):
        subprocess.run(unit.words("ExecStartPre"), check=True)
    folder = "".join(values_of(unit.text, "WorkingDirectory")).removeprefix("-")
    for place, now in unit.places.items():
        folder = folder.replace(place, now)
    program = unit.program()
    return processes.process(Path(program[1]).name, *program).start(cwd=folder or None)


def read(file: str) -> str:
    """A file's text, or nothing."""
    return Path(file).read_text(encoding="ascii") if os.path.exists(file) else ""
