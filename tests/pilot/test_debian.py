"""How Debian's packages are installed: nothing is asked of anybody, and a failure is printed."""

import os
from pathlib import Path

import pytest
from bozintar import debian

# what stands in for a program of the system: it notes its input, what the environment says of
# questions, and its words
NOTES = """#!/bin/sh
printf '%s|%s|%s\\n' "$(cat)" "$DEBIAN_FRONTEND" "$*" >>{notes}
{more}
"""
# sudo drops the environment
SUDO = '#!/bin/sh\nexec env -i PATH="$PATH" "$@"\n'


class System:
    """Programs in the place of the system's."""

    def __init__(self, folder: Path, monkeypatch: pytest.MonkeyPatch) -> None:
        self.folder, self.notes = folder, folder / "notes"
        self.put("sudo", SUDO)
        self.fails("")
        monkeypatch.setenv("PATH", f"{folder}:/usr/bin:/bin")
        monkeypatch.setattr(debian, "PAUSES", (0, 0))

    def put(self, name: str, text: str) -> None:
        """A program."""
        (self.folder / name).write_text(text, encoding="utf-8")
        (self.folder / name).chmod(0o755)

    def fails(self, more: str) -> None:
        """What apt-get does besides."""
        self.put("apt-get", NOTES.format(notes=self.notes, more=more))

    def noted(self) -> list[str]:
        """What apt-get noted, a line for each run."""
        return self.notes.read_text(encoding="utf-8").splitlines()


@pytest.fixture
def system(folder: Path, monkeypatch: pytest.MonkeyPatch) -> System:
    """Programs in the place of the system's."""
    return System(folder, monkeypatch)


@pytest.mark.parametrize("user, asks", ((0, "noninteractive"), (1000, "")))
def test_no_questions(
    system: System, monkeypatch: pytest.MonkeyPatch, user: int, asks: str
) -> None:
    """A package that would ask something has no input, also if sudo drops the environment."""
    monkeypatch.setattr(os, "getuid", lambda: user)
    reader, writer = os.pipe()
    os.write(writer, b"an answer\n")
    os.close(writer)
    before = os.dup(0)
    os.dup2(reader, 0)
    try:
        debian.as_root("apt-get", "install", "-y", "one")
    finally:
        os.dup2(before, 0)
        os.close(before)
        os.close(reader)
    assert system.noted() == [f"|{asks}|install -y one"]


def test_failure(system: System, capfd: pytest.CaptureFixture) -> None:
    """A program that fails is run three times; then its last line is printed."""
    system.fails("echo first >&2; echo the disk is full >&2; exit 100")
    with pytest.raises(SystemExit):
        debian.as_root("apt-get", "update")
    assert len(system.noted()) == 3
    assert "apt-get update says: the disk is full" in capfd.readouterr().err
