"""The merge gate's own parts: what it keeps of a green run, and which failures it tries again."""

import os
import shutil
import subprocess
import sys
from collections.abc import Sequence
from pathlib import Path

import pytest

from .running import ROOT

PROGRAMS = ("lnsd", "lns_sim", "calls_without_memory", "lns_speed")
SAID = "7 passed, 0 failed"
FAILURES = "tests/failures.py"


class Gate:
    """A small repository with the gate's commands, and what they keep."""

    def __init__(self, top: Path) -> None:
        self.top, self.cache, self.printed = top / "clone", top / "cache", top / "printed"
        self.printed.mkdir()
        (self.printed / "proofs").write_text(f"rt: lnsd proved\n{SAID}\n")
        (self.printed / "costs").write_text("all 1.0 1.0 1.0\n")
        shutil.copytree(ROOT / ".ci", self.top / ".ci")
        for name in PROGRAMS:
            (self.top / "crates" / name / "out").mkdir(parents=True)
            (self.top / "crates" / name / "out" / name).write_text(f"{name}, proved\n")
        self.write("crates/lnsd/src/main.rt", "fn main() {}\n")
        self.write("crates.txt", "lnsd:\n")
        self.write("HANDLES", "Handles allowed: none.\n")
        subprocess.run(["git", "init", "-q", self.top], check=True)

    def write(self, name: str, text: str) -> None:
        """Writes a file of the repository."""
        (self.top / name).parent.mkdir(parents=True, exist_ok=True)
        (self.top / name).write_text(text)

    def run(self, *words: str) -> tuple[int, str]:
        """Runs the gate, or what it keeps with these words; the status, and what was printed."""
        where = {**os.environ, "XDG_CACHE_HOME": str(self.cache)}
        program: list[str | Path] = [self.top / ".ci/run"]
        if words:
            program = [sys.executable, "-B", self.top / ".ci/kept.py"]
        ended = subprocess.run(
            [*program, *words],
            stdout=subprocess.PIPE,
            stderr=subprocess.STDOUT,
            text=True,
            env=where,
            check=False,
        )
        return ended.returncode, ended.stdout

    def keep(self) -> Path:
        """Keeps the programs; where they are."""
        key = self.run("key")[1].strip()
        assert self.run("keep", key, str(self.printed)) == (0, "")
        return self.cache / "bozintar-gate" / key


@pytest.fixture
def gate(tmp_path: Path) -> Gate:
    """A small repository of which nothing is kept."""
    return Gate(tmp_path)


def test_kept_programs(gate: Gate) -> None:
    """What was kept is put where the build leaves it, in another clone, too."""
    assert gate.run("take") == (1, "")
    gate.keep()
    programs = [gate.top / "crates" / name / "out" / name for name in PROGRAMS]
    for program in programs:
        program.unlink()
    status, said = gate.run("take")
    assert (status, said.rstrip().endswith(SAID)) == (0, True), said
    assert [program.read_text() for program in programs] == [f"{it}, proved\n" for it in PROGRAMS]


@pytest.mark.parametrize("changed", ("crates/lnsd/src/main.rt", "crates.txt", "HANDLES"))
def test_changed_sources(gate: Gate, changed: str) -> None:
    """One byte more, and nothing is kept of these sources, nor of sources that have changed since
    they were proved."""
    key = gate.keep().name
    gate.write(changed, (gate.top / changed).read_text() + "\n")
    assert gate.run("take") == (1, "")
    assert gate.run("keep", key, str(gate.printed))[0] == 1


@pytest.mark.parametrize("planted", ("lnsd", "record"))
def test_planted_proof(gate: Gate, planted: str) -> None:
    """A kept program that isn't the proved one turns the gate red, and so does another record."""
    (gate.keep() / planted).write_text("{}")
    status, said = gate.run()
    assert (status, said.splitlines()[-1]) == (1, "0 passed, 1 failed"), said


@pytest.mark.parametrize(
    "changed, is_page", [("README.md", True), ("docs/a.svg", True), ("tools/a.py", False)]
)
def test_pages(gate: Gate, changed: str, is_page: bool) -> None:
    """If only pages have changed since a green run, only these are tried."""
    assert gate.run("pages")[0] == 1
    assert gate.run("green") == (0, "")
    gate.write(changed, "more\n")
    assert (gate.run("pages")[0] == 0) == is_page


def tried(folder: Path, names: Sequence[str], *words: str) -> tuple[int, str]:
    """Does trials that fail on purpose; the status, and what was printed."""
    trials = [f"{FAILURES}::{name}" for name in names]
    # these are late on purpose: no pause of the machine is the reason
    where = {**os.environ, "NOTES_OF_FAILURES": str(folder), "LONGEST_PAUSE": "inf"}
    for name in [name for name in where if name.startswith("PYTEST")]:
        del where[name]
    ended = subprocess.run(
        [sys.executable, "-m", *words, *trials],
        cwd=ROOT,
        stdout=subprocess.PIPE,
        stderr=subprocess.STDOUT,
        text=True,
        env=where,
        check=False,
    )
    return ended.returncode, ended.stdout


@pytest.mark.parametrize(
    "names, at_first, at_last",
    [
        (["test_late_once", "test_ends_late"], "1 passed, 0 failed", "2 passed, 0 failed"),
        (["test_late_again"], "0 passed, 0 failed", "0 passed, 1 failed"),
        (["test_lost_once"], "0 passed, 1 failed", "0 passed, 0 failed"),
        (["test_late_after_a_crash"], "0 passed, 1 failed", "0 passed, 0 failed"),
        (
            ["test_late_once", "test_ends_late", "test_late_again"],
            "1 passed, 0 failed",
            "0 passed, 3 failed",
        ),
    ],
    ids=["late", "late-again", "lost", "crash", "too-many"],
)
def test_failures(tmp_path: Path, names: list[str], at_first: str, at_last: str) -> None:
    """What took too long is done again, alone. A lost reading and a crash fail at once, and so do
    more than two trials that took too long."""
    late = tmp_path / "late"
    status, said = tried(tmp_path, names, "pytest", "-q", "--put-off", str(late))
    assert (status != 0, said.splitlines()[-1]) == ("0 failed" not in at_first, at_first), said
    status, said = tried(tmp_path, [], "tests.unsteady", str(late))
    assert (status != 0, said.splitlines()[-1]) == ("0 failed" not in at_last, at_last), said
    assert said.count("UNSTEADY") == (len(names) - names.count("test_late_again")) * late.exists()
