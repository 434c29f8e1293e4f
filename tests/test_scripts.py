"""Scripts of lns-sim: NAME.in is its standard input, and NAME.out what it must print, byte for
byte."""

import subprocess
from pathlib import Path

import pytest

ROOT = Path(__file__).resolve().parents[1]
FOLDERS = ("examples", "tests/scripts")
SCRIPTS = sorted(path for name in FOLDERS for path in (ROOT / name).rglob("*.in"))
NAMES = [str(path.relative_to(ROOT).with_suffix("")) for path in SCRIPTS]
SECONDS = 120


@pytest.mark.parametrize("script", SCRIPTS, ids=NAMES)
def test_script(script: Path, simulator: str) -> None:
    """The simulator prints what it must, and ends with status 0."""
    steps, due = script.read_bytes(), script.with_suffix(".out").read_bytes()
    ended = subprocess.run([simulator], input=steps, capture_output=True, timeout=SECONDS)
    assert ended.returncode == 0, ended.stderr.decode(errors="replace")
    # lines first: of these pytest prints the first that differs
    assert ended.stdout.splitlines() == due.splitlines()
    assert ended.stdout == due


def test_each_answer_has_a_script() -> None:
    """No file has answers to a script that isn't there."""
    answers = [path for name in FOLDERS for path in (ROOT / name).rglob("*.out")]
    assert [path for path in answers if not path.with_suffix(".in").exists()] == []
