"""Trials that fail on purpose, for tests/test_gate.py: pytest takes them only if they are named."""

import os
from collections.abc import Iterator
from pathlib import Path

import pytest
from bozintar.processes import Late, Process

NOTES = Path(os.environ.get("NOTES_OF_FAILURES", "/nowhere"))


def is_first(name: str) -> bool:
    """Whether a trial is done for the first time."""
    is_new = not (NOTES / name).exists()
    (NOTES / name).touch()
    return is_new


def test_late_once() -> None:
    """An answer comes late, once."""
    if is_first("late_once"):
        raise Late("no answer")


def test_late_again() -> None:
    """No answer comes, however often."""
    raise TimeoutError


def test_lost_once() -> None:
    """A reading is lost, once."""
    assert not is_first("lost_once"), "a reading is lost"


def test_late_after_a_crash(tmp_path: Path) -> None:
    """No answer comes, since a program has crashed, once."""
    if is_first("crash"):
        Process("crashes", str(tmp_path), "sh", "-c", "kill -SEGV $$").start().ended()
        raise Late("no answer")


@pytest.fixture
def ends_late() -> Iterator[None]:
    """What doesn't end in time, once."""
    yield
    if is_first("ends_late"):
        raise Late("no end")


@pytest.mark.usefixtures("ends_late")
def test_ends_late() -> None:
    """All goes well, but the end."""
