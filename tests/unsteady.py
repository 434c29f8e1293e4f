"""Does trials again that took too long, each alone, three times: an answer that didn't come, or a
port that wasn't free, may be the fault of a busy machine. A trial that passes each time is printed
as UNSTEADY, with its first failure, and counts as passed, so that a race stays visible. The last
line is 'N passed, M failed'.

    unsteady.py FILE [WORD]..    the trials that pytest noted in FILE (--put-off); pytest gets WORDs

Status: 0; 1 if a trial fails again, or if more than two are unsteady."""

import fcntl
import json
import os
import subprocess
import sys
from collections.abc import Sequence
from pathlib import Path

import pytest

TIMES, MOST = 3, 2


def put_off(file: str, name: str, failed: Sequence[pytest.TestReport]) -> None:
    """Notes a trial, and has its reports count as neither passed nor failed. Workers write one file
    at once."""
    why = "\n".join(report.longreprtext for report in failed)
    with open(file, "a", encoding="utf-8") as notes:
        fcntl.flock(notes, fcntl.LOCK_EX)
        notes.write(json.dumps([name, why]) + "\n")
        notes.flush()
    for report in failed:
        report.outcome = "skipped"
        report.longrepr = (name, 0, "it took too long, and is done again alone")


def passes(name: str, words: Sequence[str]) -> bool:
    """Whether a trial passes alone, each time."""
    command = [sys.executable, "-m", "pytest", "-q", *words, name]
    return all(subprocess.run(command, check=False).returncode == 0 for _ in range(TIMES))


def main(file: str, *words: str) -> int:
    """Does the trials again."""
    lines = Path(file).read_text(encoding="utf-8").splitlines() if os.path.exists(file) else []
    first: dict[str, str] = {}
    for name, why in map(json.loads, lines):
        first.setdefault(name, why)
    bad = [name for name in first if not passes(name, words)]
    for name, why in first.items():
        print(f"\n{'FAILED AGAIN' if name in bad else 'UNSTEADY'} {name}: at first\n{why}")
    if len(first) > MOST:
        print(f"\n{len(first)} trials took too long, and at most {MOST} may")
        bad = list(first)
    print(f"{len(first) - len(bad)} passed, {len(bad)} failed")
    return 1 if bad else 0


if __name__ == "__main__":
    sys.exit(main(*sys.argv[1:]))
