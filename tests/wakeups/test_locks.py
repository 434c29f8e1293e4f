"""The table of locks in docs/ARCHITECTURE.md beside the code of lnsd's threads."""

import re

import pytest

from ..running import ROOT
from .test_wakeups import CRATES

pytestmark = pytest.mark.pages
# a lock's name in the table, if the code calls it otherwise
NAMES = {"self": "sessions"}
LOCKS = re.compile(r"(\w+)(?:\.get\(\w+\)\?)?\.lock\(")


def written() -> set[tuple[str, str, str]]:
    """The locks of the table, each with the file and the function that take it."""
    page = (ROOT / "docs/ARCHITECTURE.md").read_text()
    rows = re.findall(r"^\| `(\w+)`: [^|]* \| (`\w+/[^|]*) \|", page, re.MULTILINE)
    return {
        (lock, file, name)
        for lock, places in rows
        for file, names in re.findall(r"`(\w+/\w+): ([\w, ]+)`", places)
        for name in names.split(", ")
    }


def taken() -> set[tuple[str, str, str]]:
    """The locks of the code, each with the file and the function that take it."""
    found = set()
    for crate in CRATES:
        for path in (ROOT / "crates" / crate / "src").glob("*.rt"):
            name = ""
            for line in path.read_text().splitlines():
                if begun := re.match(r"\s*(?:pub(?:\(\w+\))? )?fn (\w+)", line):
                    name = begun[1]
                found |= {
                    (NAMES.get(lock, lock), f"{crate}/{path.stem}", name)
                    for lock in LOCKS.findall(line)
                }
    return found


def test_table_of_locks() -> None:
    """Each lock that a thread takes is in the table, and each of the table is taken."""
    assert taken(), "no function takes a lock"
    assert written() == taken(), sorted(written() ^ taken())
