"""A model of the wake-ups of lnsd's threads, which Debian's spin searches exhaustively."""

import re
import subprocess
from collections.abc import Sequence
from dataclasses import dataclass
from pathlib import Path

import pytest
from bozintar import debian

from ..running import ROOT
from .test_orders import FOLDER, written

MODEL = FOLDER / "wakeups.pml"
# `serve` and `run`, each with links that stay and with a life that ends
SEARCHES = ((), ("ENDS",), ("RUN",), ("RUN", "ENDS"))
# The most memory of a search in megabytes, and its longest way in steps.
MEMORY, DEPTH = 1900, 100_000
# What spin prints if it has not searched everything.
INCOMPLETE = (
    "max search depth too small",
    "Search not completed",
    "hash-compact",
    "Bit statespace",
)
# a fault, and the search that finds it
FAULTS = {
    "IDLE_AFTER_LOOK": (),
    "NO_LOOK_FOR_FRAMES": (),
    "OPENED_BEFORE_HEARD": (),
    "OPENED_BEFORE_FRAMES": (),
    "BELL_BEFORE_RING": (),
    "RING_BEFORE_ASKING": (),
    "BELL_BEFORE_REFUSAL": (),
    "END_AT_TICK": ("ENDS",),
    "LAST_AFTER_LOOK": ("ENDS",),
    "TICKED_BEFORE_CLOSING": ("ENDS",),
    "BELL_BEFORE_END_OF_INPUT": ("ENDS",),
    "OVER_AFTER_BELL": ("RUN",),
    "LINES_AFTER_BELLS": ("RUN",),
    "SHOWN_AFTER_LOOK": ("RUN", "ENDS"),
}
# The crates whose threads park and wake each other.
CRATES = ("lnsd_links", "lnsd_threads", "lnsd_life", "lnsd_operator", "flusher", "session_core")


@dataclass
class Search:
    """What a search printed, the lines of the model's steps, and those that it never took."""

    said: str
    steps: set[int]
    untaken: set[int]


def made(folder: Path, *words: str) -> str:
    """Runs a program, which has to end well; what it prints."""
    ended = subprocess.run(words, cwd=folder, capture_output=True, text=True, check=False)
    assert not ended.returncode, f"{words[0]} ended so: {ended.stdout}{ended.stderr}"
    return ended.stdout


def searched(folder: Path, switches: Sequence[str]) -> Search:
    """Searches the model with these switches."""
    debian.need(("spin", "gcc", "libc6-dev"))
    made(folder, "spin", *(f"-D{switch}" for switch in switches), "-a", str(MODEL))
    made(folder, "gcc", "-O2", "-DSAFETY", f"-DMEMLIM={MEMORY}", "-o", "pan", "pan.c")
    said = made(folder, "./pan", f"-m{DEPTH}")
    lines = re.findall(r"wakeups\.pml:(\d+) => (.+)", made(folder, "./pan", "-d"))
    steps = {int(line) for line, text in lines if text not in ("-end-", "(0)")}
    missed = re.findall(r'wakeups\.pml:(\d+), state \d+, "(.+)"', said)
    return Search(said, steps, {int(line) for line, text in missed if text not in ("-end-", "(0)")})


def waking(path: Path) -> set[str]:
    """The functions of a source that park or unpark a thread."""
    name, found = "", set()
    for line in path.read_text().splitlines():
        if begun := re.match(r"\s*(?:pub(?:\(\w+\))? )?fn (\w+)", line):
            name = begun[1]
        if re.search(r"\.(?:un)?park(?:_timeout)?\(", line):
            found.add(name)
    return found


@pytest.mark.slow
def test_no_wakeup_is_lost(tmp_path: Path) -> None:
    """In no state do all threads sleep while something is left, and each thread ends if the life
    ends. Each step of the model is taken in one of the searches."""
    steps, taken = set(), set()
    for switches in SEARCHES:
        search = searched(tmp_path, switches)
        assert "errors: 0" in search.said, search.said
        assert "Full statespace search for:" in search.said, search.said
        assert not [words for words in INCOMPLETE if words in search.said], search.said
        print(switches, *re.findall(r".* states, stored|.*elapsed time.*", search.said))
        steps |= search.steps
        taken |= search.steps - search.untaken
    assert steps == taken, f"no search takes the steps of these lines: {sorted(steps - taken)}"


@pytest.mark.parametrize("fault", FAULTS)
def test_fault_is_found(tmp_path: Path, fault: str) -> None:
    """A state is found in which a wake-up was lost by the planted fault."""
    said = searched(tmp_path, (f"FAULT_{fault}", *FAULTS[fault])).said
    assert "assertion violated" in said, said


def test_all_wakeups_have_orders() -> None:
    """Each function that parks or wakes a thread stands with its order."""
    sources = [path for crate in CRATES for path in (ROOT / "crates" / crate / "src").glob("*.rt")]
    found = {(f"{path.parts[-3]}/{path.stem}", name) for path in sources for name in waking(path)}
    known = {(file, name.split("::")[-1]) for file, name in written()}
    assert found, "no function parks or wakes a thread"
    assert found <= known, f"they stand nowhere: {sorted(found - known)}"
