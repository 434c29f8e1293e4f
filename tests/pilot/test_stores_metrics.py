"""The numbers of several stores of a machine, each with its name."""

import os
from pathlib import Path
from typing import Any

import pytest

from .parts import run

# the status of a server by the file of its store; of `away` there is none
LNSD = """#!/bin/sh
[ "$1" = status ] || exit 1
case "$2" in
    */one) printf 'devices 7\\nlast_copy_00000000000000B1 2500\\nsyncs 3\\n' ;;
    */two) printf 'devices 9\\nlater a"b\\n' ;;
    *) exit 1 ;;
esac
"""
DUE = {
    'lnsd_up{store="d00"} 1.0',
    'lnsd_up{store="d01"} 1.0',
    'lnsd_up{store="d02"} 0.0',
    'lnsd_devices{store="d00"} 7.0',
    'lnsd_devices{store="d01"} 9.0',
    'lnsd_last_copy_seconds{gateway="00000000000000B1",store="d00"} 2.5',
    'lnsd_syncs_total{store="d00"} 3.0',
    'lnsd_later{store="d01",value="a\\"b"} 1.0',
}


@pytest.fixture
def lnsd(folder: Path) -> str:
    """A program in the place of lnsd."""
    file = folder / "lnsd"
    file.write_text(LNSD, encoding="utf-8")
    file.chmod(0o755)
    return str(file)


def samples(*words: Any) -> list[str]:
    """The lines with numbers that metrics prints."""
    status, text, said = run("metrics", *words, timeout=60)
    assert (status, said) == (0, "")
    return [line for line in text.splitlines() if not line.startswith("#")]


def sorted_labels(line: str) -> str:
    """A line with its labels in their order by name."""
    name, mark, rest = line.partition("{")
    labels, _, number = rest.rpartition("} ")
    return f"{name}{{{','.join(sorted(labels.split(',')))}}} {number}" if mark else line


def test_several_stores(folder: Path, lnsd: str) -> None:
    """Each number of a server has its store's name, also of one that is away."""
    stores = [f"--store=d0{at}={folder}/{name}" for at, name in enumerate(("one", "two", "away"))]
    found = samples(*stores, "--lnsd", lnsd)
    assert {sorted_labels(line) for line in found} == DUE
    assert len(found) == len(DUE)


def test_one_store(folder: Path, lnsd: str) -> None:
    """The numbers of one store have no name of it."""
    found = samples(f"{folder}/one", "--lnsd", lnsd)
    assert "lnsd_up 1.0" in found and not [line for line in found if "store=" in line]


def test_copies(folder: Path, lnsd: str) -> None:
    """The newest copy of each store is in its own folder, encrypted or not; and the room there."""
    for name, moment, suffix in (("d00", 1000, ""), ("d01", 2000, ".age")):
        for more in (0, -500):
            file = folder / name / f"store-2026-11-29T22-50-{10 + more % 7}{suffix}"
            file.parent.mkdir(exist_ok=True)
            file.write_bytes(b"")
            os.utime(file, (moment + more, moment + more))
    stores = [f"--store={name}={folder}/one" for name in ("d00", "d01", "d02")]
    found = samples(*stores, "--lnsd", lnsd, "--copies", folder)
    assert [line for line in found if line.startswith("pilot_copy_seconds")] == [
        'pilot_copy_seconds{store="d00"} 1000.0',
        'pilot_copy_seconds{store="d01"} 2000.0',
    ]
    free = dict(line.split(" ") for line in found if line.startswith("pilot_copies_free_bytes"))
    assert list(free) == [f'pilot_copies_free_bytes{{store="d0{number}"}}' for number in (0, 1)]
    assert all(float(room) > 0 for room in free.values())


# words, and what is said of them
WRONG: tuple = (
    ((), "either STORE or --store is needed"),
    (("store", "--store", "d00=store"), "either STORE or --store is needed"),
    (("--store", "d00=one", "--store", "d00=two"), "a name of a store is given twice"),
    (("--store", "d00"), "d00 is no NAME=FILE"),
    (("--store", "d/0=store"), "d/0=store is no NAME=FILE"),
)


@pytest.mark.parametrize("said, due", WRONG)
def test_wrong_words(said: tuple, due: str) -> None:
    """What is wrong with the options is one line, and status 2."""
    status, _, complaint = run("metrics", *said)
    assert status == 2 and due in complaint and complaint.count("\n") == 1


def test_no_program(folder: Path) -> None:
    """There is no lnsd: one line, and no numbers."""
    status, text, said = run("metrics", f"--store=d00={folder}/one", "--lnsd", "/nowhere/lnsd")
    assert (status, text, said.count("\n")) == (1, "", 1)
