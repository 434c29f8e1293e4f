"""The nightly copies of a store that is being served. What `lnsd copy` makes is tried in
tests/lnsd/copies."""

import os
import re
import subprocess
import sys
import threading
import time
from collections.abc import Iterator
from pathlib import Path

import pytest
from bozintar import image, load
from bozintar.links import Application
from bozintar.server import Program

from .parts import Parts, Pilot, run
from .rows import table

SLOTS = 5


@pytest.fixture
def made(program: str) -> Iterator[Path]:
    """A new store."""
    with Program(program) as server:
        assert server.format(slots=SLOTS) == (0, "", "")
        yield Path(server.store)


def test_copies_of_a_server(pilot: Pilot, folder: Path) -> None:
    """Copies under load: each is accepted by lnsd, has decisions that the server had made, and no
    fewer than an earlier copy. Only the newest are kept, and only their owner can read them."""
    words = (pilot.program.store, folder, "--lnsd", pilot.program.path, "--keep", 3)
    is_over, counts = threading.Event(), []

    def ask() -> None:
        with Application(pilot.address, 3) as application:
            for number in range(10_000):
                of = load.device(number % 200)
                application.asks(f"provision {of.dev_eui} {load.JOIN_EUI} {number:032X} 0 1")
                application.hears()
                if is_over.is_set():
                    break

    asking = threading.Thread(target=ask)
    asking.start()
    try:
        for _ in range(5):
            status, out, said = run("copy", *words)
            assert (status, said) == (0, "")
            found = re.search(r"(/\S+): devices (\d+) seq (\d+)\n", out)
            assert found, out
            assert is_named(image.read(Path(found[1]).read_bytes()).lines()[-1], found)
            counts.append(int(found[3]))
            assert counts[-1] <= int(pilot.program.status()["made"])
            assert os.stat(found[1]).st_mode & 0o777 == 0o600
            time.sleep(1.1)  # a copy's name has the second
    finally:
        is_over.set()
        asking.join()
    assert counts == sorted(counts) and counts[-1] > 0
    assert len(list(folder.iterdir())) == 3, "and nothing that isn't whole"


def is_named(line: str, found: re.Match) -> bool:
    """Whether this is what the program printed of a copy."""
    return line == f"devices {found[2]} seq {found[3]}"


def test_restored_copy(pilot: Pilot, folder: Path) -> None:
    """A copy can be restored."""
    with Application(pilot.address, 3) as application:
        application.asks(f"provision {load.dev_eui(0)} {load.JOIN_EUI} {1:032X} 0 1")
        assert application.hears().startswith("provisioned")
    words = (pilot.program.store, folder, "--lnsd", pilot.program.path)
    assert run("copy", *words)[0] == 0
    (copy,) = folder.iterdir()
    status, out, _ = pilot.program.run("restore", str(copy), str(folder / "new"))
    assert status == 0 and "devices 1\n" in out


@table(
    "name, content, why",
    (
        ("nothing", b"", "refused 46"),
        ("no store", bytes(100), "refused 43"),
        ("a store that is cut off", None, "refused 46"),
    ),
)
def test_no_store(
    made: Path, program: str, folder: Path, name: str, content: bytes | None, why: str
) -> None:
    """What is no store isn't copied: one line, and nothing is left."""
    file, to = folder / "file", folder / "to"
    to.mkdir()
    file.write_bytes(made.read_bytes()[:-1] if content is None else content)
    words = (file, to, "--lnsd", program)
    assert run("copy", *words) == (1, "", f"copy: {file} can't be copied: {why}\n")
    assert not list(to.iterdir())


def test_encrypted_copies(made: Path, program: str, folder: Path) -> None:
    """Encrypted copies are those of lnsd, for who has one of the keys. The newest are kept, also
    among others, and nothing is left where they were made."""
    keys = [key_of(folder / name) for name in ("first", "second")]
    to, room = folder / "to", folder / "room"
    to.mkdir()
    room.mkdir()
    (to / "store-2026-11-29T22-50-24").write_bytes(b"an older copy")
    words = (made, to, "--lnsd", program, "--keep", 1, "--room", room)
    status, out, said = run("copy", *words, *(f"--recipient={key}" for key in keys))
    assert (status, said) == (0, "")
    (file,) = to.iterdir()
    assert re.fullmatch(r"store-\d{4}-\d\d-\d\dT\d\d-\d\d-\d\d\.age", file.name)
    assert f"{file}: devices 0 seq 0\n" in out and file.stat().st_mode & 0o777 == 0o600
    for name in ("first", "second"):
        opening = ["age", "--decrypt", "--identity", str(folder / name), str(file)]
        plain = subprocess.run(opening, capture_output=True, check=True)
        assert image.read(plain.stdout).lines() == ["devices 0 seq 0"]
    assert not list(room.iterdir())


def key_of(file: Path) -> str:
    """A new key of age in a file; its public part."""
    words = ["age-keygen", "--output", str(file)]
    said = subprocess.run(words, capture_output=True, text=True, check=True).stderr
    return said.rsplit(" ", 1)[-1].strip()


@pytest.mark.parametrize("path, why", ((None, "malformed recipient"), ("/none", "no program age")))
def test_copies_that_are_not_encrypted(
    made: Path,
    program: str,
    folder: Path,
    monkeypatch: pytest.MonkeyPatch,
    path: str | None,
    why: str,
) -> None:
    """If a copy can't be encrypted, a line says why, and none is left in clear."""
    to = folder / "to"
    to.mkdir()
    monkeypatch.setenv("PATH", path or os.environ["PATH"])
    status, _, said = run("copy", made, to, "--lnsd", program, "--recipient", "age1none")
    assert status == 1 and said.startswith("copy: the copy can't be encrypted") and why in said
    assert not list(to.iterdir())


def test_disk_that_is_not_mounted(made: Path, program: str, folder: Path) -> None:
    """If a disk has to be mounted at the folder and isn't, nothing is copied."""
    words = ("--lnsd", program, "--mounted")
    due = f"copy: no disk is mounted at {folder}: nothing is copied\n"
    assert run("copy", made, folder, *words) == (1, "", due)
    assert not list(folder.iterdir())
    assert "no disk" not in run("copy", made, "/proc", *words)[2], "a file system is mounted there"


def test_program_that_fails(made: Path, folder: Path) -> None:
    """A program that makes no copy, and says nothing."""
    status, _, said = run("copy", made, folder, "--lnsd", "/bin/false")
    assert (status, said) == (1, f"copy: {made} can't be copied: lnsd copy ended with 1\n")
    assert not list(folder.iterdir())


BUSY = "end = time.monotonic() + 8\nwhile time.monotonic() < end: pass\nprint('devices 0 seq 0')"


@pytest.mark.parametrize("is_busy", (True, False))
def test_slow_program(made: Path, folder: Path, parts: Parts, is_busy: bool) -> None:
    """A copy may take any time for which lnsd works; if it does nothing, it is ended."""
    text = f"#!{sys.executable}\nimport sys, time\n{BUSY if is_busy else 'time.sleep(600)'}\n"
    slow = Path(parts.file("slow", f"{text}open(sys.argv[3], 'w').close()\n"))
    slow.chmod(0o755)
    copy = parts.own("copy", made, folder, "--lnsd", slow, after="program.PATIENCE = 5.0").start()
    assert copy.ended(60) == (0 if is_busy else 1), copy.said()
    due = "devices 0 seq 0" if is_busy else "can't be copied: lnsd copy has done nothing for 5 s"
    assert due in copy.said() and len(list(folder.iterdir())) == is_busy


def test_store_that_is_gone(program: str, folder: Path) -> None:
    """A store that isn't there: the line has the cause."""
    status, _, said = run("copy", folder / "gone", folder, "--lnsd", program)
    due = f"copy: {folder}/gone can't be copied: file, not found\n"
    assert (status, said) == (1, due)
