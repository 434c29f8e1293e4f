"""Words that lnsd doesn't take, its help, and output that can't be written."""

import os
import shlex
import subprocess
from collections.abc import Iterator
from typing import Any, BinaryIO

import pytest
from bozintar.processes import HOST
from bozintar.server import Program

WORDS = ("format", "list", "serve", "run", "stop", "status", "devices", "watch", "restore")
BIG = "99999999999999999999"
FORMAT = "--netid 00002A --slots 8"
SERVE = f"serve STORE --listen {HOST}:1"
WRONG_IDS = ("000040", "FFFFFF", "00002a", "2A", "00002A0", "''", "0x002A", "-0002A", "'  002A'")
# commands of which STORE is a store, and NEW and MISSING files that aren't there
WRONG = (
    *("", "nonsense", "--nonsense", "list", "serve", "format", "list STORE more"),
    *("serve STORE", "serve STORE --links 1", SERVE, f"{SERVE} --links"),
    *(f"{SERVE} --links {links}" for links in ("0", "81", "-1", "x", "''", "1.0", BIG)),
    *("format NEW", f"format {FORMAT}", "format NEW --netid 00002A", "format NEW --slots 8"),
    *(f"format NEW {FORMAT} x", f"format NEW {FORMAT} --slots 9"),
    *(f"format NEW --netid {net_id} --slots 8" for net_id in WRONG_IDS),
    *(
        f"format NEW --netid 00002A --slots {slots}"
        for slots in ("0", "4097", "-1", "x", "''", BIG)
    ),
)
# commands that have a text to print, and others; each with its status if nothing can be printed
TEXTS = ("list STORE", "--help", "--version")
FULL = [
    (f"format NEW {FORMAT}", 0),
    ("stop", 2),
    ("list MISSING", 1),
    *((text, 1) for text in TEXTS),
]


@pytest.fixture
def nothing() -> Iterator[BinaryIO]:
    """A file that can't be written, since its disk is full."""
    with open("/dev/full", "wb") as file:
        yield file


def words_of(server: Program, text: str) -> list[str]:
    """The words of a command."""
    names = ("NEW", "MISSING")
    files = {"STORE": server.store, **{name: f"{server.folder}/{name}" for name in names}}
    return [files.get(word, word) for word in shlex.split(text)]


def assert_refused(server: Program, *words: str) -> None:
    """The words are refused: status 2, and a text on standard error alone."""
    status, out, errors = server.run(*words)
    assert (status, out) == (2, "")
    assert errors.strip(), "nothing is on standard error"
    assert "panic" not in errors


@pytest.mark.parametrize("command", WRONG)
def test_wrong_words(server: Program, command: str) -> None:
    """A command with words that lnsd doesn't take is refused, and makes no file."""
    assert_refused(server, *words_of(server, command))
    assert not os.path.exists(f"{server.folder}/NEW")


def test_words_that_are_no_text(server: Program) -> None:
    """A file name that is no UTF-8 is refused."""
    assert_refused(server, "list", os.fsdecode(b"\xff\xfe"))


@pytest.mark.parametrize("command", ["--help", *(f"{word} --help" for word in WORDS)])
def test_help(server: Program, command: str) -> None:
    """Each command has a help."""
    status, out, errors = server.run(*command.split())
    assert (status, errors) == (0, "")
    assert len(out) > 40


@pytest.mark.parametrize("word", ["--version", "-V"])
def test_version(server: Program, word: str) -> None:
    """The version of a program that wasn't proved says so."""
    assert server.run(word) == (0, "lnsd 0.1.0, commit 000000000000, proof: none\n", "")


def ended(server: Program, command: str, out: BinaryIO, errors: BinaryIO | int) -> tuple:
    """How a command ends with this output, and what it prints on standard error."""
    words = [server.path, *words_of(server, command)]
    how: dict[str, Any] = {"stdin": subprocess.DEVNULL, "stdout": out, "stderr": errors}
    done = subprocess.run(words, timeout=60, check=False, **how)
    return done.returncode, done.stderr


@pytest.mark.parametrize(("command", "status"), FULL, ids=[command for command, _ in FULL])
def test_full_disk(server: Program, nothing: BinaryIO, command: str, status: int) -> None:
    """Neither output nor errors can be written: a command that has a text to print fails, and the
    others do what they do."""
    assert ended(server, command, nothing, nothing)[0] == status


@pytest.mark.parametrize("command", TEXTS)
def test_full_disk_beside_errors(server: Program, nothing: BinaryIO, command: str) -> None:
    """A text that can't be printed is a failure, and nothing is printed on standard error."""
    assert ended(server, command, nothing, subprocess.PIPE) == (1, b"")
