"""The program web-console: its options, and how it begins and ends."""

import subprocess
import sys
import urllib.error
import urllib.request
from pathlib import Path

import pytest
from bozintar.processes import HOST, Processes, await_that, free_port

from .sites import DEVICE, GATEWAY

PROGRAM = Path(__file__).resolve().parents[2] / "pilot/console/web-console"
WORDS = ["--lookout", "none", "--broker", f"{HOST}:1", "--db", "console.db"]
LOCAL = [*WORDS, "--listen", f"{HOST}:1"]


def run(folder: Path, *words: str) -> tuple[int, str]:
    """Runs the program to its end; its status, and its complaint."""
    program = [sys.executable, str(PROGRAM), *words]
    ended = subprocess.run(program, capture_output=True, text=True, cwd=folder, timeout=120)
    return ended.returncode, ended.stderr


@pytest.mark.parametrize(
    "words, why",
    [
        ([], "required"),
        ([*WORDS, "--listen", "0.0.0.0:8080"], "0.0.0.0 isn't loopback: that needs --certificate"),
        ([*WORDS, "--listen", "192.0.2.1:8080"], "isn't loopback"),
        ([*WORDS, "--listen", "[::]:8080"], "isn't loopback"),
        ([*LOCAL, "--certificate", "x"], "--certificate, --key and --clients go together"),
        ([*LOCAL, "--asks", "16=x"], "16=x is no N=SOCKET"),
        ([*LOCAL, "--asks", "x"], "x is no N=SOCKET"),
        ([*LOCAL, "--netid", "2A"], "2A is no NetID"),
        (
            [*LOCAL, "--certificate", "x", "--key", "x", "--clients", "x", "--loopback-writes"],
            "--loopback-writes is for a console without --certificate",
        ),
    ],
)
def test_wrong_words(folder: Path, words: list[str], why: str) -> None:
    """Wrong words are one line with the cause, and status 2; no file is made."""
    status, said = run(folder, *words)
    assert status == 2 and why in said and said.count("\n") == 1
    assert not list(folder.iterdir())


@pytest.mark.parametrize(
    "words, why",
    [
        ([*LOCAL, "--names", "none.csv"], "none.csv: No such file"),
        ([*LOCAL, "--db", "/none/console.db"], "/none/console.db can't be used"),
        ([*LOCAL, "--certificate", "x", "--key", "x", "--clients", "x"], "certificates can't be"),
    ],
)
def test_missing_files(folder: Path, words: list[str], why: str) -> None:
    """A file that can't be used is one line with the cause, and status 1."""
    status, said = run(folder, *words)
    assert status == 1 and why in said and "Traceback" not in said


def answer(address: str, path: str) -> tuple[int, str]:
    """An answer of the web site."""
    try:
        with urllib.request.urlopen(f"http://{address}{path}", timeout=30) as response:
            return response.status, response.read().decode()
    except urllib.error.HTTPError as error:
        return error.code, error.read().decode()


def test_alone(folder: Path) -> None:
    """Without a lookout and a broker it serves pages, which say so. It ends on SIGTERM, and begins
    again with the names that it had."""
    names = folder / "names.csv"
    text = f'{DEVICE},"Mill, lane"\n{GATEWAY.lower()},Tower\nx,y\n\n{DEVICE}\n'
    names.write_text(f"\ufeff{text}", encoding="utf-8")
    address = f"{HOST}:{free_port()}"
    with Processes() as parts:
        words = ["--lookout", parts.file("look"), "--broker", f"{HOST}:{free_port()}"]
        words += ["--db", parts.file("console.db"), "--listen", address]
        console = parts.python(PROGRAM, *words, "--names", names)
        console.start("listens on")
        await_that("it has asked", lambda: "No server" in answer(address, "/health")[1])
        status, health = answer(address, "/health")
        assert status == 503 and "The broker is away" in health
        assert answer(address, "/")[0] == 200
        other = parts.python(PROGRAM, *words, name="other")
        other.start()
        assert other.ended() == 1 and "can't be listened on: Address already in use" in other.said()
        assert console.end() == 0
        again = parts.python(PROGRAM, *words, name="again")
        again.start("listens on")
        assert answer(address, f"/devices/{DEVICE}")[0] == 404
        assert again.end() == 0
