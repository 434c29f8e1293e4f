"""The words of all commands: the files of bin, tools, examples, pilot and .ci that can be run."""

import os
import re
import signal
import subprocess
from pathlib import Path
from typing import Any

import costs
import pytest
import speeds

ROOT = Path(__file__).resolve().parents[1]
FOLDERS = ("bin", "tools", "examples", "pilot", ".ci")
# commands whose first word chooses a module, which has words of its own
BY_WORD = {"tools/speed": speeds.WORDS, "tools/gate-costs": costs.WORDS}
# the words go to a program, which needn't be built, and which ends with 1 if nobody reads it
BY_PROGRAM = "bin/lnsd"
# what compiles the sources without proofs
UNPROVED = ("bin/unproved", "bin/lnsd --unproved", "bin/lns-sim")
WRONG = "--no-such-word"
SECONDS = 120
# how a command may end that nobody reads
UNREAD = (141, -signal.SIGPIPE)

Ended = tuple[int, bytes, list[str]]


def all_commands() -> list[str]:
    """All commands, each also with the words that choose what it does."""
    paths = sorted(path for name in FOLDERS for path in (ROOT / name).rglob("*") if path.is_file())
    names = [str(path.relative_to(ROOT)) for path in paths if os.access(path, os.X_OK)]
    return [command for name in names for command in (name, *by_word(name))]


def by_word(name: str) -> list[str]:
    """A command with each word that chooses what it does."""
    return [f"{name} {word}" for word in BY_WORD.get(name, ())]


def ended(command: str, word: str, out: Any) -> Ended:
    """How a command ends with one more word: its status, and both outputs."""
    # with this variable Python writes at once, and then fails at another place than for users
    env = {name: value for name, value in os.environ.items() if name != "PYTHONUNBUFFERED"}
    came = subprocess.run(
        [*command.split(), word],
        cwd=ROOT,
        env=env,
        stdin=subprocess.DEVNULL,
        stdout=out,
        stderr=subprocess.PIPE,
        timeout=SECONDS,
        check=False,
    )
    return came.returncode, came.stdout, came.stderr.decode(errors="replace").splitlines()


def without_help(text: str) -> list[str]:
    """The options in a Python program's help that have no text. An option stands two columns in;
    its text begins after two spaces, or in the next line, far in."""
    lines = text.partition("options:")[2].split("\n\n")[0].splitlines()
    _, mark, positional = text.partition("positional arguments:\n")
    lines += positional.split("\n\n")[0].splitlines() if mark else []
    return [
        line.split()[0]
        for line, after in zip(lines, [*lines[1:], ""])
        if re.match(r"  \S", line)
        and not re.search(r"\S  +\S", line)
        and not after.startswith(" " * 10)
    ]


commands = pytest.mark.parametrize("command", all_commands())
own_commands = pytest.mark.parametrize(
    "command", [command for command in all_commands() if command != BY_PROGRAM]
)


@commands
def test_help(command: str) -> None:
    """--help prints a text on standard output, and nothing else. The text of a Python program has
    its usage, and a help for each of its options."""
    status, out, errors = ended(command, "--help", subprocess.PIPE)
    text = out.decode()
    assert (status, errors) == (0, [])
    assert len(text) >= 100
    path, *words = command.split()
    if b"python" in (ROOT / path).read_bytes().partition(b"\n")[0]:
        assert text.startswith(f"usage: {' '.join([Path(path).name, *words])} ")
        assert without_help(text) == []


@commands
def test_help_to_a_full_disk(command: str) -> None:
    """If the help can't be written, the status is 1."""
    with open("/dev/full", "wb") as full:
        status, _, errors = ended(command, "--help", full)
    assert status == 1
    assert len(errors) <= 1


@commands
def test_help_to_nobody(command: str) -> None:
    """If nobody reads the help, the command ends as programs do by SIGPIPE."""
    reader, writer = os.pipe()
    os.close(reader)
    with open(writer, "wb") as out:
        status, _, errors = ended(command, "--help", out)
    assert status in (*UNREAD, *([1] if command == BY_PROGRAM else []))
    assert len(errors) <= 1


@pytest.mark.parametrize("command", UNPROVED)
def test_how_long_it_compiles(command: str) -> None:
    """The help of what compiles without proofs doesn't promise a program within a minute or two."""
    status, out, errors = ended(command, "--help", subprocess.PIPE)
    assert (status, errors) == (0, [])
    assert re.search(r"\bin\ssome\sminutes\b", out.decode())


@own_commands
def test_wrong_word(command: str) -> None:
    """A word that the command doesn't take is one line, and status 2."""
    status, out, errors = ended(command, WRONG, subprocess.PIPE)
    assert (status, out, len(errors)) == (2, b"", 1)
