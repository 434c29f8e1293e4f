"""Commands of the repository, as they are run from its top."""

import subprocess
from pathlib import Path

ROOT = Path(__file__).resolve().parents[1]


def passes(*words: str) -> None:
    """Runs a command, which has to end well. pytest shows what it prints if it doesn't."""
    ended = subprocess.run(
        words,
        cwd=ROOT,
        stdin=subprocess.DEVNULL,
        stdout=subprocess.PIPE,
        stderr=subprocess.STDOUT,
        text=True,
        errors="replace",
        check=False,
    )
    print(ended.stdout)
    assert ended.returncode == 0, f"{words[0]} ended with status {ended.returncode}"


def files(*patterns: str) -> list[str]:
    """The files of the repository, or those of a pattern, by their paths from its top."""
    words = ["git", "ls-files", *patterns]
    listed = subprocess.run(words, cwd=ROOT, stdout=subprocess.PIPE, text=True, check=True)
    return [name for name in listed.stdout.splitlines() if (ROOT / name).exists()]


def python_files() -> list[str]:
    """All Python files of the repository, by their paths from its top."""
    return [name for name in files() if is_python(ROOT / name)]


def is_python(path: Path) -> bool:
    """Whether a file is there and has Python."""
    if path.suffix or not path.is_file():
        return path.suffix == ".py" and path.is_file()
    with open(path, "rb") as file:
        return b"python3" in file.readline()
