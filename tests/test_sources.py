"""Quick checks of the sources: nothing is proved, compiled or run for them."""

import re
from collections import Counter
from operator import gt
from pathlib import Path

import commands
import pytest

from .running import ROOT, files, passes, python_files

CHECKS = (
    "tools/check-words",  # names, by docs/GLOSSARY
    "tools/check-memory",  # the places that make the refusal 30
    "tools/check-prose",  # idioms that are easily misread
    "tools/pictures --check",
    "tools/more-edits --try",
    "tools/more-edits --look",  # each edit can be applied
    "tools/rules --check",  # the index of the standard's rules
    "tools/sim-memory --check",  # scripts without memory are predicted
    "examples/signed --try",
)
# The most lines of Python, and words of pages, that each folder may have. A change that needs more
# deletes something, unless its issue names a number.
SIZES = {
    ".": (0, 4200),
    ".ci": (150, 0),
    "bin": (616, 0),
    "crates": (0, 1200),
    "docs": (0, 42500),
    "examples": (2046, 8500),
    "packaging": (1241, 0),
    "pilot": (14394, 6300),
    "python": (3674, 0),
    "tests": (28676, 2850),
    "tools": (7740, 950),
}
# Debian's tools, with the settings of pyproject.toml
LINTERS = ("pyflakes3", "/usr/bin/python3 -m black -q --check")


@pytest.mark.parametrize("command", CHECKS)
def test_sources(command: str) -> None:
    """A check of the sources goes well."""
    passes(*command.split())


@pytest.mark.parametrize("linter", LINTERS)
def test_python(linter: str) -> None:
    """Debian's linters have nothing to say of any Python file."""
    passes(*linter.split(), *python_files())


@pytest.mark.parametrize("is_pilots", [True, False], ids=["pilot", "others"])
def test_types(is_pilots: bool, tmp_path: Path) -> None:
    """Debian's mypy accepts all types. It takes no two programs of one name at once, and two runs
    at once can't share what it keeps."""
    files = [name for name in python_files() if name.startswith("pilot/") == is_pilots]
    passes("/usr/bin/python3", "-m", "mypy", f"--cache-dir={tmp_path}", *files)


@pytest.mark.parametrize("crate", commands.lines())
def test_libraries(crate: str) -> None:
    """A crate's line in crates.txt has only libraries that its files name."""
    folders = [ROOT / "crates" / crate / part for part in ("src", "specs", "proofs")]
    sources = [file for folder in folders for file in folder.rglob("*.*t")]
    text = "".join(file.read_text(encoding="utf-8") for file in sources)
    for library in commands.lines()[crate].partition(":")[2].split():
        assert re.search(rf"\b(Rattle\.{library}\b|{library}::)", text), library


def test_libraries_of_edits() -> None:
    """An edit names only libraries that its crate's line has."""
    named = commands.libraries(commands.lines())
    for name in files("crates/*.edit", "tests/edits/*.edit"):
        crate = name.split("/")[1 if name.startswith("crates/") else 2]
        new = re.findall(r"^new: .*", text_of(name), re.MULTILINE)
        found = {it for it in named if re.search(rf"\b{it}::", "".join(new))}
        assert found <= {crate, *named[crate]}, name


def test_sizes() -> None:
    """No folder has more Python, or longer pages, than it may."""
    lines, words = Counter[str](), Counter[str]()
    for name in python_files():
        lines[folder_of(name)] += len(text_of(name).splitlines())
    for name in files("*.md"):
        words[folder_of(name)] += len(text_of(name).split())
    found = {folder: (lines[folder], words[folder]) for folder in {*lines, *words}}
    larger = {it: of for it, of in found.items() if any(map(gt, of, SIZES.get(it, (0, 0))))}
    assert not larger, f"{larger} of {SIZES}"


def test_trials_of_pages() -> None:
    """A trial that reads a page says so, since it is done also if only pages have changed."""
    own = ("tests/test_gate.py", "tests/test_sources.py")
    read = [name for name in files("tests/*.py") if name not in own and '.md"' in text_of(name)]
    assert read and all("mark.pages" in text_of(name) for name in read), read


def text_of(name: str) -> str:
    """What a file of the repository has."""
    return (ROOT / name).read_text(encoding="utf-8")


def folder_of(name: str) -> str:
    """The folder at the top that has a file."""
    return name.partition("/")[0] if "/" in name else "."
