"""The page of this folder names trials that there are."""

import re
from pathlib import Path

import pytest

pytestmark = pytest.mark.pages
HERE = Path(__file__).resolve().parent
TOP = HERE.parents[1]
NAMED = re.findall(r"`([\w/]+)::(test_\w+)`", (HERE / "README.md").read_text(encoding="utf-8"))


@pytest.mark.parametrize("file, name", sorted(set(NAMED)))
def test_readme(file: str, name: str) -> None:
    """A trial is in its file."""
    path = (TOP if "/" in file else HERE) / f"{file}.py"
    assert re.search(rf"^def {name}\(", path.read_text(encoding="utf-8"), re.MULTILINE)


def test_names() -> None:
    """Trials are named."""
    assert len(NAMED) > 50
