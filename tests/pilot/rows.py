"""Tables of rows."""

from collections.abc import Callable, Sequence
from typing import Any

import pytest
from bozintar.fields import Wrong
from bridges.gwmp import OtherFrame

LONGEST = 60


def table(names: str, rows: Sequence[tuple]) -> Any:
    """A trial for each row, with the row's first value in its name."""
    return pytest.mark.parametrize(names, rows, ids=[name_of(row[0]) for row in rows])


def name_of(value: Any) -> str:
    """A value as a name."""
    text = value.hex() if isinstance(value, bytes) and not value.isascii() else ascii(value)
    return text.removeprefix("b").strip("'\"").replace("::", ":")[:LONGEST] or "nothing"


def outcome(translation: Callable, *words: Any) -> Any:
    """What a translation answers, or which fault."""
    try:
        return translation(*words)
    except OtherFrame as why:
        return why.args[0]
    except Wrong:
        return Wrong
