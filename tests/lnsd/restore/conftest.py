"""A copy, and cases of its restoration."""

from collections.abc import Callable, Iterator
from typing import Any

import pytest
from bozintar.server import Program

from .cases import Case, Copy, made_copy

NewCase = Callable[..., Case]


@pytest.fixture(scope="session")
def copy(program: str) -> Copy:
    """A copy of three devices."""
    return made_copy(program)


@pytest.fixture
def new_case(program: str, copy: Copy) -> Iterator[NewCase]:
    """Makes a case with the texts of its records, and perhaps of another copy."""
    with Program(program) as made:

        def make(*records: str | None, of: Copy = copy, **how: Any) -> Case:
            return Case(made, of, records or (None, None), **how)

        yield make
