"""The examples, as whole programs."""

from .running import passes


def test_files_are_as_they_are_made() -> None:
    """Independent programs make the scripts, answers and pages of examples/ again."""
    passes("examples/make", "--check")


def test_walk(program: str) -> None:
    """The walk through the server goes well, with a kill in the middle."""
    passes("examples/server/walk", "--program", program)
