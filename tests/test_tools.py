"""Trials by tools that have cases of their own."""

from .conftest import SIMULATOR
from .running import passes

CALLS = ("--calls", "crates/calls_without_memory/out/calls_without_memory")


def test_simulator_without_memory(simulator: str) -> None:
    """Each request for memory of six scripts is refused in turn; and of single calls, if the
    proved programs are tried."""
    calls = CALLS if simulator == SIMULATOR else ()
    passes("tools/sim-memory", "--program", simulator, *calls)


def test_forbidden_programs_do_not_compile() -> None:
    """The compiler refuses what the types forbid."""
    passes("tools/does-not-compile")


def test_check() -> None:
    """bin/check compiles the server without proofs, and walks through it."""
    passes("bin/check", "examples")
