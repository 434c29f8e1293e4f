"""Keepers on several machines begin at once on files of which, after a clean end, each may be
served: one of them wins. Files without the bytes of the last winner never win."""

import signal

import pytest
from bozintar.processes import Process, await_that

from .clusters import LONG, Kept

MACHINES, TURNS = 4, 6


def winner(kept: Kept, keepers: list[Process]) -> int:
    """Which keeper serves, once all others have ended."""
    await_that("one is left", lambda: sum(one.poll() is None for one in keepers) <= 1, LONG)
    left = [at for at, one in enumerate(keepers) if one.poll() is None]
    assert len(left) == 1, [one.said() for one in keepers]
    await_that("it serves", lambda: keepers[left[0]].has_said(f"{kept.name} is served at"), LONG)
    assert all(one.poll() == 3 for at, one in enumerate(keepers) if at != left[0])
    return left[0]


@pytest.mark.slow
def test_races(kept: Kept) -> None:
    """In every other turn all files have the last winner's bytes."""
    files = [kept.format("copy0"), *(kept.file(f"copy{at}") for at in range(1, MACHINES))]
    kept.stop(kept.serves(files[0], "--adopt", machine="m0"))
    last = 0
    for turn in range(TURNS):
        is_shared = turn % 2 == 0
        if is_shared:
            for at in range(MACHINES):
                if at != last:
                    kept.copy(files[last], f"copy{at}")
        keepers = [kept.keeper(file, machine=f"m{at}") for at, file in enumerate(files)]
        won = winner(kept, keepers)
        assert is_shared or won == last
        reasons = [one.said() for at, one in enumerate(keepers) if at != won]
        due = ("it is served", "another keeper was quicker", "another copy")
        assert all(any(reason in said for reason in due) for said in reasons), reasons
        assert kept.decide() == turn + 1
        assert keepers[won].end(signal.SIGTERM, LONG) == 0
        last = won
    assert kept.fence().life == TURNS + 1
