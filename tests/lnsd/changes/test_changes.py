"""200 devices that are imported, amended, retired and let in again, while their store grows in the
middle of their sessions. Each command is killed at random moments, and in calls of its disk. The
judge knows frames from the standard alone."""

import pytest

from .commands import Commands
from .play import Play


@pytest.mark.slow
def test_changes(commands: Commands) -> None:
    """No counter, JoinNonce or keystream comes twice, and the sessions that should stay do."""
    play = Play(commands)
    play.make()
    play.go_on()
    play.amend()
    play.retire()
    play.go_on()
    play.let_in()
    play.grow()
    play.go_on()
    play.import_more()
    play.go_on()
    play.check()
    ups, accepts, downlinks, _ = play.seen.counts()
    print(f"{ups} uplinks, {accepts} joins, {downlinks} downlinks")
    print(f"commands were killed {commands.killed} times before they were done")
