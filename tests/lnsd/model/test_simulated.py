"""The random loads of the model, played on the simulator."""

import pytest

from . import lives, script
from .test_model import find


def test_what_the_simulator_emits_is_what_the_model_has(
    pytestconfig: pytest.Config, simulator: str, seed: int
) -> None:
    """The same loads as scripts, with a checkpoint after each round: what is emitted, in order over
    all devices."""
    difference = lambda load: script.difference(simulator, load, lives.SLOTS)
    find(difference, pytestconfig, seed, "serve")
