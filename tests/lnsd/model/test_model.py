"""Random loads are played on the server beside a plain model (plain), which is written from
docs/FORMATS.md and the standards alone.

In each round of a load each of a few devices sends something, or something is asked for it, over
six gateways and three applications: joins, uplinks of all kinds, repeats, gaps, MAC commands,
items, frames that are broken or of nobody, copies that are refused, wrong requests. What comes out
has to be what the model lets out, byte for byte, in order for each device. Between rounds the
server may be ended and started again; then `lnsd list` has to be that of the model.

hypothesis makes the loads, `--examples N` of them in each trial. It shrinks a load of which
something else comes, for five minutes at most, and what is left is printed: first the difference,
then each thing that was done."""

from collections.abc import Callable, Sequence

import hypothesis
import pytest
from hypothesis import HealthCheck, Phase, Verbosity

from ..clocks import Clock
from . import lives
from .steps import Round, loads

# the least rounds of a load, until one fails and is shrunk
LEAST = 5


def find(
    difference: Callable[[Sequence[Round]], str], given: pytest.Config, seed: int, mode: str
) -> None:
    """Looks for a load of which something else comes, and fails with the simplest one found."""
    found: list[str] = []

    @hypothesis.seed(seed)
    @hypothesis.settings(
        max_examples=given.getoption("examples"),
        deadline=None,
        database=None,
        verbosity=Verbosity.quiet,
        phases=(Phase.generate, Phase.shrink),
        suppress_health_check=list(HealthCheck),
    )
    @hypothesis.given(loads(mode == "run"))
    def play(load: list[Round]) -> None:
        # hypothesis begins with many small loads, which would take their time
        hypothesis.assume(found or len(load) >= LEAST)
        try:
            wrong = difference(load)
        except pytest.exit.Exception as ended:
            # hypothesis would take this for a failure of the load, and shrink it
            raise KeyboardInterrupt from ended
        if wrong:
            found.append(wrong)
            raise AssertionError(wrong)

    how = ""
    try:
        play()
    except KeyboardInterrupt as why:
        raise why.__cause__ or why
    except hypothesis.errors.Flaky:
        how = "once of two times "
    except AssertionError:
        pass
    if found:
        pytest.fail(f"{how}{found[-1]}", pytrace=False)


@pytest.mark.slow
@pytest.mark.parametrize("mode", ("serve", "run"))
def test_what_comes_is_what_the_model_has(
    pytestconfig: pytest.Config, program: str, clock: Clock, mode: str, seed: int
) -> None:
    """Lines, downlinks and lists are those of the model. In the mode `run` links come and go:
    between rounds a link is closed, reset, or taken over by the next one of its name; and in a
    round an application is away, whose lines wait for it."""
    sums = {"loads": 0, "rounds": 0, "comparisons": 0}

    def difference(load: Sequence[Round]) -> str:
        play, wrong = lives.difference(program, clock, load, mode == "run")
        for what, count in zip(sums, (1, len(load), play.compared)):
            sums[what] += count
        return wrong

    find(difference, pytestconfig, seed, mode)
    print(sums)
