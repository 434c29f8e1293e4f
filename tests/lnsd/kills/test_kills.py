"""The server is killed by SIGKILL again and again, each time in the middle of a load: devices that
join and send, repeats, items, acknowledgements and MAC commands. In the mode `serve` three gateways
and two applications stay. In the mode `run` there are eight gateways, and at each moment a client
may close, reset or end its link, or the next one of its name takes it over, also in the middle of a
message; every other life ends by `lnsd stop` and not by a kill.

A life's length is random, from when the first frame's outcome came, and no more frames are under
way than a quick server has. So a slow server, for example out/unproved/lnsd, is killed in the
middle of its work too. In the middle of its lives the store is written as an older program would
have left it, in records of version 1. After the last kill the server is started once more, and ends
by itself.

`--times N` is the number of kills and stops; no life ends before it had its share of `--drops N`
and `--takeovers N`. A trial prints its sums (`-rP` shows them)."""

from collections.abc import Iterator

import pytest
from bozintar.server import Program

from ..seen import Rule
from .lives import Lives, Plan

pytestmark = [pytest.mark.slow]
# how often a server is killed or stopped, if no option says so
TIMES = {"serve": 5, "run": 4}
# what is falsified in the last life that was stopped
FALSIFIED = 12
# the same mode comes first in both, so that its trials stay together
in_both = pytest.mark.parametrize("lives", ["run", "serve"], indirect=True)
only_run = pytest.mark.parametrize("lives", ["run"], indirect=True)


@pytest.fixture(scope="module")
def lives(request: pytest.FixtureRequest, program: str, seed: int) -> Iterator[Lives]:
    """All lives in a mode, which these trials then look at."""
    mode, given = request.param, request.config.getoption
    shares = (given("drops"), given("takeovers")) if mode == "run" else ()
    plan = Plan(given("times") or TIMES[mode], seed, mode == "run", *shares)
    with Program(program) as made:
        lived = Lives(made, plan)
        lived.go()
    yield lived


@in_both
def test_each_life_ends_as_it_should(lives: Lives) -> None:
    """No life breaks off. One that is stopped prints its counts; the last one ends by itself."""
    print(", ".join(f"{count} {what}" for what, count in sorted(lives.sums.items())))
    lives.seen.check(Rule.ENDED)


@in_both
def test_no_mark_comes_twice(lives: Lives) -> None:
    """No uplink counter of a session is in two lines `up`, no JoinNonce of a device in two accepts,
    no downlink counter of a session in two downlinks, no item in two of these, and no block of
    keystream is used twice."""
    lives.seen.check(Rule.ONCE)


@in_both
def test_no_counter_goes_back(lives: Lives) -> None:
    """What comes later in a session or of a device is greater, over one link, and in a later life
    over any; of items, if they were asked on one link."""
    lives.seen.check(Rule.FORWARD)


@in_both
def test_nothing_comes_at_a_wrong_link(lives: Lives) -> None:
    """What an application hears is of its own devices, or a refusal of what it asked (each asks for
    something else); `up` is as one of the frame's copies was; a downlink or an accept names its
    gateway, and answers a copy that this gateway handed in of that device."""
    lives.seen.check(Rule.OWN)


@in_both
def test_nothing_that_left_is_lost(lives: Lives) -> None:
    """Before each new start `lnsd list` isn't older than what was seen."""
    lives.seen.check(Rule.KEPT)


@in_both
def test_migration_that_is_killed_loses_nothing(lives: Lives) -> None:
    """`lnsd list`, which migrates a store of version 1, is killed in each of its calls of the
    file. A C compiler makes what kills it."""
    lives.seen.check(Rule.MIGRATED)


@only_run
def test_each_new_frame_is_decided(lives: Lives) -> None:
    """How many more uplinks and joins of each device the list has after a life than before it. Each
    new frame that a live link handed in was decided; no other frame was, none that was sent in
    part, and none twice.

    If a link is dropped or taken over, it was live for the copies that the server had read by then;
    the bytes that still wait at its socket show which. If a link is there when the server is
    stopped, it was live for all that had come. A kill breaks off decisions too: then a copy counts
    if something came of another frame that this gateway handed in later, alone. A new frame that
    `lnsd watch` reports as refused counts as decided: a device's older frame may be read after its
    newer one."""
    lives.seen.check(Rule.DECIDED)


@only_run
def test_what_is_falsified_is_noticed(lives: Lives) -> None:
    """What came in the last life that was stopped is falsified, in one thing at a time, and the
    comparisons above notice each."""
    assert [what for what, is_noticed in lives.noticed if not is_noticed] == []
    assert len(lives.noticed) == FALSIFIED, "how much was falsified"
