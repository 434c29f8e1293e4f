"""A store is lost again and again, and the network goes on with older copies of it: see losses.
`--devices N` is the number of devices."""

from collections.abc import Iterator

import pytest
from bozintar.server import Program

from ..seen import Rule
from .cases import HEADER, STRANGER, Case, Copy, Nonces, greatest, lines_of
from .losses import Losses

pytestmark = [pytest.mark.slow]


@pytest.fixture(scope="module")
def losses(pytestconfig: pytest.Config, program: str, seed: int) -> Iterator[Losses]:
    """All losses, which these trials then look at."""
    with Program(program) as made:
        lost = Losses(made, pytestconfig.getoption("devices"), seed)
        lost.go()
        yield lost


@pytest.fixture
def newer(losses: Losses) -> Copy:
    """The newer copy of the store that was lost."""
    assert losses.newer, "a copy was made"
    return losses.newer.content()


@pytest.fixture
def case(program: str, newer: Copy) -> Iterator[Case]:
    """The newer copy, in folders without a record."""
    with Program(program) as made:
        yield Case(made, newer)


def test_devices_go_on_after_each_restore(losses: Losses) -> None:
    """Nothing breaks off, and after each restore devices join again and uplinks come."""
    print(f"{losses.seen.passed.total()} comparisons")
    losses.seen.check(Rule.ENDED)


def test_each_restore_raises_join_nonces(losses: Losses) -> None:
    """`lnsd restore` leaves the copy as it is. It prints from which JoinNonce and count of uplinks
    each device goes on, as computed here, and no device has a session. With too small a number a
    device would be granted a JoinNonce once more: so the number is needed."""
    losses.seen.check(Rule.RESTORED)


def test_no_frame_of_before_is_taken_after_a_restore(losses: Losses) -> None:
    """Every frame that was ever sent is sent again, at a moment of its own, and no uplink is
    forwarded."""
    losses.seen.check(Rule.REPLAYED)


def test_no_mark_comes_twice_over_all_stores(losses: Losses) -> None:
    """No uplink counter of a session comes twice, no JoinNonce of a device, no downlink counter of
    a session, and no block of keystream."""
    losses.seen.check(Rule.ONCE)


def test_no_counter_goes_back_over_all_stores(losses: Losses) -> None:
    """What a replayed Join-Request is granted, and all that comes, is above all that was before."""
    losses.seen.check(Rule.FORWARD)


def test_nothing_comes_at_a_wrong_link_after_restores(losses: Losses) -> None:
    """What comes is for its device, and is as it was sent."""
    losses.seen.check(Rule.OWN)


def test_above_what_was_seen(losses: Losses, case: Case) -> None:
    """`--above` with the JoinNonces that were seen, a stranger's among them."""
    last = losses.seen.last.items()
    came: Nonces = {name: number for (what, name), number in last if what == "JoinNonce"}
    file = case.file(f"{HEADER}\n{lines_of({**came, STRANGER: 5000})}")
    case.goes_well(came, "--above", file)


def test_above_two_files_that_are_joined(case: Case) -> None:
    """`--above` with two files joined, in which devices stand twice."""
    names = list(case.copy.granted)
    first = {name: 100 + place for place, name in enumerate(names[: 2 * len(names) // 3])}
    second = {name: 200 - place for place, name in enumerate(names[len(names) // 3 :])}
    texts = [f"{HEADER}\n{lines_of(nonces)}" for nonces in (first, second)]
    case.goes_well(greatest(first, second), "--above", case.file("".join(texts)))


def test_above_a_stranger_alone(case: Case) -> None:
    """`--above` with a device that the copy doesn't have."""
    case.goes_well({}, "--above", case.file(f"{HEADER}\n{STRANGER},5000\n"))
