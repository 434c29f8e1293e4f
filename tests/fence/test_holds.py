"""A hold of a store while answers of etcd are lost, come late, or come after a newer life has
begun."""

import asyncio
import time
from argparse import Namespace
from collections.abc import Sequence
from dataclasses import replace
from typing import cast

import pytest
from bozintar.members import Access
from bozintar.words import Address
from fence import commands, files
from fence.etcd import Etcd, Gone, NoLease, Outcome, Puts
from fence.holds import Hold, Lost, Seen, seen
from fence.judging import Found, Word
from fence.keeping import STRICT, Keeper, Life
from fence.records import FENCE, RUNNING, SERVING, STORE, Fence, Serving, known

from .played import AWAY, LATE, LOST, Played

NAME, NET_ID, SECONDS = "d07", "000007", 9


def fence_of(keeper: str, life: int = 1, number: int = 5) -> Fence:
    """What the fence is to have of a keeper's life."""
    return Fence(life, RUNNING, number, f"home of {keeper}", "", keeper, keeper, "/store")


class Trial:
    """A store in an etcd that is played, and keepers of it."""

    def __init__(self, played: Played | None = None) -> None:
        self.played = played or Played()
        self.played.change({}, Puts({STORE + NAME: NET_ID}))

    @property
    def etcd(self) -> Etcd:
        """What a keeper asks."""
        return cast(Etcd, self.played)

    def hold(self) -> Hold:
        """A keeper's hold, before it is taken."""
        return Hold(self.etcd, NAME, SECONDS)

    def take(self, keeper: str, life: int = 1) -> Hold:
        """A hold that a keeper has taken."""
        hold = self.hold()
        assert hold.take(seen(self.etcd, NAME), fence_of(keeper, life))
        return hold

    def fence(self) -> Fence | None:
        """What the fence has."""
        return known(self.played.get(FENCE + NAME).text, NAME, Fence)

    def serving(self) -> Serving | None:
        """Where the store is served."""
        return known(self.played.get(SERVING + NAME).text, NAME, Serving)

    def expire(self, hold: Hold) -> None:
        """The lease of a hold is over."""
        self.played.revoke(hold.lease)


@pytest.fixture
def trial() -> Trial:
    """A store that nobody has served yet."""
    return Trial()


def test_a_life(trial: Trial) -> None:
    """Taken, shown, written and finished: what etcd has after each."""
    hold = trial.take("a")
    assert (trial.fence(), trial.serving()) == (fence_of("a"), Serving("", 1, "a", "/store"))
    hold.show("h:1")
    assert trial.serving() == Serving("h:1", 1, "a", "/store")
    hold.see(8)
    assert trial.fence() == fence_of("a", number=8)
    hold.finish(9, "dd")
    assert trial.serving() is None
    assert trial.fence() == replace(fence_of("a"), number=9, state="stopped", digest="dd")
    hold.release()
    assert not trial.played.leases


def test_nothing_new_is_not_written(trial: Trial) -> None:
    """A number that stays the same is no change."""
    hold = trial.take("a")
    hold.show("h:1")
    before = trial.played.revision
    hold.see(5)
    assert trial.played.revision == before


def test_two_at_once(trial: Trial) -> None:
    """Of two keepers that have seen the same, one takes the store; the other one leaves no
    lease."""
    before = seen(trial.etcd, NAME)
    one, two = trial.hold(), trial.hold()
    assert one.take(before, fence_of("a"))
    assert not two.take(before, fence_of("b"))
    assert trial.fence() == fence_of("a")
    assert list(trial.played.leases) == [one.lease]


@pytest.mark.parametrize("key", [STORE, FENCE])
def test_what_has_changed_since(trial: Trial, key: str) -> None:
    """A store whose NetID or fence has changed since it was looked at isn't taken."""
    before = seen(trial.etcd, NAME)
    trial.played.change({}, Puts({key + NAME: fence_of("x").text()}))
    assert not trial.hold().take(before, fence_of("a"))


class Twice(Played):
    """One whose every change is asked for twice."""

    def change(self, seen: dict[str, int], puts: Puts, keys: Sequence[str] = ()) -> Outcome:
        """The second answer."""
        super().change(seen, puts, keys)
        return super().change(seen, puts, keys)


def test_asked_twice() -> None:
    """If the answer is lost and the next member is asked the same, the keeper knows its own
    life."""
    trial = Trial(Twice())
    hold = trial.take("a")
    hold.show("h:1")
    hold.see(7)
    assert trial.fence() == fence_of("a", number=7)
    hold.finish(9, "dd")
    assert trial.fence() == replace(fence_of("a"), number=9, state="stopped", digest="dd")


def test_lost_answers(trial: Trial) -> None:
    """A change whose answer was lost is found again by the next one."""
    hold = trial.take("a")
    hold.show("h:1")
    trial.played.faults = [LOST, AWAY]
    for _ in range(2):
        with pytest.raises(Gone):
            hold.see(7)
    hold.see(8)
    assert trial.fence() == fence_of("a", number=8)


def test_late_changes(trial: Trial) -> None:
    """A change that is made late, after the keeper has changed more, is none."""
    hold = trial.take("a")
    hold.show("h:1")
    trial.played.faults = [LATE]
    with pytest.raises(Gone):
        hold.see(7)
    hold.see(9)
    trial.played.deliver()
    assert trial.fence() == fence_of("a", number=9)
    hold.see(10)
    assert trial.fence() == fence_of("a", number=10)


def test_a_lost_beginning(trial: Trial) -> None:
    """A keeper whose question for the store got no answer ends. What it had asked may be done: then
    nobody else takes the store while its lease lasts, and it can be taken after that."""
    before = seen(trial.etcd, NAME)
    trial.played.faults = [LOST]
    hold = trial.hold()
    with pytest.raises(Gone):
        hold.take(before, fence_of("a"))
    assert not trial.hold().take(seen(trial.etcd, NAME), fence_of("b", 2))
    trial.expire(hold)
    trial.take("a again", 2)


def test_a_late_beginning(trial: Trial) -> None:
    """What a keeper had asked before it ended is done after another life has begun: nothing comes
    of it."""
    before = seen(trial.etcd, NAME)
    trial.played.faults = [LATE]
    with pytest.raises(Gone):
        trial.hold().take(before, fence_of("a"))
    hold = trial.take("b")
    hold.show("h:2")
    trial.played.deliver()
    assert (trial.fence(), trial.serving()) == (fence_of("b"), Serving("h:2", 1, "b", "/store"))
    hold.see(6)


@pytest.mark.parametrize("fault", [LATE, LOST])
def test_a_late_end(trial: Trial, fault: str) -> None:
    """A clean end that etcd learns of late, after the next life has begun, doesn't end that one;
    and one that it has learned of is written again without harm."""
    hold = trial.take("a")
    hold.show("h:1")
    trial.played.faults = [fault]
    with pytest.raises(Gone):
        hold.finish(9, "dd")
    if fault == LOST:
        hold.finish(9, "dd")
        assert trial.fence() == replace(fence_of("a"), number=9, state="stopped", digest="dd")
        return
    hold.release()
    trial.take("b", 2)
    trial.played.deliver()
    assert trial.fence() == fence_of("b", 2)


@pytest.mark.parametrize("what", ["see", "show", "finish"])
def test_another_life(trial: Trial, what: str) -> None:
    """A keeper whose lease was over finds out about the life that has begun since, changes nothing,
    and doesn't end the other one's lease."""
    hold = trial.take("a")
    hold.show("h:1")
    trial.expire(hold)
    other = trial.take("b", 2)
    other.show("h:2")
    words = {"see": (7,), "show": ("h:1",), "finish": (7, "dd")}
    with pytest.raises(Lost):
        getattr(hold, what)(*words[what])
    hold.release()
    assert (trial.fence(), trial.serving()) == (fence_of("b", 2), Serving("h:2", 2, "b", "/store"))


def test_a_lease_that_is_over(trial: Trial) -> None:
    """Without another life a keeper whose lease was over gets a new one, and is shown again."""
    hold = trial.take("a")
    hold.show("h:1")
    trial.expire(hold)
    assert not hold.renew()
    hold.grant()
    hold.see(6)
    assert trial.serving() == Serving("h:1", 1, "a", "/store")
    # one that ends between two questions
    trial.expire(hold)
    hold.is_shown = False
    with pytest.raises(NoLease):
        hold.see(7)


def test_file_beside_a_new_lease(trial: Trial, monkeypatch: pytest.MonkeyPatch) -> None:
    """A file doesn't take a store's place if its keeper gets a new lease at this moment."""
    hold = trial.take("a")
    hold.show("h:1")
    trial.expire(hold)

    def seen_before(etcd: Etcd, name: str) -> Seen:
        there = seen(etcd, name)
        hold.grant()
        hold.see(5)
        return there

    monkeypatch.setattr(commands, "seen", seen_before)
    monkeypatch.setattr(files, "found", lambda *_: Found(NET_ID, "-", "dd", 5))
    given = Namespace(name=NAME, file="other", host="")
    assert commands.put_file(trial.etcd, given, Word(replaces=1)) == 1
    assert trial.fence() == fence_of("a")


def test_strict(trial: Trial) -> None:
    """With --strict the timer that kills the server is due before the lease can be over."""
    given = Namespace(strict=True, lease=SECONDS, lnsd="", file="", listen="", machine="1", host="")

    async def watch() -> None:
        hold = trial.hold()
        for begin in (hold.grant, hold.renew):
            asked = time.monotonic()
            begin()
            life = Life(Keeper(given, trial.etcd), hold, 0)
            life.watch()
            assert life.guard and asked <= hold.begun <= trial.played.asked
            assert life.guard.when() == hold.begun + SECONDS * STRICT < hold.begun + SECONDS

    asyncio.run(watch())


def test_nobody_there() -> None:
    """Members that refuse connections are all asked, and the last one's answer is the reason."""
    nobody = tuple(Address("127.0.0.1", port) for port in (1, 2, 3))
    with pytest.raises(Gone, match="127.0.0.1:3: .*refused"):
        Etcd(Access(nobody)).get("/x")
