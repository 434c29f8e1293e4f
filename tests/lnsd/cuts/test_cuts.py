"""The power fails at each moment of a short life of the server. A library that is loaded before it
logs each write and each sync of its store, while a device is provisioned, joins and sends, items
are queued, batches follow one another, and a checkpoint is made.

For each beginning of the log each image is put together that a power cut after it may leave: every
subset of the writes that weren't synced yet, the last one half-written too, and other bytes in
their place, A5 or the low eight bits of the place. `lnsd list` has to open each image. A C compiler
makes the library: without one, these trials fail."""

from collections import Counter, defaultdict
from collections.abc import Iterator
from pathlib import Path

import pytest
from bozintar import image
from bozintar.server import Program
from lnsd import calls

from ..pairs import formatted
from .life import SLOTS, Life

pytestmark = [pytest.mark.slow]
# of how many faults a failure shows the words
SHOWN = 10
OPENED, KEPT, SAME = "is opened as the reader does", "isn't older", "has one table for a number"


class Cuts:
    """The images of a life, and what is wrong with them."""

    def __init__(self, program: Program, life: Life):
        self.program, self.life = program, life
        self.read: dict[bytes, image.Store | None] = {}
        self.by_number: dict[int, list[str]] = {}
        self.generations: set[int] = set()
        self.calls, self.count = calls.logged(life.log), 0
        # the most writes that weren't synced at a moment
        self.most = 0
        self.passed: Counter[str] = Counter()
        self.faults: dict[str, list[str]] = defaultdict(list)

    def compare_all(self) -> bytes:
        """Compares all images of the log; what is on the disk at its end."""
        disk = calls.Disk(self.life.begun)
        for place, call in enumerate([None, *self.calls]):
            if call:
                disk.make(call)
            end = call.end if call else 0
            least = max(seq for size, seq in self.life.seen if size <= end)
            self.most = max(self.most, len(disk.writes))
            for content in disk.images():
                self.count += 1
                self.compare(place, content, least)
        return disk.synced

    def holds(self, what: str, is_so: bool, words: str) -> None:
        """Notes whether something is as it has to be."""
        if is_so:
            self.passed[what] += 1
        else:
            self.faults[what].append(words)

    def opened(self, content: bytes, when: str) -> image.Store | None:
        """What the reader finds in an image, and `lnsd list` too."""
        if content not in self.read:
            path = f"{self.program.store}-cut"
            Path(path).write_bytes(content)
            came, due = self.program.run("list", path), image.told(content)
            self.holds(OPENED, came == due, f"{when}: {came}, and not {due}")
            self.read[content] = image.read(content) if came[0] == 0 else None
        return self.read[content]

    def compare(self, place: int, content: bytes, least: int) -> None:
        """One image after a call of the log."""
        when = f"after call {place}"
        read = self.opened(content, when)
        if not read:
            self.holds(OPENED, False, f"{when}, an image isn't opened")
            return
        self.generations.add(read.generation)
        self.holds(KEPT, read.seq >= least, f"{when}, {read.seq}, and {least} was seen")
        lines = read.lines()
        before = self.by_number.setdefault(read.seq, lines)
        self.holds(SAME, lines == before, f"{when}, of {read.seq}: {lines}, and not {before}")

    def check(self, what: str) -> None:
        """Fails if an image isn't so, or none was compared."""
        faults, first = self.faults[what], "\n".join(self.faults[what][:SHOWN])
        assert not faults, f"not so: each image {what}; {len(faults)} faults:\n{first}"
        assert self.passed[what], "no image was compared"


@pytest.fixture(scope="module")
def cuts(program: str) -> Iterator[Cuts]:
    """A life, and all its images."""
    with formatted(program, SLOTS) as made:
        life = Life(made)
        life.run()
        cuts = Cuts(made, life)
        synced = cuts.compare_all()
        assert Path(made.store).read_bytes() == synced, "the log has all that was written"
        yield cuts


def test_images_of_a_cut_are_opened_as_the_reader_does(cuts: Cuts) -> None:
    """`lnsd list` prints of each image what a reader of images prints, which shares nothing with
    the server."""
    cuts.check(OPENED)


def test_no_cut_loses_what_clients_had_seen(cuts: Cuts) -> None:
    """No image is older than what the clients had seen by then."""
    cuts.check(KEPT)


def test_cuts_that_leave_one_number_leave_one_table(cuts: Cuts) -> None:
    """Images show the same devices whenever they show the same number."""
    cuts.check(SAME)


def test_cuts_are_in_batches_that_follow_and_in_a_checkpoint(cuts: Cuts) -> None:
    """One batch followed another one, and a checkpoint was made: so these cuts were tried."""
    print(f"{len(cuts.calls)} calls, {cuts.count} images, {len(cuts.read)} different ones")
    print(f"{cuts.passed.total()} comparisons")
    assert cuts.most > 1, "a batch followed another one"
    assert cuts.generations == {2, 3}, "the generations of live areas"
