"""The mark of a store: what the unit writes beside the server, which stores it refuses by that, and
what it does if the mark is lost. Nothing is sent by a store that is refused: it never listens."""

import hashlib
import os
import re
import shutil
import signal
import subprocess
import time
from collections.abc import Callable, Iterator
from dataclasses import replace
from pathlib import Path
from typing import Any

import pytest
from bozintar import image
from bozintar.links import Application
from bozintar.processes import await_that
from bozintar.server import Program
from bozintar.words import Address
from console import attention
from fence import files
from fence.judging import RECORDS, Found
from fence.marks import Mark

from ..lnsd.kills import older
from .parts import run
from .test_start import WAITS, Unit

SMALL = {"NETID": "00002A", "SLOTS": "64"}
SERVED = -1
DEVICE = "provision {:016X} 0102030405060708 " + "2B" * 16 + " 0 1"


class Machine(Unit):
    """A machine with a store, and the lives of its server."""

    count, address = 0, Address("", 0)

    def __init__(self, server: Program) -> None:
        super().__init__(server)
        self.file, self.own = Path(server.store), Path(f"{server.store}.id")

    def marked(self) -> Mark:
        """What MARK has."""
        return Mark.kept(self.mark)

    def alarms(self) -> list[int]:
        """The levels of what the console shows of MARK."""
        attention.MARK = self.shown
        return [problem.level for problem in attention.of_mark()]

    def live(
        self,
        decisions: int,
        end: int = 0,
        is_cut: bool = False,
        until: Callable[[], Any] | None = None,
    ) -> str:
        """A life with N decisions, which is ended well or by a signal once MARK has them, or
        something else is so; what was printed."""

        def of_life(process: subprocess.Popen, address: Address) -> bool:
            self.address = address
            self.decide(decisions)
            number = int(self.server.status()["decided"])
            await_that("MARK has them", until or (lambda: self.marked().number == number))
            assert until or self.marked().digest == ""
            if end:
                process.send_signal(end)
                process.wait(60)
            return is_cut

        status, said = self.starts(SMALL, of_life)
        assert status == SERVED, said
        return said

    def decide(self, decisions: int) -> None:
        """Has the server decide so often."""
        with Application((self.address.host, self.address.port), 3) as link:
            for _ in range(decisions):
                self.count += 1
                link.asks(DEVICE.format(self.count))
                assert link.hears().startswith("provisioned")

    def refused(self, due: str) -> str:
        """Starts what is refused, with both values, and leaves MARK as it is; what was printed."""
        before = self.marked()
        status, said = self.starts(SMALL)
        assert (status, "listening" in said, due in said) == (WAITS, False, True), said
        found = files.found(self.server.store, "", "inode")
        assert f"{before.words()}, {before.home}" in said
        assert f"--number {found.number}, {found.home}" in said
        assert self.marked() == before
        return said

    def accepts(self, said: str) -> tuple[int, str, str]:
        """Types the command that was printed."""
        found = re.search(r"type bozintar-start (accept .*)", said)
        assert found
        return run("start", *found[1].split(), *self.files)


@pytest.fixture
def machine(program: str) -> Iterator[Machine]:
    """A machine whose server has had a life."""
    with Program(program) as made:
        machine = Machine(made)
        try:
            machine.live(2)
            yield machine
        finally:
            machine.clean()


def test_what_it_has(machine: Machine) -> None:
    """It grows while the server runs. After a clean end it has the file's digest, after a kill the
    file's number, and after a fault of the disk it stays."""
    found, own = files.found(machine.server.store, "", "inode"), machine.own.read_text().strip()
    digest = hashlib.sha256(machine.file.read_bytes()).hexdigest()
    due = Mark("00002A", 1, 2, found.home, digest, own)
    assert machine.marked() == due and re.fullmatch("[0-9a-f]{32}", own)
    assert RECORDS == image.NEWEST == found.version
    machine.live(3, signal.SIGKILL)
    assert machine.marked() == replace(due, number=5, digest="")
    (lower := replace(due, number=4)).keep(machine.mark)
    for status in ("1", "3", "4"):
        assert machine.end_of(EXIT_CODE="exited", EXIT_STATUS=status) == 0
    assert machine.marked() == lower


def write_into(machine: Machine, content: bytes) -> None:
    """Other bytes in the very file, as after a volume was rolled back."""
    with machine.file.open("r+b") as opened:
        opened.write(content)


def put_back(machine: Machine, content: bytes) -> None:
    """`cp` of a copy."""
    machine.file.unlink()
    machine.file.write_bytes(content)


OLDER: tuple[tuple[Callable[[Machine, bytes], None], int, bool, str], ...] = (
    (put_back, signal.SIGKILL, True, "another copy: the store was served last from "),
    (put_back, 0, False, "another copy, at 2: the store ended well at 4"),
    (write_into, signal.SIGKILL, True, "older than what was durable: it is at 2, and 4 was seen"),
    (write_into, 0, False, "older than what was durable: it is at 2, and 4 was seen"),
)


@pytest.mark.parametrize("how, end, is_cut, due", OLDER)
def test_older_store(
    machine: Machine, how: Callable[[Machine, bytes], None], end: int, is_cut: bool, due: str
) -> None:
    """A copy that is put back, or a volume that is rolled back by two decisions, is refused after
    any end, again and again; an operator's word has it served."""
    old = machine.file.read_bytes()
    machine.live(2, end, is_cut)
    how(machine, old)
    said = machine.refused(due)
    assert machine.accepts(said.replace("--number 2", "--number 3"))[0] == 1
    machine.refused(due)
    status, out, _ = machine.accepts(said)
    assert (status, "lnsd restore" in out) == (0, True)
    machine.live(0)


def test_copy_from_before_a_retire(machine: Machine) -> None:
    """A volume that is rolled back to before a retire, which makes no decision, is refused; what
    was changed after a clean end is served."""
    old = machine.file.read_bytes()
    assert machine.server.run("retire", machine.server.store, f"{1:016X}")[0] == 0
    machine.live(0, signal.SIGKILL)
    write_into(machine, old)
    machine.refused("older: it is at generation 1, and 2 was seen")


def test_lost_original(machine: Machine) -> None:
    """A store that `restore` made is served without a word, since its id is new. The lost one is
    refused if it comes back, with its own id or without one."""
    copy, damaged = machine.folder / "copy", machine.folder / "damaged"
    shutil.copy(machine.file, copy)
    machine.live(1, signal.SIGKILL)
    machine.file.rename(damaged)
    ids = [machine.own.read_text(), "0123456789abcdef" * 2 + "\n"]
    assert machine.server.run("restore", str(copy), machine.server.store)[0] == 0
    machine.own.write_text(ids[1])
    machine.live(1, signal.SIGKILL)
    assert machine.marked().ids.split() == "".join(ids).split()
    machine.file.rename(restored := machine.folder / "restored")
    damaged.rename(machine.file)
    for id_ in (*ids, ""):
        machine.own.write_text(id_)
        machine.refused("another copy: ")
    restored.rename(machine.file)
    machine.live(1)


def test_moved_store(machine: Machine) -> None:
    """The bytes of the clean end are served from another file, which then is the store: after a
    cut, too, if MARK couldn't be written."""
    put_back(machine, machine.file.read_bytes())
    machine.mark.with_suffix(".part").mkdir()
    said = machine.live(1, signal.SIGKILL, is_cut=True, until=lambda: True)
    assert "mark can't be written" in said
    machine.mark.with_suffix(".part").rmdir()
    machine.live(1)


def tear(mark: Path) -> None:
    """A part of it is missing."""
    mark.write_bytes(mark.read_bytes()[:-9])


@pytest.mark.parametrize("how", [tear, Path.unlink, lambda mark: shutil.rmtree(mark.parent)])
def test_lost_mark(machine: Machine, how: Callable[[Path], None]) -> None:
    """If MARK is torn, or its disk is away, the store is served, with an alarm until an operator
    confirms it, with the words of the start at which it was lost."""
    assert machine.alarms() == []
    how(machine.mark)
    said = machine.live(1, until=machine.shown.exists)
    assert "mark: No such file" in said or "mark: it is torn" in said
    machine.mark.parent.mkdir(exist_ok=True)
    later = machine.live(1)
    said = later if "is served, and may be" in later else said
    assert machine.alarms() == [attention.GRAVE]
    assert machine.accepts(said.replace("--number ", "--number 9"))[0] == 1
    assert machine.accepts(said)[0] == 0
    machine.live(0)
    assert machine.alarms() == []


def test_full_disk(machine: Machine) -> None:
    """If MARK can't be written any more, the server goes on, and the number that an alert looks at
    stays. The next start compares with the last MARK."""
    before, part = machine.marked(), machine.mark.with_suffix(".part")

    def is_full() -> bool:
        """The disk is full from the first question on."""
        if not part.exists():
            part.mkdir()
            machine.decide(1)
        return "mark can't be written" in (machine.folder / "log").read_text()

    def decides_on() -> bool:
        machine.decide(1)
        return True

    machine.live(0, signal.SIGKILL, is_cut=True, until=lambda: is_full() and decides_on())
    part.rmdir()
    assert machine.marked() == replace(before, digest="")
    machine.live(1)


def test_killed(machine: Machine) -> None:
    """The server and what writes MARK die at any moment, while decisions are made: the store is
    never refused."""
    for _ in range(4):
        machine.live(12, signal.SIGKILL, is_cut=True, until=lambda: True)
    machine.live(0)


STEPS = ((Path, "unlink"), (os, "fchmod"), (os, "fsync"), (Path, "rename"))


def test_cut_at_each_step(folder: Path, monkeypatch: pytest.MonkeyPatch) -> None:
    """A kill before each step of a write, 200 times, leaves the mark before or after it, which
    never refuses the store. What is renamed is on the disk, and the name is at the end."""
    calls: list[str] = []
    kill_at = 0

    def spied(name: str, does: Callable) -> Callable:
        def call(*words: Any, **how: Any) -> Any:
            calls.append(name)
            if len(calls) == kill_at:
                os.kill(os.getpid(), signal.SIGKILL)
            return does(*words, **how)

        return call

    for of, name in STEPS:
        monkeypatch.setattr(of, name, spied(name, getattr(of, name)))
    before = Mark("00002A", 1, 0, "inode:1:1.0", "", "")
    before.keep(folder / "mark")
    assert calls == [*(name for _, name in STEPS), "fsync"]
    for number in range(1, 201):
        now, kill_at = replace(before, number=number), number % (len(STEPS) + 2)
        calls.clear()
        if not (child := os.fork()):
            try:
                now.keep(folder / "mark")
            finally:
                os._exit(0)
        assert (os.waitpid(child, 0)[1] == signal.SIGKILL) == (kill_at > 0)
        kill_at = 0
        assert (kept := Mark.kept(folder / "mark")) in (before, now)
        found = Found("00002A", now.home, "-", number, 1)
        assert kept.why_not(found, "", folder) == ""
        before = kept
    assert before.number > 190


def test_older_records(machine: Machine) -> None:
    """After a crash a new program migrates no store without a word; after a clean end it does, also
    if the older program ended after the upgrade."""
    machine.live(1, signal.SIGKILL)
    with Program(machine.server.path) as other:
        shutil.copy(machine.file, other.store)
        older.put(other, 64)
        old = Path(other.store).read_bytes()
    write_into(machine, old)
    machine.refused("its records have version 1, and 2 can't be undone: lnsd list ")
    assert machine.file.read_bytes() == old
    assert machine.server.list()[-1].endswith(f" seq {machine.count}")
    machine.live(0, signal.SIGKILL)
    write_into(machine, old)
    replace(machine.marked(), generation=1).keep(machine.mark)
    assert machine.end_of(EXIT_CODE="exited", EXIT_STATUS="0") == 0
    machine.live(1)


def test_first_meeting(machine: Machine) -> None:
    """A store that comes without MADE, as after an upgrade, has a MARK from then on."""
    machine.mark.unlink()
    machine.made.unlink()
    machine.live(1)
    assert machine.alarms() == []
    machine.made.unlink()
    machine.file.rename(machine.folder / "away")
    assert str(machine.mark) in machine.starts(SMALL)[1], "no store is made, since there is a MARK"


@pytest.mark.timed
def test_time_of_a_start(program: str) -> None:
    """The look at a store of 4,096 slots takes little time."""
    with Program(program) as made:
        unit = Unit(made)
        assert made.format(slots=4096)[0] == 0
        unit.files[-1] = "--lnsd=/bin/true"
        word, took = unit.folder / "run/word", dict[str, list[float]]()
        unit.look()
        for kind in ("serve", "refuse") * 9:
            word.write_text(f"{kind}\n", encoding="ascii")
            begun = time.monotonic()
            subprocess.run(unit.words("ExecStart", {}), check=False, stderr=subprocess.DEVNULL)
            took.setdefault(kind, []).append(time.monotonic() - begun)
        assert min(took["serve"]) < min(took["refuse"]) + 0.3, took
