"""The files that bridges read follow etcd: stores that come, go and move, claims, members that are
killed, a disk that is full."""

import os
import signal
from pathlib import Path

import pytest
from bozintar.processes import Process, Processes, await_that
from fence.etcd import Change, Etcd, Puts
from fence.following import Follower, Lists
from fence.records import DEVICE, FENCE, SERVING, STORE, Serving

from .clusters import LONG, PILOT, Cluster, Kept, answers

AT = Serving("10.0.0.5:5607", 1, "m1", "/d07/store")
# changes, and the lines of stores then
ROWS: tuple[tuple[list[Change], list[str]], ...] = (
    ([], []),
    ([Change(STORE + "d07", "000007")], ["d07 000007 -"]),
    (
        [Change(STORE + "d07", "000007"), Change(SERVING + "d07", AT.text())],
        ["d07 000007 10.0.0.5:5607"],
    ),
    (
        [
            Change(STORE + "d07", "000007"),
            Change(SERVING + "d07", AT.text()),
            Change(SERVING + "d07", None),
        ],
        ["d07 000007 -"],
    ),
    # a server that doesn't listen yet, and what isn't a record
    (
        [
            Change(STORE + "b", "000002"),
            Change(STORE + "a", "000001"),
            Change(SERVING + "a", Serving("", 1, "m1", "/s").text()),
            Change(SERVING + "b", "{"),
        ],
        ["a 000001 -", "b 000002 -"],
    ),
    # not known, no NetID, and keys that are of no use here
    ([Change(SERVING + "d07", AT.text()), Change(STORE + "x", "7")], []),
    ([Change(FENCE + "d07", "{}"), Change("/other/d07", "000007")], []),
)


class Followed:
    """A follower of a cluster, and its files."""

    def __init__(self, processes: Processes, cluster: Cluster):
        self.stores, self.devices = processes.file("stores"), processes.file("devices")
        words = ("--etcd", cluster.option, "--stores", self.stores, "--devices", self.devices)
        self.process: Process = processes.python(PILOT / "follow", *words).start()
        await_that("the files are there", lambda: os.path.exists(self.devices), LONG)

    def line(self, name: str) -> str:
        """The line of a store, or nothing."""
        lines = Path(self.stores).read_text(encoding="ascii").splitlines()
        return next((line for line in lines if line.startswith(f"{name} ")), "")

    def await_line(self, name: str, line: str) -> None:
        """Waits until a store has this line."""
        await_that(line or "no line", lambda: self.line(name) == line, LONG)

    def await_device(self, eui: str, name: str) -> None:
        """Waits until a device is in this store."""
        text = lambda: Path(self.devices).read_text(encoding="ascii")
        await_that(eui, lambda: f"{eui} {name}\n" in text(), LONG)


@pytest.mark.parametrize("changes, due", ROWS)
def test_lists(changes: list[Change], due: list[str]) -> None:
    """What the file of stores has after changes."""
    lists = Lists()
    lists.take(changes)
    assert "".join(lists.stores()).splitlines() == due


def test_stores_that_move(processes: Processes, kept: Kept, shared: Cluster) -> None:
    """A store is shown while it is served, with the address of its server, and its devices are."""
    followed = Followed(processes, shared)
    followed.await_line(kept.name, f"{kept.name} 000007 -")
    keeper = kept.serves(kept.format(), "--adopt")
    serving = kept.serving()
    assert serving
    followed.await_line(kept.name, f"{kept.name} 000007 {serving.address}")
    kept.etcd.change({}, Puts({DEVICE + "70B3D57ED0000001": kept.name}))
    followed.await_device("70B3D57ED0000001", kept.name)
    kept.stop(keeper)
    followed.await_line(kept.name, f"{kept.name} 000007 -")
    moved = kept.serves(kept.copy(kept.file(), "moved"), machine="two")
    serving = kept.serving()
    assert serving
    followed.await_line(kept.name, f"{kept.name} 000007 {serving.address}")
    kept.stop(moved)
    assert followed.process.end() == 0
    kept.etcd.change({}, Puts(removed=[DEVICE + "70B3D57ED0000001"]))


def test_members_are_killed(processes: Processes, cluster: Cluster) -> None:
    """One member that is killed or hangs isn't missed. Without a majority the files stay as they
    are, and follow again after it is back."""
    etcd = cluster.client()
    etcd.change({}, Puts({STORE + "d00": "000000"}))
    followed = Followed(processes, cluster)
    for hurt in range(2):
        if hurt:
            cluster.members[1].send_signal(signal.SIGSTOP)
        else:
            cluster.kill(0)
            cluster.start(0)
        add(etcd, f"d0{hurt + 1}")
        followed.await_line(f"d0{hurt + 1}", f"d0{hurt + 1} 000000 -")
    cluster.members[1].send_signal(signal.SIGCONT)
    cluster.kill(0, 1)
    await_that("it says so", lambda: followed.process.has_said("stay as they are"), LONG)
    assert followed.line("d00") == "d00 000000 -"
    cluster.start(0, 1)
    add(etcd, "d05")
    followed.await_line("d05", "d05 000000 -")


def add(etcd: Etcd, name: str) -> None:
    """One more store, once the members answer."""
    await_that("etcd answers", lambda: answers(etcd), LONG)
    etcd.change({}, Puts({STORE + name: "000000"}))


def test_many_devices(processes: Processes, cluster: Cluster) -> None:
    """Claims of thousands of devices, before the follower's start and while it runs."""
    etcd = cluster.client()
    claim(etcd, range(3000))
    followed = Followed(processes, cluster)
    claim(etcd, range(3000, 5000))
    followed.await_device(f"{4999:016X}", "d07")
    lines = Path(followed.devices).read_text(encoding="ascii").splitlines()
    assert lines == [f"{number:016X} d07" for number in range(5000)]


def claim(etcd: Etcd, numbers: range) -> None:
    """Devices of a store."""
    for first in range(numbers.start, numbers.stop, 100):
        part = range(first, first + 100)
        etcd.change({}, Puts({f"{DEVICE}{number:016X}": "d07" for number in part}))


def test_files_that_cant_be_written(processes: Processes, shared: Cluster) -> None:
    """A file that can't be written is tried again."""
    stores = Path(processes.file("missing")) / "stores"
    follower = Follower(shared.client(), str(stores), None)
    follower.lists.take([Change(STORE + "d07", "000007")])
    follower.due = {STORE}
    follower.write(is_quiet=True)
    assert follower.due == {STORE}
    stores.parent.mkdir()
    follower.write(is_quiet=True)
    assert not follower.due
    assert stores.read_text(encoding="ascii") == "d07 000007 -\n"
