"""Machines whose network is cut. Network namespaces of Linux stand for the machines, each with a
member of etcd; they are tied together by a bridge in one more, so that nothing of it is seen
outside."""

import os
import shutil
import subprocess
import sys
from collections.abc import Iterator
from contextlib import suppress
from typing import Any

import pytest
from bozintar.processes import Failed, Process, Processes, await_that, command

from .clusters import LEASE, LONG, NET_ID, PILOT, await_said, status_of
from .units import read

MACHINES = (1, 2, 3)
CLIENTS, PEERS, STORE = 2379, 2380, 5600
CLUSTER = ",".join(f"10.0.0.{at}:{CLIENTS}" for at in MACHINES)


class Network:
    """The machines, by their numbers, and the processes on them."""

    def __init__(self, processes: Processes):
        self.processes, self.before, self.count = processes, f"bz{os.getpid()}-", 0

    def ip(self, *words: Any) -> None:
        """Runs ip(8)."""
        said = [command("ip"), *map(str, words)]
        ended = subprocess.run(said, capture_output=True, text=True, check=False)
        if ended.returncode:
            raise Failed(f"{said} ended so: {ended.stderr.strip()}")

    def make(self) -> None:
        """Makes them, and ties them together by a bridge, for which there is a namespace."""
        switch = f"{self.before}0"
        self.ip("-n", switch, "link", "add", "tie", "type", "bridge")
        self.ip("-n", switch, "link", "set", "tie", "up")
        for at in MACHINES:
            name = f"{self.before}{at}"
            self.ip("netns", "add", name)
            ends = ("type", "veth", "peer", "name", "eth0", "netns", name)
            self.ip("-n", switch, "link", "add", f"to{at}", *ends)
            self.ip("-n", switch, "link", "set", f"to{at}", "master", "tie", "up")
            self.ip("-n", name, "addr", "add", f"10.0.0.{at}/24", "dev", "eth0")
            for link in ("lo", "eth0"):
                self.ip("-n", name, "link", "set", link, "up")

    def remove(self) -> None:
        """Removes what is there of it."""
        for at in (0, *MACHINES):
            with suppress(Failed):
                self.ip("netns", "del", f"{self.before}{at}")

    def cut(self, at: int, is_cut: bool = True) -> None:
        """Cuts a machine off, or ties it to the others again."""
        self.ip("-n", f"{self.before}0", "link", "set", f"to{at}", "down" if is_cut else "up")

    def on(self, at: int, *words: Any) -> list[str]:
        """The words that run a command on a machine."""
        return [command("ip"), "netns", "exec", f"{self.before}{at}", *map(str, words)]

    def start(self, at: int, *words: Any) -> Process:
        """Starts a program on a machine."""
        self.count += 1
        return self.processes.process(f"m{at}-{self.count}", *self.on(at, *words)).start()

    def own(self, at: int, program: str, *words: Any) -> Process:
        """Starts a program of pilot/ on a machine."""
        return self.start(at, sys.executable, PILOT / program, *words, "--etcd", CLUSTER)

    def stores(self, *words: Any) -> tuple[int, str]:
        """Runs `stores` on the second machine; its status, and what it prints."""
        said = self.on(2, sys.executable, PILOT / "stores", *words, "--etcd", CLUSTER)
        ended = subprocess.run(said, capture_output=True, text=True, check=False)
        return ended.returncode, ended.stdout

    def member(self, at: int) -> None:
        """Starts a member of etcd."""
        every = ",".join(f"e{of}=http://10.0.0.{of}:{PEERS}" for of in MACHINES)
        own = {
            "name": f"e{at}",
            "data-dir": self.processes.file(f"etcd{at}"),
            "initial-cluster": every,
        }
        kinds = {"client": CLIENTS, "peer": PEERS}
        own |= {f"listen-{kind}-urls": f"http://10.0.0.{at}:{of}" for kind, of in kinds.items()}
        own["advertise-client-urls"] = own["listen-client-urls"]
        own["initial-advertise-peer-urls"] = own["listen-peer-urls"]
        self.start(at, command("etcd"), *[f"--{name}={value}" for name, value in own.items()])


@pytest.fixture
def network(processes: Processes) -> Iterator[Network]:
    """The machines, with a cluster of etcd."""
    made = Network(processes)
    try:
        made.ip("netns", "add", f"{made.before}0")
    except Failed as why:
        pytest.skip(f"network namespaces can't be made here: {why}")
    try:
        made.make()
        for at in MACHINES:
            made.member(at)
        await_that("etcd answers", lambda: made.stores("status")[0] == 0, LONG)
        yield made
    finally:
        for process in processes.all:
            process.clean()
        made.remove()


def keeper(network: Network, at: int, file: str, program: str, *more: Any) -> Process:
    """Starts a keeper on a machine."""
    words = ("d07", file, "--listen", f"10.0.0.{at}:{STORE}", "--lnsd", program, *more)
    own = ("--machine", f"m{at}", "--host", f"m{at}", "--lease", LEASE)
    return network.own(at, "keep", *words, *own)


def state_of(network: Network) -> list[str]:
    """What `stores status` prints of the store: its address, state and life."""
    return network.stores("status")[1].split()[2:6]


@pytest.mark.slow
def test_machine_that_is_cut_off(network: Network, program: str) -> None:
    """A machine is cut off from all others. Its store is served on, bridges elsewhere are shown
    that they can't reach it, and no copy is served there. Tied together again, all goes on in the
    same life."""
    file, lines = network.processes.file("store"), network.processes.file("stores")
    subprocess.run([program, "format", file, "--netid", NET_ID, "--slots", "8"], check=True)
    assert network.stores("add", "d07", NET_ID)[0] == 0
    own = keeper(network, 1, file, program, "--adopt")
    network.own(2, "follow", "--stores", lines)
    served, unserved = f"d07 {NET_ID} 10.0.0.1:{STORE}\n", f"d07 {NET_ID} -\n"
    await_that("it is shown", lambda: read(lines) == served, LONG)
    network.cut(1)
    await_that("it isn't shown any more", lambda: read(lines) == unserved, LONG)
    await_said(own, "the cluster is away, and the server goes on")
    assert status_of(program, file)["devices"] == "0"
    other = keeper(network, 2, shutil.copy(file, network.processes.file("copy")), program)
    assert other.ended(LONG) == 3
    assert f"served last from {file} on m1, and didn't end well" in other.said()
    network.cut(1, False)
    await_that("it is shown again", lambda: read(lines) == served, LONG)
    assert state_of(network) == [f"10.0.0.1:{STORE}", "running", "life", "1"]
    assert own.end(seconds=LONG) == 0
    assert state_of(network) == ["-", "stopped", "life", "1"]
