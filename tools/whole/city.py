"""A network of many stores on one machine: keepers with their servers, three members of etcd, what
follows them, and a router."""

import os
import shutil
import signal
import subprocess
import time
from concurrent.futures import ThreadPoolExecutor
from pathlib import Path
from typing import Any

from bozintar.processes import HOST, Failed, Process, Processes, await_that, free_port, read
from fence.records import FENCE, Fence, known
from tests.fence.clusters import Cluster

from . import fleet
from .loads import APPLICATION

PILOT = Path(__file__).resolve().parents[2] / "pilot"
# how long a store may take to be served, also after a keeper that was killed: its lease is 9 s
LONG = 120.0
# stores that are made at a time
AT_A_TIME = 4


def child_of(process: Process) -> int:
    """The process that a process has started."""
    pid = process.pid
    children = Path(f"/proc/{pid}/task/{pid}/children").read_text(encoding="ascii")
    return int(children.split()[0])


def used(pid: int) -> float:
    """What a process took of a processor, in seconds, also by threads that have ended: its clock
    of Linux, whose number is made like this (clock_getcpuclockid(3))."""
    return time.clock_gettime(~pid << 3 | 2)


class City:
    """The network."""

    def __init__(self, processes: Processes, program: str, stores: int, devices: int):
        self.processes, self.program = processes, program
        self.stores, self.devices = stores, devices
        self.cluster = Cluster(processes)
        self.etcd = self.cluster.client()
        self.files = [processes.file(f"{fleet.name_of(at)}.store") for at in range(stores)]
        self.keepers: dict[int, Process] = {}
        self.ports = [free_port() for _ in range(stores)]
        self.started = 0
        # the next turn of each store
        self.firsts = [0] * stores
        self.make()
        self.list = processes.file("stores")
        words = ("--stores", self.list, "--devices", processes.file("devices"))
        self.follow = self.own("follow", *words, "--etcd", self.cluster.option).start()
        await_that("the stores are listed", lambda: read(self.list).count("\n") == stores, LONG)
        self.address = (HOST, free_port())
        words = ("--listen", f"{HOST}:{self.address[1]}", "--stores", self.list)
        self.router = self.own("router", *words).start("listens on")

    def own(self, program: str, *words: Any, name: str = "") -> Process:
        """A program of pilot/."""
        return self.processes.python(PILOT / program, *words, name=name)

    def run(self, *words: Any) -> str:
        """Runs a command to its end, which has to be a good one; what it prints."""
        said = [str(word) for word in words]
        ended = subprocess.run(said, capture_output=True, text=True, check=False)
        if ended.returncode:
            raise Failed(f"{said[:3]} ended so: {ended.returncode} {ended.stderr.strip()}")
        return ended.stdout

    # stores

    def make(self) -> None:
        """Makes the files of the stores, with their devices, and adds the stores to the cluster."""
        for at in range(self.stores):
            words = ("--netid", f"{fleet.net_id_of(at):06X}", "--slots", max(8, self.devices))
            self.run(self.program, "format", self.files[at], *words)
            self.add(fleet.name_of(at), fleet.net_id_of(at))
        with ThreadPoolExecutor(AT_A_TIME) as pool:
            list(pool.map(self.fill, range(self.stores)))

    def add(self, name: str, net_id: int) -> None:
        """Lets the cluster know a store."""
        words = ("add", name, f"{net_id:06X}", "--etcd", self.cluster.option)
        self.run("/usr/bin/python3", PILOT / "stores", *words)

    def fill(self, at: int) -> None:
        """Puts the devices of a store into its file."""
        fleet.fill(self.files[at], at, self.devices, APPLICATION)

    def keeper(self, name: str, file: str, at: int, *more: Any, machine: str = "m1") -> Process:
        """Starts a keeper of a store's name on a file, as if on a machine of its own."""
        self.started += 1
        words: tuple = (name, file, "--listen", f"{HOST}:{self.ports[at]}", *more)
        words += ("--etcd", self.cluster.option, "--lnsd", self.program)
        words += ("--machine", machine, "--host", machine)
        return self.own("keep", *words, name=f"keep-{name}-{self.started}").start()

    def serve(self, at: int, *more: Any, machine: str = "m1") -> None:
        """Starts the keeper of a store, and waits until it serves."""
        name = fleet.name_of(at)
        words = (name, self.files[at], at, "--wait", 60, *more)
        self.keepers[at] = self.keeper(*words, machine=machine)
        self.await_served(at)

    def await_served(self, at: int) -> None:
        """Waits until a store's keeper serves it, and bridges are shown where."""
        due = f"{fleet.name_of(at)} is served at"
        await_that(due, lambda: self.keepers[at].has_said(due), LONG)
        line = f"{fleet.name_of(at)} {fleet.net_id_of(at):06X} {HOST}:{self.ports[at]}\n"
        await_that("bridges are shown where", lambda: line in read(self.list), LONG)

    def serve_first(self, count: int) -> None:
        """Serves the first stores, this number of them."""
        for at in range(count):
            if at not in self.keepers:
                self.serve(at, "--adopt")

    def stop(self, at: int) -> int:
        """Ends a store well; its number then."""
        keeper = self.keepers.pop(at)
        if status := keeper.end(signal.SIGTERM, LONG):
            raise Failed(f"{keeper.name} ended with status {status}: {keeper.said()[-300:]}")
        return self.fence(at).number

    def fence(self, at: int) -> Fence:
        """What the fence has of a store."""
        found = known(self.etcd.get(FENCE + fleet.name_of(at)).text, fleet.name_of(at), Fence)
        if not found:
            raise Failed(f"the fence has nothing of {fleet.name_of(at)}")
        return found

    def move(self, at: int, to: str) -> None:
        """The store's file is copied to another place, and is the store's from now on."""
        self.files[at] = shutil.copy(self.files[at], self.processes.file(to))

    def kill_server(self, at: int) -> None:
        """Kills a store's server, and not its keeper."""
        os.kill(child_of(self.keepers[at]), signal.SIGKILL)

    def heard(self) -> int:
        """How many uplinks all stores have accepted, by their lists of devices."""
        total = 0
        for file in self.files:
            lines = [line.split() for line in self.run(self.program, "devices", file).splitlines()]
            total += sum(int(words[7]) for words in lines if words[0] not in ("devices", "now"))
        return total

    # what it costs

    def processors(self) -> dict[str, float]:
        """What each kind of process took of a processor until now, in seconds."""
        keepers = list(self.keepers.values())
        members = [member for member in self.cluster.members if member.is_running()]
        return {
            "lnsd": sum(used(child_of(keeper)) for keeper in keepers),
            "router": used(self.router.pid),
            "keepers": sum(used(keeper.pid) for keeper in keepers),
            "etcd": sum(used(process.pid) for process in (self.follow, *members)),
        }
