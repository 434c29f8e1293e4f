"""Members of etcd, and keepers of stores, as processes of a trial."""

import shutil
import signal
import subprocess
import sys
from contextlib import suppress
from pathlib import Path
from typing import Any

from bozintar.links import Application
from bozintar.members import Access
from bozintar.processes import HOST, Process, Processes, await_that, command, free_port
from bozintar.words import Address
from fence.etcd import Etcd, Gone, Puts
from fence.records import FENCE, SERVING, STORE, Fence, Serving, known

PILOT = Path(__file__).resolve().parents[2] / "pilot"
SLOTS, NET_ID = 1000, "000007"
# how long a keeper may take that waits for the end of another one's lease, and more
LONG = 60.0
# the seconds of a lease in trials, which is as short as keepers take it; but a machine that does
# much else pauses for long
LEASE = 5
DEVICE = "70B3D57ED000{:04X}"


class Cluster:
    """Members of etcd, on this machine."""

    def __init__(self, processes: Processes, count: int = 3, tls: tuple[str, ...] = ()):
        self.ports = [(free_port(), free_port()) for _ in range(count)]
        self.kind = "https" if tls else "http"
        every = [f"e{at}=http://{HOST}:{peer}" for at, (_, peer) in enumerate(self.ports)]
        self.members = [
            self.member(processes, at, ",".join(every), tls) for at in range(len(self.ports))
        ]
        for member in self.members:
            member.start()

    def member(self, processes: Processes, at: int, every: str, tls: tuple[str, ...]) -> Process:
        """A member."""
        client, peer = (f"{HOST}:{port}" for port in self.ports[at])
        words = {
            "name": f"e{at}",
            "data-dir": processes.file(f"etcd{at}"),
            "listen-client-urls": f"{self.kind}://{client}",
            "advertise-client-urls": f"{self.kind}://{client}",
            "listen-peer-urls": f"http://{peer}",
            "initial-advertise-peer-urls": f"http://{peer}",
            "initial-cluster": every,
        }
        options = [word for name, value in words.items() for word in (f"--{name}", value)]
        return processes.process(f"etcd{at}", command("etcd"), *options, *tls)

    @property
    def addresses(self) -> tuple[Address, ...]:
        """Where clients connect to."""
        return tuple(Address(HOST, client) for client, _ in self.ports)

    @property
    def option(self) -> str:
        """The same as an option has it."""
        return ",".join(map(str, self.addresses))

    def client(self) -> Etcd:
        """A client of all members, once they have a leader."""
        made = Etcd(Access(self.addresses))
        await_that("etcd answers", lambda: answers(made))
        return made

    def kill(self, *which: int) -> None:
        """Kills members."""
        for at in which:
            self.members[at].kill()

    def start(self, *which: int) -> None:
        """Starts members again."""
        for at in which:
            self.members[at].start()


def answers(etcd: Etcd) -> bool:
    """Whether the cluster has a majority."""
    with suppress(Gone):
        etcd.get("/nothing")
        return True
    return False


def await_said(process: Process, text: str) -> None:
    """Waits until a program has printed that."""
    await_that(text, lambda: process.has_said(text), LONG)


class Kept:
    """A store in a cluster, its files, and its keepers."""

    def __init__(self, processes: Processes, cluster: Cluster, name: str, program: str):
        self.processes, self.cluster, self.name, self.program = processes, cluster, name, program
        self.etcd, self.count = cluster.client(), 0
        self.port = free_port()

    def file(self, name: str = "store") -> str:
        """A place for a file of this store."""
        return self.processes.file(f"{self.name}-{name}")

    def format(self, name: str = "store", net_id: str = NET_ID, slots: int = SLOTS) -> str:
        """Makes a store without devices."""
        made = self.file(name)
        words = ("format", made, "--netid", net_id, "--slots", slots)
        self.processes.process(f"format-{self.name}-{name}", self.program, *words).start().ended()
        return made

    def copy(self, of: str, name: str) -> str:
        """Copies a file, as `cp` does."""
        return shutil.copy(of, self.file(name))

    def stores(self, *words: Any) -> tuple[int, str]:
        """Runs `stores` to its end; its status, and what it prints."""
        said = [sys.executable, str(PILOT / "stores"), *map(str, words)]
        said += ["--etcd", self.cluster.option]
        ended = subprocess.run(said, capture_output=True, text=True, check=False)
        return ended.returncode, ended.stdout + ended.stderr

    def add(self, net_id: str = NET_ID) -> None:
        """The cluster knows the store from now on."""
        assert self.etcd.change({STORE + self.name: 0}, Puts({STORE + self.name: net_id})).is_made

    def keeper(self, file: str, *more: Any, machine: str = "one", etcd: str = "") -> Process:
        """Starts a keeper on a file, as if on a machine of its own."""
        self.count += 1
        words: tuple = (self.name, file, "--listen", f"{HOST}:{free_port()}")
        words += ("--lnsd", self.program)
        words += ("--etcd", etcd or self.cluster.option, "--machine", machine, "--host", machine)
        words += ("--lease", str(LEASE), "--every", "0.2")
        name = f"keep-{self.name}-{self.count}"
        keeper = self.processes.process(name, sys.executable, PILOT / "keep", *words, *more)
        return keeper.start()

    def serves(self, file: str, *more: Any, **how: Any) -> Process:
        """Starts a keeper, which serves the file."""
        keeper = self.keeper(file, *more, **how)
        await_that("it is served", lambda: keeper.has_said(f"{self.name} is served at"), LONG)
        return keeper

    def refused(self, file: str, *more: Any, **how: Any) -> str:
        """Starts a keeper that refuses the file; with which reason."""
        keeper = self.keeper(file, *more, **how)
        assert keeper.ended(LONG) == 3, keeper.said()
        return keeper.said().strip().partition(f"{self.name} is refused: ")[2]

    def fence(self) -> Fence:
        """What the fence has of it."""
        found = known(self.text(FENCE), self.name, Fence)
        assert found
        return found

    def serving(self) -> Serving | None:
        """Where it is served."""
        return known(self.text(SERVING), self.name, Serving)

    def text(self, kind: str) -> str:
        """A value of etcd; members that elect a leader don't answer for a moment."""
        await_that("etcd answers", lambda: answers(self.etcd))
        return self.etcd.get(kind + self.name).text

    def decide(self, count: int = 1) -> int:
        """Lets the server that is served decide something, which is durable then; its number."""
        serving = self.serving()
        assert serving
        address = Address.read(serving.address)
        with Application((address.host, address.port), 3) as link:
            for _ in range(count):
                self.count += 1
                link.asks(f"provision {DEVICE.format(self.count)} 0102030405060708 {'2B' * 16} 0 1")
                assert link.hears().split()[0] in ("provisioned", "refused")
        return self.number()

    def number(self) -> int:
        """The number of the server's last decision."""
        serving = self.serving()
        assert serving
        return int(status_of(self.program, serving.file)["decided"])

    def stop(self, keeper: Process) -> int:
        """Ends a keeper well; the number at which the store is then."""
        assert keeper.end(signal.SIGTERM, LONG) == 0, keeper.said()
        assert self.fence().has_ended_well
        return self.fence().number


def status_of(program: str, file: str) -> dict[str, str]:
    """A server's status; nothing if none runs."""
    said = subprocess.run([program, "status", file], capture_output=True, text=True, check=False)
    return dict(line.split(" ", 1) for line in said.stdout.splitlines())
