"""The commands of `stores`, with etcd and with servers on machines that are played."""

import subprocess
import sys
from pathlib import Path
from typing import Any

import pytest
from bozintar.processes import Processes, await_that
from fence.etcd import Puts
from fence.records import FENCE, STORE

from .clusters import LONG, PILOT, Cluster, Kept

KEY = "2B7E151628AED2A6ABF7158809CF4F3C"
JOIN_EUI = "0102030405060708"
# plays ssh: the first word is a machine, and the rest a command
SSH = 'echo "$1" >>"$0.machines"; shift; exec sh -c "$*"'


class Operator:
    """Who types commands."""

    def __init__(self, processes: Processes, cluster: Cluster, program: str):
        self.processes, self.cluster, self.program = processes, cluster, program
        self.log = processes.file("ssh")

    def types(self, *words: Any) -> tuple[int, list[str], list[str]]:
        """A command of `stores`: its status, and the lines of both outputs."""
        ended = subprocess.run(self.words(*words), capture_output=True, text=True, check=False)
        return ended.returncode, ended.stdout.splitlines(), ended.stderr.splitlines()

    def words(self, *words: Any) -> list[str]:
        """The words of a command, on a machine without stores."""
        own = ("--etcd", self.cluster.option, "--lnsd", self.program, "--host", "three")
        ssh = ("--ssh", f"sh -c '{SSH}' {self.log}")
        return [sys.executable, str(PILOT / "stores"), *map(str, words), *own, *ssh]

    def file(self, name: str, *euis: str) -> str:
        """A file of devices."""
        lines = ["DevEUI,JoinEUI,AppKey", *(f"{eui},{JOIN_EUI},{KEY}" for eui in euis)]
        return self.processes.file(name, "\n".join(lines) + "\n")


@pytest.fixture
def operator(processes: Processes, cluster: Cluster, program: str) -> Operator:
    """An operator of a cluster of its own."""
    cluster.client()
    return Operator(processes, cluster, program)


def test_add_and_where(operator: Operator) -> None:
    """Stores are added once. A frame is for the stores with the bits of its DevAddr."""
    assert operator.types("add", "d07", "000007") == (0, ["d07 000007 is added"], [])
    assert operator.types("add", "d07", "000007") == (0, ["d07 000007 is there already"], [])
    due = ["d07 is there already, with NetID 000007"]
    assert operator.types("add", "d07", "000008") == (1, [], due)
    operator.types("add", "d3F", "00003f")
    note = "d07, other have one NetID: no gateway may hear two of them (--hearing)"
    assert operator.types("add", "other", "000007") == (0, ["other 000007 is added", note], [])
    assert operator.types("where", "0E001FFF") == (0, ["d07", "other"], [])
    assert operator.types("where", "7FFFFFFF") == (0, ["d3F"], [])
    assert operator.types("where", "00000000") == (1, [], [])
    status, lines, _ = operator.types("status")
    due = [
        f"{name} - new life 0 number 0 - -" for name in ("d07 000007", "d3F 00003F", "other 000007")
    ]
    assert (status, lines) == (0, due)


def test_claims(operator: Operator) -> None:
    """A device is claimed once, for one store; all others of a file are claimed. Wrong lines are
    named."""
    euis = [f"70B3D57ED0{number:06X}" for number in range(250)]
    first = operator.file("first.csv", *euis[:201])
    assert operator.types("claim", "d07", first)[::2] == (1, ["there is no store d07: stores add"])
    for name, net_id in (("d07", "000007"), ("d08", "000008")):
        operator.types("add", name, net_id)
    assert operator.types("claim", "d07", first) == (0, ["claimed 201, before 0, refused 0"], [])
    assert operator.types("claim", "d07", first) == (0, ["claimed 0, before 201, refused 0"], [])
    second = operator.file("second.csv", *euis[199:])
    due = [f"{eui} is in d07" for eui in euis[199:201]]
    assert operator.types("claim", "d08", second) == (
        1,
        ["claimed 49, before 0, refused 2"],
        due,
    )
    assert operator.types("where", euis[200].lower()) == (0, ["d07"], [])
    assert operator.types("where", euis[201]) == (0, ["d08"], [])
    assert operator.types("where", "0" * 16) == (1, ["no store"], [])
    wrong = operator.processes.file("wrong.csv", f"{'A' * 16},{JOIN_EUI},{KEY}\nno device\n")
    status, lines, said = operator.types("claim", "d07", wrong)
    assert (status, lines) == (1, ["claimed 1, before 0, refused 0"])
    assert len(said) == 1 and "line 2" in said[0]
    status, lines, said = operator.types("claim", "d07", operator.processes.file("missing"))
    assert (status, lines, len(said)) == (1, [], 1)


@pytest.fixture
def two(operator: Operator) -> list[Kept]:
    """Two stores that are served on machines of their own, one device in each."""
    made = []
    for number, name in enumerate(("d00", "d01")):
        kept = Kept(operator.processes, operator.cluster, name, operator.program)
        kept.add(f"00000{number}")
        kept.serves(kept.format(net_id=f"00000{number}"), "--adopt", machine=f"m{number}")
        kept.count = 10 * number
        kept.decide()
        made.append(kept)
    return made


def devices_of(kept: Kept) -> list[str]:
    """The devices of a store, by `lnsd devices`."""
    words = [kept.program, "devices", kept.file()]
    said = subprocess.run(words, capture_output=True, text=True, check=True).stdout.splitlines()
    return [f"{kept.name} {line}" for line in said if line[0].isdecimal()]


def test_lists_of_all(operator: Operator, two: list[Kept]) -> None:
    """Lists come from the machines of the stores. Devices that aren't claimed, or claimed for
    another store, are found, and those that are in two."""
    due = [line for kept in two for line in devices_of(kept)]
    assert len(due) == 2
    assert operator.types("devices") == (0, due, [])
    machines = Path(f"{operator.log}.machines").read_text(encoding="ascii").split()
    assert sorted(machines) == ["m0", "m1"]
    out = operator.processes.file("sessions")
    assert operator.types("devices", "--out", out) == (0, [], [])
    assert Path(out).read_text(encoding="ascii").splitlines() == due
    euis = [line.split()[2] for line in due]
    end = "devices 2, twice 0, not claimed {}, stores not asked 0"
    unclaimed = [f"{eui} is in d0{at}, and is claimed for no store" for at, eui in enumerate(euis)]
    assert operator.types("check") == (1, [*unclaimed, end.format(2)], [])
    operator.types("claim", "d00", operator.file("both.csv", *euis))
    other = [f"{euis[1]} is in d01, and is claimed for d00"]
    assert operator.types("check") == (1, [*other, end.format(1)], [])
    lists = [operator.processes.file(f"list{at}", f"0 {eui} 1 1\n") for at, eui in enumerate(euis)]
    assert operator.types("check", *lists) == (0, [end.format(0)], [])
    twice = operator.processes.file("twice", f"0 {euis[0]} 1 1\n")
    said = operator.types("check", *lists, twice)
    due = [f"{euis[0]} is in {lists[0]} and in {twice}"]
    assert said == (1, [*due, "devices 3, twice 1, not claimed 0, stores not asked 0"], [])


def test_a_machine_that_cant_be_asked(operator: Operator, two: list[Kept]) -> None:
    """A store that can't be asked is named, and the others are listed, or checked."""
    due = devices_of(two[1])
    operator.types("claim", "d01", operator.file("one.csv", due[0].split()[2]))
    checked = ["devices 1, twice 0, not claimed 0, stores not asked 1"]
    for command, lines in (("devices", due), ("check", checked)):
        words = operator.words(command)
        words[words.index("--ssh") + 1] = "false"
        words[words.index("--host") + 1] = "m1"
        said = subprocess.run(words, capture_output=True, text=True, check=False)
        assert (said.returncode, said.stdout.splitlines()) == (1, lines)
        assert said.stderr.startswith("d00 on m0 can't be asked: ")


def test_watch(operator: Operator, two: list[Kept]) -> None:
    """What servers report comes with the name of the store."""
    words = operator.words("watch")
    watch = operator.processes.process("watch", *words).start()
    for kept in two:
        await_that("it watches", lambda: watch.has_said(f"{kept.name} watching\n"), LONG)
        kept.decide()
    assert watch.end() == 143


def test_a_wrong_fence(operator: Operator, two: list[Kept]) -> None:
    """A fence that can't be read is reported, and its store isn't served."""
    etcd = two[0].etcd
    etcd.change({}, Puts({STORE + "d02": "000002", FENCE + "d02": "{}"}))
    status, lines, said = operator.types("status")
    assert (status, len(lines)) == (0, 3)
    assert len(said) == 1 and said[0].startswith("/bozintar/fence/d02 in etcd can't be read: ")
    kept = Kept(operator.processes, operator.cluster, "d02", operator.program)
    file = kept.format(net_id="000002")
    assert "/bozintar/fence/d02 in etcd can't be read" in kept.refused(file, "--adopt")
