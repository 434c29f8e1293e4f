"""The units of a network of many stores, and the examples of etcd, as they are installed: their
commands run, with other places."""

import os
import re
import shlex
import subprocess
import sys
from pathlib import Path

import pytest
from bozintar.members import Access
from bozintar.processes import HOST, Processes, await_that, command, free_port
from bozintar.words import Address
from fence.etcd import Etcd, Puts
from fence.records import STORE

from .clusters import LONG, NET_ID, PILOT, Cluster, Kept, answers
from .units import INSTALLED, PACKAGING, Unit, read, settings_of, started, values_of

# the units of bridges that reach many stores, and whether each is one of gateways
BRIDGES = {
    "bozintar-applications-mqtt@.service": False,
    "bozintar-gateways-mqtt.service": True,
    "bozintar-gateways-udp.service": True,
    "bozintar-router.service": True,
}
ADDRESSES = ("10.0.0.1", "10.0.0.2", "10.0.0.3")
# options, and the files of a certificate and its key
PAIR = (("certificate", "crt"), ("key", "key"))


def certificates(processes: Processes, *kinds: str) -> Path:
    """Certificates of an authority of its own."""
    folder = Path(processes.file("authority"))
    for kind in ("authority", *kinds):
        program = str(PILOT / "secure/certificates")
        words = [sys.executable, program, str(folder), *kind.split()]
        subprocess.run(words, check=True, stdout=subprocess.DEVNULL)
    return folder


@pytest.fixture
def authority(processes: Processes) -> Path:
    """Certificates of a member and of a keeper."""
    return certificates(processes, f"member {HOST}", "keeper one", "gateway 00000000000000B1")


@pytest.fixture
def etcd(processes: Processes, authority: Path) -> Etcd:
    """A client of a cluster whose members have the example's settings."""
    example = (PILOT / "etcd-member.conf").read_text(encoding="utf-8")
    settings = dict(line.split("=", 1) for line in example.splitlines() if line[:1].isalpha())
    ports = [(free_port(), free_port()) for _ in ADDRESSES]
    for at, (client, peer) in enumerate(ports):
        own = {"ETCD_NAME": f"m{at + 1}", "ETCD_DATA_DIR": processes.file(f"etcd{at}")}
        for name, value in settings.items():
            own[name] = own.get(name, placed(value, at, client, ports, authority))
        member = processes.process(f"m{at + 1}", command("etcd"))
        member.start(env={**os.environ, **own})
    keeper = (str(authority / "keeper-one.crt"), str(authority / "keeper-one.key"))
    members = tuple(Address(HOST, client) for client, _ in ports)
    made = Etcd(Access(members, str(authority / "ca.crt"), *keeper))
    await_that("etcd answers", lambda: answers(made), LONG)
    return made


def placed(value: str, at: int, client: int, ports: list[tuple[int, int]], authority: Path) -> str:
    """A value of the example, with the places of a trial."""
    for address, (_, peer) in zip(ADDRESSES, ports):
        # the list of all has the address of each, and all other values that of the first
        own = ports[at][1] if "," not in value else peer
        value = value.replace(f"{address}:2380", f"{HOST}:{own}")
    value = value.replace("10.0.0.1:2379", f"{HOST}:{client}")
    for name, file in (("member.", f"member-{HOST}."), ("ca.", "ca.")):
        value = value.replace(f"/etc/etcd/{name}", f"{authority}/{file}")
    return value


def option_of(etcd: Etcd) -> str:
    """The members, as an option has them."""
    return ",".join(map(str, etcd.members))


def test_certificates(
    processes: Processes, etcd: Etcd, authority: Path, name: str, program: str
) -> None:
    """Members with certificates take clients with one, and no others; and a client takes no members
    of another authority."""
    store = processes.file("store")
    subprocess.run([program, "format", store, "--netid", NET_ID, "--slots", "8"], check=True)
    etcd.change({}, Puts({STORE + name: NET_ID}))
    words = [sys.executable, str(PILOT / "keep"), name, store, "--listen", f"{HOST}:{free_port()}"]
    words += ["--lnsd", program, "--etcd", option_of(etcd), "--adopt"]
    ca = ["--ca", str(authority / "ca.crt")]
    without: tuple[list[str], ...] = ([], ca, ["--ca", str(authority / "keeper-one.crt")])
    for at, wrong in enumerate(without):
        keeper = processes.process(f"wrong{at}", *words, *wrong).start()
        assert keeper.ended(LONG) == 1
        assert "the cluster is away" in keeper.said()
    own = [f"--{kind}={authority}/keeper-one.{end}" for kind, end in PAIR]
    keeper = processes.process("keep", *words, *ca, *own).start()
    await_that("it is served", lambda: keeper.has_said(f"{name} is served at"), LONG)
    assert keeper.end(seconds=LONG) == 0


def test_units(processes: Processes, etcd: Etcd, authority: Path, program: str) -> None:
    """The units of a store and of the lists, with certificates, from a file that `stores adopt`
    named. The unit's own commands copy the certificates, see the server start, and end it well."""
    ours, state, run = (processes.file(name) for name in ("etc", "state", "run"))
    folders = [f"{state}/bozintar-{of}" for of in ("store-d07", "follow")]
    folders += [f"{run}/bozintar-{of}" for of in ("store-d07", "follow")]
    for folder in (f"{ours}/etcd", *folders):
        os.makedirs(folder)
    copied = (("ca.crt", "ca.crt"), *((f"keeper-one.{end}", f"client.{end}") for _, end in PAIR))
    for old, new in copied:
        os.link(authority / old, f"{ours}/etcd/{new}")
    places = {"%i": "d07", "%S": state, "%t": run, "/etc/bozintar": ours, "/usr/bin/lnsd": program}
    places |= {"-o lnsd ": "", "-o bozintar ": "", "--wait 60": "--wait 60 --lease 5"}
    settings = settings_of("stores.conf") | {"ETCD": option_of(etcd), "KEEP_WORDS": ""}
    settings["LISTEN"] = f"{HOST}:{free_port()}"
    store = f"{state}/bozintar-store-d07/store"
    subprocess.run([program, "format", store, "--netid", NET_ID, "--slots", "8"], check=True)
    shared = ["--etcd", settings["ETCD"], f"--ca={ours}/etcd/ca.crt"]
    shared += [f"--{kind}={ours}/etcd/client.{end}" for kind, end in PAIR]
    for words in (("add", "d07", NET_ID), ("adopt", "d07", store)):
        subprocess.run([sys.executable, PILOT / "stores", *words, *shared], check=True)
    follow = started(processes, Unit("bozintar-follow.service", places, settings))
    lines = f"{state}/bozintar-follow/stores"
    await_that("the store is known", lambda: read(lines) == f"d07 {NET_ID} -\n", LONG)
    keeper = started(processes, unit := Unit("bozintar-store@.service", places, settings))
    waits = subprocess.run(
        unit.words("ExecStartPost"), env={"MAINPID": str(keeper.pid)}, check=True
    )
    assert waits.returncode == 0
    due = f"d07 {NET_ID} {settings['LISTEN']}\n"
    await_that("the store is shown", lambda: read(lines) == due, LONG)
    assert (keeper.end(seconds=LONG), follow.end(seconds=LONG)) == (0, 0)
    assert "d07 ended well, at 0" in keeper.said()


def test_what_a_store_needs() -> None:
    """The unit of a store lets SIGTERM come to its keeper alone, and lets setpriv do its work."""
    text = (PACKAGING / "systemd/bozintar-store@.service").read_text(encoding="utf-8")
    assert values_of(text, "KillMode") == ["mixed"]
    assert "capset" in values_of(text, "SystemCallFilter")
    assert values_of(text, "RestartPreventExitStatus") == ["2 3 4 5"]


def options_in(line: str) -> set[str]:
    """The options in the words of a command."""
    return {word for word in shlex.split(line) if word.startswith("--")}


@pytest.mark.parametrize("name, is_of_gateways", BRIDGES.items(), ids=list(BRIDGES))
def test_bridges(name: str, is_of_gateways: bool) -> None:
    """A unit takes the words about stores from its settings. They are empty by themselves, and its
    program knows those that the settings propose, for the files that the unit of the lists writes.
    The unit starts after that one."""
    text = (PACKAGING / "systemd" / name).read_text(encoding="utf-8")
    (line,) = values_of(text, "ExecStart")
    (settings,) = values_of(text, "Environment")
    proposed = settings_of("bridges.conf")
    due = ["STORES_WORDS", *["GATEWAYS_WORDS"] * is_of_gateways]
    assert settings.split() == [f"{key}=" for key in due]
    assert [word for word in shlex.split(line) if word[1:] in proposed and word[1] != "{"] == [
        f"${key}" for key in due
    ]
    assert "bozintar-follow.service" in " ".join(values_of(text, "After")).split()
    said = subprocess.run(
        [sys.executable, PILOT / shlex.split(line)[0].removeprefix(INSTALLED), "--help"],
        capture_output=True,
        text=True,
        check=True,
    ).stdout
    for key in due:
        for option in options_in(proposed[key]):
            assert re.search(rf"^  ({option} |.*, {option} )", said, re.MULTILINE), option
    (follow,) = values_of(
        (PACKAGING / "systemd/bozintar-follow.service").read_text(encoding="utf-8"), "ExecStart"
    )
    files = [word for word in shlex.split(proposed["STORES_WORDS"]) if word.startswith("/")]
    assert len(files) == 2
    assert all(file.replace("/var/lib", "%S") in shlex.split(follow) for file in files)


def test_metrics_of_stores() -> None:
    """The unit of numbers has one store, or those that its settings name."""
    text = (PACKAGING / "systemd/bozintar-metrics.service").read_text(encoding="utf-8")
    (line,) = values_of(text, "ExecStart")
    assert "$METRICS_STORES" in shlex.split(line)
    assert values_of(text, "Environment") == ["METRICS_STORES=%S/lnsd/store"]
    assert text.index("Environment=METRICS") < text.index("EnvironmentFile=")
    words = shlex.split(settings_of("bridges.conf")["METRICS_STORES"])
    stores = [word.partition("=") for word in words if word != "--store"]
    for name, _, file in stores:
        (state,) = values_of(
            (PACKAGING / "systemd/bozintar-store@.service").read_text(encoding="utf-8"),
            "StateDirectory",
        )
        assert file == f"/var/lib/{state.replace('%i', name)}/store"


def test_setpriv() -> None:
    """The program by which a server dies with its keeper is one of the base system."""
    assert os.access(command("setpriv"), os.X_OK)


def test_unknown_cluster(shared: Cluster, processes: Processes, program: str, name: str) -> None:
    """A keeper that has only the address of a member that is away, and then of one that isn't."""
    kept = Kept(processes, shared, name, program)
    kept.add()
    nobody = f"{HOST}:{free_port()}"
    assert kept.keeper(kept.format(), "--adopt", etcd=nobody).ended(LONG) == 1
    kept.stop(kept.serves(kept.file(), "--adopt", etcd=f"{nobody},{shared.option}"))
