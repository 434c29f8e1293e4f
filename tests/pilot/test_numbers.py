"""What Prometheus reads: the server's numbers, and those that alerts speak of."""

import os
import re
import time
from pathlib import Path
from typing import Any

from bozintar.forwarders import Forwarder
from bozintar.mqtt import client
from bozintar.processes import HOST, await_that, free_port
from console import notices
from console.history import History
from console.network import Network
from fence import marks

from .doors import Doors
from .field import GATEWAYS
from .parts import PILOT, Parts, Pilot, run
from .whole import Dashboard

# a line of Prometheus' text format that has a number
LABEL = r'[a-z]+="(?:[^"\\\n]|\\["\\n])*"'
SAMPLE = re.compile(rf"([a-zA-Z_:][a-zA-Z0-9_:]*)(\{{{LABEL}(?:,{LABEL})*\}})? (\S+)")
STATUS = """listening 1:2
made 7
windows 3 and later words
longest_sync_us 1500
last_copy_00000000000000B1 2500
later-one 9
last_copy_00000000000000B2 3500
odd a"b\\c
"""
# lines of a status that alerts speak of
LINES = [
    *("gateways", "applications", "made", "dropped", "faulted", "taken_over", "silent", "devices"),
    *("slots", "waiting", "longest_sync_us", f"last_copy_{GATEWAYS[0]}"),
    *("unlisted", "slowed"),
]
DUE = {
    "lnsd_up": 1.0,
    "lnsd_listening": 1.0,
    "lnsd_decisions_total": 7.0,
    "lnsd_windows": 3.0,
    "lnsd_longest_sync_seconds": 0.0015,
    'lnsd_last_copy_seconds{gateway="00000000000000B1"}': 2.5,
    'lnsd_last_copy_seconds{gateway="00000000000000B2"}': 3.5,
    "lnsd_later_one": 9.0,
    "lnsd_odd": 1.0,
}


def samples(text: str) -> dict[str, float]:
    """The numbers of a text: those of a name stand after its help and its type, once."""
    found: dict[str, float] = {}
    told: list[tuple] = []
    for line in text.splitlines():
        if line.startswith("# "):
            told.append(tuple(line.split(" ")[1:3]))
            continue
        sample = SAMPLE.fullmatch(line)
        assert sample, line
        name, labels, value = sample.groups()
        by_gateway = labels if labels and labels.startswith("{gateway=") else ""
        found[name + by_gateway] = float(value)
        assert told[-2:] == [("HELP", name), ("TYPE", name)], f"{name} stands with its own"
    assert len(told) == len(set(told)), "helps and types, each once"
    return found


def metrics(*words: Any) -> tuple[int, str, str]:
    """Runs pilot/metrics."""
    return run("metrics", *words, timeout=60)


def played(folder: Path, script: str) -> str:
    """A program in the place of lnsd."""
    file = folder / "played"
    file.write_text(f"#!/bin/sh\n{script}\n", encoding="utf-8")
    file.chmod(0o755)
    return str(file)


def test_numbers_of_a_server(pilot: Pilot) -> None:
    """The numbers of a server that runs, printed or in a file, and of one that has ended."""
    words = (pilot.program.store, "--lnsd", pilot.program.path)
    status, text, said = metrics(*words)
    assert (status, said) == (0, "")
    came = samples(text)
    assert (came["lnsd_up"], came["lnsd_places"]) == (1, 96)
    file = pilot.file("lnsd.prom")
    assert metrics(*words, "--out", file) == (0, "", "")
    later = samples(Path(file).read_text(encoding="utf-8"))
    assert 0 < came.pop("lnsd_now_seconds") < later.pop("lnsd_now_seconds")
    assert later == came
    pilot.program.stop()
    assert samples(metrics(*words)[1]) == {"lnsd_up": 0}


def test_numbers_of_a_later_server(folder: Path) -> None:
    """Lines of a status that this version doesn't know are numbers too."""
    program = played(folder, f"printf '%s' '{STATUS}'")
    assert samples(metrics("store", "--lnsd", program)[1]) == DUE


def test_no_program() -> None:
    """There is no lnsd: one line, and no numbers."""
    status, _, said = metrics("store", "--lnsd", "/nowhere/lnsd")
    assert (status, said.count("\n")) == (1, 1)


# the names of numbers that alerts speak of
ALERTS = re.findall(r"\b(?:lnsd|pilot)_[a-z_0-9]+", (PILOT / "alerts.yml").read_text("utf-8"))
BRIDGES = {
    "gateways-udp": ("--udp", "listens on"),
    "gateways-mqtt": ("--broker", "connected to"),
    "applications-mqtt": ("--broker", "connected to"),
    "readings": ("--broker", "connected to"),
    "adr": ("--broker", "connected to"),
}


def of_metrics(folder: Path, broker: str) -> set[str]:
    """The names of the numbers that pilot/metrics gives."""
    program = played(folder, "\n".join(f"echo {line} 1" for line in LINES))
    (folder / "none.crt").write_text("no certificate", encoding="utf-8")
    (folder / "store-2026-11-29T22-50-24").write_bytes(b"")
    words = ("--certificates", folder, "--broker", broker, "--copies", folder)
    text = metrics("store", "--lnsd", program, *words)[1]
    return {name.split("{")[0] for name in samples(text)}


def of_bridge(pilot: Pilot, name: str) -> set[str]:
    """The names of the numbers that a bridge writes."""
    option, ready = BRIDGES[name]
    port = pilot.udp_port if option == "--udp" else pilot.broker_port
    whose: tuple = ("--network", pilot.network, "--gateway", GATEWAYS[0])
    if name == "applications-mqtt":
        whose = ("--network", pilot.network, "--application", "3")
    if name in ("readings", "adr"):
        whose = ("--db", pilot.file(f"{name}.db"), "--application", "3")
    file = pilot.file(f"{name}.prom")
    part = pilot.own(name, option, f"{HOST}:{port}", *whose, "--counts", file).start(ready)
    if name == "gateways-udp":
        with_pull = Forwarder(GATEWAYS[0], pilot.udp_port)
        with_pull.look()
        await_that("it asks for downlinks", lambda: part.has_said("asks from"))
        with_pull.close()
    await_that("the counts", lambda: os.path.exists(file))
    part.end()
    return set(samples(Path(file).read_text(encoding="utf-8")))


def of_stores(pilot: Pilot, name: str) -> set[str]:
    """The names of the numbers that a bridge to many stores writes."""
    file, stores = pilot.file(f"{name}.prom"), pilot.file("stores", "d00 000000 -\n")
    words: tuple = ("--listen", f"{HOST}:{free_port()}")
    if name == "applications-mqtt":
        words = ("--broker", f"{HOST}:{pilot.broker_port}", "--application", "3")
    part = pilot.own(name, *words, "--stores", stores, "--counts", file, name=f"{name}-stores")
    part.start("connected to" if name == "applications-mqtt" else "listens on")
    part.end()
    return set(samples(Path(file).read_text(encoding="utf-8")))


def of_door(doors: Doors) -> set[str]:
    """The names of the numbers that the door writes."""
    file = doors.pilot.file("door.prom")
    doors.open("--counts", file)
    await_that("the counts", lambda: os.path.exists(file))
    return set(samples(Path(file).read_text(encoding="utf-8")))


def of_console(folder: Path) -> set[str]:
    """The names of the numbers that the console writes."""
    kept = History(str(folder / "console.db"))
    found = {metric.written for metric in notices.numbers(Network(kept))}
    kept.close()
    return found


def test_alerts(doors: Doors, folder: Path) -> None:
    """Each alert speaks of numbers that there are."""
    pilot = doors.pilot
    pilot.broker().start("running")
    found = of_metrics(folder, f"{HOST}:{pilot.broker_port}") | of_door(doors)
    found = found.union(*(of_bridge(pilot, name) for name in BRIDGES))
    found |= of_stores(pilot, "router") | of_stores(pilot, "applications-mqtt")
    found |= set(samples(marks.SHOWN.format(0))) | of_console(folder)
    assert set(ALERTS) <= found, "names that alerts use, and that are numbers"


def test_what_the_broker_keeps(parts: Parts, folder: Path) -> None:
    """What waits in the broker for a client that is away, which is kept until it comes."""
    parts.broker("sys_interval 1\n").start("running")
    words = ("store", "--lnsd", "/bin/false", "--broker", f"{HOST}:{parts.broker_port}")
    kept = lambda: samples(metrics(*words)[1])["pilot_broker_messages"]
    before = await_that("the broker has numbers", kept)
    with Dashboard(parts.broker_port) as dashboard:
        away = client("away", is_kept=True)
        away.on_connect = lambda *_: away.subscribe("a/topic", 1)
        away.on_subscribe = lambda *_: away.disconnect()
        away.connect(HOST, parts.broker_port)
        away.loop_forever()
        for number in range(50):
            dashboard.say("a/topic", str(number).encode())
        await_that("50 wait", lambda: kept() >= before + 50)
    assert samples(metrics(*words)[1])["pilot_broker_bytes"] > 0


def test_no_broker() -> None:
    """If no broker is there, there are the other numbers."""
    status, text, said = metrics("store", "--lnsd", "/bin/false", "--broker", f"{HOST}:1")
    assert (status, samples(text), said) == (0, {"lnsd_up": 0}, "")


def test_file_that_others_have_made(folder: Path) -> None:
    """A link that another user has put beside the numbers isn't followed; all may read the numbers,
    whatever the umask."""
    victim, out = folder / "victim", folder / "lnsd.prom"
    victim.write_text("of another user", encoding="utf-8")
    program = played(folder, f'ln -s {victim} "{out}.$PPID.part"')
    words = ("store", "--lnsd", program, "--out", out)
    assert run("metrics", *words, umask=0o077)[0] == 0
    assert victim.read_text(encoding="utf-8") == "of another user"
    assert (out.stat().st_mode & 0o777, out.is_symlink()) == (0o644, False)
    assert "lnsd_up 1" in out.read_text(encoding="utf-8")


def test_copied_counts(folder: Path) -> None:
    """Counts of bridges are copied as old as they are; a link isn't followed, nor is a pipe waited
    for; copies of bridges that have ended go, and nothing else does."""
    run, to = folder / "run", folder / "out"
    to.mkdir()
    for name in ("applications-mqtt-4", "other"):
        (to / f"{name}.prom").write_text("old 1\n", encoding="utf-8")
    names = ("gateways-udp", "gateways-mqtt", "readings-3")
    sources = [run / f"bozintar-{name}" / f"{name}.prom" for name in names]
    for source in sources:
        source.parent.mkdir(parents=True)
    sources[0].write_text("new 1\n", encoding="utf-8")
    sources[0].chmod(0o600)
    os.utime(sources[0], (1000, 1000))
    sources[1].symlink_to(to / "other.prom")
    os.mkfifo(sources[2])
    words = ("store", "--lnsd", "/bin/false", "--out", to / "lnsd.prom", "--counts", run)
    status, _, said = metrics(*words)
    assert (status, said.count("\n")) == (1, 2), "two lines about what isn't copied"
    due = ["gateways-udp.prom", "lnsd.prom", "other.prom"]
    assert sorted(os.listdir(to)) == due
    copy = (to / due[0]).stat()
    assert (copy.st_mtime, copy.st_mode & 0o777) == (1000, 0o644), "age and mode"
    assert (to / due[0]).read_text(encoding="utf-8") == "new 1\n"


def test_ends_of_certificates(folder: Path) -> None:
    """When certificates end; one that can't be read has ended, and no folder is none."""
    assert run("secure/certificates", folder, "authority", "--days", "10")[0] == 0
    for name in ("none.crt", "none.crl"):
        (folder / name).write_text("no certificate", encoding="utf-8")
    words = ["--certificates", folder, "--certificates", "/nowhere"]
    said = metrics("store", "--lnsd", "/bin/false", *words)[1].splitlines()
    came = dict(line.rsplit(" ", 1) for line in said if not line.startswith("#"))
    name = 'pilot_certificate_end_seconds{file="%s/%s"}'
    files = [f"{stem}.{kind}" for stem in ("ca", "none") for kind in ("crt", "crl")]
    due = {name % (folder, file) for file in files}
    assert set(came) == {"lnsd_up"} | due
    ends = sorted(int(float(came[name])) for name in due)
    assert ends[:2] == [0, 0], "of what is none"
    for end, days in zip(ends[2:], (10, 3650)):
        assert abs(end - time.time() - days * 86400) < 600, "of the authority's, and of its list"
