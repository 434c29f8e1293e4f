"""The units of the package: how much of the system they may use, and what they run."""

import os
import re
import shlex
import subprocess
import time
from pathlib import Path

import pytest
from bozintar.links import Gateway
from bozintar.processes import HOST, await_that, command, free_port
from bozintar.server import Program

from .doors import Authority, Doors, gateway
from .field import GATEWAYS
from .parts import PILOT, Pilot

UNITS = sorted((PILOT.parent / "packaging/systemd").glob("*.service"))
NAMES = [unit.name for unit in UNITS]
# the exposure of systemd-analyze that a unit may have at most, from 0 to 10
MOST = 2.5
# what uses certificates, in the package's settings or as its operator may set it
BY_TLS = (
    "bozintar-adr@.service",
    "bozintar-applications-mqtt@.service",
    "bozintar-door.service",
    "bozintar-follow.service",
    "bozintar-gateways-mqtt.service",
    "bozintar-readings@.service",
    "bozintar-store@.service",
    "bozintar-web-console.service",
    "etcd.service.d/bozintar.conf",
    "mosquitto.service.d/bozintar.conf",
    "stunnel@bozintar.service.d/again.conf",
)


def text_of(name: str) -> str:
    """The text of a unit."""
    return (PILOT.parent / "packaging/systemd" / name).read_text(encoding="utf-8")


def line_of(name: str, key: str) -> str:
    """The value of a setting of a unit that it has once."""
    found = re.search(rf"^{key}=((?:.*\\\n)*.*)", text_of(name), re.MULTILINE)
    assert found, f"{name} has no {key}"
    return found[1].replace("\\\n", "")


@pytest.mark.parametrize("unit", UNITS, ids=NAMES)
def test_exposure(unit: Path, folder: Path) -> None:
    """Each unit may use little of the system."""
    # an instance, since a template alone can't be looked at
    copy = folder / unit.name.replace("@.", "@3.")
    copy.write_bytes(unit.read_bytes())
    words = [command("systemd-analyze"), "security", "--offline=true", "--no-pager", str(copy)]
    said = subprocess.run(words, capture_output=True, text=True, check=False).stdout
    found = re.search(r"Overall exposure level for \S+: ([0-9.]+)", said)
    assert found and float(found[1]) <= MOST, said


@pytest.mark.parametrize("unit", UNITS, ids=NAMES)
def test_user(unit: Path) -> None:
    """No unit runs as root."""
    assert re.findall("^User=(.*)$", unit.read_text(encoding="utf-8"), re.MULTILINE) in (
        ["lnsd"],
        ["bozintar"],
        ["bozintar-console"],
        ["bozintar-door"],
    )


def all_of(name: str, key: str) -> list[str]:
    """All values of a setting of a unit."""
    found = re.findall(rf"^{key}=((?:.*\\\n)*.*)", text_of(name), re.MULTILINE)
    return [value.replace("\\\n", "") for value in found]


@pytest.mark.parametrize("name", NAMES)
def test_folders(name: str) -> None:
    """No unit changes its folders below /run before it starts: systemd sets their owner and mode
    once more for each command (systemd.exec(5)), so that would be lost."""
    folders = {f"%t/{folder}" for of in all_of(name, "RuntimeDirectory") for folder in of.split()}
    for words in map(shlex.split, all_of(name, "ExecStartPre")):
        if folders & set(words):
            assert not re.search(r"\b(chgrp|chmod|chown|install -d)\b", " ".join(words)), words


SOCKETS = {"bozintar-applications-mqtt@": "bozintar-ask-%i", "bozintar-lookout": "bozintar-look"}


@pytest.mark.parametrize("unit", SOCKETS)
def test_console_reaches(unit: str) -> None:
    """The console's user reaches the sockets of the bridges and of the lookout, by the group with
    which systemd makes their folders. A socket is for its user and its group."""
    unit += ".service"
    assert SOCKETS[unit.removesuffix(".service")] in line_of(unit, "RuntimeDirectory").split()
    assert int(line_of(unit, "RuntimeDirectoryMode"), 8) & 0o070 == 0o050
    members = (PILOT.parent / "packaging/debian/bozintar.sysusers").read_text(encoding="utf-8")
    user = line_of("bozintar-web-console.service", "User")
    assert f"m {user} {line_of(unit, 'Group')}\n" in members


@pytest.mark.parametrize("name", BY_TLS)
def test_time(name: str) -> None:
    """What uses certificates starts once the time is set."""
    for key in ("After", "Wants"):
        assert "time-sync.target" in line_of(name, key).split()


def test_journal_of_metrics() -> None:
    """What runs each 15 seconds writes no line to the journal when it begins and ends."""
    assert line_of("bozintar-metrics.service", "LogLevelMax") == "notice"


def shell(name: str, key: str, *changes: tuple[str, str]) -> list[str]:
    """The words of a command of a unit, with other places."""
    line = line_of(name, key).removeprefix("+")
    for old, new in changes:
        assert old in line, f"{name} has no {old}"
        line = line.replace(old, new)
    return shlex.split(line)


def run(words: list[str], **environment: str) -> None:
    """Runs a command of a unit to its end."""
    subprocess.run(words, env={"PATH": "/usr/bin:/bin", **environment}, check=True)


def test_list_is_read_again(pilot: Pilot) -> None:
    """A reload has the gateways' list read again, from a copy that the bridge may read: other files
    beside the list stay closed to it."""
    name, listed, copies = "bozintar-gateways-udp.service", pilot.file("list/gateways"), "copies"
    os.mkdir(os.path.dirname(listed))
    lines = f"{GATEWAYS[0]}\n", f"{GATEWAYS[0]}\n{GATEWAYS[1]}\n"
    pilot.file("list/gateways", lines[0])
    places = (
        ("/etc/bozintar/gateways", listed),
        ("%t/bozintar-lists", pilot.file(copies)),
        ("-g bozintar ", ""),
    )
    run(shell(name, "ExecStartPre", *places))
    assert os.listdir(pilot.file(copies)) == ["gateways"]
    assert "--gateways %t/bozintar-lists/gateways" in line_of(name, "ExecStart")
    words: tuple = ("--network", pilot.network, "--udp", f"{HOST}:{pilot.udp_port}")
    words += ("--gateways", pilot.file(f"{copies}/gateways"))
    bridge = pilot.own("gateways-udp", *words).start("for 1 gateways")
    pilot.file("list/gateways", lines[1])
    run(shell(name, "ExecReload", *places), MAINPID=str(bridge.pid))
    await_that("the list is read again", lambda: bridge.has_said("2 gateways"))


def test_names_are_read_again(program: str, folder: Path) -> None:
    """The server's unit copies the list of names, if there is one, and a reload has the server read
    it again. Without NAMES in the settings nothing is listed."""
    name, listed, copies = "lnsd.service", folder / "names", folder / "copies"
    places = (("/etc/bozintar/names", str(listed)), ("%t/lnsd-names", str(copies)))
    assert line_of(name, "ExecStart").endswith(" --listen ${LISTEN} $NAMES")
    assert "NAMES=" in line_of(name, "Environment").split()
    copied = shell(name, r"ExecStartPre(?==\+)", *places, ("-g lnsd ", ""))
    run(copied)
    assert not copies.exists()
    listed.write_text(f"gateway {GATEWAYS[0]}\n", encoding="utf-8")
    run(copied)
    with Program(program) as server:
        assert server.format()[0] == 0
        address = server.run_on(names=str(copies / "names"))
        listed.write_text(f"gateway {GATEWAYS[1]}\n", encoding="utf-8")
        more = (("-g lnsd ", ""), ("/usr/bin/lnsd", program), ("%S/lnsd/store", server.store))
        run(shell(name, "ExecReload", *places, *more))
        with Gateway(address, GATEWAYS[1]):
            await_that("the gateway is listed", lambda: server.status()["gateways"] == "1")
        assert server.status()["unlisted"] == "0"
        assert server.stop()[0] == 0
    listed.unlink()
    run(copied)
    assert not os.listdir(copies), "the copy of a list that is gone"


def test_door_reads_its_files_again(doors: Doors) -> None:
    """The door's unit copies its files, and no others; a reload does so again."""
    name, copies = "bozintar-door.service", doors.pilot.file("tls")
    places = (
        ("/etc/bozintar/tls", doors.own.folder),
        ("%t/bozintar-door-tls", copies),
        ("-g bozintar-door ", ""),
    )
    run(shell(name, "ExecStartPre", *places))
    files = {"ca.crt", "ca.crl", "server.crt", "server.key"}
    assert set(os.listdir(copies)) == files
    line = line_of(name, "ExecStart").replace("%t/bozintar-door-tls", copies)
    line = line.replace("${NETWORK}", doors.pilot.network).replace("$DOOR_WORDS", "")
    line = line.replace("${DOOR}", f"{HOST}:{doors.port}").replace("%t/bozintar-door", copies)
    door = doors.pilot.own("secure/door", *shlex.split(line)[1:]).start("listens on")
    run(shell(name, "ExecReload", *places), MAINPID=str(door.pid))
    await_that("the files are read again", lambda: door.has_said("read the files again"))
    with doors.linked(doors.own.context(GATEWAYS[0].lower()), gateway(GATEWAYS[0])):
        await_that("its counts are there", lambda: os.path.exists(f"{copies}/door.prom"))
    counts = Path(f"{copies}/door.prom").read_text(encoding="utf-8")
    for file in ("server.crt", "ca.crl"):
        found = re.search(rf'pilot_certificate_end_seconds{{file="{copies}/{file}"}} (\S+)', counts)
        assert found and float(found[1]) > time.time(), f"when {file} ends"


def test_console_reads_its_files(pilot: Pilot) -> None:
    """The console's unit copies its files to where its user may read them, as the example of its
    settings names them. Without files it starts, too."""
    name, tls, copies = "bozintar-web-console.service", pilot.file("tls"), pilot.file("copies")
    os.mkdir(copies)
    places = (
        ("/etc/bozintar/console", tls),
        ("%t/bozintar-console", copies),
        ("-o bozintar-console ", ""),
    )
    run(shell(name, "ExecStartPre", *places))
    own = Authority(tls)
    own.make("server", "localhost")
    run(shell(name, "ExecStartPre", *places))
    settings = (PILOT.parent / "packaging/files/console.conf").read_text(encoding="utf-8")
    found = re.search(r"^#CONSOLE_WORDS=((?:.*\\\n#)*.*)", settings, re.MULTILINE)
    assert found and "/etc/" not in found[1]
    more = found[1].replace("\\\n#", "").replace("/run/bozintar-console", copies)
    line = line_of(name, "ExecStart").replace("$CONSOLE_WORDS", more)
    for old, new in (
        ("/run/bozintar-look/look", pilot.file("look")),
        ("${BROKER}", f"{HOST}:{pilot.broker_port}"),
        ("%S/bozintar-console", pilot.folder),
        ("%t/bozintar-console", copies),
        ("${CONSOLE}", f"{HOST}:{free_port()}"),
    ):
        assert old in line
        line = line.replace(old, new)
    console = pilot.own("console/web-console", *shlex.split(line)[1:])
    console.start("listens on https")
    await_that("its numbers", lambda: os.path.exists(f"{copies}/console.prom"))
    assert line_of(name, "RuntimeDirectoryMode") == "0755"


def test_copies_of_the_night(pilot: Pilot) -> None:
    """The unit for copies makes one while the server runs, and keeps those of 14 nights; its timer
    also makes up for a night in which the machine was off."""
    folder, room = Path(pilot.file("copies")), Path(pilot.file("room"))
    folder.mkdir()
    room.mkdir()
    for day in range(10, 30):
        (folder / f"store-2020-01-{day}T02-30-00").touch()
    _, *words = shell(
        "bozintar-copy.service",
        "ExecStart",
        ("%S/lnsd/store", pilot.program.store),
        ("%S/bozintar-copies", str(folder)),
        ("%t/bozintar-copy", str(room)),
        (" $COPY_WORDS", ""),
        ("/usr/bin/lnsd", pilot.program.path),
    )
    copy = pilot.own("copy", *words).start()
    assert copy.ended(60) == 0, copy.said()
    *older, newest = sorted(folder.iterdir())
    assert [file.stat().st_size for file in older] == [0] * 13
    assert newest.stat().st_size == Path(pilot.program.store).stat().st_size
    timer = text_of("bozintar-copy.timer")
    assert "\nOnCalendar=*-*-* " in timer and "\nPersistent=yes\n" in timer


def test_events_in_the_journal(pilot: Pilot) -> None:
    """The unit for events waits for a server, prints its events, and ends with it."""
    name, program = "bozintar-watch.service", pilot.program
    words = shell(
        name, "ExecStart", ("/usr/bin/lnsd", program.path), ("%S/lnsd/store", program.store)
    )
    program.stop()
    watch = pilot.process("watch", *words).start()
    port = pilot.address[1]
    program.run_on(96, port=port)
    await_that("it watches", lambda: watch.has_said("watching"))
    program.stop()
    watch.ended()
    assert line_of(name, "Restart") == "always"
