"""The start of lnsd.service: its store is made once, and a store that is missing later is neither
replaced by an empty one nor served."""

import os
import re
import subprocess
from collections.abc import Callable, Iterator
from pathlib import Path
from typing import Any

import pytest
from bozintar.processes import await_that
from bozintar.server import Program
from bozintar.words import Address

from .parts import PILOT
from .test_units import shell, text_of

TOP = PILOT.parent
# the most slots of a store, and its length then, by docs/OPERATING.md
MOST_SLOTS, MOST_BYTES = 4096, 37_363_804
CONF = "/etc/bozintar/lnsd.conf"
LISTEN, OWN = {"LISTEN": "127.0.0.1:0"}, {"NETID": "00002A"}
# a status of the unit after which it isn't started again, and one after which it is
WAITS, AGAIN = 4, 3


# what is done while the unit serves: with its process, at its address; whether the power is cut
Then = Callable[[subprocess.Popen, Address], bool]


class Unit:
    """The unit's commands, with files of a folder of their own."""

    def __init__(self, server: Program) -> None:
        self.server, self.folder = server, Path(server.folder)
        self.made, self.copies = self.folder / "etc/made", self.folder / "copies"
        for folder in (self.made.parent, self.copies):
            folder.mkdir()
        self.mark, self.shown = self.folder / "mark/mark", self.folder / "mark.prom"
        self.mark.parent.mkdir()
        files = {"made": self.made, "copies": self.copies, "word": self.folder / "run/word"}
        files |= {"mark": self.mark, "shown": self.shown}
        self.files = [f"--{name}={path}" for name, path in files.items()]
        self.files.append(f"--lnsd={server.path}")
        self.process: subprocess.Popen | None = None

    def words(self, key: str, given: dict[str, str]) -> list[str]:
        """The words of a command of the unit, with these settings."""
        line = shell("lnsd.service", key, ("%S/lnsd/store", self.server.store))
        assert line[0].lstrip("-+") == "/usr/bin/bozintar-start"
        settings = {"NETID": "", "SLOTS": "4096", "NAMES": "", **LISTEN, **given}
        found = [re.sub(r"\$\{(\w+)\}", lambda it: settings[str(it[1])], word) for word in line[1:]]
        words = [word for word in found if word != "$NAMES"]
        return [str(PILOT / "start"), words[0], *self.files, *words[1:]]

    def look(self, given: dict[str, str] | None = None) -> str:
        """What root does before and after the start; what it prints."""
        words = self.words(r"ExecStartPre(?==-\+)", given or {})
        ended = subprocess.run(words, stdout=subprocess.PIPE, text=True, check=True, umask=0o077)
        return ended.stdout

    def starts(
        self, given: dict[str, str] | None = None, then: Then | None = None, **how: Any
    ) -> tuple[int, str]:
        """The unit's start with these settings, of which the end is a status and what is printed;
        or -1 if it serves. Then something is done with its process and its address, and it is
        stopped. What the unit runs after any end follows, but a cut of the power."""
        given = given or {}
        self.look(given)
        log = self.folder / "log"
        with log.open("w") as out:
            words = self.words("ExecStart", given)
            process = self.process = subprocess.Popen(words, stdout=out, stderr=out, **how)
        serves = lambda: process.poll() is not None or "listening" in log.read_text()
        await_that("it serves or ends", serves)
        has_served, is_cut = process.poll() is None, False
        if has_served:
            self.look()
            address = log.read_text().rpartition("listening ")[2].split()[0]
            is_cut = bool(then and then(process, Address.read(address)))
            if process.poll() is None:
                assert self.server.run("stop", self.server.store)[0] == 0
        status = process.wait(60)
        if not is_cut:
            code = "killed" if status < 0 else "exited"
            self.end_of(EXIT_CODE=code, EXIT_STATUS=str(status))
        return -1 if has_served else status, log.read_text()

    def clean(self) -> None:
        """Ends what a trial that failed has left."""
        if self.process:
            self.process.kill()
            self.process.wait()

    def end_of(self, **how: str) -> int:
        """What the unit runs after any end; its status."""
        words = self.words("ExecStopPost", {})
        return subprocess.run(words, env={**os.environ, **how}, check=False).returncode


@pytest.fixture
def unit(program: str) -> Iterator[Unit]:
    """A machine without a store."""
    with Program(program) as made:
        unit = Unit(made)
        yield unit
        unit.clean()


def settings(*changes: tuple[str, str]) -> dict[str, str]:
    """The settings of the package for the server, with changes as an operator makes them."""
    text = (TOP / "packaging/files/lnsd.conf").read_text(encoding="utf-8")
    for old, new in changes:
        assert f"\n{old}\n" in text
        text = text.replace(old, new)
    return {**dict(re.findall(r"^([A-Z]+)=(.*)$", text, re.MULTILINE)), **LISTEN}


def test_first_store(unit: Unit) -> None:
    """Once NETID is set, the unit makes a store of 4,096 slots, and serves it then without NETID."""
    status, said = unit.starts(settings(("#NETID=000000", "NETID=00002A")))
    assert (status, "a new store" in said) == (-1, True)
    assert os.stat(unit.server.store).st_size == MOST_BYTES
    assert f"{MOST_SLOTS} slots" in said
    assert "netid 00002A\n" in unit.made.read_text()
    status, said = unit.starts(settings())
    assert (status, "a new store" in said) == (-1, False)


def test_missing_store(unit: Unit) -> None:
    """A store that was there and is missing, as at a boot without its disk: nothing is started,
    made or listened on, and the reason names the remedies. With the store all goes on."""
    assert unit.starts(OWN)[0] == -1
    away = unit.folder / "away"
    os.rename(unit.server.store, away)
    for net_id in ("00002A", "000001", ""):
        status, said = unit.starts({"NETID": net_id})
        assert (status, os.path.exists(unit.server.store)) == (WAITS, False)
        assert all(word in said for word in ("mount it", "restore a copy", "start anew", "00002A"))
    os.rename(away, unit.server.store)
    assert unit.starts()[0] == -1


@pytest.mark.parametrize("sign", ["copies/store-2026-11-30T02-30-00", "lnsd-restored.csv"])
def test_sign_of_an_earlier_store(unit: Unit, sign: str) -> None:
    """Without a note no store is made either, if a copy or a record of a restore is there."""
    (unit.folder / sign).touch()
    status, said = unit.starts(OWN)
    assert (status, os.path.exists(unit.server.store)) == (WAITS, False)
    assert str(unit.folder / sign) in said


def test_store_that_comes(unit: Unit) -> None:
    """A store that is met without a note, as after an upgrade, is noted, and then has to be
    there. A store of another NetID isn't served in its place."""
    assert unit.server.format("00002A")[0] == 0
    assert "from now on" in unit.look()
    assert unit.look() == "", "it is noted once"
    os.remove(unit.server.store)
    assert unit.server.format("000001")[0] == 0
    status, said = unit.starts()
    assert (status, "000001" in said, "00002A" in said) == (WAITS, True, True)


def test_word_of_an_operator(unit: Unit) -> None:
    """`anew` lets one new store be made, if it repeats the NetID, and says which devices are in
    danger. After that one, the store has to be there again."""
    assert unit.starts(OWN)[0] == -1
    (unit.copies / "store-2026-11-30T02-30-00").touch()
    anew = [str(PILOT / "start"), "anew", unit.server.store, *unit.files, "--netid"]
    for net_id, due in (("000001", 1), ("00002A", 1)):
        assert subprocess.run([*anew, net_id], check=False).returncode == due, "a store is there"
    os.remove(unit.server.store)
    assert subprocess.run([*anew, "000001"], check=False).returncode == 1
    assert unit.starts()[0] == WAITS
    said = subprocess.run([*anew, "00002A"], check=True, stdout=subprocess.PIPE, text=True).stdout
    assert "new AppKey" in said
    assert unit.starts()[0] == -1
    os.remove(unit.server.store)
    assert unit.starts()[0] == WAITS


def test_no_net_id(unit: Unit) -> None:
    """The settings as they are installed have no NetID: the unit names the file, makes no store,
    and waits for its operator."""
    assert unit.starts(settings()) == (
        WAITS,
        f"start: NETID is not set: set it in {CONF}\n",
    )
    assert not os.path.exists(unit.server.store)


@pytest.mark.parametrize(
    "net_id, slots", (("2A", "4096"), ("00002A", "4097"), ("00002A", "")), ids=str
)
def test_wrong_settings(unit: Unit, net_id: str, slots: str) -> None:
    """Wrong settings make no store, and the unit waits for its operator."""
    status, said = unit.starts({"NETID": net_id, "SLOTS": slots})
    assert (status, said.startswith("error: ")) == (2, True), said
    assert not os.path.exists(unit.server.store)


def test_store_that_cannot_be_made(unit: Unit) -> None:
    """If the store can't be made, the unit is started again."""
    unit.server.store = f"{unit.folder}/nowhere/store"
    assert unit.starts(OWN)[0] == AGAIN


def test_store_of_another_user(unit: Unit) -> None:
    """If the store belongs to another user, as after a restore by root, the unit prints what to
    do."""
    assert unit.server.format() == (0, "", "")
    os.chmod(unit.server.folder, 0o755)
    os.chmod(unit.server.store, 0o400)
    how: dict[str, Any] = {} if os.getuid() else {"user": "nobody"}
    status, said = unit.starts(**how)
    assert (status, f"chown lnsd: {unit.server.store}" in said) == (1, True), said


def test_statuses() -> None:
    """The unit isn't started again after what needs an operator."""
    found = re.search(r"^RestartPreventExitStatus=(.*)$", text_of("lnsd.service"), re.MULTILINE)
    assert found and {"1", "2", str(WAITS)} == set(found[1].split())
