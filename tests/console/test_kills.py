"""Each part of a network is killed in turn: the console's pages show it, and recover by
themselves."""

import sqlite3
import urllib.error
import urllib.request
from collections.abc import Iterator
from pathlib import Path

import pytest
from bozintar.processes import await_all, await_that
from console.sources import PAUSE, STATUS_EVERY

from .networks import KILLS, Whole

# how soon a kill is shown, in seconds; and on a slow machine
SOON, LATE = 5.0, 50.0
FIRST = "70B3D57ED0000001"


@pytest.fixture
def network(program: str) -> Iterator[Whole]:
    """A network with a meter that has joined."""
    made = Whole(program, 1)
    try:
        made.start()
        assert made.join(made.meters[0]), "the meter joins"
        made.read(made.meters[0])
        await_that("all is well", lambda: "[]" in health(made))
        yield made
    finally:
        made.end()


def health(network: Whole) -> str:
    """What /health says."""
    return page(network, "/health")


def page(network: Whole, path: str) -> str:
    """A page, or nothing if none comes."""
    try:
        with urllib.request.urlopen(f"{network.address}{path}", timeout=30) as response:
            return str(response.read().decode())
    except urllib.error.HTTPError as error:
        return error.read().decode()
    except OSError:
        return ""


def recovers(network: Whole) -> None:
    """All is well again, and a new reading is shown."""

    def is_well() -> bool:
        network.air.go_on(0.5)
        return "[]" in health(network)

    await_that("all is well again", is_well, 120)
    before = len(network.meters[0].sent)
    stored = f"{before + 1} stored"

    def is_shown() -> bool:
        network.air.go_on(0.2)
        return stored in page(network, f"/devices/{FIRST}")

    network.read(network.meters[0])
    await_all("the reading is shown", is_shown, 60)


@pytest.mark.parametrize("part", [part for part in KILLS if part != "console"])
def test_kills(network: Whole, part: str) -> None:
    """A part that is killed is a problem within five seconds, and none once it is back. A busy
    machine may take longer, but the console looks as often as that needs."""
    assert STATUS_EVERY + PAUSE < SOON
    kill, start, problem = KILLS[part]
    kill(network)
    await_that("the problem is shown", lambda: problem in health(network), LATE, 0.1)
    start(network)
    recovers(network)


def test_console_killed(network: Whole) -> None:
    """A console that is killed has lost no reading that came before or meanwhile: the broker keeps
    its session."""
    with sqlite3.connect(f"file:{network.file('console.db')}?mode=ro", uri=True) as opened:
        kept = lambda: opened.execute("SELECT count(*) FROM uplinks").fetchone()
        await_all("the reading is kept", lambda: kept() == (1,))
    network.console.kill()
    for _ in range(3):
        network.read(network.meters[0])
    network.console.start("listens on")
    recovers(network)
    assert "none missing" in page(network, f"/devices/{FIRST}")


def test_another_store(network: Whole) -> None:
    """If a store is made anew, and filled, its server grants a JoinNonce again. The console says so,
    also after a kill."""
    await_that("the join is shown", lambda: "(JoinNonce 1)" in page(network, "/"))
    network.application.kill()
    network.pilot.program.kill()
    Path(network.pilot.program.store).rename(network.file("away"))
    assert network.pilot.program.format(slots=256)[0] == 0
    network.pilot.program.run_on(96, port=network.pilot.address[1])
    network.application.start("is provisioned")

    def is_told() -> bool:
        network.send(network.meters[0].join_request())
        network.air.go_on(2)
        return "A JoinNonce was granted twice" in health(network)

    await_that("the alarm", is_told)
    network.console.kill()
    network.console.start("listens on")
    assert "A JoinNonce was granted twice" in health(network)
