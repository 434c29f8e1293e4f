"""Where the console's knowledge comes from: the lookout's socket, and the bridges' counts; and the
history, also on a disk that is full."""

import asyncio
import sqlite3
import time
from collections.abc import Callable
from pathlib import Path
from typing import Any

import pytest
from console import history
from console.history import History
from console.sources import Sources, counts_in, take_copies

from .sites import DEVICE, GATEWAY, STATUS, Clock, Console, listed, up

# as the bridges write them, in Prometheus' text format
COUNTS = f"""# HELP pilot_gateway_copies_total frames of a gateway that were handed in
# TYPE pilot_gateway_copies_total counter
pilot_gateway_copies_total{{bridge="udp",gateway="{GATEWAY}"}} 41.0
pilot_gateways_udp_copies_total 41.0
"""


class Lookout:
    """A lookout that is played: what it was asked, and those that watch."""

    def __init__(self, path: str) -> None:
        self.path, self.status, self.devices = path, STATUS, listed(0, DEVICE)
        self.asked: list[str] = []
        self.watchers: list[asyncio.StreamWriter] = []

    async def attend(self, reader: asyncio.StreamReader, writer: asyncio.StreamWriter) -> None:
        """Answers a connection."""
        word = (await reader.readline()).decode().strip()
        self.asked.append(word)
        if word == "watch":
            self.watchers.append(writer)
            writer.write(b"watching\n")
            return
        writer.write({"status": self.status, "devices": self.devices}[word].encode())
        writer.close()

    async def print(self, *lines: str) -> None:
        """Prints lines to those that watch."""
        for writer in self.watchers:
            writer.write("".join(f"{line}\n" for line in lines).encode())
        await asyncio.sleep(0.05)


async def await_that(is_so: Callable[[], Any], seconds: float = 20.0) -> None:
    """Waits until something is so."""
    last = time.monotonic() + seconds
    while not is_so():
        assert time.monotonic() < last, "it isn't so yet"
        await asyncio.sleep(0.02)


def test_lookout(folder: Path, console: Console) -> None:
    """The console asks for the status and the devices, and takes what is printed. It learns at once
    that the server has gone, and goes on when it is back."""
    network, path = console.network, str(folder / "look")
    network.server.is_serving, network.server.status = None, {}
    network.devices.clear()
    played = Lookout(path)
    made = Sources(network, {"": path}, None)

    async def trial() -> None:
        tasks = [asyncio.ensure_future(work) for work in (made.ask_on(), made.watch())]
        await await_that(lambda: network.is_serving is False)
        server = await asyncio.start_unix_server(played.attend, path)
        await await_that(lambda: network.is_serving and DEVICE in network.devices)
        await played.print(f"refused 4 BadMic join {DEVICE} 7 {GATEWAY} 868100000 5 -20 -95")
        await await_that(lambda: (4, DEVICE) in network.refused)
        await played.print("joined x", "something else", "linked gateway 00000000000000B2")
        await await_that(lambda: "00000000000000B2" in network.gateways)
        played.status = ""
        await played.print("gone")
        assert network.is_serving is False
        played.status = STATUS
        await played.print("watching")
        await await_that(lambda: network.is_serving)
        for writer in played.watchers:
            writer.close()
        await await_that(lambda: played.asked.count("watch") == 2)
        for task in tasks:
            task.cancel()
        await asyncio.gather(*tasks, return_exceptions=True)
        server.close()

    console.run(trial())
    assert played.asked.count("devices") < played.asked.count("status")


def test_no_events(console: Console, capfd: pytest.CaptureFixture[str]) -> None:
    """What is no event is logged, once a minute and without its payload, and does no harm."""
    made = Sources(console.network, {"": "none"}, None)
    made.take(*up(DEVICE, 0))
    made.take(f"application/3/device/{DEVICE.lower()}/event/up", b'{"data":"secret"}')
    for _ in range(2000):
        made.take("x" * 1000, b"")
    out = capfd.readouterr().out
    assert out.count("no event") == 1 and "secret" not in out and "x" * 81 not in out
    assert console.network.devices[DEVICE].stored == 1


def test_counts(console: Console, folder: Path, clock: Clock) -> None:
    """The bridges' counts give each gateway's copies a minute, also after a bridge has started
    again."""
    (folder / "bozintar-gateways-udp").mkdir()
    file = folder / "bozintar-gateways-udp/gateways-udp.prom"
    file.write_text(COUNTS, encoding="ascii")
    (folder / "gateways-mqtt.prom").write_bytes(b"\xff\xfe nothing")
    (folder / "other.prom").write_text(COUNTS, encoding="ascii")
    assert counts_in(str(folder)).copies == {GATEWAY: 41}
    assert counts_in(str(folder / "none")).copies == {}
    for value in (41, 51, 61, 5):
        take_copies(console.network, {GATEWAY: value})
    gateway = console.network.gateways[GATEWAY]
    assert gateway.minute(clock.now).copies == 25
    clock.now += 60
    console.settle()
    # of the last five whole minutes
    assert "5.0" in console.get("/gateways").text


def test_full_disk(folder: Path) -> None:
    """While the history can't be written, it is said so, and what is new waits; then it is
    written."""
    kept = History(str(folder / "full.db"))
    kept.writing.execute("PRAGMA max_page_count=40")
    row = (DEVICE, 1, 0, 0.0, 7, 5, 7.5, -90, GATEWAY, 867_100_000, 1, 6, 0)
    for counter in range(5000):
        kept.add(history.UPLINK, *row[:2], counter, *row[3:])
    kept.write_waiting()
    assert "full" in kept.fault and len(kept.waiting) == 5000
    for counter in range(5000, 12_000):
        kept.add(history.UPLINK, *row[:2], counter, *row[3:])
    kept.write_waiting()
    assert len(kept.waiting) == history.MOST_WAITING
    kept.writing.execute("PRAGMA max_page_count=1000000")
    kept.write_waiting()
    assert kept.fault == "" and kept.waiting == []
    assert kept.rows("SELECT count(*) FROM uplinks") == [(history.MOST_WAITING,)]
    kept.close()


def test_full_disk_is_shown(console: Console) -> None:
    """The overview says that the history isn't written."""
    console.kept.fault = "database or disk is full"
    console.site.found_at = 0.0
    assert "The history can't be written New history isn't kept: database or disk is full" in (
        console.get("/").text
    )


def test_old_history(console: Console, clock: Clock) -> None:
    """Uplinks stay for 31 days."""
    console.events(up(DEVICE, 0))
    clock.now += 32 * 86_400
    console.events(up(DEVICE, 1))
    console.kept.write(history.old(clock.now))
    assert console.kept.rows("SELECT counter FROM uplinks") == [(1,)]
    assert console.kept.rows("SELECT first, last, count FROM sessions") == [(0, 1, 2)]


def test_keep(folder: Path) -> None:
    """What is added is written soon, and the rest at the end."""
    kept = History(str(folder / "kept.db"))

    async def trial() -> None:
        task = asyncio.ensure_future(kept.keep())
        kept.add(history.NAME, DEVICE, "Mill")
        await await_that(lambda: kept.rows("SELECT name FROM names") == [("Mill",)])
        kept.add(history.NAME, DEVICE, "School")
        task.cancel()
        await asyncio.gather(task, return_exceptions=True)

    asyncio.run(trial())
    kept.close()
    with sqlite3.connect(folder / "kept.db") as opened:
        assert opened.execute("SELECT name FROM names").fetchall() == [("School",)]
