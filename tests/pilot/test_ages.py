"""When readings were received: a reading that waited in the network has bounds of that time."""

import json
import sqlite3
from datetime import datetime
from pathlib import Path

import pytest
from bozintar.lasting import Link
from bozintar.links import Application
from bozintar.processes import await_all, await_that
from bozintar.words import Address
from bridges.ages import ANSWER, LATE, MOST_LINES, ON_THE_WAY, PERIOD, REQUEST, Ages

from .networks import Network
from .parts import AFTER, Parts, Pilot, program_of_pilot
from .played import FIRST, Bridge, up
from .rows import table
from .whole import Dashboard, Whole

# so that what is late comes soon: seconds between two tries, on the way, and from when it is late
SOON = "program.ages.PERIOD, program.ages.ON_THE_WAY, program.ages.LATE = 0.2, 0.5, 2.0"
# has the bridge's lines judged by a clock that a trial sets
BY_CLOCK = """from functools import partial
program.ages.Ages, program.ages.KEPT = partial(program.ages.Ages, clock=clock), 0.0"""
# readings each time, and in how many seconds they come: none is late even a period afterwards
EACH, SOON_READ = 4, LATE - ON_THE_WAY - PERIOD


class Played(Link):
    """A link whose other end is played."""

    def __init__(self) -> None:
        super().__init__("played", Address("127.0.0.1", 1), b"")
        self.opened, self.said = 1, list[bytes]()

    def say(self, message: bytes, meant: float = 0.0) -> bool:
        """Notes a message."""
        self.said.append(message)
        return True


class Moments:
    """A bridge that asks, at moments that a trial chooses."""

    def __init__(self, database: sqlite3.Connection | None = None) -> None:
        self.now, self.link = 1000.0, Played()
        self.ages = Ages(self.link, database, lambda: self.now)

    def asks(self, *lines: str, is_free: bool = True) -> float:
        """Asks, hears an answer, these lines, and the second answer; when it has asked."""
        self.now += PERIOD
        self.ages.ask()
        asked, self.now = self.now, self.now + 1
        for line in (ANSWER, *lines, ANSWER):
            self.ages.take(line, is_free)
        return asked

    def delay(self) -> float | None:
        """How much later than the earliest moment a line comes now, at most; 0 if that is soon."""
        bounds = self.ages.bounds(self.now)
        if not bounds:
            return 0
        assert bounds["delayed"] is True
        if "earliest" not in bounds:
            return None
        return self.now - datetime.fromisoformat(bounds["earliest"]).timestamp()


def test_nothing_known() -> None:
    """Before an answer came, nobody knows how old a line is."""
    moments = Moments()
    moments.ages.ask()
    assert moments.delay() is None
    assert not moments.ages.take("up", True), "another line"


def test_two_answers() -> None:
    """After two answers a line is at most as old as the first request, and then it grows older."""
    moments = Moments()
    asked = moments.asks()
    assert moments.delay() == 0
    moments.now = asked + LATE - ON_THE_WAY
    assert moments.delay() == 0
    moments.now += 10
    assert moments.delay() == pytest.approx(LATE + 10)
    assert len(moments.link.said) == 2


@table(
    "name, lines, is_free",
    (
        ("too many lines between the answers", ["up x"] * (MOST_LINES + 1), True),
        ("too long lines between the answers", ["up " + "x" * 600] * 30, True),
        ("a request that waits for an answer", [], False),
    ),
)
def test_answers_that_say_nothing(name: str, lines: list[str], is_free: bool) -> None:
    """If more may wait in the network, or an answer may be another request's, nothing is known."""
    moments = Moments()
    moments.asks(*lines, is_free=is_free)
    assert moments.delay() is None
    moments.asks(*["up x"] * MOST_LINES)
    assert moments.delay() == 0


def test_answer_of_another_link() -> None:
    """What was asked on a link isn't answered on the next one."""
    moments = Moments()
    moments.ages.ask()
    moments.ages.take(ANSWER, True)
    moments.link.opened += 1
    assert not moments.ages.take(ANSWER, True)
    assert moments.delay() is None
    moments.now = moments.asks() + LATE - ON_THE_WAY
    assert moments.delay() == 0


def test_later_run() -> None:
    """A later run knows until when an earlier one has read."""
    database = sqlite3.connect(":memory:", isolation_level=None)
    first = Moments(database)
    asked = first.asks()
    first.ages.keep(is_end=True)
    second = Moments(database)
    second.now = asked + 1000
    assert second.delay() == pytest.approx(1000 + ON_THE_WAY)


def test_line_at_the_beginning(parts: Parts, network: Network) -> None:
    """What comes on a bridge's first link may be of any age; what comes once it has asked isn't
    delayed, and the bridge logs nothing about its answers."""
    bridge = Bridge(parts, network, after=SOON)
    bridge.link.tell(up(0))
    assert bridge.events("up")[0]["delayed"] is True
    assert "earliest" not in bridge.events("up")[0]
    for counter in range(1, 100):
        bridge.link.hears(0.2)
        bridge.link.tell(up(counter))
        if "delayed" not in bridge.events("up", count=counter + 1)[-1]:
            break
    else:
        raise AssertionError("a line that comes at once is delayed")
    bridge.dashboard.down(FIRST, fPort=7, data="AA==", id="x")
    assert bridge.link.asked()[:2] == ["queue", FIRST]
    assert "unknown line" not in bridge.part.said()
    bridge.dashboard.end()


def test_what_the_server_makes_of_it(pilot: Pilot) -> None:
    """The request by which a bridge finds out what it has read is no fault, no decision, and no
    event, and has the answer that it awaits."""
    program = pilot.program
    watch = pilot.process("watch", program.path, "watch", program.store).start("watching")
    with Application(pilot.address, 3) as application:
        for _ in range(3):
            application.say(REQUEST)
            assert application.hears() == ANSWER
        status = program.status()
    assert [status[name] for name in ("faulted", "dropped", "made")] == ["0", "0", "0"]
    await_that("its end is reported", lambda: "ended application 3" in watch.now())
    program.stop()
    watch.ended()
    lines = watch.now().splitlines()
    assert lines == ["watching", "linked application 3", "ended application 3"]


def stored(database: str) -> dict[int, tuple[str, str | None]]:
    """The times of stored readings, by their counters."""
    with sqlite3.connect(f"file:{database}?mode=ro", uri=True) as opened:
        rows = opened.execute("SELECT counter, came, earliest FROM readings").fetchall()
    return {counter: (came, earliest) for counter, came, earliest in rows}


def seconds(time_of_event: str) -> float:
    """The time of an event, in Unix time."""
    return datetime.fromisoformat(time_of_event).timestamp()


@pytest.mark.parametrize("meters", [1])
def test_readings_that_waited(whole: Whole, dashboard: Dashboard) -> None:
    """Readings that came while the bridge was away have true bounds of their time, in the event and
    in the database; those that come while it is there have none."""
    bridge, clock, ids = whole.applications, whole.pilot.clock, whole.pilot.file("ids.db")
    meter, sent = whole.meters[0], list[float]()
    bridge.end()
    bridge.words[AFTER] += f"\n{clock.line}\n{BY_CLOCK}"
    bridge.words += ["--ids", ids]

    def await_read() -> None:
        clock.go_on(PERIOD)
        with sqlite3.connect(f"file:{ids}?mode=ro", uri=True) as opened:
            read = lambda: opened.execute("SELECT read FROM lines").fetchone()
            await_that("the bridge knows that it has read all", lambda: read() == (clock.now,))

    def send(pause: float) -> None:
        for _ in range(EACH):
            clock.go_on(pause)
            sent.append(clock.now)
            assert whole.reading(meter)

    for is_first in (True, False):
        bridge.start("devices are there")
        await_read()
        send(SOON_READ / EACH)
        if is_first:
            await_read()
            last = clock.now
            bridge.end()
            send(1000)
    due = lambda: len(dashboard.of(meter.dev_eui, "up")) == len(sent)
    await_all("all readings came", lambda: due() and len(stored(whole.database)) == len(sent))
    compare(dashboard.of(meter.dev_eui, "up"), stored(whole.database), sent, last)


def compare(events: list[dict], rows: dict, sent: list[float], last: float) -> None:
    """Compares the times of events and of stored readings with those when the readings were sent.
    Until the last moment before the bridge was away it had read all."""
    for event in events:
        counter = event["fCnt"]
        is_away = counter // EACH == 1
        assert rows[counter] == (event["time"], event.get("earliest"))
        assert is_away == ("delayed" in event), counter
        assert sent[counter] <= seconds(event["time"])
        assert not is_away or seconds(event["earliest"]) == last - ON_THE_WAY < sent[counter]


def test_database(folder: Path) -> None:
    """What is committed is on the disk (SQLite's synchronous is FULL), and stays."""
    file = folder / "readings.db"
    readings = program_of_pilot("readings")
    words = ["--db", str(file), "--broker", "127.0.0.1:1", "--application", "3"]
    for _ in range(2):
        made = readings.Readings(readings.options_of().parse_args(words))
        assert made.database.execute("PRAGMA synchronous").fetchone() == (2,), "FULL"
        row = ("B", 1, 0, 7, b"", "now", "before")
        made.database.execute(readings.INSERT, row)
        made.database.commit()
        made.database.close()
    with sqlite3.connect(file) as after:
        rows = after.execute("SELECT device, came, earliest FROM readings").fetchall()
    assert rows == [("B", "now", "before")]


EVENT = {"time": "now", "deviceInfo": {"devEui": FIRST}, "joinNonce": 1, "fCnt": 0, "fPort": 7}


@table(
    "more, due",
    (
        ({}, None),
        ({"delayed": True}, ""),
        ({"delayed": True, "earliest": "before"}, "before"),
        ({"delayed": False, "earliest": "before"}, None),
    ),
)
def test_row(more: dict, due: str | None) -> None:
    """What is stored of a reading's time."""
    row = program_of_pilot("readings").row_of(json.dumps({**EVENT, "data": "", **more}).encode())
    assert row[5:] == ("now", due)
