"""What adr asks a device for: the rule by a table, and each state of a device by what comes of it.
Values are by RP002-1.0.4 (EU863-870), TS001-1.0.4 §4.3.1.1 and §5, and the margin of 12 dB."""

from collections.abc import Callable
from dataclasses import replace
from typing import Any

import pytest
from adapting import states
from adapting.airtime import Budget, downlink, on_air
from adapting.keeping import COLUMNS, Known, known_of, row_of
from adapting.rule import Limits, Rules, Setting, answers, wanted
from adapting.states import PAST, Device, May, Uplink
from bridges.mac_commands import sent_commands

from .rows import table

FIRST, LATER = 868_100_000, 867_500_000
RULES = Rules()
FEW, FULL = 4, 20
Step = Callable[["Play"], None]


def setting(text: str) -> Setting:
    """A setting, for example 5/1: data rate 5 with the power index 1."""
    rate, power = map(int, text.split("/"))
    return Setting(rate, power)


# the present setting, the best SNR, of how many uplinks, and the wanted setting
WANTED = (
    ("0/0", 9.0, FULL, "5/0"),
    ("0/0", 10.0, FULL, "5/1"),
    ("0/0", 10.0, FEW, "5/0"),
    ("0/0", 10.0, FEW - 1, "0/0"),
    ("0/0", -5.25, FULL, "0/0"),
    ("0/0", -5.0, FULL, "1/0"),
    ("0/0", -12.0, FULL, "0/0"),
    ("3/0", 3.0, FEW, "4/0"),
    ("5/0", 7.25, FULL, "5/0"),
    ("5/0", 7.5, FULL, "5/1"),
    ("5/0", 7.5, FULL - 1, "5/0"),
    ("5/3", -4.5, FULL, "5/0"),
    ("5/3", -4.5, FEW, "5/3"),
    ("5/3", 4.25, FULL, "5/2"),
    ("5/1", -20.0, FULL, "5/0"),
    ("4/0", 40.0, FULL, "5/7"),
    ("4/2", -3.0, FULL, "4/0"),
)


@table("now, best, count, due", WANTED)
def test_wanted(now: str, best: float, count: int, due: str) -> None:
    """The wanted setting by the best SNR of a number of uplinks."""
    snrs = (best, *[best - 5.0] * (count - 1))
    assert wanted(setting(now), snrs, RULES, Limits()) == setting(due)


@table("most, now, due", ((2, "5/0", "5/2"), (0, "5/0", "5/0"), (1, "5/3", "5/1")))
def test_most_power(most: int, now: str, due: str) -> None:
    """No device is asked for less power than --most-power says."""
    snrs = (20.0,) * FULL
    assert wanted(setting(now), snrs, replace(RULES, most_power=most), Limits()) == setting(due)


@table("margin, due", ((0.0, "5/5"), (10.0, "5/2"), (12.1, "5/1"), (15.0, "5/0")))
def test_margin(margin: float, due: str) -> None:
    """The installation margin: DR5 at 9.25 dB has 16.75 dB above its floor."""
    assert wanted(Setting(5), (9.25,) * FULL, replace(RULES, margin=margin), Limits()) == (
        setting(due)
    )


# one SNR and those of the 19 other uplinks; which data rate is wanted at DR0: the mean and 6 dB
# count if that is less than the best one
LUCKY: tuple = ((9.0, 4.0, 5), (9.0, -4.0, 3), (9.0, -10.0, 1), (9.0, -20.0, 0))


@table("best, others, due", LUCKY)
def test_lucky_uplink(best: float, others: float, due: int) -> None:
    """A single uplink that is much louder than the others raises no data rate far."""
    assert wanted(Setting(0), (best, *[others] * 19), RULES, Limits()).rate == due


def test_command() -> None:
    """A LinkADRReq: data rate 5 and power 2, eight channels, ChMaskCntl 0, NbTrans 1 (§5)."""
    assert setting("5/2").command().hex() == "0352ff0001"


COMMANDS: tuple = (
    ("030706FF05", [(3, b"\x07"), (6, b"\xff\x05")], [7]),
    ("0206FF050306", [(2, b""), (6, b"\xff\x05"), (3, b"\x06")], [6]),
    ("0307FF0307", [(3, b"\x07")], [7]),
    ("0307030503", [(3, b"\x07"), (3, b"\x05")], [7, 5]),
    ("", [], []),
)


@table("sent, due, statuses", COMMANDS)
def test_sent_commands(sent: str, due: list, statuses: list) -> None:
    """Reading stops at an identifier that isn't known, and at an incomplete payload."""
    assert list(sent_commands(bytes.fromhex(sent))) == due
    assert answers(bytes.fromhex(sent)) == statuses


class Play:
    """A device that is played, and what it is asked for."""

    def __init__(self) -> None:
        self.device = Device()
        self.session, self.counter = 1, -1
        self.asked: list[str] = []

    def hear(self, rate: int, snr: float, hz: int, may: May) -> None:
        """One more uplink."""
        self.counter += 1
        before = self.device
        uplink = Uplink(self.session, self.counter, rate, snr, hz)
        self.device = states.heard(before, uplink, RULES, may)
        request = states.to_publish(before, self.device)
        if request and request.setting:
            self.asked.append(f"{request.setting.rate}/{request.setting.power}")
        elif request:
            self.asked.append("status")


def up(count: int, rate: int, snr: float, hz: int = LATER, may: May = May()) -> Step:
    """This many uplinks come."""

    def step(play: Play) -> None:
        for _ in range(count):
            play.hear(rate, snr, hz, may)

    return step


def answer(status: int, session: int = 0) -> Step:
    """A LinkADRAns comes, of the present session if none is named."""

    def step(play: Play) -> None:
        play.device = states.answered(play.device, session or play.session, status)

    return step


def joins(counter: int = 0) -> Step:
    """The device joins; its next uplink has this counter."""

    def step(play: Play) -> None:
        play.session, play.counter = play.session + 1, counter - 1

    return step


def unheard(count: int) -> Step:
    """This many uplinks aren't heard."""

    def step(play: Play) -> None:
        play.counter += count

    return step


def again(play: Play) -> None:
    """The last uplink comes twice, and then one of an earlier session."""
    for session, counter in ((play.session, play.counter), (play.session - 1, 9999)):
        late = Uplink(session, counter, 2, 9.0, LATER)
        assert states.heard(play.device, late, RULES) is play.device


def dropped(play: Play) -> None:
    """The network doesn't take the last command."""
    play.device = states.not_queued(play.device, play.counter)


def status_comes(play: Play) -> None:
    """A DevStatusAns comes."""
    play.device = states.status_came(play.device)


STATUS, NO_TIME = May(status=True), May(ask=False, status=True)
OWN, OWN_RATES, DEAF = states.OWN_ADR, states.OWN_RATES, states.NO_ANSWER
# a device at DR5 that was asked for that, and did so
AT_5 = (up(4, 0, 9.0), answer(7), up(1, 5, 9.0))
# one whose power is 2 dB lower, too
AT_5_1 = (*AT_5, up(19, 5, 9.0), answer(7))

# what comes of a device; what it is asked for; what it sends with, as is believed; why it is left
# alone
STATES: tuple = (
    ("three uplinks are too few", (up(3, 0, 9.0),), "", "0/0", ""),
    ("the data rate is raised early", (up(4, 0, 9.0),), "5/0", "0/0", ""),
    ("the first uplink's data rate", (up(4, 3, 9.0),), "5/0", "3/0", ""),
    ("nothing is better", (up(30, 0, -10.0),), "", "0/0", ""),
    ("three channels are never asked", (up(40, 0, 9.0, FIRST),), "", "0/0", ""),
    ("a later channel", (up(9, 0, 9.0, FIRST), up(1, 0, 9.0)), "5/0", "0/0", ""),
    ("it does as it was asked", AT_5, "5/0", "5/0", ""),
    ("its answer was lost", (up(4, 0, 9.0), up(2, 5, 9.0)), "5/0", "5/0", ""),
    ("an answer alone isn't enough", (up(4, 0, 9.0), answer(7)), "5/0", "0/0", ""),
    ("power waits for 20 uplinks", (*AT_5, up(18, 5, 9.0)), "5/0", "5/0", ""),
    ("power with 20 uplinks", (*AT_5, up(19, 5, 9.0)), "5/0 5/1", "5/0", ""),
    ("an answer is enough for power", AT_5_1, "5/0 5/1", "5/1", ""),
    ("history begins again", (*AT_5_1, up(19, 5, 9.0)), "5/0 5/1", "5/1", ""),
    ("more power", (*AT_5_1, up(20, 5, 2.0), answer(7)), "5/0 5/1 5/0", "5/0", ""),
    ("repeated if unanswered", (up(8, 0, 9.0),), "5/0 5/0", "0/0", ""),
    ("not before 4 uplinks", (up(7, 0, 9.0),), "5/0", "0/0", ""),
    ("deaf: three requests", (up(60, 0, 9.0),), "5/0 5/0 5/0", "0/0", DEAF),
    ("deaf: again later", (up(515, 0, 9.0),), "5/0 5/0 5/0", "0/0", DEAF),
    ("deaf: again then", (up(516, 0, 9.0),), "5/0 5/0 5/0 5/0", "0/0", ""),
    ("own ADR is off", (up(4, 0, 9.0), answer(7), up(90, 0, 9.0)), "5/0", "0/0", OWN),
    ("own ADR: not before 4", (up(4, 0, 9.0), answer(7), up(3, 0, 9.0)), "5/0", "0/0", ""),
    (
        "channels refused",
        (up(4, 0, 9.0), answer(6), up(9, 0, 9.0)),
        "5/0",
        "0/0",
        states.NO_CHANNELS,
    ),
    ("data rate refused", (up(4, 0, 9.0), answer(5), up(1, 0, 9.0)), "5/0 4/0", "0/0", ""),
    ("power refused", (*AT_5, up(19, 5, 9.0), answer(3), up(9, 5, 9.0)), "5/0 5/1", "5/0", ""),
    (
        "less power refused",
        (*AT_5, up(19, 5, 10.5), answer(3), up(1, 5, 10.5), answer(7), up(40, 5, 10.5)),
        "5/0 5/2 5/1",
        "5/1",
        "",
    ),
    (
        "refused three times",
        (up(4, 0, 9.0), *[answer(5), up(1, 0, 9.0)] * 2, answer(5), up(30, 0, 9.0)),
        "5/0 4/0 3/0",
        "0/0",
        states.REFUSES,
    ),
    ("another session's answer", (up(4, 0, 9.0), answer(6, session=9)), "5/0", "0/0", ""),
    ("nobody asked", (up(3, 0, 9.0), answer(6), up(1, 0, 9.0)), "5/0", "0/0", ""),
    ("a join: full power", (*AT_5_1, joins(), up(1, 3, 9.0)), "5/0 5/1", "3/0", ""),
    ("a join: asked anew", (*AT_5, joins(), up(4, 0, 9.0)), "5/0 5/0", "0/0", ""),
    (
        "a join: left alone no more",
        (up(4, 0, 9.0), answer(6), joins(), up(4, 0, 9.0)),
        "5/0 5/0",
        "0/0",
        "",
    ),
    (
        "a join: the command of before may wait, so its power is asked for",
        (up(4, 0, 9.0), joins(), up(20, 0, -10.0)),
        "5/0 0/0",
        "0/0",
        "",
    ),
    ("a later session's middle", (joins(5000), up(19, 5, 2.0)), "", "5/0", ""),
    ("its power is asked for", (joins(5000), up(20, 5, 2.0)), "5/0", "5/0", ""),
    ("and then known", (joins(5000), up(20, 5, 2.0), answer(7), up(40, 5, 2.0)), "5/0", "5/0", ""),
    ("it goes back by itself", (*AT_5_1, up(1, 4, 0.0)), "5/0 5/1", "4/0", ""),
    (
        "unheard for long: full power, perhaps",
        (*AT_5_1, unheard(96), up(20, 5, 4.5)),
        "5/0 5/1 5/0",
        "5/0",
        "",
    ),
    ("unheard for a while", (*AT_5_1, unheard(95), up(20, 5, 4.5)), "5/0 5/1", "5/1", ""),
    ("a request is forgotten", (up(4, 0, 9.0), unheard(96), up(1, 0, 9.0)), "5/0", "0/0", ""),
    ("it changes its rate", (up(1, 0, -9.0), up(1, 2, 0.0), up(1, 4, 0.0)), "", "4/0", ""),
    (
        "it raises its rate by itself",
        (up(1, 0, 0.0), up(1, 2, 0.0), up(1, 3, 0.0), up(1, 4, 0.0), up(9, 4, 9.0)),
        "",
        "4/0",
        OWN_RATES,
    ),
    ("not queued: decided anew", (up(4, 0, 9.0), dropped, up(1, 0, 9.0)), "5/0 5/0", "0/0", ""),
    ("an uplink that comes twice", (up(4, 0, 9.0), again), "5/0", "0/0", ""),
    ("uplinks of the past", (up(30, 0, 9.0, may=PAST),), "", "0/0", ""),
    ("are history", (up(3, 0, 9.0, may=PAST), up(1, 0, 9.0)), "5/0", "0/0", ""),
    ("and no lost answers", (up(4, 0, 9.0), up(30, 0, 9.0, may=PAST)), "5/0", "0/0", ""),
    ("its gateway has no time", (up(9, 0, 9.0, may=NO_TIME), up(1, 0, 9.0)), "5/0", "0/0", ""),
    ("nor for a repetition", (up(4, 0, 9.0), up(50, 0, 9.0, may=NO_TIME)), "5/0", "0/0", ""),
    ("status, after the setting", (up(4, 0, 9.0, may=STATUS),), "5/0", "0/0", ""),
    ("status", (up(4, 0, -9.0, may=STATUS),), "status", "0/0", ""),
    ("status with three channels", (up(4, 0, 9.0, FIRST, STATUS),), "status", "0/0", ""),
    (
        "nothing beside a status",
        (up(4, 0, -9.0, may=STATUS), up(3, 0, 9.0)),
        "status",
        "0/0",
        "",
    ),
    (
        "its answer",
        (up(4, 0, -9.0, may=STATUS), status_comes, up(1, 0, 9.0)),
        "status 2/0",
        "0/0",
        "",
    ),
    ("no status", (up(4, 0, -9.0, may=STATUS), up(4, 0, -9.0)), "status", "0/0", ""),
    (
        "no status: it isn't waited for",
        (up(4, 0, -9.0, may=STATUS), up(5, 0, 9.0)),
        "status 5/0",
        "0/0",
        "",
    ),
)


@pytest.mark.parametrize(
    "name, steps, asked, believed, why", STATES, ids=[row[0] for row in STATES]
)
def test_state(name: str, steps: tuple, asked: str, believed: str, why: str) -> None:
    """What a device is asked for and what it is believed to send with, by what came."""
    play = Play()
    for step in steps:
        step(play)
    assert " ".join(play.asked) == asked, name
    assert (play.device.setting, play.device.why) == (setting(believed), why)


# data rate, PHYPayload in bytes, CRC, and the time on air in ms, by the formula of
# Semtech's data sheet
AIR: tuple = ((5, 17, True, 51.456), (5, 13, True, 46.336), (0, 17, True, 1318.912))
AIR += (
    (5, 13, False, 41.216),
    (0, 25, True, 1482.752),
    (2, 25, True, 411.648),
    (3, 51, True, 328.704),
)


@table("rate, size, crc, due", AIR)
def test_time_on_air(rate: int, size: int, crc: bool, due: float) -> None:
    """How long a frame is on the air."""
    assert round(1000 * on_air(rate, size, crc), 3) == due


def test_budget() -> None:
    """A gateway sends for at most so long in any hour, and each gateway by itself."""
    now = [0.0]
    budget = Budget(3.0, lambda: now[0])
    long = downlink(0, Setting(5).command())
    assert 1.1 < long < 1.4
    for moment in (0.0, 1800.0):
        now[0] = moment
        assert budget.has("B1", long)
        budget.take("B1", long)
    assert not budget.has("B1", long) and budget.has("B2", long)
    now[0] = 3599.0
    assert not budget.has("B1", long)
    now[0] = 3600.0
    assert budget.has("B1", long), "the first is an hour ago"


def test_gateways_of_a_flood() -> None:
    """Events that name ever more gateways take no more memory, and get no time."""
    budget = Budget(1.0, lambda: 0.0)
    for number in range(1000):
        if budget.has(f"{number:016X}", 1.0):
            budget.take(f"{number:016X}", 1.0)
    assert len(budget.sent) == 256


def test_rest_of_a_row() -> None:
    """All fields of a device and of its request outlive a restart."""
    play = Play()
    for step in (up(4, 0, 9.0), answer(7), up(2, 0, 8.5)):
        step(play)
    for device in (play.device, Device(), play.device._replace(why="x", rests_until=9, rises=2)):
        known: Any = Known(device, 1e9)
        assert known_of(dict(zip(COLUMNS, row_of("00", known)))) == known
