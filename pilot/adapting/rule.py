"""What a device should send with, by how it was heard: the usual rule for adaptive data rate, for
EU868 (RP002-1.0.4), without input or output.

The margin is the best SNR of the last uplinks, less what the data rate needs, less an installation
margin. An SNR far above the mean of these uplinks counts less. Each 3 dB of the margin is a step.
A step up raises the data rate by one, or lowers the power by 2 dB if the data rate is the highest.
A step down raises the power by 2 dB. The rule never lowers a data rate: a device does so by itself
if it isn't heard (TS001-1.0.4 §4.3.1.1), and two that lower it would work against each other."""

import math
from dataclasses import dataclass

from bridges.mac_commands import LINK_ADR, sent_commands

# docs/FORMATS.md: the SNR in dB that data rates 0 to 5 need
FLOORS = (-20.0, -17.5, -15.0, -12.5, -10.0, -7.5)
STEP = 3.0
MOST_RATE, MOST_POWER = 5, 7
# RP002-1.0.4, EU863-870: the highest EIRP in dBm, and the dB less of each index of power
EIRP, LESS = 16, 2
# the bits of a LinkADRAns
POWER_ACK, RATE_ACK, MASK_ACK = 4, 2, 1
ALL_ACKS = POWER_ACK | RATE_ACK | MASK_ACK


def power_dbm(power: int) -> int:
    """The power of an index, in dBm."""
    return EIRP - LESS * power


@dataclass(frozen=True)
class Setting:
    """What a device sends with: its data rate, and the index of its power."""

    rate: int
    power: int = 0

    def command(self) -> bytes:
        """The LinkADRReq for this setting, all eight channels, and one transmission of each
        uplink."""
        return bytes([LINK_ADR, self.rate << 4 | self.power, 0xFF, 0x00, 0x01])

    def __str__(self) -> str:
        return f"DR{self.rate}, {power_dbm(self.power)} dBm"


@dataclass(frozen=True)
class Rules:
    """How decisions are made: with which margin in dB, of how many uplinks the best SNR counts,
    from how many on the data rate alone is raised, and the highest index of power that is asked
    for.

    The best SNR counts as at most `luck` dB above the mean. In time, 20 uplinks come of which one
    is much louder than usual. Without this bound each device would end at a data rate that it can't
    keep, since no data rate is lowered. The best of 20 is usually 6 dB above the mean if the
    standard deviation is 3 dB."""

    margin: float = 12.0
    history: int = 20
    first: int = 4
    most_power: int = MOST_POWER
    luck: float = 6.0


@dataclass(frozen=True)
class Limits:
    """The highest data rate and index of power that a device takes, as far as is known."""

    rate: int = MOST_RATE
    power: int = MOST_POWER


def level(snrs: tuple[float, ...], luck: float) -> float:
    """The SNR by which is decided: the best one, but at most this far above the mean."""
    return min(max(snrs), sum(snrs) / len(snrs) + luck)


def wanted(now: Setting, snrs: tuple[float, ...], rules: Rules, limits: Limits) -> Setting:
    """What a device should send with, whose last uplinks had these SNRs with the present setting.
    The best SNR of fewer uplinks is usually lower, so the data rate may be raised early; the power
    waits for a whole history."""
    if len(snrs) < min(rules.first, rules.history):
        return now
    # the sum is rounded, since quarters of a dB are exact and decimal margins aren't
    steps = math.floor(round((level(snrs, rules.luck) - FLOORS[now.rate] - rules.margin) / STEP, 6))
    up = min(max(steps, 0), max(limits.rate - now.rate, 0))
    rate, steps = now.rate + up, steps - up
    more = steps if len(snrs) >= rules.history else 0
    return Setting(rate, max(0, min(now.power + more, limits.power, rules.most_power)))


def answers(commands: bytes) -> list[int]:
    """The statuses of all LinkADRAns in what a device sent."""
    return [payload[0] for kind, payload in sent_commands(commands) if kind == LINK_ADR]
