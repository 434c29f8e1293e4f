"""What is known of a device, and what follows from each uplink and answer. All functions are pure:
they take what was known and return what is known then. Nothing here reads a clock or a message.

A device is asked for one setting at a time, since an answer names no request. The command waits in
the network until an uplink comes, goes down after it, and is answered with the uplink after that.
The answer is sent once, and may be lost; so the data rate of the next uplinks counts as an answer,
too."""

from dataclasses import dataclass, replace
from typing import NamedTuple

from bridges.mac_commands import DEV_STATUS

from .rule import (
    ALL_ACKS,
    MASK_ACK,
    POWER_ACK,
    RATE_ACK,
    Limits,
    Rules,
    Setting,
    wanted,
)

# five channels that only sessions of eight channels have: the network takes no uplink of another
# session there
LATER_CHANNELS = range(867_100_000, 867_900_001)
# uplinks that are waited for an answer, and how often a setting is asked for
PATIENCE, TRIES = 4, 3
# refusals in a row, and rises of the data rate that nobody asked for, until a device is left alone
MOST_REFUSALS, MOST_RISES = 3, 3
# counters after which a device that didn't answer is asked again: gateways may have been unable to
# send, and sessions last for years
REST = 500
# TS001-1.0.4 §4.3.1.1: ADR_ACK_LIMIT and ADR_ACK_DELAY. After this number of uplinks without a
# downlink a device has its full power again
FORGOTTEN = 64 + 32
# an uplink up to this counter is from the beginning of a session, when power is full
EARLY = 8

NO_ANSWER = "it doesn't answer"
OWN_ADR = "its own ADR is off: it accepts a data rate and keeps another one"
OWN_RATES = "its own ADR is off: it raises its data rate by itself"
NO_CHANNELS = "it refuses the eight channels"
REFUSES = "it refused three times"


class Uplink(NamedTuple):
    """An uplink: the JoinNonce of its session, its counter, data rate, best SNR and frequency."""

    session: int
    counter: int
    rate: int
    snr: float
    hz: int


@dataclass(frozen=True)
class Request:
    """A command whose answer is awaited: a LinkADRReq for a setting, or a DevStatusReq if there is
    none. `counter` is that of the uplink after which it was published last, and `uplinks` the
    number that came since."""

    setting: Setting | None
    before: Setting
    counter: int
    tries: int = 1
    uplinks: int = 0
    is_accepted: bool = False

    def command(self) -> bytes:
        """The MAC command."""
        return self.setting.command() if self.setting else bytes([DEV_STATUS])


class Device(NamedTuple):
    """What is known of a device in its present session."""

    session: int = 0
    counter: int = -1
    setting: Setting = Setting(0)
    # whether its power is known: no uplink shows it
    is_sure: bool = True
    has_eight: bool = False
    snrs: tuple[float, ...] = ()
    limits: Limits = Limits()
    request: Request | None = None
    refusals: int = 0
    rises: int = 0
    # why it is left alone, or nothing; and until which counter, if that isn't for the session
    why: str = ""
    rests_until: int | None = None


@dataclass(frozen=True)
class May:
    """What may be asked for after an uplink: anything at all, and the device's status. After an
    uplink of the past nothing is asked for, and no answer was due."""

    ask: bool = True
    status: bool = False
    is_past: bool = False


NOW, PAST = May(), May(ask=False, is_past=True)


def heard(device: Device, uplink: Uplink, rules: Rules, may: May = NOW) -> Device:
    """An uplink came. `to_publish` finds the command that is to be published then."""
    if (uplink.session, uplink.counter) <= (device.session, device.counter):
        return device
    device = followed(in_session(device, uplink), uplink)
    snrs = (*device.snrs, uplink.snr)[-rules.history :]
    has_eight = device.has_eight or uplink.hz in LATER_CHANNELS
    device = device._replace(counter=uplink.counter, snrs=snrs, has_eight=has_eight)
    if device.rests_until is not None and uplink.counter >= device.rests_until:
        device = device._replace(why="", rests_until=None)
    if device.request and not may.is_past:
        return waited(device, device.request, may)
    return device if device.request else decided(device, rules, may)


def to_publish(before: Device, after: Device) -> Request | None:
    """The request that is to be published after an uplink, if there is one: it is new, or repeated
    without an answer."""
    return (
        after.request
        if after.request and not after.request.uplinks and (before.request != after.request)
        else None
    )


def in_session(device: Device, uplink: Uplink) -> Device:
    """The device in the uplink's session: a device that has joined has full power, unless it was
    asked before: what waits in the network goes to the next session. One that wasn't heard for long
    may have gone back to full power by itself."""
    if uplink.session > device.session:
        is_sure = uplink.counter <= EARLY and not device.request
        return Device(uplink.session, -1, Setting(uplink.rate), is_sure)
    if uplink.counter - device.counter > FORGOTTEN:
        setting = Setting(device.setting.rate)
        return device._replace(setting=setting, is_sure=False, request=None, snrs=())
    return device


def followed(device: Device, uplink: Uplink) -> Device:
    """The device with the uplink's data rate. If that is the awaited one, the request is done. If
    the rate is lower, the device went back by itself, after it had taken its full power
    (§4.3.1.1). A device whose ADR is on raises its rate only if it is asked to."""
    request = device.request
    if uplink.rate == device.setting.rate:
        return device
    if request and request.setting and request.setting.rate == uplink.rate:
        return done(device, request.setting)
    power = device.setting.power if uplink.rate > device.setting.rate else 0
    rises = device.rises + (uplink.rate > device.setting.rate)
    device = device._replace(setting=Setting(uplink.rate, power), snrs=(), rises=rises)
    if rises < MOST_RISES:
        return device
    return left(device._replace(rises=0), OWN_RATES, uplink.counter + REST)


def done(device: Device, setting: Setting) -> Device:
    """The device sends with what was asked for. The history begins again."""
    return device._replace(setting=setting, is_sure=True, request=None, snrs=(), refusals=0)


def left(device: Device, why: str, until: int | None = None) -> Device:
    """The device isn't asked for a setting any more in this session, or until a counter."""
    return device._replace(request=None, why=why, rests_until=until)


def waited(device: Device, request: Request, may: May) -> Device:
    """One more uplink came while an answer is awaited."""
    request = replace(request, uplinks=request.uplinks + 1)
    device = device._replace(request=request)
    if request.uplinks < PATIENCE:
        return device
    if not request.setting:
        return device._replace(request=None)
    if request.is_accepted and request.setting.rate != device.setting.rate:
        return left(device, OWN_ADR)
    if request.tries >= TRIES:
        return left(device, NO_ANSWER, device.counter + REST)
    if not may.ask:
        return device
    tries = request.tries + 1
    return device._replace(request=Request(request.setting, request.before, device.counter, tries))


def decided(device: Device, rules: Rules, may: May) -> Device:
    """What the device is asked for, if anything. A session of three channels would refuse the
    request, so a device is first heard on a later channel."""
    is_full = len(device.snrs) >= rules.history
    if not may.ask or len(device.snrs) < min(rules.first, rules.history):
        return device
    setting = wanted(device.setting, device.snrs, rules, device.limits)
    is_better = setting != device.setting or (is_full and not device.is_sure)
    if is_better and device.has_eight and not device.why:
        return device._replace(request=Request(setting, device.setting, device.counter))
    if may.status:
        return device._replace(request=Request(None, device.setting, device.counter))
    return device


def answered(device: Device, session: int, status: int) -> Device:
    """A LinkADRAns came. Nothing changes at the device unless all three bits are 1."""
    request = device.request
    if session != device.session or not request or not request.setting:
        return device
    if status & ALL_ACKS != ALL_ACKS:
        return refused(device, request.setting, request.before, status)
    if request.setting.rate == device.setting.rate:  # no uplink will show it
        return done(device, request.setting)
    return device._replace(request=replace(request, is_accepted=True), refusals=0)


def refused(device: Device, setting: Setting, before: Setting, status: int) -> Device:
    """The device refused a setting: it isn't asked for as much again in this session."""
    rate, power = device.limits.rate, device.limits.power
    if not status & RATE_ACK:
        rate = min(rate, max(setting.rate - 1, before.rate))
    if not status & POWER_ACK:
        power = min(power, max(setting.power - 1, 0))
    refusals = device.refusals + 1
    device = device._replace(request=None, limits=Limits(rate, power), refusals=refusals)
    if not status & MASK_ACK:
        return left(device, NO_CHANNELS)
    return left(device, REFUSES) if refusals >= MOST_REFUSALS else device


def status_came(device: Device) -> Device:
    """A DevStatusAns came."""
    is_awaited = device.request and not device.request.setting
    return device._replace(request=None) if is_awaited else device


def not_queued(device: Device, counter: int) -> Device:
    """The network doesn't have the command that was published after this uplink."""
    request = device.request
    return device._replace(request=None) if request and request.counter == counter else device
