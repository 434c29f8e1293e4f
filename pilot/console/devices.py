"""A device, a gateway and a refused sender, as the console knows them."""

from collections import deque
from dataclasses import dataclass, field

from adapting.rule import FLOORS, Setting

# how many of the last uplinks an interval and a margin are made of, and how many gaps an interval
# needs at least
RECENT, LEAST_GAPS = 20, 3
# a device is silent if its uplink is late by this number of its intervals, and of seconds
LATE, LEAST_LATE = 3.0, 120.0
# for how long a device without a session is missed, in seconds: it may be retired
MISSED = 31 * 86_400.0
# why an operator hides a device or a gateway from alarms
HIDDEN, RETIRED = "hidden", "retired"
# below this margin in dB a device is weak; below this percentage a battery is low
WEAK, LOW_BATTERY = 3.0, 15.0


@dataclass
class Session:
    """The readings that came of a session. Counters before the first one aren't missing."""

    first: int
    last: int
    count: int = 0

    @property
    def missing(self) -> int:
        """How many counters were passed over."""
        return self.last - self.first + 1 - self.count if self.count else 0


@dataclass(frozen=True)
class Report:
    """A DevStatusAns, and when it came. The battery is in percent, or None if the device can't
    measure it."""

    came: float
    margin: int
    battery: float | None
    has_mains: bool

    @property
    def is_low(self) -> bool:
        """Whether the battery is low."""
        return not self.has_mains and self.battery is not None and self.battery < LOW_BATTERY


@dataclass(frozen=True)
class Adaption:
    """What the program adr believes of a device: what it sends with, or None if adr leaves it out;
    the MAC command that it is asked for, in hex, and how often it was; why it is left alone, and
    until which counter if that isn't for the session."""

    came: float
    setting: Setting | None = None
    is_sure: bool = False
    asked: str = ""
    tries: int = 0
    why: str = ""
    until: int | None = None


@dataclass(frozen=True)
class Uplink:
    """How an uplink was heard by its best gateway."""

    came: float
    gateway: str
    snr: float
    rssi: int
    # None if only the server's list has the uplink
    rate: int | None = None

    @property
    def margin(self) -> float | None:
        """How far the SNR is above the floor of the data rate."""
        return None if self.rate is None else self.snr - FLOORS[self.rate]


@dataclass
class Device:
    """A device."""

    eui: str
    slot: int = -1
    # the application that has it, once an event came; and its store, if there are several
    application: str = ""
    store: str = ""
    hidden: str = ""
    # of the server's list: JoinNonces, counters, items
    granted: int = 0
    session: int | None = None
    last_up: int | None = None
    next_down: int | None = None
    items: int = 0
    # since when items wait, and why the first one isn't sent, as the bridge says
    waits_since: float = 0.0
    blocked: str = ""
    # the MAC commands that were asked for last
    requests: str = ""
    heard: int = 0
    uplink: Uplink | None = None
    report: Report | None = None
    adaption: Adaption | None = None
    sessions: dict[int, Session] = field(default_factory=dict)
    recent: deque[Uplink] = field(default_factory=lambda: deque(maxlen=RECENT))
    # what follows from these, since pages need it of all devices at once
    interval: float | None = None
    margin: float | None = None
    stored: int = 0
    missing: int = 0

    @property
    def is_joined(self) -> bool:
        """Whether it has a session."""
        return self.session is not None

    @property
    def state(self) -> str:
        """Whether it has joined: `accepted` if it was sent an accept and nothing came after it;
        `lost` if it was heard before, and has no session any more."""
        if self.session is None:
            return "lost" if self.heard or self.last else "accepted" if self.granted else "never"
        return "again" if self.granted > self.session else "joined"

    def wait(self, items: int, now: float) -> None:
        """This many items wait for it."""
        if not items or not self.items:
            self.waits_since, self.blocked = (now if items else 0.0), ""
        self.items = items

    @property
    def last(self) -> float:
        """When its last uplink came; 0 if none has."""
        return self.uplink.came if self.uplink else 0.0

    @property
    def due(self) -> float | None:
        """When its next uplink is expected."""
        return self.last + self.interval if self.interval and self.last else None

    def add(self, uplink: Uplink) -> None:
        """One more uplink, the last one now."""
        self.uplink = uplink
        self.recent.append(uplink)

    def update(self) -> None:
        """Computes what follows from its uplinks and sessions."""
        moments = [uplink.came for uplink in self.recent]
        gaps = sorted(later - at for at, later in zip(moments, moments[1:]) if later > at)
        self.interval = gaps[len(gaps) // 2] if len(gaps) >= LEAST_GAPS else None
        rate = self.recent[-1].rate if self.recent else None
        margins = [uplink.margin for uplink in self.recent if uplink.rate == rate]
        self.margin = max((margin for margin in margins if margin is not None), default=None)
        self.stored = sum(session.count for session in self.sessions.values())
        self.missing = sum(session.missing for session in self.sessions.values())

    def is_silent(self, now: float) -> bool:
        """Whether its next uplink is long overdue."""
        is_awaited = self.is_missed(now) or self.is_joined and not self.hidden
        if not (self.last and self.interval and is_awaited):
            return False
        return now - self.last > max(LATE * self.interval, LEAST_LATE)

    def is_missed(self, now: float) -> bool:
        """Whether it was heard lately, and has lost its session, as all have after a restore."""
        return self.state == "lost" and now - self.last < MISSED and not self.hidden

    @property
    def is_weak(self) -> bool:
        """Whether it is hardly heard at its data rate."""
        return self.margin is not None and self.margin < WEAK and not self.hidden

    @property
    def has_low_battery(self) -> bool:
        """Whether its last report had a low battery."""
        return self.report is not None and self.report.is_low and not self.hidden

    @property
    def is_left_alone(self) -> bool:
        """Whether adr leaves it alone."""
        return self.adaption is not None and bool(self.adaption.why)


@dataclass
class GatewayMinute:
    """What a gateway did in a minute."""

    copies: int = 0
    best: int = 0


@dataclass
class GatewayHour:
    """The readings that a gateway heard best in an hour, and when the last of them came."""

    best: int = 0
    snr_sum: float = 0.0
    last: float = 0.0


@dataclass
class Gateway:
    """A gateway."""

    eui: str
    # None if the console doesn't know: the server says only how many gateways have a link
    is_linked: bool | None = None
    hidden: str = ""
    # the bridges in whose lists it is, or was
    bridges: set[str] = field(default_factory=set)
    # whether its links to many stores come and go, so that only its bridge knows whether it is
    # there
    is_hubbed: bool = False
    # when it was last heard for each store, if there are several
    stores: dict[str, float] = field(default_factory=dict)
    last: float = 0.0
    # what its bridge has counted; None without the bridge's counts
    copies: int | None = None
    minutes: dict[int, GatewayMinute] = field(default_factory=dict)
    hours: dict[int, GatewayHour] = field(default_factory=dict)
    # whether the present hour has changed since it was saved
    is_changed: bool = False

    @property
    def is_missed(self) -> bool:
        """Whether it is offline, and nobody has hidden that."""
        return self.is_linked is False and not self.hidden

    @property
    def best(self) -> int:
        """How many readings it heard best in the last days."""
        return sum(hour.best for hour in self.hours.values())

    @property
    def snr(self) -> float | None:
        """The mean SNR of these."""
        snr_sum = sum(hour.snr_sum for hour in self.hours.values())
        return snr_sum / self.best if self.best else None

    def add_best(self, uplink: Uplink, store: str) -> None:
        """It heard a reading best, and so it has a link."""
        hour = self.hours.setdefault(int(uplink.came // 3600), GatewayHour())
        hour.best, hour.snr_sum, hour.last = hour.best + 1, hour.snr_sum + uplink.snr, uplink.came
        self.last, self.is_changed = uplink.came, True
        self.is_linked = self.is_linked if self.is_hubbed else True
        self.minute(uplink.came).best += 1
        self.hear_for(store, uplink.came)

    def hear_for(self, store: str, came: float) -> None:
        """It was heard for a store."""
        if store:
            self.stores[store] = max(came, self.stores.get(store, 0.0))

    def minute(self, at: float) -> GatewayMinute:
        """The counts of a moment's minute."""
        return self.minutes.setdefault(int(at // 60), GatewayMinute())


@dataclass
class Refused:
    """The frames of one sender that were refused for one reason. The sender is what the frames
    themselves say: a DevEUI or a DevAddr, or nothing."""

    number: int
    sender: str
    kind: str
    first: float
    last: float = 0.0
    count: int = 0
    # of a join: its DevNonce
    nonce: int | None = None
    gateway: str = ""
    snr: float = 0.0
    # whether a later join of the device was accepted
    is_over: bool = False
