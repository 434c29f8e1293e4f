"""What the console knows of the network now. Lines of lnsd, events of the broker and counts of the
bridges fill it; after a restart the history brings back what these don't."""

import time
from collections import Counter, deque
from collections.abc import Iterable, Mapping
from dataclasses import astuple, dataclass

from adapting.rule import Setting

from . import history
from .devices import (
    RECENT,
    RETIRED,
    Adaption,
    Device,
    Gateway,
    GatewayHour,
    Refused,
    Report,
    Session,
    Uplink,
)
from .history import History
from .repeats import Repeats
from .servers import Server, servers_of, serving

DAY = 86_400
# how many minutes, events and senders of refused frames are in memory
MOST_MINUTES, MOST_EVENTS, MOST_SENDERS = 7 * 24 * 60, 300, 2000
# gateways that were heard in these last days are known after a restart, and are missed
GATEWAY_DAYS = 7
NAME_LENGTH = 60
# how wrong the clock of a bridge may be, in seconds
WRONG_CLOCK = 3600.0
SESSIONS = "SELECT device, session, first, last, count FROM sessions"
GATEWAYS = "SELECT gateway, hour, best, snr_sum, last FROM gateway_hours WHERE hour >= ?"
UPLINKS = """SELECT came, gateway, snr, rssi, rate FROM uplinks WHERE device = ?
    ORDER BY session DESC, counter DESC LIMIT ?"""
REPORTS = "SELECT device, max(came), margin, battery FROM statuses GROUP BY device"
ADAPTIONS = "SELECT * FROM adaptions"
EVENTS = "SELECT came, kind, of, text FROM events ORDER BY number DESC LIMIT ?"
MINUTES = "SELECT * FROM minutes WHERE minute >= ? ORDER BY 1"


@dataclass
class Minute:
    """What is counted in a minute, in the order of the history's columns."""

    uplinks: int = 0
    missing: int = 0
    refused: int = 0
    joins: int = 0
    dropped: int = 0
    sync_us: int = 0


@dataclass(frozen=True)
class Event:
    """Something that an operator wants to see. `of` is the EUI of a device or a gateway, or
    nothing."""

    came: float
    kind: str
    of: str
    text: str


class Network:
    """All that is known."""

    def __init__(self, kept: History, net_ids: Mapping[str, int | None] | None = None):
        self.kept = kept
        # by the names of their stores, of which these are the NetIDs; one server has no name
        self.servers = servers_of(net_ids or {"": None})
        self.devices: dict[str, Device] = {}
        self.gateways: dict[str, Gateway] = {}
        # the names to show: those of the form or a file before those that events have
        self.names: dict[str, str] = {}
        self.own_names: dict[str, str] = {}
        self.labels: dict[str, tuple[str, str]] = {}
        self.hidden: dict[str, str] = {}
        # gateways in the lists of the bridges that run, and those that were forgotten
        self.listed: set[str] = set()
        self.forgotten: set[str] = set()
        self.refused: dict[tuple[int, str], Refused] = {}
        self.repeats = Repeats(kept)
        self.events: deque[Event] = deque(maxlen=MOST_EVENTS)
        self.minutes: dict[int, Minute] = {}
        self.passed: dict[tuple[str, int], tuple[int, list[tuple[int, int]]]] = {}
        self.is_broker_there, self.broker_since = False, 0.0
        # by how many seconds the clock of each application's bridge is slow
        self.clocks: dict[str, float] = {}
        # what the files of counts say of copies, certificates and disks: what, of which, how much
        self.around: list[tuple[str, str, float]] = []
        self.load()

    # what the history has

    def load(self) -> None:
        """Takes what the history has kept."""
        for eui, name, application in self.kept.rows("SELECT * FROM labels"):
            self.labels[eui] = name, application
            self.names[eui] = name
        for eui, name in self.kept.rows("SELECT eui, name FROM names"):
            self.call(eui, shown(name))
        self.hidden = {eui: why for eui, why in self.kept.rows("SELECT * FROM hidden")}
        for device, session, *counts in self.kept.rows(SESSIONS):
            self.device(device).sessions[session] = Session(*counts)
        first = int(time.time() // 60) - MOST_MINUTES
        for minute, *values in self.kept.rows(MINUTES, first):
            self.minutes[minute] = Minute(*values)
        for eui, hour, *values in self.kept.rows(GATEWAYS, oldest_hour()):
            gateway = self.gateway(eui)
            gateway.hours[hour] = GatewayHour(*values)
            gateway.last = max(gateway.last, gateway.hours[hour].last)
        for eui, bridge in self.kept.rows("SELECT * FROM listed"):
            self.gateway(eui).bridges.add(bridge)
        for device in self.devices.values():
            rows = self.kept.rows(UPLINKS, device.eui, RECENT)
            for row in reversed(rows):
                device.add(Uplink(*row))
            device.update()
        for eui, came, margin, battery in self.kept.rows(REPORTS):
            self.device(eui).report = report_of(came, margin, battery)
        for eui, came, rate, power, is_sure, *rest in self.kept.rows(ADAPTIONS):
            setting = None if rate is None else Setting(rate, power)
            self.device(eui).adaption = Adaption(came, setting, bool(is_sure), *rest)
        self.events.extend(Event(*row) for row in self.kept.rows(EVENTS, MOST_EVENTS))

    def device(self, eui: str) -> Device:
        """The device of a DevEUI, which may be new."""
        return self.devices.get(eui) or self.devices.setdefault(eui, self.new(eui))

    def new(self, eui: str) -> Device:
        """A device that isn't in the list yet, with what the history has of it."""
        application = self.labels.get(eui, ("", ""))[1]
        return Device(eui, application=application, hidden=self.hidden.get(eui, ""))

    def gateway(self, eui: str) -> Gateway:
        """The gateway of an EUI, which may be new."""
        if eui not in self.gateways:
            self.forgotten.discard(eui)
            made = Gateway(eui, is_hubbed=self.has_stores, hidden=self.hidden.get(eui, ""))
            self.gateways[eui] = made
        return self.gateways[eui]

    def hide(self, eui: str, why: str) -> None:
        """Hides a device or a gateway from alarms, or shows it again for the empty reason."""
        self.hidden[eui] = why
        self.kept.add(history.HIDDEN, eui, why)
        if found := self.devices.get(eui) or self.gateways.get(eui):
            found.hidden = why

    def forget_gateway(self, eui: str) -> None:
        """Forgets a gateway that is in no list any more."""
        if self.gateways.pop(eui, None):
            self.forgotten.add(eui)
            for statement in history.FORGET:
                self.kept.add(statement, eui)

    def name(self, eui: str) -> str:
        """The name of a device or a gateway, or its EUI if it has none."""
        return self.names.get(eui) or eui

    def rename(self, eui: str, name: str) -> None:
        """Gives a device or a gateway a name."""
        self.call(eui, shown(name)[:NAME_LENGTH])
        self.kept.add(history.NAME, eui, self.own_names[eui])

    def call(self, eui: str, name: str) -> None:
        """A device or a gateway has this name of its own, or none."""
        self.own_names[eui] = name
        self.names[eui] = name or self.labelled(eui)

    def labelled(self, eui: str) -> str:
        """The name that the last event with one had."""
        return self.labels[eui][0] if eui in self.labels else ""

    def take_label(self, eui: str, name: str, application: str) -> None:
        """What an event says of a device: its name in the list of devices, and its application."""
        device = self.device(eui)
        device.application = application
        if (name, application) != self.labels.get(eui):
            self.labels[eui] = name, application
            self.kept.add(history.LABEL, eui, name, application)
            if not self.own_names.get(eui):
                self.names[eui] = name

    def names_of(self, rows: Iterable[tuple[str, str]]) -> None:
        """Takes names of a file, except of what has a name already."""
        for eui, name in rows:
            if eui not in self.own_names:
                self.rename(eui, name)

    # what happens

    def note(self, kind: str, of: str, text: str) -> None:
        """Notes an event."""
        event = Event(time.time(), kind, of, text)
        self.events.appendleft(event)
        self.kept.add(history.EVENT, *astuple(event))

    def minute(self) -> Minute:
        """The counts of this minute."""
        return self.minutes.setdefault(int(time.time() // 60), Minute())

    def save_minutes(self) -> None:
        """Puts the last two minutes into the history, and forgets those that are too old."""
        now = int(time.time() // 60)
        for minute in (now - 1, now):
            if minute in self.minutes:
                self.kept.add(history.MINUTE, minute, *astuple(self.minutes[minute]))
        for minute in [at for at in self.minutes if at < now - MOST_MINUTES]:
            del self.minutes[minute]
        for gateway in self.gateways.values():
            for minute in [at for at in gateway.minutes if at < now - 60]:
                del gateway.minutes[minute]
            self.save_hours(gateway)

    def save_hours(self, gateway: Gateway) -> None:
        """Puts a gateway's newest hours into the history, and forgets those that are too old."""
        if gateway.is_changed:
            for hour in sorted(gateway.hours)[-2:]:
                self.kept.add(history.HOUR, gateway.eui, hour, *astuple(gateway.hours[hour]))
            gateway.is_changed = False
        for hour in [at for at in gateway.hours if at < oldest_hour()]:
            del gateway.hours[hour]

    def series(self, name: str, count: int) -> list[tuple[int, int]]:
        """One of the counts in each of the last minutes: when the minute began, and the number."""
        now, none = int(time.time() // 60), Minute()
        # minutes that have passed don't change any more, and there may be thousands
        made, points = self.passed.get((name, count), (0, []))
        if made != now:
            points = [
                (minute * 60, getattr(self.minutes.get(minute, none), name))
                for minute in range(now - count + 1, now)
            ]
            self.passed[name, count] = now, points
        return [*points, (now * 60, getattr(self.minutes.get(now, none), name))]

    def total(self, name: str, count: int) -> int:
        """The sum of one of the counts over the last minutes."""
        return sum(value for _, value in self.series(name, count))

    def silent(self, now: float) -> list[Device]:
        """The devices whose uplinks are overdue."""
        return [device for device in self.devices.values() if device.is_silent(now)]

    # the servers

    @property
    def has_stores(self) -> bool:
        """Whether stores have names, since there are several."""
        return "" not in self.servers

    @property
    def server(self) -> Server:
        """The server, or the first one."""
        return next(iter(self.servers.values()))

    @property
    def is_serving(self) -> bool | None:
        """Whether all servers answer."""
        return serving(self.servers.values())

    @property
    def away(self) -> list[str]:
        """The names of the stores whose server doesn't answer."""
        return [name for name, server in self.servers.items() if server.is_serving is False]

    @property
    def slots(self) -> int:
        """How many devices all stores have room for; 0 if no server has answered yet."""
        return sum(server.slots for server in self.servers.values())

    @property
    def has_status(self) -> bool:
        """Whether a server has answered."""
        return any(server.status for server in self.servers.values())

    @property
    def dropped(self) -> int:
        """What all servers couldn't send since their start."""
        return sum(server.number("dropped") for server in self.servers.values())

    @property
    def longest_sync(self) -> float:
        """The longest sync of all servers since their start, in ms."""
        return max(server.number("longest_sync_us") for server in self.servers.values()) / 1000

    def counts(self) -> Counter[str]:
        """How many devices each store has."""
        return Counter(device.store for device in self.devices.values())

    # the gateways' links

    def forget_links(self) -> None:
        """The server has ended, and all links with it."""
        for gateway in self.gateways.values():
            gateway.is_linked = gateway.is_linked if self.has_stores else None

    def settle_links(self, linked: int) -> None:
        """The server says how many gateways have a link: that may say of all which ones."""
        if self.has_stores:
            return
        known = list(self.gateways.values())
        unknown = [gateway for gateway in known if gateway.is_linked is None]
        certain = [gateway for gateway in known if gateway.is_linked]
        if len(certain) + len(unknown) == linked:
            for gateway in unknown:
                gateway.is_linked = True
        elif len(certain) >= linked:
            for gateway in unknown:
                gateway.is_linked = False

    # refusals

    def refuse(self, number: int, sender: str, kind: str) -> Refused:
        """One more refused frame of a sender. The sender that was heard longest ago is dropped if
        there are too many."""
        key = number, sender
        if len(self.refused) >= MOST_SENDERS and key not in self.refused:
            del self.refused[min(self.refused, key=lambda of: self.refused[of].last)]
        found = self.refused.setdefault(key, Refused(number, sender, kind, time.time()))
        found.last, found.count, found.is_over = time.time(), found.count + 1, False
        self.minute().refused += 1
        return found

    def refused_of(self, eui: str) -> list[Refused]:
        """The refused frames of one sender."""
        return [refused for (_, sender), refused in self.refused.items() if sender == eui]

    def accept_join(self, eui: str) -> None:
        """A join was accepted: what was refused before is over, and the device isn't retired."""
        if self.device(eui).hidden == RETIRED:
            self.hide(eui, "")
        for refused in self.refused_of(eui):
            refused.is_over = refused.is_over or refused.kind == "join"


def shown(name: str) -> str:
    """A name without signs that can't be seen, some of which turn the rest of a line around."""
    return "".join(filter(str.isprintable, name))


def oldest_hour() -> int:
    """The first hour of the last days, in which a gateway's readings count."""
    return int(time.time() // 3600) - 24 * GATEWAY_DAYS


def report_of(came: float, margin: int, battery: float | None) -> Report:
    """A report of the history, where a battery below 0 stands for another source of power."""
    has_mains = battery is not None and battery < 0
    return Report(came, margin, None if has_mains else battery, has_mains)
