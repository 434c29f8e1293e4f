"""What needs an operator's attention: what is wrong, why, and what to do."""

import time
from collections import Counter
from collections.abc import Iterator
from contextlib import suppress
from dataclasses import dataclass
from pathlib import Path

from .network import DAY, GATEWAY_DAYS, WRONG_CLOCK, Network
from .refusals import UNKNOWN_DEV_EUI, refusal
from .repeats import JOINED, READ
from .text import ago, duration, plural, seen

# the levels, the gravest first: a monitor is alarmed by the first two
BROKEN, GRAVE, WARNING, NOTE = 0, 1, 2, 3
# a sync above this makes downlinks miss their windows (docs/OPERATING.md, "The disk"), in ms; and
# for how many minutes it needs attention
SLOW_SYNC, SLOW_MINUTES = 200, 60
NEARLY_FULL = 0.9
# numbers about the mark of the server's store, from its unit
MARK = Path("/run/bozintar-mark/mark.prom")
# what came twice: its level, what it is, what it means, and what to do
REPEATS = {
    JOINED: (
        BROKEN,
        "A JoinNonce was granted twice",
        "the server's store is another one, or an older one. Devices may be locked out",
        "Stop lnsd. Look whether the store's disk is mounted, and whether it is an old copy. Serve "
        'the right store, or restore a copy ("A lost disk" in OPERATING). Then confirm this.',
    ),
    READ: (
        WARNING,
        "Two readings of one counter differ",
        "the store is an older one, or a stranger publishes on the broker, which doesn't say who",
        "Look whether a JoinNonce was granted twice, too, and who may publish. Then confirm this.",
    ),
}


@dataclass(frozen=True)
class Problem:
    """Something that needs attention, and the page that has more."""

    level: int
    what: str
    why: str
    remedy: str
    page: str
    # of one that stays until it is confirmed: its kind, and how often it happened
    kind: str = ""
    seen: int = 0


def problems(network: Network) -> list[Problem]:
    """All of them, the gravest first."""
    now = time.time()
    found = [*of_repeats(network, now), *of_mark(), *of_programs(network)]
    found += of_gateways(network, now)
    found += [*of_devices(network, now), *of_joins(network, now), *of_disk(network)]
    return sorted(found, key=lambda problem: problem.level)


def of_repeats(network: Network, now: float) -> Iterator[Problem]:
    """What came twice, as long as nobody has confirmed it."""
    for kind, (level, what, meaning, remedy) in REPEATS.items():
        if found := network.repeats.open(kind):
            seen, last = sum(of.count for of in found), found[0]
            why = f"{plural(len(found), 'device')}, {plural(seen, 'time')} in all, last "
            why += f"{network.name(last.device)} {ago(last.last, now)}: {meaning}"
            yield Problem(level, what, why, remedy, f"/devices/{last.device}", kind, seen)


def of_mark() -> Iterator[Problem]:
    """A store whose mark was lost, as long as nobody has confirmed it."""
    with suppress(OSError):
        if "unconfirmed 1" in MARK.read_text(encoding="ascii"):
            what, why = "The store may be an older one", "its mark was lost"
            remedy = "journalctl -u lnsd names the command that confirms the store."
            yield Problem(GRAVE, what, why, remedy, "/server")


def of_programs(network: Network) -> Iterator[Problem]:
    """The server, the broker and the console itself."""
    for name in network.away:
        why = "lnsd doesn't run, or the lookout doesn't"
        remedy = "Check systemctl status lnsd bozintar-lookout."
        what = f"No server answers for store {name}" if name else "No server answers"
        yield Problem(GRAVE, what, why, remedy, "/server")
    if not network.is_broker_there:
        why = "Readings don't come until it is back"
        yield Problem(
            GRAVE, "The broker is away", why, "Check systemctl status mosquitto.", "/server"
        )
    for application, lag in network.clocks.items():
        if abs(lag) > WRONG_CLOCK:
            how = f"{duration(abs(lag))} {'slow' if lag > 0 else 'fast'}"
            what = f"The clock of application {application}'s bridge is {how}"
            why = "Its events have wrong times, unless the console's own clock is wrong"
            yield Problem(WARNING, what, why, "Check timedatectl on both machines.", "/devices")
    if network.kept.fault:
        why = f"New history isn't kept: {network.kept.fault}"
        remedy = "Make room on the console's disk."
        yield Problem(GRAVE, "The history can't be written", why, remedy, "/server")


def of_gateways(network: Network, now: float) -> Iterator[Problem]:
    """Gateways without a link, of those that were there lately."""
    for gateway in network.gateways.values():
        is_recent = not gateway.last or now - gateway.last < GATEWAY_DAYS * DAY
        if gateway.is_missed and is_recent:
            what = f"Gateway {network.name(gateway.eui)} is offline"
            why = f"It has no link. Last uplink {seen(gateway.last, now)}"
            yield Problem(GRAVE, what, why, "Check its power and its network.", "/gateways")


def of_disk(network: Network) -> Iterator[Problem]:
    """A disk that is slow, and stores that are nearly full."""
    slowest = max(value for _, value in network.series("sync_us", SLOW_MINUTES)) // 1000
    if slowest >= SLOW_SYNC:
        what = "The disk is slow"
        why = f"A sync took {slowest} ms in the last hour, so downlinks may come too late"
        yield Problem(WARNING, what, why, 'See "The disk" in OPERATING.', "/server")
    counts = network.counts()
    for name, server in network.servers.items():
        if server.slots and counts[name] > NEARLY_FULL * server.slots:
            why = f"{counts[name]} of {server.slots} slots are taken"
            what = f"The store {name} is nearly full" if name else "The store is nearly full"
            yield Problem(NOTE, what, why, "lnsd grow makes a store with more slots.", "/server")


def of_devices(network: Network, now: float) -> Iterator[Problem]:
    """Devices that are silent, weak, or have a low battery."""
    if silent := network.silent(now):
        last = max(device.last for device in silent)
        why = f"The latest uplink of them came {ago(last, now)}"
        remedy = "Check whether one gateway, or one house, is common to them."
        what = f"{plural(len(silent), 'device')} silent"
        yield Problem(WARNING, what, why, remedy, "/devices?show=silent")
    devices = list(network.devices.values())
    if lost := sum(device.is_missed(now) for device in devices):
        what = f"{plural(lost, 'device')} without a session"
        why = "After a restore each device has to join again"
        remedy = "Restart those by hand that don't join by themselves."
        if network.repeats.open(JOINED):
            remedy = "Restart none before the right store is served."
        yield Problem(WARNING, what, why, remedy, "/devices?show=not")
    if low := sum(device.has_low_battery for device in devices):
        what = f"{plural(low, 'device')} with a low battery"
        yield Problem(WARNING, what, "Below 15 %", "Plan a visit.", "/devices?show=battery")
    if weak := sum(device.is_weak for device in devices):
        what = f"{plural(weak, 'device')} with a weak signal"
        why = "The best SNR is less than 3 dB above the floor"
        remedy = "Place a gateway nearer to them."
        yield Problem(NOTE, what, why, remedy, "/devices?show=weak")


def cant_join(network: Network, now: float) -> Counter[int]:
    """How many devices can't join, by the number of the refusal."""
    waiting: Counter[int] = Counter()
    for refused in network.refused.values():
        is_open = refused.kind == "join" and not refused.is_over and now - refused.last < DAY
        known = network.devices.get(refused.sender)
        is_open = is_open and not (known and known.hidden)
        if is_open and refusal(refused.number).needs_attention:
            waiting[refused.number] += 1
    return waiting


def of_joins(network: Network, now: float) -> Iterator[Problem]:
    """Devices that can't join, by the reason."""
    for number, count in sorted(cant_join(network, now).items()):
        reason, level = refusal(number), WARNING
        what = f"{plural(count, 'device')} can't join: {reason.name}"
        if number == UNKNOWN_DEV_EUI:
            # most of them are other networks'
            what, level = f"{plural(count, 'unknown device')} asked to join", NOTE
        yield Problem(level, what, reason.meaning.rstrip("."), reason.remedy, "/refused")
