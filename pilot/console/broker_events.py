"""Events of the broker, as applications-mqtt publishes them. Nothing of them is believed: anybody
who may publish there may have sent them."""

import re
import time
from collections.abc import Callable
from datetime import datetime
from hashlib import blake2b

from adapting.rule import MOST_POWER, MOST_RATE, Setting
from bozintar import fields
from bozintar.fields import Wrong

from . import history, mac_commands
from .devices import Adaption, Device, Report, Session, Uplink
from .network import NAME_LENGTH, WRONG_CLOCK, Network, shown
from .repeats import READ

TOPICS = ["application/+/device/+/event/+"]
TOPIC = re.compile(r"application/(1[0-5]|\d)/device/([0-9a-f]{16})/event/([a-z]{2,10})")
EUI = re.compile(r"[0-9A-F]{16}")
MOST_PAYLOAD, MOST_TEXT = 10_000, 160
# more than any store has room for; of each store
MOST_DEVICES = 8192
MOST_COUNTER, MOST_NONCE, MOST_TRIES = 2**32 - 1, 2**24 - 1, 100
SETTING = (("dr", MOST_RATE), ("txPower", MOST_POWER))
# the code of an event `log` of an item that waits; and until when after the start of a connection
# events may have waited in the broker, in seconds
TOO_LONG, CAUGHT_UP = "ITEM_TOO_LONG", 60.0
# how the history marks a device with another source of power than a battery
ON_MAINS = -1.0


def take(network: Network, topic: str, payload: bytes) -> None:
    """An event. Kinds that aren't known are ignored."""
    found = TOPIC.fullmatch(topic)
    if not found or len(payload) > MOST_PAYLOAD:
        raise Wrong("no topic of an event, or a payload that is too long")
    said = fields.table(fields.parsed(payload))
    taker = TAKERS.get(found[3])
    if taker:
        most = MOST_DEVICES * len(network.servers)
        if found[2].upper() not in network.devices and len(network.devices) >= most:
            raise Wrong("too many devices")
        device = network.devices.get(found[2].upper()) or network.new(found[2].upper())
        device.store = device.store or store_of(network, said)
        taker(network, device, said)
        # only what was understood makes a device known
        network.devices.setdefault(device.eui, device)
        network.take_label(device.eui, name_of(network, device.eui, said), found[1])
        take_clock(network, found[1], said)


def take_clock(network: Network, application: str, said: dict) -> None:
    """How slow the bridge's clock is beside this one, by an event that didn't wait."""
    try:
        lag = time.time() - datetime.fromisoformat(said["time"]).timestamp()
    except (KeyError, TypeError, ValueError, OverflowError):
        return
    has_waited = "delayed" in said or time.time() < network.broker_since + CAUGHT_UP
    if lag < WRONG_CLOCK or not has_waited:
        network.clocks[application] = lag


def store_of(network: Network, said: dict) -> str:
    """The store of a device, if an event names one that there is."""
    info = said.get("deviceInfo")
    name = info.get("store") if isinstance(info, dict) else None
    return name if isinstance(name, str) and name in network.servers else ""


def name_of(network: Network, eui: str, said: dict) -> str:
    """The name that an event has; the last one if it has none that is a text."""
    info = said.get("deviceInfo")
    name = info.get("deviceName") if isinstance(info, dict) else None
    return shown(name)[:NAME_LENGTH] if isinstance(name, str) else network.labelled(eui)


def take_up(network: Network, device: Device, said: dict) -> None:
    """A reading."""
    session = fields.whole(said, "joinNonce", 0, MOST_NONCE)
    counter = fields.whole(said, "fCnt", 0, MOST_COUNTER)
    rate, port = fields.whole(said, "dr", 0, 5), fields.whole(said, "fPort", 0, 255)
    copies, data = fields.whole(said, "copies", 0, 64), fields.payload(said, "data", 255)
    hz = fields.whole(fields.inner(said, "txInfo"), "frequency", 0, 10**10)
    uplink = uplink_of(said, rate)
    known = device.sessions.setdefault(session, Session(counter, counter - 1))
    which = device.eui, session, counter
    # eight bits of a hash, so that readings can be compared and no payload is kept
    key = " ".join(map(str, which)).encode()
    check = blake2b(bytes([port]) + data, digest_size=1, key=key).digest()[0]
    if counter <= known.last:
        if said.get("recovered") is not True and network.repeats.differs(*which, check):
            note_other(network, *which)
        return  # the broker delivered it twice
    minute = network.minute()
    minute.uplinks += 1
    minute.missing += counter - known.last - 1
    known.last, known.count = counter, known.count + 1
    if session >= (device.session or 0):
        device.session, device.last_up = session, counter
    device.add(uplink)
    device.update()
    network.gateway(uplink.gateway).add_best(uplink, device.store)
    how = (rate, uplink.snr, uplink.rssi, uplink.gateway, hz, copies, len(data), check)
    network.kept.add(history.UPLINK, *which, uplink.came, port, *how)
    counts = (known.first, known.last, known.count)
    network.kept.add(history.SESSION, device.eui, session, *counts, uplink.came)


def note_other(network: Network, eui: str, session: int, counter: int) -> None:
    """A reading has other data than the one before. Any client of the broker can cause many."""
    count = network.repeats.add(READ, eui, time.time())
    if count == 1 or count % 10 == 0:
        text = f"JoinNonce {session}, counter {counter}: two readings differ (so far {count} times)"
        network.note("repeat", eui, text)


def uplink_of(said: dict, rate: int) -> Uplink:
    """How the best gateway heard it."""
    receptions = said.get("rxInfo")
    if not isinstance(receptions, list) or not receptions:
        raise Wrong("rxInfo has no gateway")
    best = fields.table(receptions[0])
    gateway = fields.text(best, "gatewayId").upper()
    if not EUI.fullmatch(gateway):
        raise Wrong("gatewayId is no EUI")
    snr = float(fields.number(best, "snr", *fields.SNR))
    return Uplink(time.time(), gateway, snr, fields.whole(best, "rssi", -200, 50), rate)


def take_status(network: Network, device: Device, said: dict) -> None:
    """A DevStatusAns."""
    has_mains = is_true(said, "externalPowerSource")
    is_unknown = is_true(said, "batteryLevelUnavailable")
    battery = None if has_mains or is_unknown else fields.number(said, "batteryLevel", 0, 100)
    margin, now = fields.whole(said, "margin", -32, 31), time.time()
    device.report = Report(now, margin, battery, has_mains)
    network.kept.add(history.STATUS, device.eui, now, ON_MAINS if has_mains else battery, margin)


def take_ack(network: Network, device: Device, said: dict) -> None:
    """What became of an item."""
    well = "acknowledged" if is_true(said, "acknowledged") else "not acknowledged"
    network.note("item", device.eui, f"Downlink {item_of(said)} {well}")


def take_queued(network: Network, device: Device, said: dict) -> None:
    """An item waits."""
    network.note("item", device.eui, f"Downlink queued: item {item_of(said)}")


def take_mac(network: Network, device: Device, said: dict) -> None:
    """The device sent MAC commands."""
    text = mac_commands.answers(fields.text(said, "commands")[:256])
    network.note("mac", device.eui, f"MAC answer: {text[:MOST_TEXT]}")


def take_mac_queued(network: Network, device: Device, said: dict) -> None:
    """MAC commands wait for the device."""
    text = mac_commands.requests(fields.text(said, "commands")[:256])
    if text != device.requests:  # adr asks for the same again and again
        network.note("mac", device.eui, f"Downlink queued: {text[:MOST_TEXT]}")
    device.requests = text


def take_adr(network: Network, device: Device, said: dict) -> None:
    """What the program adr believes of the device."""
    before, device.adaption = device.adaption, adaption_of(said)
    now, setting = device.adaption, device.adaption.setting
    if now.why and (not before or now.why != before.why):
        network.note("adr", device.eui, f"ADR leaves it alone: {now.why}")
    elif setting and before and setting != before.setting:
        network.note("adr", device.eui, f"ADR: it sends with {setting}")
    given = (setting.rate, setting.power) if setting else (None, None)
    rest = (now.is_sure, now.asked, now.tries, now.why, now.until)
    network.kept.add(history.ADAPTION, device.eui, now.came, *given, *rest)


def adaption_of(said: dict) -> Adaption:
    """What an event of adr says. Of a device of --except it says only that."""
    why = fields.text(said, "leftAlone")[:MOST_TEXT]
    if "dr" not in said:
        return Adaption(time.time(), why=why)
    rate, power = (fields.whole(said, name, 0, most) for name, most in SETTING)
    until = fields.whole(said, "until", 0, MOST_COUNTER) if "until" in said else None
    asked = mac_commands.requests(fields.text(said, "asked")[:256])[:MOST_TEXT]
    tries = fields.whole(said, "tries", 0, MOST_TRIES)
    is_sure = is_true(said, "isPowerKnown")
    return Adaption(time.time(), Setting(rate, power), is_sure, asked, tries, why, until)


def take_log(network: Network, device: Device, said: dict) -> None:
    """Something went wrong."""
    code, description = fields.text(said, "code")[:40], fields.text(said, "description")
    if code == TOO_LONG:
        device.blocked = description[:MOST_TEXT]
    text = f"{code}: {description}"
    network.note("item", device.eui, f"Error {text[:MOST_TEXT]}")


def item_of(said: dict) -> str:
    """The id of an item."""
    return fields.text(said, "queueItemId")[:40]


def is_true(said: dict, name: str) -> bool:
    """A field that is true or false."""
    value = said.get(name)
    if not isinstance(value, bool):
        raise Wrong(f"{name} is neither true nor false")
    return value


TAKERS: dict[str, Callable[[Network, Device, dict], None]] = {
    "up": take_up,
    "status": take_status,
    "ack": take_ack,
    "queued": take_queued,
    "mac": take_mac,
    "macqueued": take_mac_queued,
    "adr": take_adr,
    "log": take_log,
}
