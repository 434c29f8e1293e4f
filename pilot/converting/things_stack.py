"""Devices of The Things Stack, version 3: JSON of `ttn-lw-cli end-devices` and of its HTTP API,
with the fields of its end device, and the CSV file by which it imports end devices ("JSON File
Reference" and "CSV File Reference" of its documentation, both of "Adding Devices in Bulk"; the
field masks of "End Device APIs"). A device's fields may come in several objects, since its servers
keep some each."""

import re
from collections.abc import Iterable
from typing import Any

from . import fields
from .exports import Exported
from .fields import NOTHING, Object, Unfit, inner

# the fields of a device that has joined
JOINED = ("session", "pending_session", "last_dev_nonce", "used_dev_nonces")
# where the columns of its CSV are among the fields of JSON
COLUMNS = {
    "id": ("ids", "device_id"),
    "dev_eui": ("ids", "dev_eui"),
    "join_eui": ("ids", "join_eui"),
    "app_eui": ("ids", "join_eui"),
    "application_id": ("ids", "application_ids", "application_id"),
    "app_key": ("root_keys", "app_key", "key"),
    "nwk_key": ("root_keys", "nwk_key", "key"),
    "rx1_delay": ("mac_settings", "desired_rx1_delay"),
    "desired_rx1_delay": ("mac_settings", "desired_rx1_delay"),
    "app_s_key": ("session", "keys", "app_s_key", "key"),
}


def found(parts: Iterable[Object]) -> dict[str, Object]:
    """The devices of an export, each with all its fields, by a name for messages."""
    devices: dict[str, Object] = {}
    for part in parts:
        for one in objects(part):
            add(devices.setdefault(label(one), {}), one)
    return devices


def objects(part: Object) -> Iterable[Object]:
    """The end devices in an object, in which an answer of the API may have them."""
    if isinstance(part.get("end_devices"), list):
        return [one for one in part["end_devices"] if isinstance(one, dict)]
    for name in ("result", "end_device"):
        if isinstance(part.get(name), dict):
            return objects(part[name])
    return [part if "ids" in part else from_row(part)]


def from_row(row: Object) -> Object:
    """The fields of a row of CSV."""
    made: Object = {}
    for name, value in row.items():
        if value not in NOTHING:
            place = made
            *outer, last = COLUMNS.get(name, (name,))
            for one in outer:
                place = place.setdefault(one, {})
            place[last] = value
    return made


def label(of: Object) -> str:
    """What a device is called in messages: by its identifiers, which each of its objects has."""
    device = inner(of, "ids", "device_id")
    application = inner(of, "ids", "application_ids", "application_id")
    if device in NOTHING:
        return f"device {str(inner(of, 'ids', 'dev_eui') or 'without identifiers').upper()}"
    return f"device {device}" + (f" of {application}" if application else "")


def add(to: Object, more: Object) -> None:
    """Adds the fields of another object of the same device."""
    for name, value in more.items():
        if isinstance(value, dict) and isinstance(to.get(name), dict):
            add(to[name], value)
        else:
            to[name] = value


def enumerated(name: str, value: Any, most: int) -> int | None:
    """A value of an enumeration: a number, or a text that ends with it; perhaps in an object."""
    if isinstance(value, dict):
        value = value.get("value")
    if value in NOTHING:
        return None
    digits = re.fullmatch(r"(?:[A-Z0-9_]*_)?([0-9]{1,2})", str(value))
    return fields.whole(name, digits[1] if digits else value, most)


def check(of: Object, version: str) -> None:
    """Refuses what isn't a device that joins over the air with one root key."""
    is_activated = bool(of.get("session") or of.get("pending_session"))
    is_told = of.get("supports_join") is not None
    if fields.is_true(of.get("multicast")):
        raise Unfit("it is a multicast group")
    if not fields.is_true(of.get("supports_join")) and (
        is_told or is_activated and not of.get("root_keys")
    ):
        raise Unfit("it doesn't join over the air (ABP)")
    if not version and inner(of, "root_keys", "nwk_key"):
        raise Unfit("it has two root keys, as devices of LoRaWAN 1.1 have")
    if inner(of, "root_keys", "app_key", "encrypted_key"):
        raise Unfit("its AppKey is encrypted")
    if fields.is_true(of.get("resets_join_nonces")):
        raise Unfit("its nonces begin again (resets_join_nonces), so its joins would be refused")


def last_dev_nonce(of: Object, has_joined: bool) -> int | None:
    """The last DevNonce. `last_dev_nonce` is of devices that count it up, and 0 is left out;
    `used_dev_nonces` is of older versions."""
    used = of.get("used_dev_nonces") or []
    if not isinstance(used, list):
        raise Unfit("used_dev_nonces is no array")
    known = [fields.whole("used_dev_nonces", one, fields.MOST_DEV_NONCE) for one in used]
    if of.get("last_dev_nonce") not in NOTHING:
        known.append(fields.whole("last_dev_nonce", of["last_dev_nonce"], fields.MOST_DEV_NONCE))
    return max(known) if known else 0 if has_joined else None


def exported(of: Object) -> Exported:
    """A device."""
    version = fields.version_of(of.get("lorawan_version"))
    check(of, version)
    join_nonce = fields.whole(
        "last_join_nonce", of.get("last_join_nonce") or 0, fields.MOST_JOIN_NONCE
    )
    return Exported(
        dev_eui=fields.eui("DevEUI", inner(of, "ids", "dev_eui")),
        join_eui=fields.eui("JoinEUI", inner(of, "ids", "join_eui")),
        app_key=fields.key("AppKey", inner(of, "root_keys", "app_key", "key")),
        version=version,
        region=str(of.get("frequency_plan_id") or ""),
        application=str(inner(of, "ids", "application_ids", "application_id") or ""),
        name=str(of.get("name") or inner(of, "ids", "device_id") or ""),
        has_joined=any(of.get(name) for name in JOINED),
        last_dev_nonce=last_dev_nonce(of, join_nonce > 0),
        last_join_nonce=join_nonce,
        offset=enumerated("Offset", inner(of, "mac_settings", "desired_rx1_data_rate_offset"), 5),
        delay=enumerated("Delay", inner(of, "mac_settings", "desired_rx1_delay"), 15),
    )
