"""Devices of ChirpStack, version 4: JSON of its REST API (api/device.proto and
api/device_profile.proto of "API" in its documentation: GetDeviceResponse, GetDeviceKeysResponse,
GetDeviceActivationResponse, GetDeviceProfileResponse, and the lists of devices and of device
profiles), and CSV of its database (the tables device, device_keys and device_profile). A device's
fields come in several objects or rows. The nonces are in the database alone."""

import json
import re
from collections.abc import Iterable
from typing import Any

from . import fields
from .exports import Exported
from .fields import NOTHING, Object, Unfit

# the objects in an answer of the API that have fields of a device
ANSWERS = ("device", "devicekeys", "deviceactivation", "deviceprofile")
# of a session: its presence shows that the device was activated
ACTIVATION = ("devaddr", "appskey", "nwkskey", "nwksenckey")


def bare(part: Object) -> Object:
    """An object with its names in small letters without underscores: the API has devEui, and the
    database dev_eui."""
    return {re.sub("[^a-z0-9]", "", name.lower()): value for name, value in part.items()}


def objects(part: Object) -> Iterable[Object]:
    """The objects with fields in an answer of the API, or a row."""
    of = bare(part)
    if isinstance(of.get("result"), list):
        for one in of["result"]:
            yield from objects(one) if isinstance(one, dict) else ()
        return
    inside = [bare(of[name]) for name in ANSWERS if isinstance(of.get(name), dict)]
    yield from inside or [of]


def found(parts: Iterable[Object]) -> dict[str, Object]:
    """The devices of an export, each with all its fields and those of its profile, by a name for
    messages."""
    devices: dict[str, Object] = {}
    profiles: dict[str, Object] = {}
    for part in parts:
        for one in objects(part):
            if "deveui" not in one and "id" in one and "macversion" in one:
                profiles[str(one["id"])] = one
                continue
            given = {name: value for name, value in one.items() if value not in NOTHING}
            devices.setdefault(label(one), {}).update(given)
    for of in devices.values():
        profile = profiles.get(str(of.get("deviceprofileid")), {})
        for name in ("macversion", "region", "supportsotaa"):
            of.setdefault(name, profile.get(name))
    return devices


def label(of: Object) -> str:
    """What a device is called in messages."""
    text = str(of.get("deveui") or "without DevEUI").removeprefix("\\x")
    return f"device {text.upper()}"


def used_nonces(of: Object) -> Any:
    """The used DevNonces: an array in the order of their use or, in later versions, an object
    with an array without order for each JoinEUI. CSV has them as an array of PostgreSQL or as
    JSON."""
    value: Any = of.get("devnonces")
    if isinstance(value, str):
        is_array = re.fullmatch(r"\{[0-9, ]*\}", value)
        try:
            value = json.loads(f"[{value[1:-1]}]" if is_array else value)
        except ValueError:
            raise Unfit("dev_nonces is no array") from None
    return {str(name).upper(): of for name, of in value.items()} if is_object(value) else value


def is_object(value: Any) -> bool:
    """Whether a value is an object."""
    return isinstance(value, dict)


def numbers(value: Any) -> list[int]:
    """DevNonces in an array."""
    if value is not None and not isinstance(value, list):
        raise Unfit("dev_nonces is no array")
    return [fields.whole("dev_nonces", one, fields.MOST_DEV_NONCE) for one in value or []]


def last_dev_nonce(used: Any, join_eui: str) -> int | None:
    """The last DevNonce that was used with a JoinEUI. A device whose DevNonces don't count up can't
    be served."""
    nonces = sorted(numbers(used.get(join_eui))) if is_object(used) else numbers(used)
    for last, following in zip(nonces, nonces[1:]):
        if following <= last:
            raise Unfit(f"its DevNonces don't count up: {following} came after {last}")
    return nonces[-1] if nonces else None


def join_eui_of(of: Object, used: Any) -> str:
    """The JoinEUI. ChirpStack learns it by the first join, and has zeros before that."""
    found_eui = fields.eui("JoinEUI", of.get("joineui"))
    if found_eui.strip("0") or not is_object(used) and used:
        return found_eui
    return next(iter(used)) if is_object(used) and len(used) == 1 else ""


def app_key(of: Object, version: str) -> str:
    """The AppKey: ChirpStack has that of LoRaWAN 1.0 in nwk_key, and in app_key that of 1.1."""
    found_key = fields.key("AppKey", of.get("nwkkey"))
    is_activated = any(of.get(name) for name in ACTIVATION)
    is_abp = of.get("supportsotaa") is not None and not fields.is_true(of["supportsotaa"])
    if is_abp or is_activated and not found_key:
        raise Unfit("it doesn't join over the air (ABP)")
    if not version and fields.key("app_key", of.get("appkey")):
        raise Unfit("it has two root keys, as devices of LoRaWAN 1.1 have")
    return found_key


def exported(of: Object) -> Exported:
    """A device."""
    version = fields.version_of(of.get("macversion"))
    root_key = app_key(of, version)
    if fields.is_true(of.get("isdisabled")):
        raise Unfit("it is disabled")
    used = used_nonces(of)
    join_eui = join_eui_of(of, used)
    return Exported(
        dev_eui=fields.eui("DevEUI", of.get("deveui")),
        join_eui=join_eui,
        app_key=root_key,
        version=version,
        region=str(of.get("region") or ""),
        application=str(of.get("applicationid") or ""),
        name=str(of.get("name") or ""),
        has_joined=bool(used) or any(of.get(name) for name in (*ACTIVATION, "lastseenat")),
        last_dev_nonce=last_dev_nonce(used, join_eui),
        last_join_nonce=fields.whole(
            "join_nonce", of.get("joinnonce") or 0, fields.MOST_JOIN_NONCE
        ),
    )
