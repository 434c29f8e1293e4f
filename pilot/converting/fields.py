"""Fields of exports, of which each may be anything."""

import re
from typing import Any

from bridges.devices import hex_of

VERSION = re.compile(r"(?:LORAWAN_|MAC_V)?(\d)[._](\d)(?:[._](\d))?")
MOST_DEV_NONCE, MOST_JOIN_NONCE = 2**16 - 1, 2**24 - 1
NOTHING = (None, "")
# one JSON object
Object = dict[str, Any]


class Unfit(ValueError):
    """A device can't be converted."""


def inner(of: Object, *names: str) -> Any:
    """A field in fields; None if one of them is missing."""
    value: Any = of
    for name in names:
        value = value.get(name) if isinstance(value, dict) else None
    return value


def whole(name: str, value: Any, most: int) -> int:
    """A whole number, also as a text."""
    text = str(value)
    if isinstance(value, bool) or not re.fullmatch("[0-9]{1,9}", text) or int(text) > most:
        raise Unfit(f"{name} isn't a number from 0 to {most}")
    return int(text)


def eui(name: str, value: Any) -> str:
    """An EUI, or nothing."""
    return "" if value in NOTHING else digits(name, value, 16)


def digits(name: str, value: Any, length: int) -> str:
    """Hex digits; PostgreSQL has \\x before them."""
    try:
        return hex_of(name, str(value).removeprefix("\\x"), length)
    except ValueError as why:
        raise Unfit(str(why)) from None


def key(name: str, value: Any) -> str:
    """A root key, or nothing: one of zeros stands for a key that isn't set."""
    found = "" if value in NOTHING else digits(name, value, 32)
    return found.strip("0") and found


def version_of(value: Any) -> str:
    """A LoRaWAN version, or nothing."""
    if value in NOTHING:
        return ""
    found = VERSION.fullmatch(str(value))
    if not found:
        raise Unfit(f"its LoRaWAN version is unknown: {str(value)!a}")
    return f"{found[1]}.{found[2]}.{found[3] or 0}"


def is_true(value: Any) -> bool:
    """Whether a field says yes, as JSON or as PostgreSQL's CSV."""
    return str(value).lower() in ("true", "t", "1")
