"""Fields of JSON that anybody may have sent: each is checked."""

import base64
import binascii
import json
from typing import Any

# a LoRa demodulator measures an SNR of this range, in dB. The best SNR decides which gateway sends,
# so one that claims more than there can be would take all downlinks
SNR = (-32, 20)


class Wrong(ValueError):
    """A field isn't what its format says."""


def parsed(text: bytes) -> Any:
    """The value of a JSON text."""
    try:
        return json.loads(text)
    except (ValueError, RecursionError):
        raise Wrong("no JSON") from None


def table(value: Any) -> dict:
    """A value that is an object."""
    if not isinstance(value, dict):
        raise Wrong("no object")
    return value


def inner(of: dict, name: str) -> dict:
    """A field that is an object."""
    return table(of.get(name))


def number(of: dict, name: str, least: float, most: float) -> float:
    """A field that is a number of this range."""
    value: Any = of.get(name)
    is_number = isinstance(value, (int, float)) and not isinstance(value, bool)
    if not (is_number and least <= value <= most):
        raise Wrong(f"{name} is no number from {least} to {most}")
    return value


def whole(of: dict, name: str, least: int, most: int) -> int:
    """A field that is a whole number of this range."""
    value = number(of, name, least, most)
    if not isinstance(value, int):
        raise Wrong(f"{name} is no whole number")
    return value


def snr(of: dict, name: str) -> int:
    """A field that is an SNR in dB, as quarters of one."""
    return round(4 * number(of, name, *SNR))


def text(of: dict, name: str) -> str:
    """A field that is a text."""
    value = of.get(name)
    if not isinstance(value, str):
        raise Wrong(f"{name} is no text")
    return value


def payload(of: dict, name: str, most: int) -> bytes:
    """A field of bytes in base64, with or without its padding."""
    shown = text(of, name)
    try:
        value = base64.b64decode(shown + "=" * (-len(shown) % 4), validate=True)
    except (binascii.Error, ValueError):
        raise Wrong(f"{name} is no base64") from None
    if len(value) > most:
        raise Wrong(f"{name} has more than {most} bytes")
    return value


def shown(value: bytes) -> str:
    """Bytes in base64."""
    return base64.b64encode(value).decode("ascii")


def compact(value: Any) -> bytes:
    """A value as JSON text."""
    return json.dumps(value, separators=(",", ":")).encode("ascii")
