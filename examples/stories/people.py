"""Who takes part in the stories."""

from bozintar.devices import Device
from bozintar.network import Session

APPLICATION = 3
METER = "1112131415161718"
JOIN_EUI = "0102030405060708"
APP_KEY = "2B7E151628AED2A6ABF7158809CF4F3C"
B1, B2, B3 = "00000000000000B1", "00000000000000B2", "00000000000000B3"


def meter():
    """The device, as it left the factory."""
    return Device(METER, JOIN_EUI, APP_KEY)


def session(join_nonce, dev_nonce):
    """The network's end of the meter's session."""
    return Session(0, APP_KEY, join_nonce, dev_nonce)


def provision(moment):
    """The line by which the application brings the meter."""
    return f"provision {moment} {APPLICATION} {METER} {JOIN_EUI} {APP_KEY} 0 1"


def told(line):
    """The line of `lns-sim` for a report to the meter's application."""
    return f"app {APPLICATION} {line}"


def up(counter, port, payload, copies, best, join_nonce=1):
    """The line that brings a payload to the application."""
    text = payload.hex().upper() or "-"
    return told(f"up {METER} {join_nonce} {counter} {port} {text} {copies} {best.heard()}")


def listed(granted, last_up, next_down, items, heard, seq, join_nonce=1):
    """The list of a table in which the meter alone stands, with a session in use."""
    return (
        f"0 {METER} {granted} {join_nonce} {last_up} {next_down} {items} {heard}",
        f"devices 1 seq {seq}",
    )
