"""The event `adr`: what is believed of a device, what it is asked for, and why it is left alone."""

from .states import Device

NO_LATER_CHANNEL = "it was heard on the first three channels only"
EXCEPTED = "it is in the file of --except"


def belief(device: Device, history: int) -> dict:
    """The fields of a device's event. `until` is the counter at which it is asked again."""
    request, why = device.request, device.why
    if not why and not device.has_eight and len(device.snrs) >= history:
        why = NO_LATER_CHANNEL
    said = {
        "joinNonce": device.session,
        "dr": device.setting.rate,
        "txPower": device.setting.power,
        "isPowerKnown": device.is_sure,
        "asked": request.command().hex().upper() if request else "",
        "tries": request.tries if request else 0,
        "leftAlone": why,
    }
    return said if device.rests_until is None else {**said, "until": device.rests_until}
