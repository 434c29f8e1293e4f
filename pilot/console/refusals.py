"""What each refusal of a frame means for an operator, and its remedy. The numbers and names are
those of docs/FORMATS.md."""

from dataclasses import dataclass


@dataclass(frozen=True)
class Refusal:
    """A reason for which frames are refused."""

    name: str
    meaning: str
    remedy: str
    # whether an operator should do something about it
    needs_attention: bool = True


# of a join of a device that isn't provisioned
UNKNOWN_DEV_EUI = 7
REFUSALS = {
    1: Refusal(
        "Malformed",
        "The bytes are no LoRaWAN frame.",
        "Nothing: it is noise, or another network's traffic.",
        False,
    ),
    2: Refusal("NotServed", "This kind of frame isn't served.", "Nothing.", False),
    3: Refusal(
        "UnknownDevAddr",
        "No session has this address.",
        "Nothing if it is another network's device. A device of yours whose session is gone has "
        "to join again.",
        False,
    ),
    4: Refusal(
        "BadMic",
        "The device's key isn't the AppKey that was provisioned.",
        "Compare both keys. Correct a wrong provisioned one by lnsd amend, or write the right one "
        "to the device. A retired device needs nothing.",
    ),
    5: Refusal(
        "CounterGap",
        "The counter is more than 16,384 above the last one.",
        "Let the device join again.",
    ),
    6: Refusal("Repeat", "The device sent the same frame again.", "Nothing.", False),
    7: Refusal(
        "UnknownDevEui",
        "No device with this DevEUI is provisioned.",
        "Add the device if it is yours.",
    ),
    8: Refusal(
        "WrongJoinEui",
        "The device's JoinEUI isn't the one that was provisioned.",
        "Set the device's JoinEUI to the provisioned one.",
    ),
    9: Refusal(
        "DevNonceUsed",
        "The DevNonce isn't above the last accepted one.",
        "Check that the firmware is LoRaWAN 1.0.4, which counts DevNonces up. A device that began "
        "again from 0 is accepted once it has counted past the last one.",
    ),
    10: Refusal(
        "JoinNonceSpent",
        "The device has joined 16,777,215 times.",
        "Give the device another DevEUI, and add it.",
    ),
    11: Refusal(
        "MacBoth",
        "The frame has MAC commands in two places.",
        "Report it to the device's vendor: the firmware is wrong.",
    ),
    20: Refusal(
        "WindowsFull",
        "Too many frames came at a time.",
        "Look for a gateway that sends far more than the others.",
    ),
    21: Refusal(
        "SameGateway",
        "One gateway sent the same frame twice.",
        "Check that each gateway has an EUI of its own, and one packet forwarder.",
    ),
    22: Refusal("CopiesFull", "More than 32 gateways heard the frame.", "Nothing.", False),
    23: Refusal(
        "Backlog",
        "Too many decisions wait for the disk.",
        "Check the disk: see Server.",
    ),
    24: Refusal(
        "UnknownChannel",
        "The frequency or the data rate isn't one of the network's.",
        "A device joins on 868.1, 868.3 or 868.5 MHz, and then uses all eight channels of EU868. Set "
        "those of the device, and of the gateway, which hears other ones too.",
    ),
    30: Refusal("OutOfMemory", "The server has no memory left.", "Give the machine more memory."),
}


def refusal(number: int) -> Refusal:
    """What a refusal means, also one of a later server."""
    unknown = Refusal(f"Refusal {number}", "", "See the refusals in FORMATS.")
    return REFUSALS.get(number, unknown)
