"""The cryptography of LoRaWAN 1.0.4 frames, for both ends of a link (TS001-1.0.4)."""

from collections.abc import Sequence

from . import aes

UP, DOWN = 0, 1
# the channels of EU868 in Hz (RP002-1.0.4): those of each device, and those that an accept adds
FIRST_CHANNELS = (868_100_000, 868_300_000, 868_500_000)
LATER_CHANNELS = (867_100_000, 867_300_000, 867_500_000, 867_700_000, 867_900_000)
CHANNELS = FIRST_CHANNELS + LATER_CHANNELS
# NwkSKey and AppSKey
Keys = tuple[bytes, bytes]


def little(number: int, length: int) -> bytes:
    """A number in this many bytes, the lowest first, as frames have it."""
    return number.to_bytes(length, "little")


def eui_bytes(text: str) -> bytes:
    """The bytes in a frame of an EUI, which is written highest byte first."""
    return bytes.fromhex(text)[::-1]


def counted_block(kind: int, direction: int, dev_addr: int, counter: int, last: int) -> bytes:
    """The blocks A_i and B0, without their last byte (§4.3.3, §4.4)."""
    fields = bytes([kind, 0, 0, 0, 0, direction]) + little(dev_addr, 4) + little(counter, 4)
    return fields + bytes([0, last])


def crypted(key: bytes, direction: int, dev_addr: int, counter: int, payload: bytes) -> bytes:
    """A payload under the keystream of its frame; twice gives it back (§4.3.3)."""
    stream = b""
    while len(stream) < len(payload):
        block = counted_block(1, direction, dev_addr, counter, len(stream) // 16 + 1)
        stream += aes.encrypt(key, block)
    return aes.xored(payload, stream[: len(payload)])


def data_mic(key: bytes, direction: int, dev_addr: int, counter: int, message: bytes) -> bytes:
    """The MIC of a data frame (§4.4)."""
    front = counted_block(0x49, direction, dev_addr, counter, len(message))
    return aes.cmac(key, front + message)[:4]


def session_keys(app_key: bytes, join_nonce: int, net_id: int, dev_nonce: int) -> Keys:
    """NwkSKey and AppSKey (§6.2)."""
    fields = little(join_nonce, 3) + little(net_id, 3) + little(dev_nonce, 2) + bytes(7)
    return aes.encrypt(app_key, b"\x01" + fields), aes.encrypt(app_key, b"\x02" + fields)


def cf_list(channels: Sequence[int]) -> bytes:
    """The CFList of five channels: in units of 100 Hz, and then the type 0 (§6.2.6)."""
    return b"".join(little(channel // 100, 3) for channel in channels) + b"\x00"


def channels_in(listed: bytes) -> tuple[int, ...]:
    """The channels in a CFList of type 0; none if there is no such list."""
    if len(listed) != 16 or listed[15]:
        return ()
    numbers = (int.from_bytes(listed[place : place + 3], "little") for place in range(0, 15, 3))
    return tuple(100 * number for number in numbers if number)


def sealed_accept(app_key: bytes, fields: bytes) -> bytes:
    """A Join-Accept of these fields: the network takes the inverse cipher (§6.2.6)."""
    plain = fields + aes.cmac(app_key, b"\x20" + fields)[:4]
    return b"\x20" + b"".join(
        aes.decrypt(app_key, plain[place : place + 16]) for place in range(0, len(plain), 16)
    )


def opened_accept(app_key: bytes, frame: bytes) -> tuple[bytes, bool]:
    """The fields of a Join-Accept, and whether its MIC is right: the device takes the cipher."""
    plain = b"".join(
        aes.encrypt(app_key, frame[place : place + 16]) for place in range(1, len(frame), 16)
    )
    return plain[:-4], aes.cmac(app_key, frame[:1] + plain[:-4])[:4] == plain[-4:]
