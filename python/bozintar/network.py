"""What a network has to answer, computed by the standards and docs/FORMATS.md alone.

It has no table and no store: a story says what is due, and these functions make the bytes of it."""

from .frames import (
    DOWN,
    LATER_CHANNELS,
    cf_list,
    crypted,
    data_mic,
    little,
    sealed_accept,
    session_keys,
)

from .wire import Copy, framed

NET_ID = 0x2A
# an item of an application: its port, its payload, and whether it is confirmed
Item = tuple[int, bytes, bool]


def address(slot: int, join_nonce: int) -> int:
    """The DevAddr of a session."""
    return (NET_ID % 64 << 25) + slot * 8192 + join_nonce % 8192


def order(copy: Copy, data_rate: int, delay: int, second: int, frame: bytes) -> str:
    """The line of `lns-sim` for a downlink to the gateway of a copy."""
    content = b"\x11" + bytes.fromhex(copy.gateway) + copy.stamp.to_bytes(4, "big")
    content += copy.frequency.to_bytes(4, "big") + bytes([data_rate, delay, second]) + frame
    return f"gw {copy.gateway} {framed(content).hex().upper()}"


class Session:
    """The network's end of a session: its address, its keys, and the frames that are due."""

    def __init__(
        self,
        slot: int,
        app_key: str,
        join_nonce: int,
        dev_nonce: int,
        offset: int = 0,
        delay: int = 1,
    ):
        self.app_key = bytes.fromhex(app_key)
        self.address = address(slot, join_nonce)
        self.keys = session_keys(self.app_key, join_nonce, NET_ID, dev_nonce)
        self.offset, self.delay = offset, delay
        self.fields = little(join_nonce, 3) + little(NET_ID, 3) + little(self.address, 4)
        self.fields += bytes([offset << 4, delay]) + cf_list(LATER_CHANNELS)

    def accept(self, copy: Copy) -> str:
        """The line of the Join-Accept, to the gateway of the best copy."""
        return order(copy, copy.data_rate, 5, 6, sealed_accept(self.app_key, self.fields))

    def downlink(
        self,
        copy: Copy,
        counter: int,
        item: Item | None = None,
        f_opts: bytes = b"",
        ack: bool = False,
        pending: bool = False,
    ) -> str:
        """The line of a downlink, to the gateway of the best copy."""
        message = b"\xA0" if item and item[2] else b"\x60"
        message += little(self.address, 4) + bytes([ack << 5 | pending << 4 | len(f_opts)])
        message += little(counter & 0xFFFF, 2) + f_opts
        if item:
            port, payload, _ = item
            message += bytes([port]) + crypted(self.keys[1], DOWN, self.address, counter, payload)
        frame = message + data_mic(self.keys[0], DOWN, self.address, counter, message)
        second = self.delay + 1 if len(frame) <= 64 else 0
        rate = max(0, copy.data_rate - self.offset)
        return order(copy, rate, self.delay, second, frame)
