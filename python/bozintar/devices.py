"""A class A device of LoRaWAN 1.0.4 in EU868, activated over the air."""

from . import aes, wire
from .frames import (
    DOWN,
    FIRST_CHANNELS,
    UP,
    Keys,
    channels_in,
    crypted,
    data_mic,
    eui_bytes,
    little,
    opened_accept,
    session_keys,
)


class Rejected(Exception):
    """The device can't take a frame, or can't send one."""


class Device:
    """What a device keeps, and the frames that it sends and opens."""

    def __init__(self, dev_eui: str, join_eui: str, app_key: str):
        self.dev_eui = dev_eui
        self.join_eui = join_eui
        self.app_key = bytes.fromhex(app_key)
        self.dev_nonce = 0
        # of its session: 0 and None before the first
        self.join_nonce = 0
        self.dev_addr: int | None = None
        self.keys: Keys | None = None
        self.channels: tuple[int, ...] = FIRST_CHANNELS
        self.next_up = 0
        self.last_down = -1
        # whether the last downlink was confirmed, and no uplink was sent since
        self.owes_ack = False

    def provision(self, offset: int = 0, delay: int = 1) -> str:
        """The request that adds it to the network."""
        key = self.app_key.hex().upper()
        names = {"dev_eui": self.dev_eui, "join_eui": self.join_eui, "app_key": key}
        return wire.PROVISION.format(**names, offset=offset, delay=delay)

    def session(self) -> tuple[int, Keys]:
        """Its address and its keys."""
        if self.dev_addr is None or self.keys is None:
            raise Rejected("the device has no session")
        return self.dev_addr, self.keys

    def join_request(self) -> bytes:
        """A Join-Request under the next DevNonce (TS001-1.0.4 §6.2.5)."""
        self.dev_nonce += 1
        message = b"\x00" + eui_bytes(self.join_eui) + eui_bytes(self.dev_eui)
        message += little(self.dev_nonce, 2)
        return message + aes.cmac(self.app_key, message)[:4]

    def take(self, frame: bytes) -> str:
        """Opens a Join-Accept or a downlink; it in words."""
        return self.take_accept(frame) if frame[0] == 0x20 else self.take_downlink(frame)

    def take_accept(self, frame: bytes) -> str:
        """Opens a Join-Accept, and begins its session (§6.2.6); it in words."""
        if len(frame) not in (17, 33) or frame[0] != 0x20:
            raise Rejected("no Join-Accept")
        fields, right = opened_accept(self.app_key, frame)
        if not right:
            raise Rejected("a Join-Accept with a wrong MIC")
        self.join_nonce, net_id, self.dev_addr = (
            int.from_bytes(fields[start:end], "little") for start, end in ((0, 3), (3, 6), (6, 10))
        )
        self.keys = session_keys(self.app_key, self.join_nonce, net_id, self.dev_nonce)
        self.channels = FIRST_CHANNELS + channels_in(fields[12:])
        self.next_up, self.last_down, self.owes_ack = 0, -1, False
        return (
            f"JoinNonce {self.join_nonce}, NetID {net_id:06X}, DevAddr {self.dev_addr:08X}, "
            f"DLSettings {fields[10]:02X}, RXDelay {fields[11]}, {len(self.channels)} channels"
        )

    def uplink(
        self,
        port: int | None,
        payload: bytes,
        confirmed: bool = False,
        ack: bool = False,
        asks: bool = False,
        f_opts: bytes = b"",
    ) -> bytes:
        """An uplink under the next counter; `asks` is ADRACKReq (§4.3)."""
        address, (network_key, app_key) = self.session()
        counter, self.next_up, self.owes_ack = self.next_up, self.next_up + 1, False
        message = b"\x80" if confirmed else b"\x40"
        message += little(address, 4) + bytes([asks << 6 | ack << 5 | len(f_opts)])
        message += little(counter & 0xFFFF, 2) + f_opts
        if port is not None:
            key = app_key if port else network_key
            message += bytes([port]) + crypted(key, UP, address, counter, payload)
        return message + data_mic(network_key, UP, address, counter, message)

    def take_downlink(self, frame: bytes) -> str:
        """Opens a downlink, whose counter has to be above the last; it in words."""
        message, mic = frame[:-4], frame[-4:]
        if frame[0] not in (0x60, 0xA0) or int.from_bytes(frame[1:5], "little") != self.dev_addr:
            raise Rejected("no downlink of this session")
        address, (network_key, app_key) = self.session()
        low = int.from_bytes(frame[6:8], "little")
        counter = self.last_down + 1 + (low - self.last_down - 1) % 0x10000
        if data_mic(network_key, DOWN, address, counter, message) != mic:
            raise Rejected("a downlink with a wrong MIC")
        self.last_down, self.owes_ack = counter, frame[0] == 0xA0
        words = ["confirmed" if frame[0] == 0xA0 else "unconfirmed", f"counter {counter}"]
        control = frame[5]
        words += ["ACK"] * (control >> 5 & 1) + ["FPending"] * (control >> 4 & 1)
        options = 8 + (control & 15)
        if options > 8:
            words.append(f"FOpts {frame[8:options].hex().upper()}")
        if len(message) > options:
            port, hidden = message[options], message[options + 1 :]
            key = app_key if port else network_key
            payload = crypted(key, DOWN, address, counter, hidden)
            words.append(f"port {port}, payload {payload.hex().upper() or 'empty'}")
        return ", ".join(words)
