"""The protocol of Semtech's UDP packet forwarder (GWMP), versions 1 and 2: its datagrams, its
report of a frame that it heard (`rxpk`), and the order to send one (`txpk`)."""

import re
from dataclasses import dataclass
from enum import IntEnum
from typing import Any

from bozintar import fields
from bozintar.fields import Wrong
from bozintar.wire import MOST_PAYLOAD, Copy, Downlink, Heard, Window

VERSIONS = (1, 2)
HEAD = 12
DATA_RATE = re.compile(r"SF(7|8|9|10|11|12)BW125")
# errors of a TX_ACK by which RX1 surely wasn't sent, and RX2 may be: it is later, and on another
# frequency with a power of its own
MISSED = ("TOO_LATE", "COLLISION_PACKET", "COLLISION_BEACON", "TX_FREQ", "TX_POWER")


class Kind(IntEnum):
    """The kinds of datagrams."""

    PUSH_DATA = 0
    PUSH_ACK = 1
    PULL_DATA = 2
    PULL_RESP = 3
    PULL_ACK = 4
    TX_ACK = 5


class OtherFrame(Exception):
    """What was heard is none that the network wants; the argument is what it is counted by."""


@dataclass(frozen=True)
class Datagram:
    """A datagram of a gateway."""

    version: int
    token: bytes
    kind: Kind
    gateway: str
    body: bytes

    @classmethod
    def read(cls, data: bytes) -> "Datagram":
        """A datagram's fields."""
        if len(data) < HEAD or data[0] not in VERSIONS:
            raise Wrong("no datagram of versions 1 and 2")
        if data[3] not in (Kind.PUSH_DATA, Kind.PULL_DATA, Kind.TX_ACK):
            raise Wrong(f"a datagram of kind {data[3]}")
        gateway = data[4:HEAD].hex().upper()
        return cls(data[0], data[1:3], Kind(data[3]), gateway, data[HEAD:])

    def acknowledgement(self) -> bytes:
        """What is answered at once."""
        kind = Kind.PUSH_ACK if self.kind is Kind.PUSH_DATA else Kind.PULL_ACK
        return bytes([self.version]) + self.token + bytes([kind])


def response(version: int, token: bytes, txpk: dict) -> bytes:
    """The datagram by which a gateway sends a frame."""
    head = bytes([version]) + token + bytes([Kind.PULL_RESP])
    return head + fields.compact({"txpk": txpk})


def bare(body: bytes) -> bytes:
    """A datagram's text; some forwarders send the NUL that ends it in C."""
    return body.strip(b"\0 \r\n")


def heard_in(body: bytes) -> list:
    """The `rxpk` of a PUSH_DATA's text."""
    heard = fields.table(fields.parsed(bare(body))).get("rxpk", [])
    if not isinstance(heard, list):
        raise Wrong("rxpk is no list")
    return heard


def frame_in(gateway: str, rxpk: Any) -> Heard:
    """A frame that was heard. For frames other than the network's, `OtherFrame` has the kind."""
    rxpk = fields.table(rxpk)
    if rxpk.get("stat") != 1:
        raise OtherFrame("without_crc")
    found = DATA_RATE.fullmatch(str(rxpk.get("datr")))
    if rxpk.get("modu") != "LORA" or not found:
        raise OtherFrame("other_modulations")
    payload = fields.payload(rxpk, "data", MOST_PAYLOAD)
    if rxpk.get("size", len(payload)) != len(payload):
        raise Wrong("data isn't of its size")
    snr, rssi = signal_of(rxpk)
    copy = Copy(
        gateway=gateway,
        frequency=round(fields.number(rxpk, "freq", 0, 4294) * 1e6),
        data_rate=12 - int(found[1]),
        snr=snr,
        rssi=rssi,
        stamp=fields.whole(rxpk, "tmst", 0, 2**32 - 1),
    )
    return Heard(copy, payload)


def signal_of(rxpk: dict) -> tuple[int, int]:
    """SNR in quarter dB, and the channel's RSSI: a gateway of several antennas says both of each,
    and the best one counts."""
    antennas = [rxpk]
    if "lsnr" not in rxpk and isinstance(rxpk.get("rsig"), list) and rxpk["rsig"]:
        antennas = [{**fields.table(one), "rssi": one.get("rssic")} for one in rxpk["rsig"]]
    return max(
        (
            fields.snr(antenna, "lsnr"),
            round(fields.number(antenna, "rssi", -32768, 32767)),
        )
        for antenna in antennas
    )


def txpk_of(downlink: Downlink, window: Window, power: int) -> dict:
    """The order to a gateway to send in this window. Power is in dBm."""
    return {
        "imme": False,
        "tmst": downlink.moment(window),
        "freq": window.frequency / 1e6,
        "rfch": 0,
        "powe": power,
        "modu": "LORA",
        "datr": f"SF{12 - window.data_rate}BW125",
        "codr": "4/5",
        "ipol": True,
        "ncrc": True,
        "size": len(downlink.frame),
        "data": fields.shown(downlink.frame),
    }


def error_in(body: bytes) -> str:
    """The error of a TX_ACK's text, or `NONE`."""
    if not bare(body):
        return "NONE"
    said = fields.table(fields.parsed(bare(body))).get("txpk_ack") or {}
    error = fields.table(said).get("error")
    if error is not None and not isinstance(error, str):
        raise Wrong("error is no text")
    return error or "NONE"
