"""What an application's lines say, as the JSON that ChirpStack's users know, and its commands as
lines. The names of fields are those of ChirpStack's events, version 4; what has no counterpart is
left out, or has a name of its own."""

import re
import uuid
from collections.abc import Callable
from dataclasses import dataclass
from typing import Any

from bozintar import fields
from bozintar.fields import Wrong
from bozintar.wire import byte_text, bytes_of

from .mac_commands import DEV_STATUS, sent_commands

# of identifiers that follow from what they name, so that what comes twice has the same one
SPACE = uuid.UUID("6f7a0c0e-7d0b-5f0e-9d57-0a3c5e1f7b21")
MOST_ITEM, MOST_MAC = 242, 128
# an event's kind, and what it says besides whose it is and when
Named = tuple[str, dict]
# the numbers of docs/FORMATS.md that a request may be refused with
REFUSALS = {
    7: ("UNKNOWN_DEVICE", "no device of this application has this DevEUI"),
    12: ("QUEUE_FULL", "16 items wait for the device"),
    14: ("DOWNLINK_PAYLOAD_SIZE", "the payload has more than 242 bytes"),
    15: ("BAD_PORT", "the port isn't one from 1 to 223"),
    16: ("DEV_EUI_TAKEN", "a device has this DevEUI already; it stays as it was"),
    13: ("MAC_QUEUE_FULL", "above 128 bytes of MAC commands would wait for the device"),
    17: ("TABLE_FULL", "each slot of the network has a device"),
    18: ("BAD_MAC", "these aren't whole LinkADRReq, DutyCycleReq and DevStatusReq commands"),
    23: ("BACKLOG", "too many decisions wait"),
    30: ("OUT_OF_MEMORY", "the network has no memory left"),
    51: ("BAD_MESSAGE", "the network doesn't know such a request"),
}


@dataclass(frozen=True)
class Event:
    """An event of a device."""

    device: str
    kind: str
    body: dict

    def topic(self, application: int) -> str:
        """Where it is published."""
        return f"application/{application}/device/{self.device.lower()}/event/{self.kind}"


@dataclass(frozen=True)
class Command:
    """What is asked for a device, under an id."""

    device: str
    identifier: str

    @staticmethod
    def fields_in(device: str, body: bytes) -> tuple[dict, str]:
        """The fields of any command, and its id."""
        said = fields.table(fields.parsed(body))
        if "devEui" in said and fields.text(said, "devEui").upper() != device:
            raise Wrong("devEui isn't the topic's")
        return said, Command.identifier_in(said)

    @staticmethod
    def identifier_in(said: dict) -> str:
        """The id in the fields of a command."""
        identifier = said.get("id") or ""
        if not isinstance(identifier, str) or len(identifier) > 64:
            raise Wrong("id is no text of at most 64 characters")
        return identifier

    @property
    def is_followed(self) -> bool:
        """Whether the network says later what became of it."""
        return False

    @property
    def flushes(self) -> bool:
        """Whether it asks that what waits before it is dropped."""
        return False

    def line(self, tag: int) -> str:
        """The request."""
        raise NotImplementedError

    def due(self, tag: int) -> str:
        """The answer, if the network takes it."""
        raise NotImplementedError


@dataclass(frozen=True)
class Item(Command):
    """A downlink that is asked for."""

    port: int
    confirmed: bool
    payload: bytes
    flush: bool = False

    @classmethod
    def read(cls, device: str, body: bytes) -> "Item":
        """The item in a command `down`."""
        said, identifier = cls.fields_in(device, body)
        confirmed, flush = said.get("confirmed", False), said.get("flushQueue", False)
        for name, value in (("confirmed", confirmed), ("flushQueue", flush)):
            if not isinstance(value, bool):
                raise Wrong(f"{name} is neither true nor false")
        port = fields.whole(said, "fPort", 0, 255)
        # a longer one is refused by the network, which sends the reason
        payload = fields.payload({"data": said.get("data", "")}, "data", MOST_ITEM + 1)
        return cls(device, identifier, port, confirmed, payload, flush)

    @property
    def is_followed(self) -> bool:
        return self.confirmed

    @property
    def flushes(self) -> bool:
        return self.flush

    def line(self, tag: int) -> str:
        kind, shown = "c" if self.confirmed else "u", byte_text(self.payload)
        return f"queue {self.device} {tag} {self.port} {kind} {shown}"

    def due(self, tag: int) -> str:
        return f"queued {self.device} {tag}"


@dataclass(frozen=True)
class Mac(Command):
    """MAC commands that are asked for."""

    commands: str

    @classmethod
    def read(cls, device: str, body: bytes) -> "Mac":
        """The MAC commands in a command `mac`."""
        said, identifier = cls.fields_in(device, body)
        commands = fields.text(said, "commands").upper()
        # the network looks whether they are whole
        if not re.fullmatch(rf"([0-9A-F]{{2}}){{1,{MOST_MAC}}}", commands):
            raise Wrong(f"commands aren't hex digits of 1 to {MOST_MAC} bytes")
        return cls(device, identifier, commands)

    def line(self, _tag: int) -> str:
        return f"mac {self.device} {self.commands}"

    def due(self, _tag: int) -> str:
        return f"macqueued {self.device} {self.commands}"


def identifier(*of: Any) -> str:
    """An identifier that follows from what it names."""
    return str(uuid.uuid5(SPACE, " ".join(map(str, of))))


def of_topic(topic: str, application: int) -> re.Match[str] | None:
    """The device and the kind of a command."""
    return re.fullmatch(
        rf"application/{application}/device/([0-9A-Fa-f]{{16}})/command/(down|mac)", topic
    )


def meant(topic: str, application: int, body: bytes) -> Command | None:
    """Whose command a message was meant to be, and its id if that can be read."""
    found = of_topic(topic, application)
    try:
        identifier = Command.identifier_in(fields.table(fields.parsed(body)))
    except Wrong:
        identifier = ""
    return Command(found[1].upper(), identifier) if found else None


def command_in(topic: str, application: int, body: bytes) -> Command:
    """The command of a message."""
    found = of_topic(topic, application)
    if not found:
        raise Wrong("no command down or mac of a device")
    if found[2] == "down":
        return Item.read(found[1].upper(), body)
    return Mac.read(found[1].upper(), body)


class Translator:
    """Makes events of one application's lines. `name` finds the id of an item by its device and its
    tag, and `store` the name of a device's store, if there are several stores."""

    def __init__(
        self,
        application: int,
        name: Callable[[str, int], str | None],
        store: Callable[[str], str | None] = lambda _device: None,
    ):
        self.application, self.name, self.store = application, name, store
        # the names of devices that have one
        self.devices: dict[str, str] = {}

    def event(self, line: str, time: str, bounds: dict | None = None) -> Event:
        """The event of a line. `time` is when it came, and `bounds` what else is said of that. A
        later server may add words at the end of a line, which are ignored."""
        kind, device, *words = line.split(" ")
        of_kind: dict[str, Callable[..., Named]] = {
            "up": self.up,
            "acked": self.acked,
            "lost": self.lost,
            "mac": self.mac,
            "spent": self.spent,
            "queued": self.queued,
        }
        if kind not in of_kind:
            raise Wrong(f"a line {kind[:20]}")
        if not re.fullmatch("[0-9A-F]{16}", device):
            raise Wrong(f"a line {kind} of no device")
        name, body = of_kind[kind](device, *words)
        base = {"time": time, **(bounds or {}), "deviceInfo": self.device_info(device)}
        return Event(device, name, {**base, **body})

    def events(self, line: str, time: str, bounds: dict | None = None) -> list[Event]:
        """The events of a line: that of `event`, and one for each status that came beside other
        MAC commands."""
        first = self.event(line, time, bounds)
        if first.kind != "mac":
            return [first]
        base = {name: first.body[name] for name in ("time", *(bounds or {}), "deviceInfo")}
        sent = sent_commands(bytes_of(first.body["commands"]))
        bodies = [{**base, **status(*payload)} for kind, payload in sent if kind == DEV_STATUS]
        return [first, *(Event(first.device, "status", body) for body in bodies)]

    def device_info(self, device: str) -> dict:
        """Whose event it is."""
        info = {"applicationId": str(self.application), "devEui": device.lower()}
        more = {"deviceName": self.devices.get(device), "store": self.store(device)}
        return info | {key: text for key, text in more.items() if text}

    def up(
        self,
        device: str,
        session: str,
        counter: str,
        port: str,
        payload: str,
        copies: str,
        gateway: str,
        hz: str,
        rate: str,
        snr: str,
        rssi: str,
        *_more: str,
    ) -> Named:
        """A reading. `copies` gateways heard it; the words after that are of the best one."""
        lora = {"bandwidth": 125000, "spreadingFactor": 12 - int(rate), "codeRate": "CR_4_5"}
        best = {"gatewayId": gateway.lower(), "rssi": int(rssi), "snr": int(snr) / 4}
        return "up", {
            "deduplicationId": identifier("up", device, session, counter),
            "joinNonce": int(session),
            "fCnt": int(counter),
            "fPort": int(port),
            "dr": int(rate),
            "data": fields.shown(bytes_of(payload)),
            "copies": int(copies),
            "rxInfo": [best],
            "txInfo": {"frequency": int(hz), "modulation": {"lora": lora}},
        }

    def acked(self, device: str, tag: str, *_more: str) -> Named:
        """The device acknowledged an item."""
        return "ack", {**self.item(device, tag), "acknowledged": True}

    def lost(self, device: str, tag: str, *_more: str) -> Named:
        """The device didn't acknowledge an item."""
        return "ack", {**self.item(device, tag), "acknowledged": False}

    def queued(self, device: str, tag: str, *_more: str) -> Named:
        """An item waits."""
        return "queued", self.item(device, tag)

    def item(self, device: str, tag: str) -> dict:
        """Which item it was: by the id that it was asked with, if that is still known."""
        return {"queueItemId": self.name(device, int(tag)) or tag, "tag": int(tag)}

    def mac(self, _device: str, session: str, commands: str, *_more: str) -> Named:
        """The device sent MAC commands; its status has an event of its own."""
        said = bytes_of(commands)
        if len(said) == 3 and said[0] == DEV_STATUS:
            return "status", status(said[1], said[2])
        return "mac", {"joinNonce": int(session), "commands": commands}

    def spent(self, _device: str, session: str, *_more: str) -> Named:
        """The session has no downlink counter left."""
        code = {"level": "ERROR", "code": "FRAME_COUNTERS_SPENT", "joinNonce": int(session)}
        return "log", {**code, "description": "the session has no downlink counter left"}

    def failed(self, command: Command, code: str, description: str, time: str) -> Event:
        """What was asked for isn't queued."""
        body = {"time": time, "deviceInfo": self.device_info(command.device), "level": "ERROR"}
        body |= {"code": code, "description": description}
        context = {"queue_item_id": command.identifier}
        return Event(command.device, "log", {**body, "context": context})

    def macqueued(self, asked: Mac, time: str) -> Event:
        """MAC commands wait."""
        body = {"time": time, "deviceInfo": self.device_info(asked.device)}
        body |= {"queueItemId": asked.identifier, "commands": asked.commands}
        return Event(asked.device, "macqueued", body)


def status(battery: int, margin: int) -> dict:
    """A DevStatusAns (TS001-1.0.4 §5.5)."""
    signed = (margin & 0x3F) - (0x40 if margin & 0x20 else 0)
    return {
        "margin": signed,
        "externalPowerSource": battery == 0,
        "batteryLevelUnavailable": battery == 255,
        "batteryLevel": round(100 * battery / 254, 2) if 0 < battery < 255 else 0,
    }


def refusal(line: str) -> tuple[str, str]:
    """The code and the description of a line `refused`, which may have no number in it."""
    found = re.fullmatch(r"refused ([0-9]{1,3})(?: .*)?", line)
    if not found:
        return "REFUSED", "the network doesn't say why"
    number = int(found[1])
    return REFUSALS.get(number, (f"REFUSED_{number}", "docs/FORMATS.md explains it"))
