"""What mosquitto says of itself, in topics below $SYS (mosquitto(8)). It doesn't say how much waits
for one client, but how much it keeps for all that are away."""

import threading
from dataclasses import dataclass
from typing import Any

from bozintar import mqtt
from bozintar.broker import Access
from bozintar.words import Address

# how long the broker may take, in seconds
PATIENCE = 3.0


@dataclass(frozen=True)
class Number:
    """A number of the broker."""

    topic: str
    name: str
    kind: str
    help: str


NUMBERS = (
    Number(
        "$SYS/broker/store/messages/count",
        "pilot_broker_messages",
        "gauge",
        "messages that the broker keeps, most of them for clients that are away",
    ),
    Number(
        "$SYS/broker/store/messages/bytes",
        "pilot_broker_bytes",
        "gauge",
        "the bytes of the messages that the broker keeps",
    ),
    Number(
        "$SYS/broker/publish/messages/dropped",
        "pilot_broker_dropped_messages",
        "counter",
        "messages that the broker dropped, for example since too many waited for a client",
    ),
)
BY_TOPIC = {number.topic: number for number in NUMBERS}


class Asked:
    """One connection, on which the broker sends its numbers at once, since they are retained. Of
    several nodes the first one that answers is asked."""

    def __init__(self, access: Access):
        self.access, self.found = access, dict[Number, float]()
        self.has_answered, self.has_all = threading.Event(), threading.Event()

    def on_connect(self, client: Any, _data: Any, _flags: Any, code: int) -> None:
        """Asks for the topics, if the broker takes this client."""
        if not code:
            self.has_answered.set()
            client.subscribe([(topic, 0) for topic in BY_TOPIC])

    def on_message(self, _client: Any, _data: Any, message: Any) -> None:
        """A number."""
        number = BY_TOPIC.get(message.topic)
        try:
            if number and message.payload.isdigit():
                self.found[number] = float(message.payload)
        finally:
            if len(self.found) == len(NUMBERS):
                self.has_all.set()

    def ask(self) -> dict[Number, float]:
        """The numbers; none if no node is there, or the one that is doesn't say them."""
        for address in self.access.addresses:
            if self.ask_one(address):
                break
        return dict(self.found)

    def ask_one(self, address: Address) -> bool:
        """Asks a node; whether it has answered. One that hangs still takes connections."""
        at, client = self.access, mqtt.client("")
        client.on_connect, client.on_message = self.on_connect, self.on_message
        try:
            if at.ca:
                client.tls_set(at.ca, at.certificate, at.key)
            client.connect(address.host, address.port, keepalive=10)
        except (OSError, ValueError):
            return False
        client.loop_start()
        if self.has_answered.wait(PATIENCE):
            self.has_all.wait(PATIENCE)
        client.disconnect()
        client.loop_stop()
        return self.has_answered.is_set()
