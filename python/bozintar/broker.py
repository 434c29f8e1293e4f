"""A connection to an MQTT broker that comes back by itself, for asyncio. If the broker has several
nodes, it comes back to the next one."""

import argparse
import asyncio
import sys
import threading
import time
from collections.abc import Callable
from functools import partial
from typing import Any

from . import members, mqtt
from .logs import Seldom, log, warn
from .running import Handover
from .words import Address, stop

# how long until a broker that didn't take the certificate is tried again, in seconds
REFUSED_PAUSE = 5
# messages of the broker that wait to be read, and their bytes; more are dropped
MOST_READ, MOST_BYTES = 10_000, 8 * 2**20
# the longest payload that is read, as in pilot/mosquitto.conf: JSON takes up to thirty times its
# size in memory
LONGEST = 65_536
# how long the broker may take to hear a goodbye, in seconds
GOODBYE = 1.0
# a connection that the broker closes in this time, in seconds, may be another client's by now
SOON = 10.0
BROKER_HELP = "whether the broker is connected to"
BROKERS_HELP = (
    "where the MQTT broker listens, for example 127.0.0.1:1883. If it is a cluster, name all its "
    "nodes, with commas between them: when a node is lost, the next one is taken"
)
# a broker's answer for a topic that may not be read, and above
REFUSED = 0x80


class Access(members.Access):
    """Where the broker's nodes are, and the certificates for it."""

    @staticmethod
    def add_words(words: argparse.ArgumentParser, is_required: bool = True) -> None:
        """The options about a broker."""
        words.add_argument(
            "--broker",
            type=members.addresses,
            required=is_required,
            metavar="HOST:PORT",
            help=BROKERS_HELP,
        )
        members.Access.add_files(words, "the broker")

    @classmethod
    def of(cls, given: Any) -> "Access":
        """What the options say. Without the MQTT library the program ends here."""
        mqtt.need_it()
        cls.check_files(given)
        return cls(given.broker, given.ca, given.certificate, given.key)


class Broker:
    """What is published is kept until the broker has it; `has_room` is set if fewer than `room`
    messages wait. What comes is given to `take`, in the event loop that this was made in. If
    nothing `is_kept`, the broker keeps nothing that comes while this is away, and what is sent to
    it is of no use later."""

    def __init__(
        self,
        access: Access,
        name: str,
        topics: list[str],
        take: Callable[[str, bytes], None],
        is_kept: bool,
        room: int = 10_000,
    ):
        self.access, self.topics, self.take, self.room = access, topics, take, room
        self.has_room = asyncio.Event()
        self.has_room.set()
        self.waiting, self.overrun, self.counted = 0, 0, 0
        self.taken, self.came = Handover(self.take_taken), Handover(self.read)
        # the bytes of what came and isn't read: `came_bytes` grows in the library's thread, and
        # `read_bytes` in the event loop's
        self.came_bytes, self.read_bytes = 0, 0
        self.is_gone, self.faults = threading.Event(), set[tuple[Address, str]]()
        # a connection that comes and goes is logged at most once a minute; its return, if its end
        # was
        self.seldom, self.is_logged, self.connected = Seldom(), True, 0.0
        self.closed_soon, self.has_ended = 0, False
        self.is_gone.set()
        self.client = mqtt.client(name, is_kept)
        self.client.max_inflight_messages_set(1000)
        self.nodes = mqtt.Nodes(self.client, access.addresses)
        if access.ca:
            self.secure()
        self.client.on_connect = self.on_connect
        self.client.on_connect_fail = self.on_connect_fail
        self.client.on_disconnect = self.on_disconnect
        if is_kept:
            # the library also calls it for what was sent by `say`, which isn't counted
            self.client.on_publish = lambda *_: self.taken.give(None)
        self.client.on_message = self.on_message
        self.client.on_subscribe = self.on_subscribe

    def secure(self) -> None:
        """Gives the library the certificates, which it reads here."""
        try:
            self.client.tls_set(self.access.ca, self.access.certificate, self.access.key)
        except (OSError, ValueError) as why:
            stop(f"the certificates can't be used: {why}")

    def start(self) -> None:
        """Connects, now or as soon as the broker is there."""
        self.nodes.connect()
        self.client.loop_forever = partial(self.go_on, self.client.loop_forever)
        self.client.loop_start()

    def end(self) -> None:
        """Disconnects, if the broker is there. It doesn't wait for the library's thread, which
        would stay until a broker that hangs has all messages."""
        self.has_ended = True
        if self.is_there():
            self.client.disconnect()
            self.is_gone.wait(GOODBYE)
        self.taken.look()
        self.overrun += len(self.came.rest())

    def is_there(self) -> bool:
        """Whether the broker is connected to."""
        return not self.is_gone.is_set()

    def publish(self, topic: str, payload: bytes) -> bool:
        """Sends the broker a message at least once, for as long as this program lives; whether the
        library has a number left for it."""
        if self.client.publish(topic, payload, qos=1).rc == mqtt.paho.MQTT_ERR_QUEUE_SIZE:
            return False
        self.waiting += 1
        if self.waiting >= self.room:
            self.has_room.clear()
        return True

    def say(self, topic: str, payload: bytes) -> bool:
        """Publishes a message that is of no use later; whether the broker is there."""
        return self.client.publish(topic, payload, qos=0).rc == mqtt.paho.MQTT_ERR_SUCCESS

    def dropped(self) -> int:
        """How many messages weren't read since the last call."""
        before, self.counted = self.counted, self.overrun
        return self.counted - before

    def closed_since(self) -> int:
        """How many connections the broker closed soon since the last call."""
        found, self.closed_soon = self.closed_soon, 0
        return found

    def take_taken(self, found: list) -> None:
        """The broker has some of the messages."""
        self.waiting -= len(found)
        if self.waiting < self.room:
            self.has_room.set()

    def read(self, found: list[tuple[str, bytes]]) -> None:
        """Reads messages. What comes while the program ends would begin new work."""
        if self.has_ended:
            self.overrun += len(found)
            return
        for topic, payload in found:
            self.read_bytes += len(topic) + len(payload)
            self.take(topic, payload)

    # what follows is called in the library's thread

    def go_on(self, loop: Callable, **how: Any) -> Any:
        """Lets the library go on. A broker that doesn't take the certificate says so after the
        handshake (TLS 1.3), which would end the library's thread."""
        while True:
            try:
                return loop(**how)
            except OSError as why:
                self.is_gone.set()
                self.miss(str(why))
            time.sleep(REFUSED_PAUSE)
            self.nodes.turn()
            self.nodes.connect()

    def on_connect(self, client: Any, _data: Any, _flags: Any, code: int) -> None:
        """Asks for the topics, again after each connection."""
        if code:
            warn(f"the broker refuses the connection: {mqtt.paho.connack_string(code)}")
            return
        self.is_gone.clear()
        self.faults, self.connected = set(), time.monotonic()
        if self.is_logged:
            log(f"connected to the broker at {self.nodes.address}")
        self.is_logged = False
        if self.topics:
            client.subscribe([(topic, 1) for topic in self.topics])

    def on_connect_fail(self, *_: Any) -> None:
        """The library tries again, without end."""
        self.miss(str(sys.exc_info()[1]))
        self.nodes.turn()

    def miss(self, why: str) -> None:
        """Logs why there is no connection, each reason once."""
        if (self.nodes.address, why) not in self.faults:
            warn(f"no broker at {self.nodes.address}: {why}")
            self.is_logged = True
        self.faults.add((self.nodes.address, why))

    def on_subscribe(self, _client: Any, _data: Any, _number: int, granted: Any) -> None:
        """A topic that may not be read is logged, since nothing will come of it. (mosquitto grants
        all topics, and passes on what its list allows.)"""
        if any(code >= REFUSED for code in granted):
            warn("the broker refuses topics: whose certificate is it?")

    def on_disconnect(self, _client: Any, _data: Any, code: int) -> None:
        """The library connects again by itself."""
        was_there = not self.is_gone.is_set()
        self.is_gone.set()
        if not code:
            return
        text = f"no broker at {self.nodes.address}: {mqtt.paho.error_string(code)}"
        if was_there and time.monotonic() < self.connected + SOON:
            self.closed_soon += 1
            text += " Another client may use this client's name"
        self.is_logged |= self.seldom.warn(text, text)
        if not self.has_ended:
            self.nodes.lost()

    def on_message(self, _client: Any, _data: Any, message: Any) -> None:
        """A message, which is read in the event loop. A retained one is of the past."""
        try:
            topic = message.topic
        except UnicodeDecodeError:
            topic = ""  # no text, which would end the library's thread
        size = len(topic) + len(message.payload)
        is_usable = topic and not message.retain and len(message.payload) <= LONGEST
        if not is_usable or self.is_full(size):
            self.overrun += 1
            return
        self.came_bytes += size
        self.came.give((topic, message.payload))

    def is_full(self, more: int) -> bool:
        """Whether there is no room for one more message of this many bytes."""
        waiting = self.came_bytes - self.read_bytes + more
        return len(self.came.waiting) >= MOST_READ or waiting > MOST_BYTES
