"""The MQTT library, Debian's python3-paho-mqtt: version 1.6, or a later one of version 2."""

import socket
from collections.abc import Sequence
from typing import Any

from .debian import library
from .words import Address, stop

paho = library("paho.mqtt.client")
# seconds without a word of the broker until the library asks for one. After as many more without
# an answer the connection is given up. Of several nodes a client takes the next one then
KEEPALIVE, KEEPALIVE_OF_NODES = 30, 5
# seconds between two tries: the first, and the longest, to which they double
PAUSES, PAUSES_OF_NODES = (1.0, 30.0), (0.2, 5.0)


def need_it() -> None:
    """Ends with a line if there is no library."""
    if not paho:
        stop("there is no Python library paho.mqtt: apt install python3-paho-mqtt")


def client(name: str, is_kept: bool = False) -> Any:
    """The library's client, which is called back in the way of version 1. If `is_kept`, the broker
    keeps its session."""
    need_it()
    versions = getattr(paho, "CallbackAPIVersion", None)
    how = {"callback_api_version": versions.VERSION1} if versions else {}
    return paho.Client(client_id=name, clean_session=not is_kept, **how)


class Nodes:
    """The nodes of a broker. A client uses one at a time. After each loss, and each try that
    failed, it takes the next one. What is called here are callbacks of the library, after which the
    library connects again by itself."""

    def __init__(
        self,
        used_by: Any,
        addresses: Sequence[Address],
        pauses: tuple[float, float] = PAUSES,
    ):
        self.client, self.addresses, self.at = used_by, tuple(addresses), 0
        self.has_several, self.is_open = len(self.addresses) > 1, False
        used_by.reconnect_delay_set(*(PAUSES_OF_NODES if self.has_several else pauses))
        used_by.on_socket_open = self.on_open

    @property
    def address(self) -> Address:
        """The node that the client uses, or tries."""
        return self.addresses[self.at]

    def connect(self) -> None:
        """Lets the library connect to that node."""
        keepalive = KEEPALIVE_OF_NODES if self.has_several else KEEPALIVE
        self.client.connect_async(self.address.host, self.address.port, keepalive)

    def on_open(self, _client: Any, _data: Any, connection: socket.socket) -> None:
        """Lets a connection send what is small at once, and not 40 ms later."""
        connection.setsockopt(socket.IPPROTO_TCP, socket.TCP_NODELAY, 1)
        self.is_open = True

    def lost(self) -> None:
        """The connection has ended. The library reports the end of one twice if a ping stayed
        without an answer."""
        if self.is_open:
            self.turn()

    def turn(self) -> None:
        """Takes the next node, if there are several."""
        self.is_open = False
        if self.has_several:
            self.at = (self.at + 1) % len(self.addresses)
            self.connect()
