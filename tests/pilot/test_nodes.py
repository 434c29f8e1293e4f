"""A broker of several nodes: a client that loses its node takes the next one. The nodes are brokers
that know nothing of each other, so that it shows which of them a message came to."""

import argparse
import asyncio
import json
import re
import signal
import sqlite3
import time
from collections.abc import AsyncIterator, Callable
from contextlib import asynccontextmanager
from typing import Any

import pytest
from bozintar import mqtt
from bozintar.broker import Access, Broker
from bozintar.members import addresses
from bozintar.processes import HOST, Process, await_all, await_that, command, free_port
from bozintar.words import Address

from .parts import Parts, run
from .rows import table

TOPIC = "trial/said"
# how long a node that hangs may take to be given up: two keepalives and what a busy machine adds
LONG = 60.0
READING = {
    "time": "2026-11-29T16:13:57.305031+00:00",
    "deviceInfo": {"devEui": "70b3d57ed0000001"},
    "joinNonce": 1,
    "fCnt": 5,
    "fPort": 7,
    "data": "AAE=",
}
# what the option says, and what is read
LISTS = (
    ("127.0.0.1:1883", (Address("127.0.0.1", 1883),)),
    ("a:1,[::1]:2,b:65535", (Address("a", 1), Address("::1", 2), Address("b", 65535))),
    ("", None),
    ("a:1,", None),
    (",a:1", None),
    ("a:1,,b:2", None),
    ("a:1, b", None),
    ("a:0", None),
    ("a:1,b:2,a:1", None),
)


class Node:
    """A broker, and a client of it that notes what is published there."""

    def __init__(self, parts: Parts, name: str):
        self.address = Address(HOST, free_port())
        text = f"listener {self.address.port} {HOST}\nallow_anonymous true\n"
        conf = parts.file(f"{name}.conf", text)
        self.process: Process = parts.process(name, command("mosquitto"), "-v", "-c", conf)
        self.came: list[str] = []
        self.client: Any = None
        self.start()

    def start(self) -> None:
        """Starts it, and listens."""
        self.process.start("running")
        self.client = mqtt.client("")
        self.client.on_message = lambda _client, _data, one: self.came.append(one.payload.decode())
        self.client.on_connect = lambda client, *_: client.subscribe(TOPIC, 1)
        self.client.on_subscribe = lambda *_: self.came.append("ready")
        self.client.connect(self.address.host, self.address.port)
        self.client.loop_start()
        await_that("it is listened to", lambda: "ready" in self.came)
        self.came.clear()

    def publish(self, topic: str, body: str) -> None:
        """Publishes a message there."""
        self.client.publish(topic, body, qos=1).wait_for_publish(LONG)

    def kill(self) -> None:
        """Ends it at once."""
        self.leave()
        self.process.kill()

    def leave(self) -> None:
        """Listens no more."""
        self.client.disconnect()
        self.client.loop_stop()


@pytest.mark.parametrize("text, due", LISTS)
def test_lists(text: str, due: tuple | None) -> None:
    """Addresses with commas between them, each once."""
    try:
        found = addresses(text)
    except argparse.ArgumentTypeError:
        found = None
    assert found == due


async def until(what: str, is_so: Callable[[], Any]) -> None:
    """Waits until something is so."""
    last = time.monotonic() + LONG
    while not is_so():
        assert time.monotonic() < last, what
        await asyncio.sleep(0.02)


@asynccontextmanager
async def client_of(*nodes: Node, came: list[str] | None = None) -> AsyncIterator[Broker]:
    """A client of these nodes, whose session is kept."""
    access = Access(tuple(node.address for node in nodes))
    take = lambda _topic, payload: came.append(payload.decode()) if came is not None else None
    made = Broker(access, "one", ["trial/asked"], take, is_kept=True)
    made.start()
    try:
        await until("a node is connected to", made.is_there)
        yield made
    finally:
        made.end()


async def after_a_kill(one: Node, two: Node) -> None:
    """Each node is killed once."""
    async with client_of(one, two) as client:
        client.publish(TOPIC, b"first")
        await until("the first node has it", lambda: one.came == ["first"])
        one.kill()
        client.publish(TOPIC, b"second")
        await until("the second node has it", lambda: two.came == ["second"])
        one.start()
        two.kill()
        client.publish(TOPIC, b"third")
        await until("the first node has it again", lambda: one.came == ["third"])
        await until("nothing waits", lambda: not client.waiting)


def test_after_a_kill(parts: Parts) -> None:
    """The next node is taken, and the first one after the last one. What was published meanwhile
    comes there."""
    one, two = Node(parts, "one"), Node(parts, "two")
    asyncio.run(after_a_kill(one, two))
    one.leave()


async def while_one_hangs(one: Node, two: Node) -> None:
    """The first node hangs."""
    async with client_of(one, two) as client:
        one.process.send_signal(signal.SIGSTOP)
        client.publish(TOPIC, b"kept")
        await until("the second node has it", lambda: two.came == ["kept"])
        assert client.nodes.address == two.address
        one.process.send_signal(signal.SIGCONT)


def test_a_node_that_hangs(parts: Parts) -> None:
    """A node that hangs, whose connections stay open, is given up since it answers no ping."""
    one, two = Node(parts, "one"), Node(parts, "two")
    begun = time.monotonic()
    asyncio.run(while_one_hangs(one, two))
    assert time.monotonic() - begun > mqtt.KEEPALIVE_OF_NODES
    one.leave()
    two.leave()


async def by_a_hanging_one(one: Node, two: Node) -> None:
    """The first node of the list hangs from the beginning."""
    one.process.send_signal(signal.SIGSTOP)
    async with client_of(one, two) as client:
        assert client.nodes.address == two.address
    one.process.send_signal(signal.SIGCONT)


def test_a_node_that_hangs_at_the_start(parts: Parts) -> None:
    """A node that takes a connection and says nothing isn't waited for."""
    one, two = Node(parts, "one"), Node(parts, "two")
    asyncio.run(by_a_hanging_one(one, two))
    one.leave()
    two.leave()


async def kept(one: Node, two: Node) -> list[str]:
    """What a client gets that was away, of the node that it had taken after a loss."""
    async with client_of(one, two) as client:
        one.kill()
        await until("the second node is taken", lambda: client.nodes.address == two.address)
        await until("it is connected to", client.is_there)
    two.publish("trial/asked", "while it was away")
    came: list[str] = []
    async with client_of(two, one, came=came):
        await until("what was kept", lambda: came)
    return came


def test_sessions(parts: Parts) -> None:
    """Each node keeps the session that the client has with it."""
    one, two = Node(parts, "one"), Node(parts, "two")
    assert asyncio.run(kept(one, two)) == ["while it was away"]
    two.leave()


@table("how", [("killed",), ("stopped",)])
def test_readings(parts: Parts, how: str) -> None:
    """`readings` takes the next node, too."""
    one, two = Node(parts, "one"), Node(parts, "two")
    db, both = parts.file("readings.db"), f"{one.address},{two.address}"
    words = ("--db", db, "--broker", both, "--application", 3)
    readings = parts.own("readings", *words).start(f"connected to the broker at {one.address}")
    one.process.send_signal(signal.SIGSTOP if how == "stopped" else signal.SIGKILL)
    due = f"connected to the broker at {two.address}"
    await_that("the next node is taken", lambda: readings.has_said(due))
    two.publish("application/3/device/70b3d57ed0000001/event/up", json.dumps(READING))
    with sqlite3.connect(db) as database:
        rows = lambda: database.execute("SELECT device, counter FROM readings").fetchall()
        await_all("a reading is stored", rows)
        assert rows() == [("70B3D57ED0000001", 5)]
    for node in (one, two):
        node.leave()


@table("how", [("killed",), ("stopped",)])
def test_metrics(parts: Parts, how: str) -> None:
    """`metrics` asks the next node, if the first one is away or hangs."""
    one, two = Node(parts, "one"), Node(parts, "two")
    one.process.send_signal(signal.SIGSTOP if how == "stopped" else signal.SIGKILL)
    # a message that the second node keeps, and the first one doesn't
    two.client.publish("trial/kept", "kept", qos=1, retain=True).wait_for_publish(LONG)
    both = f"{one.address},{two.address}"
    words = (parts.file("no-store"), "--lnsd", "/bin/true", "--broker", both)
    printed = lambda: run("metrics", *words, timeout=LONG)
    # mosquitto writes its numbers now and then
    await_that("the number of the second node", lambda: of_broker(printed()[1]) > 0, LONG, 1)
    for node in (one, two):
        node.leave()


def of_broker(text: str) -> float:
    """How many messages a broker keeps, by what `metrics` prints; 0 if it doesn't say that."""
    found = re.search(r"^pilot_broker_messages (\S+)$", text, re.MULTILINE)
    return float(found[1]) if found else 0.0
