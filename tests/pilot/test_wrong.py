"""Wrong words, files and peers: a program says what is wrong in a line, or goes on."""

import os
import random
import socket
import subprocess
import sys
import threading
import time
from collections.abc import Callable, Iterator
from typing import Any

import pytest

from bozintar import oracle
from bozintar.fields import Wrong
from bozintar.processes import HOST, await_that
from bozintar.wire import Downlink, Frames, NoMessage, line_of
from bridges.application_events import Translator

from .field import GATEWAYS
from .parts import PILOT, Pilot, run
from .played import nobody_reads
from .rows import table

AT = "127.0.0.1:1"
GATEWAY = ("--gateway", GATEWAYS[0])
UDP = ("--network", AT, "--udp", AT)
MQTT = ("--network", AT, "--broker", AT)
NOWHERE = "/nowhere/at/all"
DOOR = (
    "--listen",
    AT,
    "--network",
    AT,
    "--ca",
    NOWHERE,
    "--certificate",
    NOWHERE,
    "--key",
    NOWHERE,
)
READINGS = ("--db", ":memory:", "--broker", AT, "--application", "3")
# a program with its words, and the status that it ends with
WORDS = (
    ("gateways-udp", (), 2),
    ("gateways-udp", (*UDP, "x"), 2),
    ("gateways-udp", ("--network", "7", "--udp", AT, *GATEWAY), 2),
    ("gateways-udp", ("--network", AT, "--udp", "h:65536", *GATEWAY), 2),
    ("gateways-udp", ("--network", AT, "--udp", "a..b:1700", *GATEWAY), 2),
    ("gateways-udp", ("--network", f"{64 * 'a'}.b:1", "--udp", AT, *GATEWAY), 2),
    ("gateways-udp", UDP, 2),
    ("gateways-udp", (*UDP, "--gateway", "B1"), 2),
    ("gateways-udp", (*UDP, "--gateways", NOWHERE), 1),
    ("gateways-udp", (*UDP, "--gateways", "/"), 1),
    ("gateways-udp", (*UDP, "--gateways", "/bin/sh"), 2),
    ("gateways-udp", ("--network", AT, "--udp", "192.0.2.1:1700", *GATEWAY), 1),
    ("gateways-udp", ("--network", AT, "--udp", "no.invalid:1700", *GATEWAY), 1),
    ("gateways-udp", (*UDP, *GATEWAY, "--power", "99"), 2),
    ("gateways-mqtt", MQTT, 2),
    ("gateways-mqtt", (*MQTT, *GATEWAY, "--prefix", "a/#"), 2),
    ("gateways-mqtt", (*MQTT, *GATEWAY, "--ca", NOWHERE), 1),
    ("gateways-mqtt", (*MQTT, *GATEWAY, "--ca", "/bin/sh"), 1),
    ("gateways-mqtt", (*MQTT, *GATEWAY, "--certificate", "x"), 2),
    ("gateways-mqtt", (*MQTT, *GATEWAY, "--certificate", "x", "--key", "x"), 2),
    ("gateways-mqtt", ("--network", AT, "--broker", "a..b:1", *GATEWAY), 2),
    ("applications-mqtt", MQTT, 2),
    ("applications-mqtt", (*MQTT, "--application", "16"), 2),
    ("applications-mqtt", (*MQTT, "--application", "3", "--devices", NOWHERE), 1),
    ("applications-mqtt", (*MQTT, "--application", "-1"), 2),
    ("applications-mqtt", (*MQTT, "--application", "3", "--ids", NOWHERE), 1),
    ("applications-mqtt", (*MQTT, "--application", "3", "--ids", "/bin/sh"), 1),
    ("applications-mqtt", ("--check",), 2),
    ("applications-mqtt", ("--check", "--devices", NOWHERE), 1),
    ("readings", (), 2),
    ("readings", ("--db", NOWHERE, "--report"), 1),
    ("readings", ("--db", "/bin/sh", "--report"), 1),
    ("readings", ("--db", ":memory:", "--report", "--list", NOWHERE), 1),
    ("readings", ("--db", ":memory:", "--broker", "x", "--application", "3"), 2),
    ("readings", ("--db", ":memory:", "--broker", "h:70000", "--application", "3"), 2),
    ("readings", ("--db", ":memory:", "--report", "--devices", NOWHERE), 1),
    ("readings", ("--db", ":memory:", "--report", "--devices", "/bin/sh"), 1),
    ("readings", ("--db", ":memory:", "--broker", AT, "--application", "x"), 2),
    ("readings", ("--db", ":memory:", "--broker", AT, "--application", "16"), 2),
    ("readings", ("--db", NOWHERE, "--join-nonces"), 1),
    ("readings", ("--db", "/bin/sh", "--join-nonces"), 1),
    ("readings", ("--db", ":memory:", "--join-nonces", "--report"), 2),
    ("readings", ("--db", ":memory:", "--silent", "48"), 2),
    ("readings", ("--db", ":memory:", "--silent", "48h", "--report"), 2),
    ("readings", ("--db", ":memory:", "--report", "--restored", NOWHERE), 2),
    ("readings", (*READINGS, "--certificate", "x", "--key", "x"), 2),
    ("readings", (*READINGS, "--ca", NOWHERE), 1),
    ("metrics", (), 2),
    ("metrics", ("store", "--lnsd", "/bin/false", "--out", "x"), 2),
    ("metrics", ("store", "--lnsd", "/bin/false", "--out", f"{NOWHERE}/x.prom"), 1),
    ("metrics", ("store", "--lnsd", "/"), 1),
    ("metrics", ("store", "--lnsd", "/bin/false", "--counts", "/"), 2),
    ("wireshark-keys", ("--devices", NOWHERE), 2),
    ("wireshark-keys", ("/bin/sh", "--devices", NOWHERE), 1),
    ("wireshark-keys", ("/bin/sh", "--devices", "/dev/null"), 1),
    ("convert-devices", ("chirpstack",), 2),
    ("convert-devices", ("v3", "/bin/sh"), 2),
    ("convert-devices", ("list", NOWHERE), 1),
    ("convert-devices", ("chirpstack", NOWHERE), 1),
    ("convert-devices", ("things-stack", "/bin/sh"), 1),
    ("convert-devices", ("chirpstack", "/dev/null", "--application", "x=16"), 2),
    ("convert-devices", ("chirpstack", "/dev/null", "--delay", "0"), 2),
    ("convert-devices", ("chirpstack", "/dev/null", "--join-eui", "1"), 2),
    ("secure/certificates", (NOWHERE, "server", "x"), 1),
    ("secure/certificates", (NOWHERE, "server"), 2),
    ("secure/certificates", (NOWHERE, "server", "a/CN=b"), 2),
    ("secure/certificates", (NOWHERE, "server", ":"), 2),
    ("secure/certificates", (NOWHERE, "bridge"), 2),
    ("secure/certificates", (NOWHERE, "bridge", "a", "b"), 2),
    ("secure/certificates", (NOWHERE, "application", "3", "A"), 2),
    ("secure/certificates", (NOWHERE, "gateway", "B1"), 2),
    ("secure/certificates", (NOWHERE, "application", "3", "4", "5"), 2),
    ("secure/certificates", (NOWHERE, "stranger"), 2),
    ("secure/certificates", (NOWHERE, "revoke", "x"), 1),
    ("secure/door", (), 2),
    ("secure/door", (*DOOR, "--connections", "0"), 2),
    ("secure/door", (*DOOR, "--listen", "x"), 2),
    ("secure/door", DOOR, 1),
    ("secure/door", (*DOOR, "--crl", "/dev/null"), 1),
    ("copy", (), 2),
    ("copy", (NOWHERE, "/"), 1),
    ("copy", ("/dev/null", NOWHERE), 2),
    ("copy", ("/dev/null", "/", "--keep", "0"), 2),
    ("install", ("x",), 2),
    ("play", (), 2),
    ("play", ("--udp", "h:1", "--gateway", "x"), 2),
    ("play", ("--udp", "h:\u00b2"), 2),
    ("play", ("--udp", "no.invalid:1700"), 1),
)

# what a network that is none says: contents, or bytes
STRANGE = (
    b"\xff\xff",
    b"\x02\xbd" + bytes(701),
    oracle.message(b""),
    oracle.message(b"\x55\x01"),
    oracle.message(b"\x11" + bytes(8)),
    oracle.message(b"\x11" + bytes(18) + b"\x00"),
    oracle.message(b"\x11" + bytes.fromhex(GATEWAYS[0]) + b"\xff" * 11 + bytes(255)),
    oracle.message(b"\x13"),
    oracle.message(b"\x13up"),
    oracle.message(b"\x13up 1112131415161718 1 0 7 04D2 1 00000000000000B1 868100000 5 -20"),
    oracle.message(b"\x13up 1112131415161718 x 0 7 04D2 1 00000000000000B1 868100000 5 -20 -95"),
    oracle.message(b"\x13up 1112131415161718 1 0 7 4D2 1 00000000000000B1 868100000 5 -20 -95"),
    oracle.message(b"\x13acked 1112131415161718"),
    oracle.message(b"\x13acked 1112131415161718 x"),
    oracle.message(b"\x13mac 1112131415161718 1 06"),
    oracle.message(b"\x13refused"),
    oracle.message(b"\x13refused x"),
    oracle.message("\x13up \u00e4".encode()),
)
PROGRAMS = sorted({name for name, _, _ in WORDS})


def ended(name: str, *said: str) -> tuple[int | None, str, str]:
    """How a program ends; its status is None if it goes on."""
    try:
        return run(name, *said, stdin=subprocess.DEVNULL, timeout=60)
    except subprocess.TimeoutExpired:
        return None, "", ""


@table("said, due", [(" ".join((name, *said)), due) for name, said, due in WORDS])
def test_wrong_words(said: str, due: int) -> None:
    """Wrong words and files: one line, and no traceback."""
    status, _, told = ended(*said.split(" "))
    assert (status, len(told.strip().splitlines())) == (due, 1), told
    assert "Traceback" not in told


@pytest.mark.parametrize("name", PROGRAMS)
def test_help(name: str) -> None:
    """--help says something."""
    status, out, told = ended(name, "--help")
    assert (status, told) == (0, "")
    assert len(out) > 200


@pytest.mark.parametrize("to", ("a full disk", "a pipe that nobody reads"))
@pytest.mark.parametrize("name", ("applications-mqtt", "gateways-mqtt", "gateways-udp", "metrics"))
def test_help_that_nobody_reads(name: str, to: str) -> None:
    """How --help ends if its output can't be written, buffered as it is by itself."""
    output, due = (open("/dev/full", "w"), (1, 1)) if "disk" in to else (nobody_reads(), (141, 0))
    environment = {name: of for name, of in os.environ.items() if name != "PYTHONUNBUFFERED"}
    how: Any = {"stdout": output, "stderr": subprocess.PIPE, "text": True, "env": environment}
    with output:
        came = subprocess.run([sys.executable, str(PILOT / name), "--help"], check=False, **how)
    assert (came.returncode, came.stderr.count("\n")) == due


class Stranger:
    """A network that says what none does."""

    def __init__(self, seed: int) -> None:
        self.chance, self.links = random.Random(seed), 0
        self.listener = socket.create_server((HOST, 0))
        self.port = self.listener.getsockname()[1]
        threading.Thread(target=self.serve, daemon=True).start()

    def serve(self) -> None:
        """Greets each link with one of the strange things, in turn, and noise."""
        while True:
            try:
                connection, _ = self.listener.accept()
            except OSError:
                return  # it is shut
            with connection:
                connection.settimeout(1)
                try:
                    connection.recv(100)
                    connection.sendall(STRANGE[self.links % len(STRANGE)])
                    connection.sendall(self.chance.randbytes(self.chance.randrange(200)))
                    connection.recv(100)
                except OSError:
                    pass
            self.links += 1


@pytest.fixture
def strangers(seed: int) -> Iterator[list[Stranger]]:
    """Two of them."""
    made = [Stranger(seed), Stranger(seed + 1)]
    yield made
    for stranger in made:
        stranger.listener.shutdown(socket.SHUT_RDWR)
        stranger.listener.close()


def test_strange_peers(pilot: Pilot, strangers: list[Stranger]) -> None:
    """Networks that say strange things: both bridges go on, and link again."""
    pilot.broker().start("running")
    networks = [("--network", f"{HOST}:{stranger.port}") for stranger in strangers]
    udp = ("--udp", f"{HOST}:{pilot.udp_port}", *GATEWAY)
    broker = ("--broker", f"{HOST}:{pilot.broker_port}", "--application", "3")
    first = pilot.own("gateways-udp", *networks[0], *udp).start("listens on")
    second = pilot.own("applications-mqtt", *networks[1], *broker).start("connected to")
    head = b"\x02\x00\x01\x02" + bytes.fromhex(GATEWAYS[0])
    with socket.socket(socket.AF_INET, socket.SOCK_DGRAM) as sender:
        sender.sendto(head, (HOST, pilot.udp_port))
    await_that("two links each", lambda: min(stranger.links for stranger in strangers) >= 2)
    time.sleep(0.2)
    for part in (first, second):
        assert part.poll() is None, f"{part.name} goes on"
        assert part.end() == 0, f"{part.name} ends well"


def read_line(content: bytes) -> Any:
    """What the bridge of an application reads of a content."""
    return Translator(3, lambda *_: None).event(line_of(content), "")


@pytest.mark.parametrize("read", (Downlink.read, read_line), ids=("a downlink", "a line"))
@table("said, number", [(said, number) for number, said in enumerate(STRANGE)])
def test_strange_content(said: bytes, number: int, read: Callable[[bytes], Any]) -> None:
    """A strange thing, read by what both bridges read with: at most a fault that they know of."""
    try:
        for content in Frames().feed(said):
            read(content)
    except (Wrong, NoMessage, ValueError, TypeError):
        pass
