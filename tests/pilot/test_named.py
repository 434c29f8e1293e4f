"""The list of gateways: which may connect and from where, also while a bridge runs; and what
strangers and floods by UDP may take of it."""

import asyncio
import os
import signal
import socket
import subprocess
import sys
from collections.abc import Iterator
from typing import Any

import pytest
from bozintar.forwarders import Air, Forwarder
from bozintar.logs import Seldom
from bozintar.processes import HOST, PATIENCE, Process, await_that
from bridges import named
from bridges.datagrams import MOST_AT_ONCE, Datagrams

from .field import GATEWAYS, counts_in
from .networks import Network
from .parts import PILOT, Parts
from .played import EUI, gateways
from .rows import table

FIRST, SECOND = GATEWAYS[:2]
# a list; its gateways and from where they may come, or what is wrong
LISTS: tuple = (
    ("", {}),
    (f"# all\n\n{FIRST.lower()} # roof\n", {FIRST: []}),
    (f"{FIRST} 10.0.0.7, 10.1.0.0/16\n", {FIRST: ["10.0.0.7/32", "10.1.0.0/16"]}),
    (f"\ufeff{FIRST}\r\n{SECOND} fd00::/8\r\n", {FIRST: [], SECOND: ["fd00::/8"]}),
    ("B1\n", "line 1: B1 is no EUI of 16 hex digits"),
    (f"{FIRST}\n{FIRST}\n", f"line 2: {FIRST} is listed twice"),
    (f"{FIRST} 10.0.0\n", "line 1: no address or network: '10.0.0' does not appear to be an"),
    (f"{FIRST} 10.0.0.7/8\n", "line 1: no address or network: 10.0.0.7/8 has host bits set"),
)
# networks, an address, and whether it may come from there
ADDRESSES: tuple = (
    ("", "192.0.2.1", True),
    ("10.0.0.7", "10.0.0.7", True),
    ("10.0.0.7", "10.0.0.8", False),
    ("10.0.0.7 fd00::/8", "fd12::1", True),
    ("10.0.0.0/8", "::ffff:10.9.9.9", True),
    ("10.0.0.0/8", "::ffff:11.9.9.9", False),
    ("fe80::/10", "fe80::1%eth0", True),
    ("0.0.0.0/0", "fd12::1", False),
)
# short datagrams that wait while a bridge is stopped: a socket has room for 277 by itself, and for
# twice as many if the system gives no more than its net.core.rmem_max
STOPPED = 500
# prints two lines to standard output, and one to standard error at its end
SAYS = """from bozintar.logs import log, warn
from bozintar.words import stop
log("hello"), warn("what"), stop("the end")
"""


@table("text, due", LISTS)
def test_list(text: str, due: Any, parts: Parts) -> None:
    """What is read of a list, or which line is wrong."""
    file = parts.file("gateways", text or "\n")
    try:
        found = named.read(file)
        assert {eui: list(map(str, one.networks)) for eui, one in found.items()} == due
    except ValueError as why:
        assert isinstance(due, str) and str(why).startswith(f"{file}, {due}"), str(why)


@table("networks, host, due", ADDRESSES)
def test_address(networks: str, host: str, due: bool) -> None:
    """Whether a datagram may come from an address."""
    assert named.named(f"{FIRST} {networks}").may_come_from(host) == due


class Listed:
    """A bridge of gateways by UDP with a list, beside a network that is played."""

    def __init__(self, parts: Parts, network: Network) -> None:
        self.parts, self.network = parts, network
        self.counts = parts.file("gateways.prom")
        self.name(FIRST)
        words = ("--gateways", self.file, "--counts", self.counts)
        self.part: Process = gateways(parts, network.at, *words, ready="listens on")

    def name(self, *lines: str) -> None:
        """Writes the list."""
        self.file = self.parts.file("gateways", "\n".join(lines) + "\n")

    def read_again(self, due: str) -> None:
        """Has the list be read again."""
        before = len(self.part.said())
        self.part.send_signal(signal.SIGHUP)
        await_that(due, lambda: due in self.part.said()[before:])

    def counted(self, *names: str) -> list[int]:
        """What the bridge counted until its end."""
        assert self.part.end() == 0
        counts = counts_in(self.counts)
        return [counts[f"gateways_udp_{name}"] for name in names]


@pytest.fixture
def listed(parts: Parts, network: Network) -> Listed:
    """A bridge whose list has the first gateway."""
    return Listed(parts, network)


@pytest.fixture
def first(listed: Listed) -> Iterator[Forwarder]:
    """The first gateway."""
    made = Forwarder(FIRST, listed.parts.udp_port)
    yield made
    made.close()


def test_list_is_read_again(listed: Listed, first: Forwarder) -> None:
    """A gateway that stays in the list keeps its link; a new one gets one, and one that has gone
    loses it. A list with a fault changes nothing."""
    first.look()
    link = listed.network.link()
    listed.name(FIRST, SECOND)
    listed.read_again("2 gateways are named")
    second = Forwarder(SECOND, listed.parts.udp_port)
    second.look()
    other = listed.network.link()
    assert other.greeting == b"\0" + bytes.fromhex(SECOND)
    listed.name(SECOND, "nothing")
    listed.read_again("line 2: nothing is no EUI of 16 hex digits")
    listed.name("# nothing")
    listed.read_again("it names no gateway")
    first.hears(b"on the link from before")
    assert (link.hears() or b"").endswith(b"on the link from before")
    listed.name(SECOND)
    listed.read_again("1 gateways are named")
    assert link.hears() is None, "its link is closed"
    first.hears(b"of a stranger now")
    second.hears(b"of the other one")
    assert (other.hears() or b"").endswith(b"of the other one")
    second.close()
    assert listed.counted("unknown_gateways", "links_silent") == [1, 0]


def test_signal_without_a_list(parts: Parts, network: Network) -> None:
    """SIGHUP ends no bridge that has no list."""
    part = gateways(parts, network.at, "--gateway", FIRST, ready="listens on")
    part.send_signal(signal.SIGHUP)
    await_that("it goes on", lambda: part.has_said("1 gateways are named"))
    assert part.end() == 0


def test_address_that_isnt_listed(listed: Listed, first: Forwarder) -> None:
    """What comes from elsewhere under a gateway's EUI is passed over, and its downlinks stay where
    they were."""
    listed.name(f"{FIRST} 127.0.0.1")
    listed.read_again("1 gateways are named")
    first.look()
    link = listed.network.link()
    with socket.socket(socket.AF_INET, socket.SOCK_DGRAM) as stranger:
        stranger.bind(("127.0.0.2", 0))
        for number in range(3):
            stranger.sendto(b"\x02\0%c\x02" % number + EUI, (HOST, listed.parts.udp_port))
        first.hears(bytes(12))
        stamp = (link.hears() or b"")[18:22]
        link.say(b"\x11" + EUI + stamp + bytes.fromhex("33BE27A0 05 05 06") + bytes(12))
        Air([first], []).go_on(PATIENCE, lambda: first.told)
        assert len(first.told) == 1, "the downlink comes to the gateway"
        stranger.settimeout(0.1)
        with pytest.raises(TimeoutError):
            stranger.recv(100)
    said = [line for line in listed.part.said().splitlines() if "127.0.0.2" in line]
    assert len(said) == 1, "it is logged once"
    assert listed.counted("wrong_addresses", "ports_moved") == [3, 0]


def test_two_ports_by_turns(listed: Listed) -> None:
    """An EUI that asks from two ports by turns is logged once a minute, and counted each time."""
    head, at = b"\x02\0\1\x02" + EUI, (HOST, listed.parts.udp_port)
    ports = [socket.socket(socket.AF_INET, socket.SOCK_DGRAM) for _ in range(2)]
    for _ in range(50):
        for own in ports:
            own.sendto(head, at)
            own.settimeout(PATIENCE)
            assert own.recv(100)[3] == 4, "it is answered"
    for own in ports:
        own.close()
    assert listed.part.said().count("asks from") == 1
    assert listed.counted("ports_moved") == [99]


def test_what_waits_in_the_socket(listed: Listed) -> None:
    """The socket holds more than the system gives by itself, while the bridge doesn't read."""
    listed.part.send_signal(signal.SIGSTOP)
    with socket.socket(socket.AF_INET, socket.SOCK_DGRAM) as stranger:
        for _ in range(STOPPED):
            stranger.sendto(b"\x02\0\0\x02" + bytes(8), (HOST, listed.parts.udp_port))
    listed.part.send_signal(signal.SIGCONT)
    read = lambda: counts_in(listed.counts)["gateways_udp_unknown_gateways"] == STOPPED
    await_that("all are read", read, step=0.2)


def test_end_beside_a_flood(listed: Listed, first: Forwarder) -> None:
    """What comes while a bridge ends begins nothing new: it ends at once, without a traceback."""
    first.look()
    listed.network.link()
    with socket.socket(socket.AF_INET, socket.SOCK_DGRAM) as own:
        listed.part.send_signal(signal.SIGTERM)
        while listed.part.is_running():
            own.sendto(b"\x02\0\1\2" + EUI, (HOST, listed.parts.udp_port))
    assert listed.part.ended() == 0
    assert "Task" not in listed.part.said()


def test_many_datagrams_at_a_time() -> None:
    """The loop reads many datagrams each time that it wakes up, and then does something else."""

    async def came() -> list[bytes]:
        with socket.socket(socket.AF_INET, socket.SOCK_DGRAM) as own, socket.socket(
            socket.AF_INET, socket.SOCK_DGRAM
        ) as other:
            own.bind((HOST, 0))
            own.setblocking(False)
            found: list[bytes] = []
            made = Datagrams(own, lambda data, _where: found.append(data))
            asyncio.get_running_loop().remove_reader(own)
            for number in range(MOST_AT_ONCE + 1):
                other.sendto(bytes([number]), own.getsockname())
            made.read()
            first = len(found)
            made.read()
            made.read()
            assert first == MOST_AT_ONCE
            return found

    assert asyncio.run(came()) == [bytes([number]) for number in range(MOST_AT_ONCE + 1)]


def test_frames_that_say_nothing(listed: Listed, first: Forwarder) -> None:
    """A datagram with thousands of frames, which are none, costs no more than a gateway may say."""
    first.say(0, b'{"rxpk":[' + b"{}," * 19_999 + b"{}]}")
    first.await_read()
    assert listed.counted("without_crc", "too_many") == [400, 19_600]


def test_seldom(capfd: pytest.CaptureFixture) -> None:
    """A repeated event is logged once a minute, and how often it came; another one for itself."""
    now = 100.0
    seldom = Seldom(lambda: now)
    for moment, event in ((100.0, "a"), (101.0, "a"), (102.0, "b"), (159.0, "a"), (160.0, "a")):
        now = moment
        seldom.log(event, f"{event} at {moment:.0f}")
    said = [line.partition("  ")[2] for line in capfd.readouterr().out.splitlines()]
    assert said == ["a at 100", "b at 102", "a at 160 (2 more since the last such line)"]


def lines_of(**environment: str) -> list[str]:
    """What a program logs and complains to one file, which the environment may name."""
    reader, writer = os.pipe()
    of = os.fstat(writer)
    named_so = {name: value % (of.st_dev, of.st_ino) for name, value in environment.items()}
    words = (sys.executable, "-c", SAYS)
    folder = PILOT.parent / "python"
    how: Any = {"env": {**os.environ, **named_so}, "stdout": writer, "stderr": writer}
    assert subprocess.run(words, cwd=folder, check=False, **how).returncode == 1
    os.close(writer)
    with os.fdopen(reader, encoding="utf-8") as pipe:
        return pipe.read().splitlines()


def test_lines_for_the_journal() -> None:
    """The journal gets a level (sd-daemon(3)); any other reader gets the date and the time."""
    assert lines_of(JOURNAL_STREAM="%d:%d") == ["<6>hello", "<4>what", "<3>-c: the end"]
    for line, text in zip(lines_of(JOURNAL_STREAM="1%d:%d"), ("hello", "what")):
        date, _, said = line.partition("  ")
        assert said == text and len(date) == len("2026-11-29 16:13:54"), line
