"""Requests of other programs on the machine, which applications-mqtt takes with --asks."""

import os
import socket
import stat
from collections.abc import Iterator

import pytest

from bozintar.processes import HOST, Process, await_that

from .networks import End, Network
from .parts import Parts

DEVICE, JOIN_EUI, KEY = "70B3D57ED0000001", "0102030405060708", "8D1E63A7F05B42C9964E7710AB3CD25F"
PROVISION = f"provision {DEVICE} {JOIN_EUI} {KEY} 0 1"
# requests, and what the network answers, by docs/FORMATS.md
ANSWERS = [
    (PROVISION, f"provisioned {DEVICE} 7"),
    (PROVISION.replace(DEVICE, "70B3D57ED0000002"), "refused 16"),
    (f"queue {DEVICE} 41 7 c C0FFEE", f"queued {DEVICE} 41"),
    (f"queue {DEVICE} 41 7 u -", "refused 12"),
    (f"mac {DEVICE} 0330FF0001", f"macqueued {DEVICE} 0330FF0001"),
]
WRONG = ["", "stop", "status", "queue", f"mac {DEVICE}", "up 1 2 3", "queue \x01 1", "x" * 9000]


class Asked:
    """A bridge that takes requests, its network, and a client."""

    def __init__(self, parts: Parts, network: Network) -> None:
        self.path = parts.file("ask")
        self.broker = parts.broker().start("running")
        words = ["--network", network.at, "--broker", f"{HOST}:{parts.broker_port}"]
        words += ["--application", "3", "--asks", self.path]
        self.bridge: Process = parts.own("applications-mqtt", *words).start("takes requests")
        self.end: End = network.link()
        self.client = self.connect()

    def connect(self) -> socket.socket:
        """One more client."""
        made = socket.socket(socket.AF_UNIX)
        made.settimeout(60)
        made.connect(self.path)
        return made

    def say(self, line: str) -> None:
        """The client sends a line."""
        self.client.sendall(f"{line}\n".encode())

    def answer(self) -> str:
        """The next line that the client gets; nothing if it is closed."""
        found = b""
        while not found.endswith(b"\n") and (piece := self.client.recv(1)):
            found += piece
        return found.decode().rstrip("\n")


@pytest.fixture
def asked(parts: Parts, network: Network) -> Iterator[Asked]:
    """All of it."""
    made = Asked(parts, network)
    yield made
    made.client.close()


def test_answers(asked: Asked) -> None:
    """Each request goes to the network as it is, and is answered by the network's line."""
    for line, answer in ANSWERS:
        asked.say(line)
        assert " ".join(asked.end.asked()) == line
        asked.end.tell(answer)
        assert asked.answer() == answer


def test_one_at_a_time(asked: Asked) -> None:
    """A refusal doesn't say what it refuses, so two clients' requests go one after the other."""
    other = asked.connect()
    asked.say(ANSWERS[0][0])
    assert asked.end.asked()[0] == "provision"
    other.sendall(f"{ANSWERS[2][0]}\n".encode())
    assert asked.end.hears(1) == b"nothing"
    asked.end.tell("refused 17")
    assert asked.answer() == "refused 17"
    assert asked.end.asked()[0] == "queue"
    asked.end.tell("refused 12")
    assert other.recv(100) == b"refused 12\n"
    other.close()


@pytest.mark.parametrize("line", WRONG)
def test_wrong_lines(asked: Asked, line: str) -> None:
    """What is no request doesn't reach the network."""
    asked.say(line)
    assert asked.answer() == "refused 51"
    asked.say(ANSWERS[2][0])
    assert asked.end.asked()[0] == "queue"


def test_no_text(asked: Asked) -> None:
    """A client that sends something else than lines is closed, and others go on."""
    asked.client.sendall(b"\xff" * 70_000 + b"\n")
    assert asked.answer() == ""
    asked.client.close()
    asked.client = asked.connect()
    asked.say(ANSWERS[2][0])
    assert asked.end.asked()[0] == "queue"


def test_unanswered(asked: Asked, network: Network) -> None:
    """A request whose link ends isn't repeated; without a link the answer comes at once."""
    asked.client.settimeout(90)
    asked.say(ANSWERS[2][0])
    assert asked.end.asked()[0] == "queue"
    asked.end.close()
    assert asked.answer() == "unanswered"
    asked.end = network.link()
    asked.say(ANSWERS[4][0])
    assert asked.end.asked()[0] == "mac", "the first one isn't asked for again"
    network.listener.close()
    asked.end.close()
    assert asked.answer() == "unanswered"
    asked.say(ANSWERS[2][0])
    assert asked.answer() == "unanswered"


def test_keys_stay_secret(asked: Asked) -> None:
    """An AppKey is neither logged nor sent to the broker, whose log has all topics and sizes."""
    asked.say(PROVISION)
    asked.end.asked()
    asked.end.tell(f"provisioned {DEVICE} 7")
    assert asked.answer() == f"provisioned {DEVICE} 7"
    assert KEY not in asked.bridge.said()
    assert "PUBLISH" not in asked.broker.said()


def test_socket(asked: Asked) -> None:
    """The socket is for its owner and its group, is replaced if it was left over, and goes at the
    end."""
    assert stat.S_IMODE(os.stat(asked.path).st_mode) == 0o660
    asked.bridge.kill()
    assert os.path.exists(asked.path)
    asked.bridge.start("takes requests")
    asked.bridge.end()
    await_that("the socket is gone", lambda: not os.path.exists(asked.path))
