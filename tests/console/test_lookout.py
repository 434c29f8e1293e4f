"""The lookout, between a server that is played by docs/OPERATING.md and clients."""

import asyncio
import os
import socket
import stat
import time
from collections.abc import Callable, Coroutine, Iterator
from pathlib import Path
from typing import Any

import pytest
from bozintar.processes import PATIENCE, Processes, await_that

from ..pilot.parts import program_of_pilot
from .sites import STATUS

Attend = Callable[[asyncio.StreamReader, asyncio.StreamWriter], Coroutine[Any, Any, None]]
LOOKOUT = Path(__file__).resolve().parents[2] / "pilot/console/lookout"


class Server:
    """The control socket of a server, in an event loop of its own that trials let go on."""

    def __init__(self, path: str) -> None:
        self.path, self.asked = path, []  # type: tuple[str, list[str]]
        self.watchers: list[asyncio.StreamWriter] = []
        self.answers = {"status": STATUS, "devices": "devices 0 seq 4\n"}
        self.loop = asyncio.new_event_loop()
        self.server: asyncio.AbstractServer | None = None

    def start(self, attend: Attend | None = None) -> None:
        """Begins to listen; another function may answer connections."""
        work = asyncio.start_unix_server(attend or self.attend, self.path)
        self.server = self.loop.run_until_complete(work)

    async def attend(self, reader: asyncio.StreamReader, writer: asyncio.StreamWriter) -> None:
        """Answers one connection."""
        word = (await reader.readline()).decode().strip()
        self.asked.append(word)
        if word == "watch":
            self.watchers.append(writer)
            writer.write(b"watching\n")
            return
        writer.write(self.answers.get(word, "").encode())
        writer.close()

    def print(self, *lines: str) -> None:
        """Prints lines to all that watch."""
        for writer in self.watchers:
            writer.write("".join(f"{line}\n" for line in lines).encode())
        self.go_on()

    def go_on(self, seconds: float = 0.05) -> None:
        """Time passes."""
        self.loop.run_until_complete(asyncio.sleep(seconds))

    def stop(self) -> None:
        """Ends, with all connections."""
        for writer in self.watchers:
            writer.close()
        self.watchers = []
        if self.server:
            self.server.close()
        self.server = None
        self.go_on()
        Path(self.path).unlink(missing_ok=True)


class Lookout:
    """A lookout, and what its clients get."""

    def __init__(self, parts: Processes) -> None:
        self.parts, self.path = parts, parts.file("look")
        self.server = Server(parts.file("store.control"))
        self.process = parts.python(LOOKOUT, parts.file("store"), "--socket", self.path)
        self.process.start("passes on what")

    def client(self, word: bytes) -> socket.socket:
        """A client that has sent a word."""
        made = socket.socket(socket.AF_UNIX)
        made.settimeout(PATIENCE)
        made.connect(self.path)
        made.sendall(word)
        return made

    def answer(self, word: str) -> str:
        """All that a client gets for a word."""
        client, found = self.client(f"{word}\n".encode()), b""
        client.settimeout(0.05)
        last = time.monotonic() + PATIENCE
        while time.monotonic() < last:
            self.server.go_on(0.02)
            try:
                piece = client.recv(65536)
            except TimeoutError:
                continue
            if not piece:
                break
            found += piece
        client.close()
        return found.decode()

    def read(self, client: socket.socket, text: str) -> str:
        """What a client that watches gets, up to this text."""
        found = ""
        client.settimeout(0.05)
        last = time.monotonic() + PATIENCE
        while text not in found and time.monotonic() < last:
            self.server.go_on(0.02)
            try:
                found += client.recv(65536).decode()
            except TimeoutError:
                pass
        return found


@pytest.fixture
def lookout() -> Iterator[Lookout]:
    """A lookout without a server."""
    with Processes() as parts:
        made = Lookout(parts)
        yield made
        made.server.stop()
        made.server.loop.close()


def test_words(lookout: Lookout) -> None:
    """It passes on `status` and `devices`, and no other word: `stop` above all."""
    lookout.server.start()
    assert lookout.answer("status") == STATUS
    assert lookout.answer("devices") == "devices 0 seq 4\n"
    for word in ("stop", "STOP", "status stop", "stop\nstatus", "", "s", "\x00", "x" * 5000):
        assert lookout.answer(word) == ""
    assert set(lookout.server.asked) <= {"status", "devices", "watch"}


@pytest.mark.parametrize("word, every", [("status", 1), ("devices", 10)])
def test_rates(lookout: Lookout, word: str, every: int, monkeypatch: pytest.MonkeyPatch) -> None:
    """Clients that ask often share an answer: the server is asked once a second for its status, and
    once in ten seconds for the devices."""
    program, server, now = program_of_pilot("console/lookout"), lookout.server, 1000.0
    monkeypatch.setattr(program.Question, "clock", lambda _: now)
    question = program.Lookout(lookout.parts.file("store"), "").questions[word]
    server.start()
    for pause, count in ((0, 1), (0, 1), (every - 0.25, 1), (0.25, 2), (every - 0.25, 2)):
        now += pause
        asked = asyncio.wait([server.loop.create_task(question.answer()) for _ in range(5)])
        for task in server.loop.run_until_complete(asked)[0]:
            assert task.result().decode() == server.answers[word]
        assert server.asked.count(word) == count


def test_watch(lookout: Lookout) -> None:
    """All that watch share one watch of the server, and learn when it goes and comes."""
    clients = [lookout.client(b"watch\n") for _ in range(5)]
    assert all(lookout.read(client, "gone\n") == "gone\n" for client in clients)
    lookout.server.start()
    assert all(lookout.read(client, "watching\n") == "watching\n" for client in clients)
    assert lookout.server.asked.count("watch") == 1
    lookout.server.print("linked gateway 00000000000000B1", "checkpoint")
    due = "linked gateway 00000000000000B1\ncheckpoint\n"
    assert all(lookout.read(client, "checkpoint\n") == due for client in clients)
    late = lookout.client(b"watch\n")
    assert lookout.read(late, "\n") == "watching\n"
    lookout.server.stop()
    assert all(lookout.read(client, "gone\n") == "gone\n" for client in [*clients, late])
    assert lookout.answer("status") == ""
    lookout.server.start()
    assert all(lookout.read(client, "watching\n") == "watching\n" for client in clients)
    assert lookout.answer("status") == STATUS
    for client in [*clients, late]:
        client.close()


def test_busy(lookout: Lookout) -> None:
    """A server that has four watches already is no watch."""
    client, asked = lookout.client(b"watch\n"), list[bytes]()

    async def busy(reader: asyncio.StreamReader, writer: asyncio.StreamWriter) -> None:
        asked.append(await reader.readline())
        writer.write(b"busy\n")
        writer.close()

    lookout.server.start(busy)
    last = time.monotonic() + PATIENCE
    while len(asked) < 3:
        assert time.monotonic() < last, "it tries again"
        lookout.server.go_on()
    assert lookout.process.end() == 0
    assert b"".join(iter(lambda: client.recv(100), b"")) == b"gone\n"
    client.close()


def test_slow_client(lookout: Lookout) -> None:
    """A client that watches and doesn't read is closed, and the others go on."""
    slow, well = lookout.client(b"watch\n"), lookout.client(b"watch\n")
    lookout.server.start()
    lookout.read(well, "watching\n")
    for number in range(40):
        lookout.server.print(*[f"left_out {number:0500}"] * 50)
        lookout.read(well, f"left_out {number:0500}\n" * 50)
    lookout.server.print("checkpoint")
    assert "checkpoint" in lookout.read(well, "checkpoint")
    slow.settimeout(PATIENCE)
    size = 0
    try:
        while piece := slow.recv(1 << 20):
            size += len(piece)
    except ConnectionResetError:
        pass
    assert size < 40 * 50 * 500
    slow.close()
    well.close()


def test_socket(lookout: Lookout) -> None:
    """Its socket is for its owner and its group, and goes at its end."""
    assert stat.S_IMODE(os.stat(lookout.path).st_mode) == 0o660
    assert lookout.process.end() == 0
    assert not os.path.exists(lookout.path)


def test_socket_left_over(lookout: Lookout) -> None:
    """A socket that a killed lookout left is replaced, one that is served isn't, and a file is
    left as it is."""
    again = lookout.parts.python(LOOKOUT, lookout.parts.file("store"), "--socket", lookout.path)
    again.start()
    assert again.ended() == 1 and "served by another program" in again.said()
    lookout.process.kill()
    assert os.path.exists(lookout.path)
    lookout.process.start("passes on what")
    lookout.server.start()
    assert lookout.answer("status") == STATUS
    file = lookout.parts.file("file", "content")
    other = lookout.parts.python(LOOKOUT, "store", "--socket", file, name="other")
    other.start()
    assert other.ended() == 1 and "no socket" in other.said()
    assert Path(file).read_text(encoding="utf-8") == "content"


def test_silent_clients(lookout: Lookout) -> None:
    """Clients that connect and say nothing keep no other client from its answer."""
    lookout.server.start()
    clients = [lookout.client(b"") for _ in range(20)]
    assert lookout.answer("status") == STATUS
    for client in clients:
        client.close()
    await_that("the lookout goes on", lambda: lookout.answer("status") == STATUS)
