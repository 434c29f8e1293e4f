"""Which stores a frame is for: what is read of the files, and what is made of frames. The addresses
are those of docs/FORMATS.md: bit 31 is 0, six bits of the NetID, twelve of the slot, thirteen of
the JoinNonce."""

import asyncio
import os
import time
from collections.abc import Callable
from pathlib import Path
from typing import Any

import pytest
from bozintar.words import Address
from bridges import lines, routes
from bridges.routes import Routes, Store

from .rows import table

FIRST, SECOND, THIRD = "1112131415161718", "2122232425262728", "3132333435363738"
NEAR, FAR = "00000000000000B1", "00000000000000B2"
STORES = "d00 000000 127.0.0.1:5600\nd01 000001 127.0.0.1:5601\nd02 000000 -\n"
DEVICES = f"{FIRST} d00\n{SECOND} d02\n{THIRD} d09\n"
D00 = Store("d00", 0, Address("127.0.0.1", 5600))
# a file of each kind, and what is read of it, or which line is wrong
FILES: tuple = (
    (routes.read_stores, "d00 000000 127.0.0.1:5600 # here\n\n", {"d00": D00}),
    (routes.read_stores, "d3F 00003f -\n", {"d3F": Store("d3F", 0x3F, None)}),
    (
        routes.read_stores,
        "a 00002A [fd00::1]:5600\n",
        {"a": Store("a", 0x2A, Address("fd00::1", 5600))},
    ),
    (routes.read_stores, "# none\n", " has no store"),
    (routes.read_stores, "d00 000000\n", ", line 1: it isn't NAME NETID HOST:PORT"),
    (routes.read_stores, "\nd00 000040 -\n", ", line 2: '000040' is no NetID"),
    (routes.read_stores, "d00 2A -\n", ", line 1: '2A' is no NetID"),
    (routes.read_stores, "d00 000000 5600\n", ", line 1: 5600 is no HOST:PORT"),
    (routes.read_stores, "d/0 000000 -\n", ", line 1: 'd/0' is no name of a store"),
    (routes.read_stores, "d0 000000 -\nd0 000001 -\n", ", line 2: d0 is listed twice"),
    (routes.read_devices, f"{FIRST.lower()} d00\n", {bytes.fromhex(FIRST): "d00"}),
    (routes.read_devices, f"{FIRST} d0\n{FIRST} d0\n", {bytes.fromhex(FIRST): "d0"}),
    (routes.read_devices, "\n", {}),
    (routes.read_devices, f"{FIRST} d0\n{FIRST} d1\n", f", line 2: {FIRST} is in d0, too"),
    (routes.read_devices, f"{FIRST}\n", ", line 1: it isn't DEVEUI NAME"),
    (routes.read_devices, "1112 d0\n", ", line 1: '1112' is no EUI of 16 hex digits"),
    (routes.read_hearing, f"{NEAR} d00 d01\n{FAR}\n", {NEAR: {"d00", "d01"}, FAR: set()}),
    (routes.read_hearing, f"{NEAR} d0\n{NEAR} d1\n", f", line 2: {NEAR} is listed twice"),
    (routes.read_hearing, f"{NEAR} d0,d1\n", ", line 1: 'd0,d1' is no name of a store"),
    (
        routes.read_sessions,
        f"d0 0 {FIRST} 7 6 3 4 0 9 5321 {NEAR} -20 -95\nd0 1 {SECOND} 0 - - - 0 0 - - - -\n"
        "d0 devices 2 seq 4\nd0 now 9250\nd1 devices 0 seq 0\n",
        {"d0": {0: (7, 6), 1: (0, None)}, "d1": {}},
    ),
    (routes.read_sessions, f"d0 0 {FIRST} 7 6\n", ", line 1: it isn't NAME and a line of lnsd"),
    (routes.read_sessions, f"d0 0 {FIRST} x 6 3 4 0 9\n", ", line 1: a slot or a JoinNonce"),
)
JOIN = bytes.fromhex("00") + bytes(8)


def uplink(address: int, kind: int = 0x40, length: int = 12) -> bytes:
    """The bytes of an uplink that routing looks at."""
    return (bytes([kind]) + address.to_bytes(4, "little")).ljust(length, b"\0")


def join(eui: str, length: int = 23) -> bytes:
    """Those of a Join-Request, whose EUIs have the lowest byte first."""
    return (JOIN + bytes.fromhex(eui)[::-1]).ljust(length, b"\0")


# frames, and the stores that they are for
FRAMES: tuple = (
    ("NetID 0", uplink(0x00002001), ["d00", "d02"]),
    ("confirmed", uplink(0x00002001, 0x80), ["d00", "d02"]),
    ("NetID 1", uplink(0x02002001), ["d01"]),
    ("NetID 1, last address", uplink(0x03FFFFFF), ["d01"]),
    ("NetID 2", uplink(0x04002001), []),
    ("bit 31", uplink(0x82002001), []),
    ("downlink", uplink(0x00002001, 0x60), []),
    ("short", uplink(0x00002001)[:11], []),
    ("nothing", b"", []),
    ("join of d00", join(FIRST), ["d00"]),
    ("join of d02", join(SECOND), ["d02"]),
    ("join of an unknown store", join(THIRD), []),
    ("join of a stranger", join("4142434445464748"), []),
    ("long join", join(FIRST, 24), []),
    ("proprietary", b"\xe0" * 23, []),
)
LISTED = f"d00 0 {FIRST} 7 6 3 4 0 9\nd00 1 {SECOND} 8190 8190 3 4 0 9\nd00 2 {THIRD} 0 - - - 0 0\n"
# slots and JoinNonces, and whether the store d00 may have such a session: 7 is pending, and up to
# eight joins may have come since the list
SESSIONS: tuple = (
    (0, 6, True),
    (0, 5, False),
    (0, 7, True),
    (0, 15, True),
    (0, 16, False),
    (1, 8190, True),
    (1, 8191, True),
    (1, 6, True),
    (1, 7, False),
    (2, 1, True),
    (2, 8, True),
    (2, 9, False),
    (3, 1, True),
    (3, 100, False),
)


def written(folder: Path, name: str, text: str) -> str:
    """A file."""
    path = folder / name
    path.write_text(text, encoding="utf-8")
    return str(path)


@pytest.mark.parametrize("read, text, due", FILES)
def test_files(read: Callable, text: str, due: Any, tmp_path: Path) -> None:
    """What is read of a file, or what is wrong with it, and in which line."""
    file = written(tmp_path, "file", text)
    try:
        assert lines.read(read(file)) == due
    except ValueError as why:
        assert isinstance(due, str) and str(why).startswith(f"{file}{due}"), str(why)


@pytest.fixture
def made(tmp_path: Path) -> Routes:
    """Three stores, two of one NetID, with devices."""
    return Routes(written(tmp_path, "stores", STORES), written(tmp_path, "devices", DEVICES))


@table("name, frame, due", FRAMES)
def test_frames(name: str, frame: bytes, due: list[str], made: Routes) -> None:
    """The stores of a frame."""
    assert made.names(frame, NEAR) == due, name


def test_without_devices(tmp_path: Path) -> None:
    """Without a file of devices a Join-Request is for all stores."""
    found = Routes(written(tmp_path, "stores", STORES))
    assert found.names(join(FIRST), NEAR) == ["d00", "d01", "d02"]


def test_hearing(made: Routes, tmp_path: Path) -> None:
    """A gateway with a line hears for the stores of its line; any other one for all."""
    hearing = written(tmp_path, "hearing", f"{NEAR} d02 d01\n")
    found = Routes(str(tmp_path / "stores"), str(tmp_path / "devices"), hearing)
    assert found.names(uplink(0x00002001), NEAR) == ["d02"]
    assert found.names(uplink(0x00002001), FAR) == ["d00", "d02"]
    assert found.names(join(FIRST), NEAR) == []


@pytest.fixture
def listed(tmp_path: Path) -> Routes:
    """Stores of which one is listed."""
    sessions = written(tmp_path, "sessions", LISTED)
    return Routes(written(tmp_path, "stores", STORES), sessions=sessions)


@pytest.mark.parametrize("slot, nonce, due", SESSIONS)
def test_sessions(slot: int, nonce: int, due: bool, listed: Routes) -> None:
    """Whether a store may have a session. One that isn't listed may have any."""
    frame = uplink(slot * 8192 + nonce)
    assert listed.may_have("d00", frame) == due
    assert listed.may_have("d02", frame)


def test_old_list(listed: Routes) -> None:
    """A list that is older than ten minutes isn't used."""
    frame, now = uplink(100), time.time()
    for age, due in ((590, False), (610, True)):
        listed.clock = lambda: now + age
        assert listed.may_have("d00", frame) == due


def test_list_with_a_fault(tmp_path: Path, capfd: Any) -> None:
    """A list with a fault, or none, refuses no frame, and a line says why."""
    found = Routes(written(tmp_path, "stores", STORES), sessions=str(tmp_path / "sessions"))
    for text in ("", "d00 0 x\n"):
        asyncio.run(found.look())
        assert found.may_have("d00", uplink(100))
        written(tmp_path, "sessions", text)
    capfd.readouterr()
    found = Routes(str(tmp_path / "stores"), sessions=str(tmp_path / "sessions"))
    fault = f"{tmp_path / 'sessions'}, line 1: it isn't NAME"
    assert fault in capfd.readouterr().out, "at the start, too"
    assert found.may_have("d00", uplink(100))
    asyncio.run(found.look())
    assert fault not in capfd.readouterr().out, "once"


def test_file_is_read_again(made: Routes, tmp_path: Path, capfd: Any) -> None:
    """A file that was replaced is read again. One with a fault, or that is gone, changes nothing,
    and a line says why."""
    new = written(tmp_path, "new", "d05 000005 127.0.0.1:5605\n")
    os.replace(new, tmp_path / "stores")
    assert asyncio.run(made.look())
    assert made.names(uplink(0x0A000001), NEAR) == ["d05"]
    assert not asyncio.run(made.look()), "only once"
    written(tmp_path, "stores", "d05\n")
    assert not asyncio.run(made.look())
    assert f"{tmp_path / 'stores'}, line 1: it isn't NAME" in capfd.readouterr().out
    os.unlink(tmp_path / "stores")
    assert not asyncio.run(made.look())
    assert f"{tmp_path / 'stores'} isn't there" in capfd.readouterr().out
    assert made.names(uplink(0x0A000001), NEAR) == ["d05"], "as before"
    written(tmp_path, "devices", f"{FIRST} d05\n")
    assert not asyncio.run(made.look()), "the stores are as they were"
    assert made.names(join(FIRST), NEAR) == ["d05"]
