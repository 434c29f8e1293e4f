"""Stores of which bytes are changed: what `lnsd list` prints of each is compared with a reader of
images that shares nothing with the program, and of some with a table."""

import os
from collections.abc import Iterable
from concurrent.futures import ThreadPoolExecutor
from pathlib import Path

import pytest
from bozintar import image, store
from bozintar.links import Application
from bozintar.server import Ended, Program

from ..pairs import DEV_EUI, OWNER, PROVISION, assert_ended, end_all, records
from .operating import failure

VALUES = (0x00, 0x5A, 0xA5, 0xFF)
# how many bytes of an area are changed
FIRST = 200
OTHER = PROVISION.replace(DEV_EUI, "2122232425262728")
# changes of a store that has one area, with one batch: what is kept, what stands after that, from
# where on the rest is kept, and the number of the refusal
CHANGES = {
    "31 bytes": (31, b"", None, 46),
    "byte 0 is 00": (0, b"\x00", 1, 43),
    "byte 8 is 02": (8, b"\x02", 9, 45),
    "byte 9 is 01": (9, b"\x01", 10, 44),
    "a byte short": (-1, b"", None, 46),
    "a byte longer": (None, b"\x00", None, 46),
    "byte 32 is 00": (32, b"\x00", 33, 44),
    "byte 33 is 09": (33, b"\x09", 34, 45),
    "bytes 63 to 66 are FF": (63, b"\xff" * 4, 67, 44),
    "byte 62 is 00": (62, b"\x00", 63, None),
}


def provision(server: Program, line: str) -> None:
    """A short life, in which an application provisions a device."""
    application = Application(server.serve(1), OWNER)
    application.asks(line)
    assert application.hears().startswith("provisioned ")
    end_all([application])
    assert_ended(server)


@pytest.fixture
def one_area(server: Program) -> Program:
    """A server whose store has one area, with a batch."""
    provision(server, PROVISION)
    return server


def content_of(server: Program) -> bytes:
    """The bytes of a store."""
    return Path(server.store).read_bytes()


def changed(content: bytes, at: int, value: int) -> bytes:
    """The bytes with another one at a place."""
    return content[:at] + bytes([value]) + content[at + 1 :]


def listed(
    server: Program, path: Path, content: bytes, cases: list[tuple[int, int]]
) -> list[Ended]:
    """What `lnsd list` prints of a store, each time with another byte at a place."""
    # an older store is migrated, so that more is written than the byte that was changed
    is_older = image.read(content).version < image.NEWEST
    path.write_bytes(content)
    came = []
    with open(path, "r+b") as file:
        for at, value in cases:
            file.seek(at)
            file.write(bytes([value]))
            file.flush()
            came.append(server.run("list", str(path)))
            file.seek(0 if is_older else at)
            file.write(content if is_older else content[at : at + 1])
    return came


def compare(server: Program, folder: Path, places: Iterable[int]) -> None:
    """Each byte at these places of a copy of the store, with each value in turn."""
    content = content_of(server)
    cases = [(at, value) for at in places for value in VALUES]
    jobs = len(os.sched_getaffinity(0))
    parts = [cases[part::jobs] for part in range(jobs)]
    with ThreadPoolExecutor(jobs) as pool:
        words = ((server, folder / str(part), content, parts[part]) for part in range(jobs))
        found = list(pool.map(lambda given: listed(*given), words))
    for part, ends in zip(parts, found):
        for (at, value), came in zip(part, ends):
            due = image.told(changed(content, at, value))
            assert came == due, f"lnsd list with byte {at} {value:02X}"


@pytest.mark.parametrize("name", CHANGES)
def test_changed_store(one_area: Program, folder: Path, name: str) -> None:
    """A changed store is refused, or has one batch less; the reader of images finds the same."""
    kept, added, again, number = CHANGES[name]
    good, file = content_of(one_area), folder / "spoilt"
    rest = b"" if again is None else good[again:]
    file.write_bytes(content := good[:kept] + added + rest)
    due = failure(f"refused {number}") if number else (0, "devices 0 seq 0\n", "")
    assert one_area.run("list", str(file)) == due
    assert image.told(content) == due


@pytest.mark.slow
def test_each_byte_of_one_area(one_area: Program, folder: Path) -> None:
    """Each of the first 200 bytes is changed, if one area has been written and has a batch."""
    assert one_area.list() == [f"0 {DEV_EUI} 0 - - - 0 0", "devices 1 seq 1"]
    compare(one_area, folder, range(FIRST))


@pytest.fixture
def two_areas(one_area: Program) -> Program:
    """A server whose store has two areas, of which the second one is live and has a batch."""
    read = image.read(content_of(one_area))
    assert (read.live, read.generation) == (0, 1)
    store.put(one_area.store, records(1, OWNER))
    provision(one_area, OTHER)
    read = image.read(content_of(one_area))
    assert (read.live, read.generation) == (1, 2)
    return one_area


def second_area(content: bytes) -> int:
    """Where the second area of a store begins."""
    return (image.SUPERBLOCK + len(content)) // 2


@pytest.mark.slow
def test_each_byte_of_first_of_two_areas(two_areas: Program, folder: Path) -> None:
    """Each of the first 200 bytes is changed, if the second area is live."""
    compare(two_areas, folder, range(FIRST))


@pytest.mark.slow
def test_each_byte_of_second_area(two_areas: Program, folder: Path) -> None:
    """Each of the first 200 bytes of the second area is changed, if that is live."""
    second = second_area(content_of(two_areas))
    compare(two_areas, folder, range(second, second + FIRST))


def live(content: bytes) -> tuple[int, int, int]:
    """The area that is live, its generation, and the version of its records."""
    read = image.read(content)
    return read.live, read.generation, read.version


@pytest.fixture
def older(server: Program) -> Program:
    """A server on a store of version 1, with a device."""
    store.put(server.store, records(1, OWNER), version=1)
    assert live(content_of(server)) == (1, 2, 1)
    return server


@pytest.mark.slow
def test_each_byte_of_older_store(older: Program, folder: Path) -> None:
    """Each of the first 200 bytes of the live area of a store of version 1 is changed."""
    second = second_area(content_of(older))
    compare(older, folder, range(second, second + FIRST))


def test_migration(older: Program) -> None:
    """A store of version 1 is migrated by the first command: into the other area, so that what was
    live stays as it is. It can be served then."""
    before = content_of(older)
    assert older.run("list", older.store) == image.told(before)
    after = content_of(older)
    assert live(after) == (0, 3, 2)
    assert image.told(after) == image.told(before)
    second = second_area(before)
    assert before[second:] == after[second:], "the area of version 1 was written"
    provision(older, OTHER)
