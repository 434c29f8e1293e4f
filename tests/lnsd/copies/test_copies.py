"""`lnsd copy`: a copy has the table after the first n decisions, for some n that the store had
while it was copied, whatever the server writes meanwhile."""

import os
import threading
import time
from collections.abc import Callable, Iterator
from pathlib import Path

import preloads
import pytest
from bozintar import image, load, wire
from bozintar.links import Application, Gateway
from bozintar.server import Program

from ..conftest import NewServer
from ..pairs import EUI, HEARD, OWNER, records
from .writes import (
    EACH,
    GENERATION_AT,
    HEADER,
    OPEN,
    SLOTS,
    SUPERBLOCK,
    WRITING,
    Life,
    Served,
    decisions_in,
)

# how often a store is copied beside its server's writes
ROUNDS = 12
# uplinks a second, of how many devices, while copies are made; and how many copies
RATE, DEVICES, COPIES = 200, 200, 8
NEW = "copy"


@pytest.fixture
def made(new_server: NewServer) -> Program:
    """A new store, which isn't served."""
    return new_server(SLOTS)


@pytest.fixture(scope="session")
def library(replaced: Callable[[str], str]) -> str:
    """What writes before each read."""
    return replaced(WRITING)


def failure(*lines: str) -> tuple[int, str, str]:
    """How a command ends that fails and prints these lines."""
    return 1, "", "".join(f"lnsd: {line}\n" for line in lines)


@pytest.mark.slow
@pytest.mark.usefixtures("proved")
@pytest.mark.parametrize("most", (1, 2, 30))
def test_writes_between_reads(
    made: Program, library: str, folder: Path, seed: int, most: int
) -> None:
    """If anything is written between two reads, a copy has the first n decisions, those that the
    store had at a moment between its first read and its last."""
    served, counts, new = Served(Path(made.store), library, seed, most), set(), folder / NEW
    for _ in range(ROUNDS):
        before = served.chance.randrange(500)
        due = served.decisions(before)
        how = served.begin(folder, before)
        assert made.run("copy", made.store, str(new), env=how)[0] == 0
        count = decisions_in(new.read_bytes())
        # what is being committed at the moment may be in the copy or not
        writes = before + int((folder / "made").read_text(encoding="ascii"))
        assert due <= count <= served.decisions(writes) + 1
        counts.add(count)
        new.unlink()
    # a server that writes so much that an area never stays is copied once it writes less
    assert most > 1 or len(counts) > 2, "copies of several moments"


def test_plain_copy(made: Program) -> None:
    """A plain copy may mix moments, if two checkpoints come while it reads one area."""
    life = Life(Path(made.store))
    life.go_on(60)
    while life.disk[life.begin] != OPEN[0]:
        life.go_on(1)
    half = life.begin + HEADER + 200
    front, generation = bytes(life.disk[:half]), life.generation
    while life.generation < generation + 3 or life.disk[life.begin] != 0:
        life.go_on(1)
    with pytest.raises((AssertionError, image.Refused)):
        decisions_in(front + bytes(life.disk[half:]))


def test_area_that_is_written_after_its_gate_was_read(
    made: Program, library: str, folder: Path, seed: int
) -> None:
    """The fourth checkpoint begins between the reads of the first area's gate and header: half of
    its records are written then, and the rest before the second area is read."""
    length, new = Life(Path(made.store)).length, folder / NEW
    how = Served(Path(made.store), library, seed, 3).begin(folder, 8 * EACH + 15, 5)
    how |= {"AT": str(SUPERBLOCK + 1), "THEN": str(SUPERBLOCK + length)}
    assert made.run("copy", made.store, str(new), env=how)[0] == 0
    assert decisions_in(new.read_bytes()) == 4 * EACH


@pytest.mark.slow
@pytest.mark.usefixtures("proved")
def test_area_that_never_stays(made: Program, library: str, folder: Path) -> None:
    """A store whose areas are written anew each time that they are read isn't copied, and no file
    remains."""
    store, new = Path(made.store), folder / NEW
    place = SUPERBLOCK + GENERATION_AT
    writes = b"".join(
        place.to_bytes(8, "little") + (8).to_bytes(4, "little") + number.to_bytes(8, "big")
        for number in range(2, 100_000)
    )
    (folder / "writes").write_bytes(writes)
    files = {"WRITES": folder / "writes", "MADE": folder / "made", "STORE": store}
    how = preloads.environment(library, MOST=3, SEED=7, **files)
    assert made.run("copy", made.store, str(new), env=how) == failure("changing")
    assert not new.exists()


@pytest.fixture
def busy(new_server: NewServer) -> Iterator[Program]:
    """A server that 200 uplinks a second come to."""
    server = new_server(DEVICES, records(DEVICES, OWNER))
    address, is_over = server.run_on(), threading.Event()
    devices = [load.device(number) for number in range(DEVICES)]

    def send() -> None:
        begun, count = time.monotonic(), 0
        with Gateway(address, EUI) as gateway, Application(address, OWNER) as application:
            while not is_over.is_set():
                gateway.say(wire.copy_of(devices[count % DEVICES].uplink(7, b"\x01"), HEARD))
                count += 1
                if count % 20 == 0:
                    time.sleep(max(0.0, begun + count / RATE - time.monotonic()))
            application.end()

    sending = threading.Thread(target=send)
    sending.start()
    yield server
    is_over.set()
    sending.join()


def test_copies_of_a_server(busy: Program, folder: Path) -> None:
    """Copies while 200 uplinks a second come: each is accepted by `lnsd list`, has what the command
    printed, no fewer decisions than an earlier one and no more than the server has made, and can be
    restored. Only its owner can read it."""
    counts = []
    for number in range(COPIES):
        new = str(folder / f"copy{number}")
        status, out, said = busy.run("copy", busy.store, new)
        assert (status, said) == (0, "")
        listed = busy.run("list", new)
        assert listed[0] == 0 and listed[1].splitlines()[-1] == out.rstrip("\n")
        words = out.split()
        assert words[:3] == ["devices", str(DEVICES), "seq"]
        counts.append(int(words[3]))
        assert counts[-1] <= DEVICES + int(busy.status()["made"])
        assert os.stat(new).st_mode & 0o777 == 0o600
        status, out, _ = busy.run("restore", new, str(folder / f"new{number}"))
        assert status == 0 and f"devices {DEVICES}\n" in out
        time.sleep(0.3)
    assert counts == sorted(counts) and counts[-1] > counts[0]


def test_copy_of_what_is_not_served(made: Program, folder: Path) -> None:
    """A store that isn't served is copied as it is, also if the file may only be read."""
    os.chmod(made.store, 0o400)
    new = str(folder / NEW)
    assert made.run("copy", made.store, new) == (0, "devices 0 seq 0\n", "")
    assert made.run("list", new) == (0, "devices 0 seq 0\n", "")


def test_new_file_that_exists(made: Program, folder: Path) -> None:
    """A file that exists stays as it is."""
    new = folder / NEW
    new.write_bytes(b"something")
    assert made.run("copy", made.store, str(new)) == failure("exists")
    assert new.read_bytes() == b"something"


@pytest.mark.parametrize(
    "content, refusal",
    (
        (lambda store: b"", "refused 46"),
        (lambda store: bytes(100), "refused 43"),
        (lambda store: store[:-1], "refused 46"),
        (lambda store: store[:8] + b"\x02" + store[9:], "refused 45"),
        (lambda store: store[:32] + b"\0" + store[33:], "refused 44"),
    ),
    ids=("nothing", "no store", "cut off", "of another version", "no live area"),
)
def test_no_store(
    made: Program, folder: Path, content: Callable[[bytes], bytes], refusal: str
) -> None:
    """What is no store isn't copied, and no file remains."""
    file, new = folder / "file", folder / NEW
    file.write_bytes(content(Path(made.store).read_bytes()))
    assert made.run("copy", str(file), str(new)) == failure(refusal)
    assert not new.exists()


def test_causes(made: Program, folder: Path) -> None:
    """A file that isn't there, and a new file in a folder that isn't there."""
    gone, new = str(folder / "gone"), str(folder / NEW)
    assert made.run("copy", gone, new) == failure("file", "not found")
    assert made.run("copy", made.store, f"{gone}/new") == failure("file", "its folder isn't found")
    assert made.run("copy", str(folder), new) == failure("file", "it is a folder")
