"""Files that are no stores, files that can't be made, and stores and addresses in use."""

import os
import socket
from collections.abc import Callable, Iterator
from pathlib import Path
from typing import Any

import pytest
from bozintar.links import Application
from bozintar.processes import HOST, free_port
from bozintar.server import Program

from ..conftest import NewServer
from ..pairs import OWNER, as_nobody, assert_ended, records
from .operating import failure

FORMAT = ("--netid", "00002A", "--slots", "8")
OTHER_FORMAT = ("--netid", "000000", "--slots", "9")
EMPTY = ["devices 0 seq 0"]


def changed(at: int, to: bytes) -> Callable[[bytes, int], bytes]:
    """A store in which other bytes stand at a place of its front."""
    return lambda good, _: good[:at] + to + good[at + len(to) :]


def live_changed(at: int, to: bytes) -> Callable[[bytes, int], bytes]:
    """A store in which other bytes stand at a place of its live area."""
    return lambda good, live: good[: live + at] + to + good[live + at + len(to) :]


# contents that are no stores, made of a store and the place of its live area, each with the number
# of its refusal
NO_STORES: dict[str, tuple[Callable[[bytes, int], bytes], int]] = {
    "no bytes": (lambda good, live: b"", 46),
    "31 bytes": (lambda good, live: good[:31], 46),
    "a text": (lambda good, live: b"hello\n" * 100, 43),
    "zeros": (lambda good, live: bytes(len(good)), 43),
    "a closed gate": (changed(0, b"\x00"), 43),
    "another name": (changed(1, b"x"), 43),
    "another version": (changed(8, b"\x7f"), 45),
    "a NetID above the last": (changed(9, b"\x00\x00\x40"), 44),
    "no slots": (changed(12, bytes(4)), 44),
    "a byte short": (lambda good, live: good[:-1], 46),
    "a byte long": (lambda good, live: good + b"\x00", 46),
    "no area": (lambda good, live: closed(closed(good, 32), live), 44),
    "another version of the live area": (live_changed(1, b"\x7f"), 45),
    "a record that is none": (live_changed(30, b"\x07"), 44),
    "more records than there are": (live_changed(18, b"\x00\x00\x00\x02"), 44),
}


def closed(content: bytes, at: int) -> bytes:
    """The content, in which the gate at a place is closed."""
    return content[:at] + b"\x00" + content[at + 1 :]


def serve(store: str | Path, listen: str = "") -> tuple[str, ...]:
    """The words of a server on a store."""
    return "serve", str(store), "--listen", listen or f"{HOST}:{free_port()}", "--links", "1"


def path_of(server: Program, name: str) -> str:
    """The path of a name in the server's folder, or of the folder."""
    return os.path.join(server.folder, name) if name else server.folder


@pytest.fixture
def taken() -> Iterator[str]:
    """An address on which somebody listens."""
    with socket.create_server((HOST, 0)) as listener:
        yield f"{HOST}:{listener.getsockname()[1]}"


@pytest.mark.parametrize("name", NO_STORES)
def test_no_store(new_server: NewServer, folder: Path, name: str) -> None:
    """A file that is no store is refused with its number, and isn't changed."""
    server = new_server(records=records(1, OWNER))
    make, number = NO_STORES[name]
    good = Path(server.store).read_bytes()
    content = make(good, 32 + int.from_bytes(good[16:24], "big"))
    file = folder / "spoilt"
    file.write_bytes(content)
    assert server.run("list", str(file)) == failure(f"refused {number}")
    assert server.run(*serve(file)) == failure(f"refused {number}")
    assert file.read_bytes() == content


@pytest.mark.parametrize(
    "name", ["missing", "", "store/x"], ids=["missing", "folder", "below a file"]
)
def test_no_file(server: Program, name: str) -> None:
    """Nothing is listed, served or made if there is no file of that name."""
    path = path_of(server, name)
    assert server.run("list", path) == failure("file")
    assert server.run(*serve(path)) == failure("file")
    assert not os.path.isfile(path)


@pytest.mark.parametrize("name", ["store", ""], ids=["store", "folder"])
def test_format_of_what_exists(server: Program, name: str) -> None:
    """`lnsd format` changes nothing that is there."""
    path = path_of(server, name)
    for words in (FORMAT, OTHER_FORMAT):
        assert server.run("format", path, *words) == failure("exists")
    assert server.list() == EMPTY


@pytest.mark.parametrize("name", ["no/such", "store/x"], ids=["no folder", "below a file"])
def test_format_without_a_folder(server: Program, name: str) -> None:
    """`lnsd format` makes no folder."""
    path = path_of(server, name)
    assert server.run("format", path, *FORMAT) == failure("file")


def test_bytes_of_a_new_store(server: Program) -> None:
    """A new store has this superblock, length, permissions and list."""
    content = Path(server.store).read_bytes()
    due = "A54C4E53544F52450100002A0000000800000000001086A60000000000000000"
    assert content[:32].hex().upper() == due
    assert len(content) == 2_166_124
    assert oct(os.stat(server.store).st_mode & 0o777) == "0o600"
    assert server.list() == EMPTY


def test_address_in_use(server: Program, taken: str) -> None:
    """A server whose address is taken doesn't begin, and leaves its store as it is."""
    assert server.run(*serve(server.store, taken)) == failure("listen")
    assert server.list() == EMPTY


@pytest.mark.parametrize("listen", ["nonsense", HOST, f"{HOST}:65536", "192.0.2.1:5600", ""])
def test_no_address(server: Program, listen: str) -> None:
    """A server with no address of this machine doesn't begin, and leaves its store as it is."""
    words = ("serve", server.store, "--listen", listen, "--links", "1")
    assert server.run(*words) == failure("listen")
    assert server.list() == EMPTY


def test_order_of_faults(server: Program, folder: Path, taken: str) -> None:
    """A fault of the file is printed, and not that of the address."""
    text = folder / "text"
    text.write_text("hello, this is no store at all, of 50 bytes or so\n")
    assert server.run(*serve(folder / "missing", taken)) == failure("file")
    assert server.run(*serve(text, taken)) == failure("refused 43")


def test_store_in_use(server: Program) -> None:
    """A store that is served can neither be listed, served again, nor formatted; its links stay."""
    address = server.serve(1)
    with Application(address, OWNER) as application:
        application.asks("hello")
        assert application.hears() == "refused 51"
        assert server.run("list", server.store) == failure("file")
        assert server.run(*serve(server.store)) == failure("file")
        assert server.run("format", server.store, *FORMAT) == failure("exists")
        application.asks("hello")
        assert application.hears() == "refused 51"
    assert_ended(server)
    assert server.list() == EMPTY


@pytest.fixture
def by_nobody(server: Program) -> Iterator[tuple[Program, dict[str, Any]]]:
    """A server that is run by a user to whom permissions apply, and how."""
    how, server.path = as_nobody(server)
    yield server, how
    os.chmod(server.folder, 0o755)


def test_store_that_may_only_be_read(by_nobody: tuple[Program, dict[str, Any]]) -> None:
    """A store that may only be read is neither listed nor served."""
    server, how = by_nobody
    os.chmod(server.store, 0o444)
    assert server.run("list", server.store, **how) == failure("file")
    assert server.run(*serve(server.store), **how) == failure("file")


def test_folder_that_may_only_be_read(by_nobody: tuple[Program, dict[str, Any]]) -> None:
    """In a folder that may only be read no store is made."""
    server, how = by_nobody
    os.chmod(server.folder, 0o555)
    new = os.path.join(server.folder, "new")
    assert server.run("format", new, *FORMAT, **how) == failure("file")
    assert not os.path.exists(new)
