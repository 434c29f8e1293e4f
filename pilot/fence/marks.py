"""The mark of a store that a unit serves without a fence in etcd: which file was served last, and
how far it was. The mark is at most the store's state, whenever the power fails: so a store below it
has lost something. It only falls for an id that it lacks, or by an operator's word."""

import asyncio
import hashlib
import os
import re
import select
from collections.abc import Callable
from dataclasses import asdict, dataclass, replace
from pathlib import Path
from typing import Any

from bozintar import counts
from bozintar.logs import Seldom

from .files import found
from .judging import Found, Word, judge
from .records import RUNNING, STOPPED, Fence, Record, Unreadable
from .server import Lnsd

# how often the mark is written, and how long a start waits for it at most, in seconds
EVERY, PATIENCE = 1.0, 10.0
ID = re.compile("[0-9a-f]{32}")
WORDS = "--netid {netid} --generation {generation} --number {number}"
# for Prometheus and the console, written each time that the mark is on the disk
SHOWN = """# HELP pilot_mark_unconfirmed whether the mark was lost, and nobody confirmed the store since
# TYPE pilot_mark_unconfirmed gauge
pilot_mark_unconfirmed {:d}
"""


def put(file: Path, text: str) -> None:
    """Replaces a file that all may read. It is on the disk then."""
    part = file.with_name(f"{file.name}.part")
    part.unlink(missing_ok=True)
    with part.open("w", encoding="utf-8") as opened:
        opened.write(text)
        opened.flush()
        os.fchmod(opened.fileno(), 0o644)
        os.fsync(opened.fileno())
    part.rename(file)
    folder = os.open(file.parent, os.O_RDONLY)
    try:
        os.fsync(folder)
    finally:
        os.close(folder)


@dataclass(frozen=True)
class Mark(Record):
    """What the file has: a line, with a checksum at its end. `ids` are those of the files that were
    the store until now."""

    netid: str
    generation: int
    number: int
    home: str
    # of a clean end, or empty
    digest: str
    ids: str

    @classmethod
    def of(cls, it: Found, own: str, before: "Mark | None", digest: str = "") -> "Mark":
        """The mark of a file with an id of its own, after another mark."""
        ids = dict.fromkeys([*(before.ids.split() if before else []), *own.split()])
        return cls(it.net_id, it.generation, it.number, it.home, digest, " ".join(ids))

    @classmethod
    def kept(cls, file: Path) -> "Mark":
        """What the file has; OSError or ValueError if it can't be read."""
        text, _, checksum = file.read_text(encoding="utf-8").rstrip("\n").rpartition(" ")
        if checksum != hashlib.sha256(text.encode()).hexdigest():
            raise Unreadable("it is torn")
        return cls.read(str(file), text)

    def keep(self, file: Path) -> None:
        """Writes it."""
        text = self.text()
        put(file, f"{text} {hashlib.sha256(text.encode()).hexdigest()}\n")

    def why_not(self, it: Found, own: str, store: Path) -> str:
        """Why a file isn't served; nothing if it may be. An id that is new is the word for it."""
        # the same file may have been changed after a clean end, by `lnsd amend` for example
        has_ended = bool(self.digest) and (it.digest == self.digest or it.home != self.home)
        state = STOPPED if has_ended else RUNNING
        of = (self.number, self.home, self.digest, "", "this machine", str(store), self.generation)
        is_new = bool(own) and own not in self.ids.split()
        return judge(self.netid, Fence(0, state, *of), it, Word(replaces=0 if is_new else None))

    def words(self) -> str:
        """What an operator compares, and repeats."""
        return WORDS.format(**asdict(self))


class Marks:
    """The mark of a store, and the files that belong to it."""

    def __init__(self, store: Path, file: Path, shown: Path):
        self.store, self.file, self.shown = store, file, shown
        self.id, self.unmarked = (Path(f"{store}.{end}") for end in ("id", "unmarked"))
        self.lnsd, self.seldom, self.is_kept = Lnsd("", str(store)), Seldom(), False

    def look(self) -> tuple[Found, str]:
        """The store's file, and its id or nothing. The machine isn't part of its home, since a disk
        may go to another one."""
        text = self.id.read_text(errors="replace").strip() if self.id.exists() else ""
        return found(str(self.store), "", "inode"), text if ID.fullmatch(text) else ""

    def before(self) -> tuple[Mark | None, str]:
        """The mark, or why there is none."""
        try:
            return Mark.kept(self.file), ""
        except (OSError, ValueError) as why:
            return None, str(getattr(why, "strerror", why))

    def writes(self, file: Path, what: Callable[[], Any]) -> bool:
        """Writes a file; whether that could be done. The server never waits for it."""
        try:
            what()
            return True
        except OSError as why:
            self.seldom.warn(file, f"{file} can't be written: {why.strerror}")
            return False

    def keep(self, mark: Mark) -> Mark:
        """Writes a mark, if that can be done; the same."""
        self.is_kept = self.writes(self.file, lambda: mark.keep(self.file))
        return mark

    def turn(self, mark: Mark) -> Mark:
        """Writes what is durable now, if that is more, and shows that it is written; the mark."""
        number = asyncio.run(self.lnsd.durable())
        if number > mark.number or not self.is_kept:
            mark = self.keep(replace(mark, number=max(number, mark.number)))
        if self.is_kept:
            self.show()
        return mark

    def show(self) -> None:
        """Writes the number for Prometheus and the console."""
        text = SHOWN.format(self.unmarked.exists())
        self.writes(self.shown, lambda: counts.replace(str(self.shown), text))

    def begin(self, mark: Mark) -> bool:
        """Has a child write the mark for as long as this process runs, which becomes the server;
        whether it is on the disk already."""
        self.show()
        try:
            reader, writer = os.pipe()
            server = os.pidfd_open(os.getpid())
            child = os.fork()
        except OSError as why:
            self.seldom.warn("begin", f"{self.file} isn't written: {why.strerror}")
            return False
        if child:
            os.close(writer)
            is_there = select.select([reader], [], [], PATIENCE)[0]
            return bool(is_there and os.read(reader, 1))
        try:
            self.keep(mark)
            os.write(writer, b"." * self.is_kept)
            os.close(writer)
            while not select.select([server], [], [], EVERY)[0]:
                mark = self.turn(mark)
        finally:
            os._exit(0)
