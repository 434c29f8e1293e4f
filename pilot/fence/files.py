"""What a store's file is, read without changing it."""

import hashlib
import os
import subprocess

from .judging import Found

OPEN, NAME, VERSION = b"\xa5", b"LNSTORE", 1
# the lengths of a superblock, of an area's header up to its records, and of a batch's
SUPERBLOCK, HEADER, BATCH = 32, 30, 15
MACHINE = "/etc/machine-id"
PIECE = 1 << 20


class NoStore(Exception):
    """The file can't be read as a store."""


def machine() -> str:
    """This machine's name, which no other one has."""
    with open(MACHINE, encoding="ascii") as opened:
        return opened.read().strip()


def home_of(file: str, machine_id: str) -> str:
    """Which file it is: the machine, the inode, and when that was made. A copy is another inode, or
    was made at another time. The number of the disk isn't in it, which a boot may change."""
    said = subprocess.run(
        ["stat", "--dereference", "--format=%i %.9W", file],
        capture_output=True,
        text=True,
        check=False,
        env={**os.environ, "LC_ALL": "C"},
    )
    inode, _, made = said.stdout.strip().partition(" ")
    if said.returncode or not inode.isdecimal():
        raise OSError(0, said.stderr.strip() or "stat says nothing", file)
    if not made.strip("0."):  # the file system doesn't keep it
        made = f"fs{os.statvfs(file).f_fsid:x}"
    return f"{machine_id}:{inode}:{made}"


class Areas:
    """The superblock and the areas of a store, by docs/FORMATS.md."""

    def __init__(self, number: int):
        self.number = number
        front = self.read(0, SUPERBLOCK)
        if front[:1] != OPEN or front[1:8] != NAME or front[8] != VERSION:
            raise NoStore("it is no store, or of another version")
        self.net_id, self.length = front[9:12].hex().upper(), int.from_bytes(front[16:24], "big")

    def read(self, place: int, length: int) -> bytes:
        """Bytes of the file."""
        found = os.pread(self.number, length, place)
        if len(found) != length:
            raise NoStore("it is cut off")
        return found

    def live(self) -> tuple[bytes, int]:
        """The header of the live area, and where it begins: that of the greater generation."""
        begins = (SUPERBLOCK, SUPERBLOCK + self.length)
        heads = [(self.read(begin, HEADER), begin) for begin in begins]
        are_open = [area for area in heads if area[0][:1] == OPEN]
        if not are_open:
            raise NoStore("no area is open")
        return max(are_open, key=lambda area: area[0][2:10])

    def last(self, head: bytes, begin: int) -> int:
        """The number of the last decision in it: that of the records, or of the last batch."""
        number = int.from_bytes(head[10:18], "big")
        place = begin + HEADER + int.from_bytes(head[22:30], "big")
        while self.read(place, 1) == OPEN:
            batch = self.read(place, BATCH)
            number = int.from_bytes(batch[5:13], "big")
            place += BATCH + int.from_bytes(batch[1:5], "big")
        return number


def found(file: str, home: str, machine_id: str) -> Found:
    """What a file is, once that is on the disk. `home` is its name if it is on a replicated volume,
    else nothing."""
    with open(file, "rb") as opened:
        os.fsync(opened.fileno())
        areas = Areas(opened.fileno())
        digest = hashlib.sha256()
        while piece := opened.read(PIECE):
            digest.update(piece)
        head, begin = areas.live()
        number, generation = areas.last(head, begin), int.from_bytes(head[2:10], "big")
    home = home or home_of(file, machine_id)
    return Found(areas.net_id, home, digest.hexdigest(), number, generation, head[1])
