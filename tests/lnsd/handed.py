"""What gateways handed in: which frames a server whose links come and go has to decide, also if
these links end, and by which gateway each answer has to leave."""

import fcntl
import itertools
import random
import sys
import termios
from collections import Counter, defaultdict
from collections.abc import Sequence
from dataclasses import dataclass
from typing import TYPE_CHECKING

from bozintar import network
from bozintar.links import Gateway
from bozintar.wire import Copy
from lnsd.unread import unread

if TYPE_CHECKING:
    from .seen import Seen

# the refusals of a copy alone: its window has another copy of the frame, which is decided
OF_COPIES = ("21", "22")
Listed = dict[str, tuple[int, int]]


def name_of(frame: bytes) -> str:
    """What a frame says of itself, as a line of `lnsd watch` has it."""
    if frame[0] == 0:
        dev_nonce = int.from_bytes(frame[17:19], "little")
        return f"join {frame[9:17][::-1].hex().upper()} {dev_nonce}"
    counter = int.from_bytes(frame[6:8], "little")
    return f"data {frame[1:5][::-1].hex().upper()} {counter}"


def on_its_way(link: Gateway) -> int:
    """How many bytes of what was said on a link haven't come to the server's machine."""
    return int.from_bytes(fcntl.ioctl(link.socket, termios.TIOCOUTQ, bytes(4)), sys.byteorder)


def left_of(link: Gateway) -> int:
    """How many bytes at most of what was said on a link the server hasn't read. What is on its way
    is looked at first, so that no byte is missed."""
    way, waits = on_its_way(link), unread(link)
    return link.said if waits is None else way + waits


@dataclass
class Entry:
    """A copy that was handed in: of which frame, on which link, up to which byte of it, and whether
    the server had read it when that link ended."""

    name: str
    link: Gateway
    end: int
    is_read: bool = False


class Handed:
    """What was handed in over all lives, and in this one. A frame goes by its name."""

    def __init__(self, seen: "Seen"):
        self.seen, self.stamps = seen, itertools.count(1)
        # all frames; those of which something came; how gateways heard each
        self.ever: set[str] = set()
        self.out: set[str] = set()
        self.heard: dict[str, set[str]] = defaultdict(set)
        self.begin()

    def begin(self) -> None:
        """A new life."""
        # copies in order, by gateway; and by stamp, with the frame of each
        self.turns: dict[str, list[Entry]] = defaultdict(list)
        self.copies: dict[int, tuple[str, str]] = {}
        # of each frame: how often it was handed in, by how many copies, and how often refused
        self.times: Counter[str] = Counter()
        self.parts: Counter[str] = Counter()
        self.refused: Counter[str] = Counter()
        # the frames that were handed in for the first time, the last one of each device among them,
        # and those that may be accepted
        self.new: set[str] = set()
        self.last: dict[str, str] = {}
        self.may: set[str] = set()
        self.has_gaps = False

    def hand_in(
        self, frame: bytes, hz: int, gateways: Sequence[Gateway], chance: random.Random
    ) -> None:
        """Gateways hand in a frame, each copy under a stamp of its own."""
        name = name_of(frame)
        if name not in self.ever:
            self.new.add(name)
            self.last[self.owner_of(name)] = name
        if name not in self.out:
            self.may.add(name)
        self.ever.add(name)
        self.times[name] += 1
        for gateway in gateways:
            snr, rssi = chance.randint(-60, 40), chance.randint(-120, -60)
            copy = Copy(gateway.eui, hz, 5, snr, rssi, next(self.stamps))
            gateway.hands_in(frame, copy)
            self.parts[name] += 1
            self.turns[gateway.eui].append(Entry(name, gateway, gateway.said))
            self.copies[copy.stamp] = (gateway.eui, name)
            self.heard[name].add(copy.heard())

    def owner_of(self, name: str) -> str:
        """The DevEUI of the device that sent a frame."""
        kind, device, _ = name.split(" ")
        return device if kind == "join" else self.seen.keys[int(device, 16)][0][0]

    def drop(self, link: Gateway, left: int = 0) -> None:
        """A gateway's link is about to end, or has ended: all that was said on it was read, except
        this many bytes."""
        for entry in self.turns[link.eui]:
            if entry.link is link and entry.end <= link.said - left:
                entry.is_read = True

    def forwards(self, words: list[str]) -> bool:
        """A line `up`: whether it is of a frame that was handed in, as a gateway heard it."""
        slot = self.seen.meters[words[1]].slot
        if slot is None:
            return False
        address = network.address(slot, int(words[2]))
        name = f"data {address:08X} {int(words[3]) & 0xFFFF}"
        self.out.add(name)
        return " ".join(words[7:]) in self.heard[name]

    def answers(self, gateway: str, content: bytes, dev_eui: str) -> str:
        """What is for a device leaves by a gateway, and answers a frame that this one handed in;
        what is wrong otherwise."""
        by, name = self.copies.get(int.from_bytes(content[9:13], "big"), ("", ""))
        if by == gateway and self.owner_of(name) == dev_eui:
            self.out.add(name)
            return ""
        return f"an answer to {name} of {by} came to {gateway} for {dev_eui}"

    def reports(self, line: str) -> None:
        """A line that an operator read."""
        kind, *words = line.split(" ")
        if kind == "refused" and words[0] not in OF_COPIES:
            self.refused[" ".join(words[2:5])] += 1
        self.has_gaps = self.has_gaps or kind == "left_out"

    def shows(self, entry: Entry) -> bool:
        """Whether something came of a copy's frame, of which there is no other copy: its window
        opened after all that this gateway had handed in before."""
        name = entry.name
        return name in self.new and name in self.out and self.parts[name] == 1

    def decided(self, turns: list[Entry]) -> list[Entry]:
        """Of a gateway's copies, in order, those that were read before one of which it shows that
        it was decided."""
        last = max((place for place, entry in enumerate(turns) if self.shows(entry)), default=-1)
        return [
            entry for entry in turns[: last + 1] if entry.is_read or entry.link is turns[last].link
        ]

    def due(self, is_stopped: bool) -> set[str]:
        """The new frames that have to be decided by the end of this life. The word that a frame was
        refused may be lost in a kill. It can be one alone after which its device sent another one,
        that was decided first."""
        names: set[str] = set()
        for turns in self.turns.values():
            read = [entry for entry in turns if entry.is_read]
            names |= {entry.name for entry in (read if is_stopped else self.decided(turns))}
        if not is_stopped:
            names &= self.out | set(self.last.values())
        return names & self.new

    def counts(self, kind: str, is_stopped: bool) -> list[Counter[str]]:
        """Of uplinks (`data`) or joins (`join`), by device: how many have to be decided, how many
        may be, and how many of the first were refused, as an operator read."""
        due = [name for name in self.due(is_stopped) if name.startswith(kind)]
        may = [name for name in self.may if name.startswith(kind)]
        refused = [
            name for name in due if name not in self.out and self.refused[name] >= self.times[name]
        ]
        return [Counter(map(self.owner_of, names)) for names in (due, may, refused)]

    def compare(self, before: Listed, after: Listed, is_stopped: bool) -> list[tuple[bool, str]]:
        """The list at the end of a life, and the one before it, against what was handed in: of each
        device whether it is so, and what is wrong otherwise."""
        end, found = "stopped" if is_stopped else "killed", []
        for place, kind in enumerate(("join", "data")):
            due, may, refused = self.counts(kind, is_stopped)
            for name, counts in after.items():
                grew = counts[place] - before.get(name, (0, 0))[place]
                least = 0 if self.has_gaps else due[name] - refused[name]
                why = f"{grew} more of {kind} are in the list of {name} after a life, {end}"
                why += f", and {due[name]} to {may[name]} were due"
                found.append((least <= grew <= may[name], why))
        return found
