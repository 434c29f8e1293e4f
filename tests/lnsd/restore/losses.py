"""A store is lost again and again, and the network goes on with older copies of it.

Devices join and send under the server. Two copies of the store are made, an older and a newer one.
The network goes on, also with joins, and the store is lost. Then, four times, a copy is restored in
the plain way, without options, and the store is lost again: the newer copy, the same copy once
more, the older copy, and a copy of the newer one in another folder."""

import os
import random
import shutil
import time
from collections.abc import Sequence
from dataclasses import dataclass
from pathlib import Path

from bozintar.links import Ended, Silent
from bozintar.processes import Failed
from bozintar.server import Program

from ..fleet import APPLICATIONS, Load
from ..seen import Meter, Rule, Seen
from .cases import LAST, PLAIN, Copy, Nonces

SECONDS = 2.0
# how many lives there may be after the copy
LIVES = 5
# how long what a replayed frame does may take beyond its window, in seconds
BEHIND = 1.5
Frames = Sequence[tuple[bytes, int]]


class Lines:
    """A list of a store, by DevEUI."""

    def __init__(self, lines: Sequence[str]):
        self.by_name = {line.split(" ")[1]: line.split(" ") for line in lines[:-1]}
        self.seq = lines[-1]

    def granted(self, name: str) -> int:
        """The last JoinNonce that a device was granted."""
        return int(self.by_name[name][2])


@dataclass
class Kept:
    """A copy of the store in a folder of its own, and its list."""

    path: str
    lines: Lines

    def content(self) -> Copy:
        """Its bytes, and what it has of devices."""
        devices = self.lines.by_name.items()
        listed = {name: (int(words[2]), int(words[7])) for name, words in devices}
        return Copy(Path(self.path).read_bytes(), listed)


class Losses:
    """The network, its stores, and what was seen over all of these."""

    def __init__(self, program: Program, devices: int, seed: int):
        self.program, self.chance = program, random.Random(seed)
        self.seen = Seen([Meter(at, APPLICATIONS[at % 2]) for at in range(devices)])
        # all frames that were sent, and the JoinNonces that the record of restores has to have
        self.said: list[tuple[bytes, int]] = []
        self.recorded: Nonces = {}
        self.newer: Kept | None = None

    def go(self) -> None:
        """All of it. What breaks it off is a fault."""
        seen = self.seen
        formatted = self.program.format(slots=len(seen.meters))
        seen.expect(Rule.ENDED, "lnsd format", formatted, (0, "", ""))
        try:
            self.lose_all()
        except (Failed, Ended, Silent, ValueError) as why:
            seen.wrong(Rule.ENDED, f"{type(why).__name__}: {why}")

    def lose_all(self) -> None:
        """The lives before the copies and after them, and each loss of the store."""
        self.live()
        older = self.copied("older")
        self.live()
        newer = self.newer = self.copied("newer")
        self.restore_with_too_few(newer)
        other = os.path.join(self.program.folder, "other")
        os.makedirs(other)
        elsewhere = Kept(shutil.copyfile(newer.path, os.path.join(other, "copy")), newer.lines)
        for kept in (newer, newer, older, elsewhere):
            self.restore(kept)
            self.live_again()
            os.remove(self.program.store)

    def live(self, replay: Frames = ()) -> None:
        """A life to a kill. After a restore all frames are sent again first, and it lasts until a
        line and a downlink have come of new ones."""
        load = Load(self.program, self.seen, self.chance)
        load.said = self.said
        self.seen.begin()
        if replay:
            self.replay(load, replay)
        load.provision()
        load.run(SECONDS, needs_both=bool(replay))
        self.program.kill()
        load.rest()

    def replay(self, load: Load, frames: Frames) -> None:
        """Each frame that was ever sent is heard again."""
        seen, before = self.seen, self.seen.counts()[0]
        for frame, hz in frames:
            seen.handed.hand_in(frame, hz, load.gateways[:1], load.chance)
            load.read(0.001)
        last = time.monotonic() + BEHIND
        while time.monotonic() < last:
            load.read(0.05)
        what = f"uplinks forwarded of {len(frames)} frames that are sent again"
        seen.expect(Rule.REPLAYED, what, seen.counts()[0], before)
        # what comes of frames from here on is of new ones
        load.before = load.come()

    def copied(self, name: str) -> Kept:
        """A copy of the store, in a folder of its own."""
        folder = os.path.join(self.program.folder, name)
        os.makedirs(folder)
        path = shutil.copyfile(self.program.store, os.path.join(folder, "copy"))
        return Kept(path, Lines(self.program.list()))

    def restore_with_too_few(self, newer: Kept) -> None:
        """Lives after the copy, until a device has joined twice. Then the store is lost. With 1
        JoinNonce counted a device would be granted one again: so the number is needed."""
        for _ in range(LIVES):
            self.live()
            last = {name: self.seen.last.get(("JoinNonce", name), 0) for name in self.seen.meters}
            since = max(last[name] - newer.lines.granted(name) for name in last)
            if since > 1:
                break
        os.remove(self.program.store)
        self.seen.holds(Rule.RESTORED, since > 1, "no device joined twice after the copy")
        few = self.restore(newer, 1)
        again = [name for name in last if few.granted(name) < last[name]]
        why = "no device would be granted a JoinNonce again with 1 counted"
        self.seen.holds(Rule.RESTORED, again, why)
        refused = self.program.run("restore", newer.path, self.program.store)
        due = (1, "", "lnsd: exists\n")
        self.seen.expect(Rule.RESTORED, "a store that is there", refused, due)
        os.remove(self.program.store)

    def restore(self, kept: Kept, since: int = PLAIN) -> Lines:
        """Restores a copy in the place of the lost store, without an option if JoinNonces are
        raised by the plain number; the new store's list. What has to be printed is computed from
        the copy's list and from the restores before."""
        seen, then = self.seen, kept.lines
        before, names = self.recorded, list(then.by_name)
        self.recorded = {
            name: max(then.granted(name), before.get(name, 0)) + since for name in names
        }
        out = self.printed(kept.path, [] if since == PLAIN else ["--grants", str(since)])
        raised = sum(before.get(name, 0) > then.granted(name) for name in names)
        least = LAST - max(self.recorded.values())
        head = [f"devices {len(names)}", f"recorded {raised}", f"grants_left {least}"]
        seen.expect(Rule.RESTORED, "what restore prints first", out[:3], head)
        due = [f"above {name} {self.recorded[name]} {then.by_name[name][7]}" for name in names]
        seen.expect(Rule.RESTORED, "from where devices go on", out[3:], due)
        now = Lines(self.program.list())
        seen.expect(Rule.RESTORED, "the last line", now.seq, then.seq)
        for name, (slot, _, _, _, _, _, items, heard) in then.by_name.items():
            words = [slot, name, str(self.recorded[name]), "-", "-", "-", items, heard]
            seen.expect(Rule.RESTORED, f"the restored {name}", now.by_name.get(name), words)
        return now

    def printed(self, path: str, options: list[str]) -> list[str]:
        """The lines that a restore prints; the copy stays as it is."""
        before = Path(path).read_bytes()
        status, out, said = self.program.run("restore", path, self.program.store, *options)
        is_same = Path(path).read_bytes() == before
        self.seen.holds(Rule.RESTORED, is_same, "the copy isn't as it was")
        if status:
            raise Failed(f"lnsd restore ended with status {status}: {said.strip()}")
        return out.splitlines()

    def live_again(self) -> None:
        """A life of a restored store: all that was ever sent is sent again, and the devices go
        on."""
        seen = self.seen
        seen.queue_anew()
        ups, frames = seen.counts()[0], list(self.said)
        for meter in seen.meters.values():
            meter.keys = None
        self.live(frames)
        came = seen.counts()[0] - ups
        print(f"{len(frames)} frames were sent again, and then {came} uplinks came")
        seen.holds(Rule.ENDED, came > 0, "no uplink came after the store was restored")
