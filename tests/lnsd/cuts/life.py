"""A short life of the server, of which each write and each sync of its store is logged, and what
its clients had seen at each moment."""

import os
from pathlib import Path

import preloads
from bozintar import image, load, store, wire
from bozintar.server import Program

from ..pairs import APP_KEY, DEV_EUI, HEARD, JOIN_EUI, OWNER, Pair, finish

SLOTS, ROOM = 8, 275_536
# a checkpoint is due after this many bytes have gone into batches
BEFORE_CHECKPOINT = 6_000
MORE = [f"{0xD1 + number:016X}" for number in range(3)]


def filled(program: Program) -> int:
    """Puts two devices into the store, the pair's own and one with so large batches that few more
    bytes fit before a checkpoint; the number of the last decision."""
    records = [store.Record(DEV_EUI, JOIN_EUI, APP_KEY, OWNER), load.record(0, 1)]
    store.put(program.store, records)
    with open(program.store, "rb") as file:
        area = (os.path.getsize(program.store) - image.SUPERBLOCK) // 2
        file.seek(image.SUPERBLOCK + area + 22)
        left = area - image.HEADER - int.from_bytes(file.read(8), "big")
    entry = store.entry(1, load.record(0, 1, is_full=True))
    count = (left - ROOM - BEFORE_CHECKPOINT - 100) // len(entry)
    batches = [[entry] * min(64, count - first) for first in range(0, count, 64)]
    store.put(program.store, records, batches)
    return len(records) + count


class Life:
    """The server, its clients, and which decision these had seen when the log had how many
    bytes."""

    def __init__(self, program: Program):
        self.program, self.log, self.seq = program, f"{program.folder}/log", filled(program)
        self.begun = Path(program.store).read_bytes()
        library = preloads.made(preloads.CALLS, program.folder)
        how = preloads.environment(library, CALL_LOG=self.log, SLOW_SYNCS=1_000_000, SLOW_MS=5)
        self.seen = [(0, self.seq)]
        self.pair = Pair(program.serve(2, env=how))
        self.pair.greet()

    def came(self) -> None:
        """The effects of one more decision have been seen."""
        self.seq += 1
        self.seen.append((os.path.getsize(self.log), self.seq))

    def asks(self, lines: list[str]) -> None:
        """The application asks for all of this at once, and is answered."""
        self.pair.say(self.pair.application, b"".join(map(wire.request, lines)))
        for line in lines:
            kind, dev_eui, *_ = wire.line_of(self.pair.application.read()).split(" ")
            assert dev_eui == line.split(" ")[1] and kind != "refused", f"the answer to {line}"
            self.came()

    def joins(self) -> None:
        """The device joins."""
        pair = self.pair
        pair.say(pair.gateway, wire.copy_of(pair.device.join_request(), HEARD))
        accept = pair.gateway.read()
        assert accept == bytes.fromhex(pair.session.accept(HEARD).split(" ")[2])[2:], "the accept"
        pair.device.take_accept(accept[20:])
        self.came()

    def sends(self) -> None:
        """The device sends."""
        self.pair.sends()
        self.came()

    def run(self) -> None:
        """All of it: some 250 decisions."""
        self.joins()
        self.sends()
        self.sends()
        self.asks([f"provision {name} {JOIN_EUI} {APP_KEY} 0 1" for name in MORE])
        self.asks([f"queue {name} {tag} 7 u {'AA' * 240}" for name in MORE for tag in range(16)])
        self.asks([f"mac {name} 06" for name in MORE for _ in range(64)])
        self.asks([f"mac {DEV_EUI} 06"])
        self.sends()
        self.pair.device.take_downlink(self.pair.gateway.read()[20:])
        finish(self.program, self.pair.links())
        assert self.program.list()[-1] == f"devices 5 seq {self.seq}", "the list's last line"
