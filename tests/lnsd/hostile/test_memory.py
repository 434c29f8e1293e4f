"""One request for memory is refused. What refuses it is made by a C compiler, which is needed."""

import re
import sys
import time
from collections.abc import Callable
from concurrent.futures import ThreadPoolExecutor
from contextlib import suppress
from functools import partial
from pathlib import Path

import preloads
import pytest
from bozintar import load, wire
from bozintar.links import Application, Gateway, Link, Silent
from bozintar.links import Ended as LinkEnded
from bozintar.processes import Failed, await_that
from bozintar.server import Ended, Program
from bozintar.wire import Copy

from ..clocks import await_rest
from ..pairs import EUI, OWNER, SUCCESS, formatted, records
from ..seen import Meter, Seen
from .operating import all_of, failure, heard, operator

# this many requests are refused, one in each life, spread over those of a life
TRIED = 30
# how long a client waits for what has to come, and for what may never come, in seconds
PATIENCE, LITTLE = 60, 0.6
# lives that run at once: most of the time each of them waits
AT_ONCE = 8
ENDS = re.compile(r"dropped \d+\nfaulted 0\n")
WHOLE, REFUSED = (0, "", "dropped 0\nfaulted 0\n"), failure("refused 30")
DEVICES, MAC = 2, wire.request(f"mac {load.dev_eui(0)} 06")


class Life:
    """A life of the server, with an application and a gateway, and all that these see."""

    def __init__(self, program: Program, seen: Seen, how: dict | None = None) -> None:
        self.program, self.seen = program, seen
        self.patience = LITTLE if how and how["REFUSED_REQUEST"] != "0" else PATIENCE
        self.meters: list[Meter] = list(seen.meters.values())
        self.refused: list[str] = []
        self.links: list[Link] = []
        seen.begin()
        address = program.serve(2, env=how)
        try:
            self.links.append(self.linked(lambda: Application(address, OWNER, patience=0.05)))
            self.links.append(self.linked(lambda: Gateway(address, EUI, patience=0.05)))
        except LinkEnded:
            pass

    def linked(self, made: Callable[[], Link]) -> Link:
        """A link, as soon as the server takes one; it may have ended before."""
        while self.program.running().poll() is None:
            try:
                return made()
            except Silent:
                pass
        raise LinkEnded("the server has ended")

    def read(self, link: Link, wait: float) -> int:
        """Takes what comes over a link in this time, at least once; how much it was."""
        try:
            link.more(wait)
        except Silent:
            pass
        count = len(link.contents)
        while link.contents:
            if isinstance(link, Gateway):
                self.seen.frame(EUI, link.order().frame)
            elif isinstance(link, Application):
                self.hear(link.hears())
        return count

    def hear(self, line: str) -> None:
        """What the application hears. A refusal counts nothing of what was seen."""
        if line.startswith("refused "):
            self.refused.append(line)
        else:
            self.seen.line(OWNER, line)

    def await_one(self, link: Link) -> None:
        """Waits a while for something on a link, until the server is at rest."""
        last = time.monotonic() + self.patience
        while not link.is_over and time.monotonic() < last:
            if self.read(link, max(0.01, last - time.monotonic())):
                return
        await_rest(self.program)
        self.read(link, 0)

    def asks(self, line: str) -> None:
        """The application asks, and is answered."""
        application = self.links[0]
        assert isinstance(application, Application)
        application.asks(line)
        self.await_one(application)

    def sends(self, frame: bytes, link: Link) -> None:
        """The gateway hands in a frame, which is answered over this link."""
        gateway = self.links[1]
        assert isinstance(gateway, Gateway)
        gateway.hands_in(frame, Copy(EUI))
        self.await_one(link)

    def run(self, with_items: bool) -> None:
        """What happens in a life: each device is brought, joins, sends, and is sent an item."""
        application, gateway = self.links
        for meter in self.meters:
            if meter.slot is None:
                self.asks(meter.provision())
        for meter in self.meters:
            if not meter.keys:
                meter.is_joining = True
                self.sends(meter.join_request(), gateway)
        for meter in self.meters:
            for _ in range(2 if meter.keys else 0):
                self.sends(meter.uplink(7, meter.next_up.to_bytes(4, "big")), application)
            if with_items and meter.keys:
                tag, meter.next_tag = meter.next_tag, meter.next_tag + 1
                self.asks(f"queue {meter.dev_eui} {tag} 7 u {tag:08X}")
                self.sends(meter.uplink(7, meter.next_up.to_bytes(4, "big")), gateway)

    def ended(self) -> Ended:
        """The inputs end, and what comes then is seen too; how the server ends."""
        for link in self.links:
            link.end()
        last = time.monotonic() + PATIENCE
        for link in self.links:
            while not link.is_over and time.monotonic() < last:
                self.read(link, 0.1)
            link.close()
        return self.program.ended()


def live(program: Program, seen: Seen, how: dict | None = None) -> tuple[Ended, list[str]]:
    """One life, as far as it goes; how it ended, and what was refused."""
    life = Life(program, seen, how)
    if len(life.links) == 2:
        try:
            life.run(how is not None)
        except LinkEnded:
            pass
    return life.ended(), life.refused


def tried(path: str, library: str, number: int) -> tuple[int, Ended]:
    """A life whose request of this number is refused, or none if that is 0, and the next one: how
    many requests the first one made, and how it ended."""
    seen = Seen([Meter(1 + number, OWNER) for number in range(DEVICES)])
    why = f"request {number} was refused"
    with Program(path) as program:
        assert program.format(slots=DEVICES) == SUCCESS
        file = Path(program.folder, "requests")
        how = preloads.environment(library, REFUSED_REQUEST=number, REQUESTS=file)
        end, refused = live(program, seen, how)
        assert end == REFUSED or end[:2] == (0, "") and ENDS.fullmatch(end[2]), why
        assert set(refused) <= {"refused 30"}, why
        next_life(program, seen, why)
        assert not any(seen.faults.values()), f"{why}: {dict(seen.faults)}"
        return made(file), end


def made(file: Path) -> int:
    """How many requests a program has made."""
    return int.from_bytes(file.read_bytes(), sys.byteorder)


def next_life(program: Program, seen: Seen, why: str) -> None:
    """What is there after a life, and that the next one serves each device."""
    lines, meters = program.list(), list(seen.meters.values())
    seen.compare(lines)
    words = [line.split(" ") for line in lines[:-1]]
    slots = {dev_eui: int(slot) for slot, dev_eui, *_ in words}
    for meter in meters:
        meter.slot = slots.get(meter.dev_eui)
    before = len(seen.ups)
    assert live(program, seen) == (WHOLE, []), f"{why}: the next life"
    assert len(seen.ups) - before == 2 * len(meters), f"{why}: uplinks of the next life"
    seen.compare(program.list())


@pytest.mark.usefixtures("proved")
def test_refused_request(program: str, replaced: Callable[[str], str]) -> None:
    """Each of some requests of a short life is refused. It ends as usual, or with 1 and `lnsd:
    refused 30`; what had left is in the list, nothing leaves twice, and the next life serves."""
    library = replaced(preloads.REQUESTS)
    count, end = tried(program, library, 0)
    assert end == WHOLE, "the end of a life with memory to spare"
    numbers = [1 + turn * count // TRIED for turn in range(TRIED)]
    with ThreadPoolExecutor(AT_ONCE) as pool:
        found = list(pool.map(lambda number: tried(program, library, number), numbers))
    ends = sum(end == REFUSED for _, end in found)
    assert 0 < ends < TRIED, "all ends are the same"


def has_closed(program: Program) -> bool:
    """Whether a server has closed all windows, or has ended."""
    with suppress(OSError):
        return b"\nwindows 0\n" in all_of(operator(program, b"status\n"))
    return program.running().poll() is not None


def watched(path: str, library: str, number: int) -> tuple[int, int, bool]:
    """A life of `lnsd run` whose request of this number is refused, with an uplink and a request:
    how many requests it had made before its links came, and at the end; and whether that came by
    itself."""
    with formatted(path, records=records(1, OWNER)) as program:
        file = Path(program.folder, "requests")
        how = preloads.environment(library, REFUSED_REQUEST=number, REQUESTS=file)
        address, why = program.run_on(2, env=how), f"request {number} was refused"
        watcher = operator(program, b"watch\n")
        assert watcher.recv(9) == b"watching\n"
        await_rest(program)
        first, links = made(file), [Gateway(address, EUI), Application(address, OWNER)]
        await_rest(program)
        for link, said in zip(links, (heard(load.device(0).uplink(7, b"\x01")), MAC)):
            with suppress(LinkEnded):
                link.say(said)
        await_rest(program)
        await_that(f"{why}: no window is open", lambda: has_closed(program), fault=Failed)
        for link in links:
            link.close()
        await_rest(program)
        last, has_ended = made(file), program.running().poll() is not None
        if not has_ended:
            operator(program, b"stop\n").close()
        end, lines = program.ended(), all_of(watcher).decode()
        assert end == REFUSED if has_ended else last < number or end[0] == 0, f"{why}: {end}"
        seen = lines.count("linked ") + lines.count("ended ")
        assert has_ended or seen % 2 == 0 or "left_out " in lines, f"{why}: {lines}"
        return first, last, has_ended


@pytest.mark.usefixtures("proved")
def test_refused_request_of_a_life_that_goes_on(
    program: str, replaced: Callable[[str], str]
) -> None:
    """Each request is refused in a life of its own. The server closes its windows, reports its
    links, or how many lines it left out, and ends well when it is stopped. Or it ends by itself,
    with 1 and `lnsd: refused 30`."""
    library = replaced(preloads.REQUESTS)
    first, last, _ = watched(program, library, 0)
    with ThreadPoolExecutor(AT_ONCE) as pool:
        found = pool.map(partial(watched, program, library), range(first + 1, last + 1))
        assert {has_ended for _, _, has_ended in found} == {False, True}, "all ends are the same"
