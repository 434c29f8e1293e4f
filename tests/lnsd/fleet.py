"""A fleet under load: the links of one life of a server, and what devices and applications do over
them."""

import math
import os
import random
import select
import subprocess
import time
from collections import Counter
from collections.abc import Sequence
from typing import Any

from bozintar import wire
from bozintar.frames import FIRST_CHANNELS
from bozintar.links import Application, Gateway, Link, Silent
from bozintar.processes import Failed
from bozintar.server import Ended, Program
from bozintar.wire import NoMessage, Copy, Downlink, request

from .handed import Handed, left_of, on_its_way
from .seen import WRONG, Meter, Rule, Seen

# if links stay the first three are there, and all of them if links come and go
GATEWAYS = [f"{0xB1 + number:016X}" for number in range(8)]
APPLICATIONS = (3, 9)
RATE = 700
# how often a link changes after what a device does, if links come and go; how often it is a
# gateway's; and how many places there are for those that end meanwhile
CHANGES, OF_GATEWAYS, SPARE = 0.03, 0.7, 4
DROPS, TAKEOVER, INSIDE = ("closed", "reset", "ended"), "taken over", "inside a message"
# how often an application asks what is refused
MISTAKES = 0.01
# the most frames that are under way: those of a window's 200 ms at that rate, and some more
MOST = 200
# how long a slow server may take for the next thing, in seconds
PATIENCE = 120


def name_of(link: Link) -> str:
    """A link's name, as lines of `lnsd watch` have it."""
    if isinstance(link, Gateway):
        return f"gateway {link.eui}"
    return f"application {link.number}" if isinstance(link, Application) else ""


class Load:
    """The links of one life, and what they carry."""

    def __init__(self, program: Program, seen: Seen, chance: random.Random, changes: float = 0):
        self.program, self.seen, self.chance = program, seen, chance
        self.meters = list(seen.meters.values())
        # each frame that was sent, and its frequency; the last line `up` and the last downlink
        self.said: list[tuple[bytes, int]] = []
        self.last_up: tuple[int, bytes] | None = None
        self.last_downlink: tuple[str, bytes] | None = None
        # how often links changed, each way, and how many broke off inside a message
        self.changes = changes
        self.changed: Counter[str] = Counter()
        start, gateways = program.serve, GATEWAYS[:3]
        if changes:
            start, gateways = program.run_on, GATEWAYS
        self.address = start(len(gateways) + len(APPLICATIONS) + SPARE * bool(changes))
        # how many links each name had; `watch` shows how many greetings were taken
        self.made: Counter[str] = Counter()
        self.watch = Watch(program, seen.handed) if changes else None
        # by link, its number over all lives
        self.serials: dict[Link, int] = {}
        self.gateways = [self.gateway(eui) for eui in gateways]
        self.applications = [self.application(number) for number in APPLICATIONS]
        self.is_there = True
        # how many frames were sent of which something comes, and what had come before that
        self.sent, self.before = 0, self.come()

    def gateway(self, eui: str) -> Gateway:
        """A link of this gateway."""
        return self.numbered(Gateway(self.address, eui, patience=PATIENCE))

    def application(self, number: int) -> Application:
        """A link of this application."""
        return self.numbered(Application(self.address, number, patience=PATIENCE))

    def numbered(self, link: Any) -> Any:
        """Gives a link a number of its own over all lives."""
        self.seen.links += 1
        self.serials[link] = self.seen.links
        self.made[name_of(link)] += 1
        return link

    def change(self) -> None:
        """A link ends in one way or another, and the next one of its name is there. If the
        greeting of a link wasn't taken yet it stays, since of two the later one may be taken
        first, and lose its name to the other."""
        of_gateway = self.chance.random() < OF_GATEWAYS
        links: Any = self.gateways if of_gateway else self.applications
        place, how = self.chance.randrange(len(links)), self.chance.choice((*DROPS, TAKEOVER))
        name = name_of(links[place])
        if self.watch and self.watch.linked[name] < self.made[name]:
            return
        if self.chance.random() < 0.5:
            self.break_off(links[place])
        links[place] = self.next_of(links[place], how)
        self.changed[how] += 1
        # what was for the older link may never come
        self.sent = self.come() - self.before

    def again(self, link: Link) -> Link:
        """The next link of a link's name."""
        if isinstance(link, Application):
            return self.application(link.number)
        return self.gateway(link.eui) if isinstance(link, Gateway) else link

    def next_of(self, link: Link, how: str) -> Link:
        """The next link of a link's name, after its end or, if it takes over, before it."""
        if isinstance(link, Gateway):
            self.seen.handed.drop(link, left_of(link))
        newer = self.again(link) if how == TAKEOVER else None
        if how == "ended":
            link.end()
        if how in ("ended", TAKEOVER):
            # what left on the older link is before what leaves on the newer one
            self.hear_out(link)
        if how == "ended" and isinstance(link, Gateway):
            self.seen.handed.drop(link)
        (link.reset if how == "reset" else link.close)()
        return newer or self.again(link)

    def break_off(self, link: Link) -> None:
        """Says a part of a message, which is never said to its end."""
        said = request("mac 0000000000000000 06")
        if isinstance(link, Gateway):
            meter = self.chance.choice(self.meters)
            if meter.rests_until > time.monotonic():
                return
            frame = meter.frame(self.chance)
            # it isn't sent again: it would be older than what came meanwhile
            meter.sent = [sent for sent in meter.sent if sent != frame]
            said = wire.copy_of(frame, Copy(link.eui))
        link.say(said[: self.chance.randrange(1, len(said))])
        self.changed[INSIDE] += 1

    def come(self) -> int:
        """How many of the frames that were sent came out."""
        return sum(self.seen.counts()[:2])

    def links(self) -> list[Link]:
        """All links."""
        return [*self.gateways, *self.applications]

    def read(self, wait: float) -> None:
        """Takes what has come over all links."""
        by_socket: dict[Any, Any] = {link.socket: link for link in self.links() if not link.is_over}
        if self.watch and not self.watch.is_over:
            by_socket[self.watch.out] = self.watch
        for ready in select.select(list(by_socket), [], [], wait)[0]:
            link = by_socket[ready]
            link.more(0)
            if isinstance(link, Link):
                self.hear(link)
        self.is_there = all(not link.is_over for link in self.links())

    def hear(self, link: Link) -> None:
        """Takes what has come over a link."""
        while link.contents:
            content = link.contents.popleft()
            if isinstance(link, Gateway):
                self.order(link.eui, content)
            elif isinstance(link, Application):
                self.line(link.number, content)

    def hear_out(self, link: Link) -> None:
        """Takes what comes over a link until the server has closed it."""
        while link.more(PATIENCE):
            self.hear(link)
        self.hear(link)

    def order(self, gateway: str, content: bytes) -> None:
        """What a gateway is to send: it is for this gateway, and answers what it handed in."""
        try:
            frame = Downlink.of(gateway, content).frame
        except NoMessage as why:
            words = f"{content.hex().upper()} came to gateway {gateway}: {why}"
            self.seen.wrong(Rule.OWN, words)
            return
        dev_eui = self.seen.frame(gateway, frame)
        if dev_eui:
            wrong = self.seen.handed.answers(gateway, content, dev_eui)
            self.seen.holds(Rule.OWN, not wrong, wrong)
        if frame[0] != 0x20:
            self.last_downlink = (gateway, content)

    def line(self, application: int, content: bytes) -> None:
        """A line that an application hears."""
        try:
            line = wire.line_of(content)
        except ValueError as why:
            self.seen.wrong(Rule.OWN, f"application {application}: {why}")
            return
        self.seen.line(application, line)
        if line.startswith("up "):
            is_so = self.seen.handed.forwards(line.split(" "))
            self.seen.holds(Rule.OWN, is_so, f"no copy is as in {line}")
            self.last_up = (application, content)

    def provision(self) -> None:
        """Provisions what isn't there yet, and waits for it."""
        for meter in self.meters:
            if meter.slot is None:
                self.ask(meter, meter.provision())
        last = time.monotonic() + PATIENCE
        while any(meter.slot is None for meter in self.meters):
            self.read(0.1)
            if not self.is_there or time.monotonic() > last:
                raise Failed("not all devices were provisioned")

    def ask(self, meter: Meter, line: str) -> int:
        """A device's application asks; which link of all the lives it asks on."""
        link = next(link for link in self.applications if link.number == meter.application)
        link.asks(line)
        return self.serials[link]

    def act(self) -> None:
        """One thing that a device or its application does."""
        meter = self.chance.choice(self.meters)
        if self.chance.random() < MISTAKES:
            self.ask(meter, WRONG[meter.application][0])
        if meter.rests_until > time.monotonic():
            return
        kind = self.chance.random()
        if meter.keeps and kind < 0.25:
            line, tag = meter.request(self.chance), meter.next_tag - 1
            meter.asked_on.setdefault(tag, self.ask(meter, line))
            return
        frame = meter.frame(self.chance)
        self.sent += meter.is_new
        hz = self.chance.choice(FIRST_CHANNELS if meter.is_joining else meter.channels)
        self.said.append((frame, hz))
        heard = self.chance.sample(self.gateways, self.chance.randint(1, 3))
        self.seen.handed.hand_in(frame, hz, heard, self.chance)

    def is_done(self, share: Sequence[int]) -> bool:
        """Whether this many links were dropped, and this many taken over."""
        drops = sum(self.changed[how] for how in DROPS)
        return drops >= share[0] and self.changed[TAKEOVER] >= share[1]

    def has_both(self) -> bool:
        """Whether a line `up` and a downlink have come."""
        return bool(self.last_up and self.last_downlink)

    def run(self, seconds: float, share: Sequence[int] = (0, 0), needs_both: bool = False) -> None:
        """Goes on for this many seconds, from when the first frame's outcome has come, and if that
        is needed a line `up` and a downlink, and links have changed as often as they should."""
        due, last = time.monotonic(), time.monotonic() + PATIENCE
        has_come, end = False, math.inf
        while time.monotonic() < min(last, end):
            come = self.come() - self.before
            has_come = has_come or come > 0 and (self.has_both() or not needs_both)
            if has_come and end == math.inf and self.is_done(share):
                end = time.monotonic() + seconds
            if time.monotonic() >= due and self.sent - come < MOST:
                self.act()
                if self.chance.random() < self.changes:
                    self.change()
                due = max(due + 1 / RATE, time.monotonic() - 0.1)
            self.read(max(0.0, min(due - time.monotonic(), 0.01)))
            if not self.is_there:
                raise Failed(self.why_over())
        if end == math.inf:
            raise Failed(f"too little came in {PATIENCE} seconds: {dict(self.changed)}")

    def why_over(self) -> str:
        """Why a link is over that nobody has ended."""
        try:
            return f"the server has ended by itself: {self.program.ended(2)}"
        except Failed:
            over = (name_of(link) for link in self.links() if link.is_over)
            return f"the server has closed the link of {', '.join(over)}"

    def stop(self) -> Ended:
        """The server is stopped; how it ended. All that had come to it has to be decided."""
        for gateway in self.gateways:
            self.seen.handed.drop(gateway, on_its_way(gateway))
        return self.program.stop()

    def rest(self) -> None:
        """Takes all that had left before the end."""
        last = time.monotonic() + PATIENCE
        while any(not link.is_over for link in self.links()) and time.monotonic() < last:
            self.read(0.1)
        self.close()

    def close(self) -> None:
        """Closes all links."""
        for link in self.links():
            link.close()
        if self.watch:
            self.watch.rest()


class Watch:
    """An operator who watches all the while, by `lnsd watch`."""

    def __init__(self, program: Program, handed: Handed):
        words = [program.path, "watch", program.store]
        self.process = subprocess.Popen(
            words, stdin=subprocess.DEVNULL, stdout=subprocess.PIPE, stderr=subprocess.DEVNULL
        )
        assert self.process.stdout
        self.out, self.handed = self.process.stdout.fileno(), handed
        self.came, self.is_over = b"", False
        self.linked: Counter[str] = Counter()
        if not select.select([self.out], [], [], PATIENCE)[0] or not self.more(0):
            raise Silent("lnsd watch prints nothing")

    def more(self, _: float) -> bool:
        """Takes the lines that have come; whether there may be others."""
        piece = os.read(self.out, 65536)
        *lines, self.came = (self.came + piece).split(b"\n")
        for line in map(bytes.decode, lines):
            kind, _space, name = line.partition(" ")
            self.linked[name] += kind == "linked"
            self.handed.reports(line)
        self.is_over = not piece
        return not self.is_over

    def rest(self) -> None:
        """Takes the lines until the server ends."""
        while not self.is_over:
            self.more(0)
        if self.process.stdout:
            self.process.stdout.close()
        self.process.wait()
