"""What sends uplinks at a rate, and what notes when they come out: a process each."""

import gc
import multiprocessing
import os
import select
import time
from collections.abc import Callable, Sequence
from typing import Any

from bozintar import load, wire
from bozintar.links import Application, Ended, Gateway, Silent
from bozintar.processes import Failed, await_that
from bozintar.words import Address

from .fleet import PORT, Heard, number_of, place_of, turn_of
from .outcomes import Outcome

FORK = multiprocessing.get_context("fork")
APPLICATION = 0
# how often the file of stores is looked at; for how long nothing has to come until what is missing
# counts as lost; and how long all links may take, in seconds
LOOK, QUIET, LINKED = 0.05, 4.0, 60.0


class Notes:
    """What is noted of a load while it is under way, in memory that processes share."""

    def __init__(self, firsts: Sequence[int], devices: int, each: int):
        self.firsts, self.devices, self.each = list(firsts), devices, each
        self.stores = len(self.firsts)
        self.sent: Any = FORK.RawArray("q", self.stores * each)
        self.came: Any = FORK.RawArray("q", self.stores * each)
        self.twice: Any = FORK.Value("q", 0)
        self.wrong: Any = FORK.Value("q", 0)
        self.last: Any = FORK.RawValue("d", 0.0)

    def note(self, dev_eui: str, counter: int, payload: bytes) -> None:
        """An uplink came out. One of an earlier load isn't counted, and nor is one twice."""
        now = time.monotonic_ns()
        at, slot = place_of(dev_eui)
        turn = turn_of(slot, counter, self.devices)
        self.last.value = time.monotonic()
        is_known = 0 <= at < self.stores and 0 <= slot < self.devices
        if not is_known or payload != load.payload(number_of(at, slot), counter):
            self.wrong.value += 1
        elif 0 <= turn - self.firsts[at] < self.each:
            place = (turn - self.firsts[at]) * self.stores + at
            self.twice.value += bool(self.came[place])
            self.came[place] = self.came[place] or now

    def outcome(self) -> Outcome:
        """What became of it."""
        sent, came = list(self.sent), list(self.came)
        return Outcome(self.stores, sent, came, self.twice.value, self.wrong.value)


class Other:
    """A process of the tool's own, which is ended at the end of a `with`."""

    def __init__(self, run: Callable[..., None], *words: Any):
        self.over, self.count = FORK.Event(), FORK.RawValue("q", 0)
        self.process = FORK.Process(target=run, args=(*words, self.over, self.count), daemon=True)

    def await_count(self, what: str, count: int) -> None:
        """Waits until it has counted to this number, for example links."""
        is_so = lambda: self.count.value >= count or not self.process.is_alive()
        await_that(what, is_so, LINKED)
        if not self.process.is_alive():
            raise Failed(f"{what}: the process has ended")

    def __enter__(self) -> "Other":
        self.process.start()
        return self

    def __exit__(self, *_: Any) -> None:
        self.over.set()
        self.process.join(10)
        if self.process.is_alive():
            self.process.kill()
            self.process.join()


# what comes out of the stores


class Listener:
    """The application's links to all stores, wherever these are served now."""

    def __init__(self, file: str, notes: Notes):
        self.file, self.notes = file, notes
        self.links: dict[str, tuple[str, Application]] = {}
        self.by_number: dict[int, str] = {}
        self.poll = select.epoll()

    def run(self, over: Any, count: Any) -> None:
        """Listens until it is over; `count` is that of the links."""
        gc.disable()
        next_look = 0.0
        while not over.is_set():
            if time.monotonic() > next_look:
                self.look()
                count.value, next_look = len(self.links), time.monotonic() + LOOK
            for number, _ in self.poll.poll(LOOK):
                self.read(number)

    def look(self) -> None:
        """Links to stores that are served somewhere else now."""
        with open(self.file, encoding="ascii") as lines:
            found = {words[0]: words[2] for words in map(str.split, lines)}
        for name, where in found.items():
            if name in self.links and self.links[name][0] != where:
                self.drop(name)
            if name not in self.links and where != "-":
                self.link(name, where)

    def link(self, name: str, where: str) -> None:
        """Links to a store, if it is there; no other store waits for it."""
        address = Address.read(where)
        try:
            made = Application((address.host, address.port), APPLICATION, patience=0)
        except (Silent, Ended):
            return
        made.socket.setblocking(False)
        self.links[name] = where, made
        self.by_number[made.socket.fileno()] = name
        self.poll.register(made.socket.fileno(), select.EPOLLIN)

    def drop(self, name: str) -> None:
        """A link has ended."""
        _, link = self.links.pop(name)
        del self.by_number[link.socket.fileno()]
        link.close()

    def read(self, number: int) -> None:
        """Reads what has come."""
        name = self.by_number[number]
        link = self.links[name][1]
        try:
            piece = os.read(number, 65536)
        except BlockingIOError:
            return
        except OSError:
            piece = b""
        if not piece:
            self.drop(name)
            return
        for content in link.frames.feed(piece):
            words = wire.line_of(content).split(" ")
            is_uplink = words[0] == "up" and words[4] == str(PORT)
            if is_uplink:
                self.notes.note(words[1], int(words[3]), wire.bytes_of(words[5]))
            else:
                self.notes.wrong.value += 1


def listening(file: str, notes: Notes) -> Other:
    """What listens to all stores of a file."""
    return Other(Listener(file, notes).run)


# what goes in


def paced(count: int, rate: float, sent: Any) -> Any:
    """The places of uplinks, each when it is due; and notes when it is."""
    begun = time.monotonic_ns()
    for place in range(count):
        due = begun + int(place * 1e9 / rate)
        while (now := time.monotonic_ns()) < due:
            time.sleep((due - now) / 1e9)
        sent[place] = now
        yield place


def by_wire(
    address: tuple[str, int], plan: list[Heard], gateways: int, rate: float, notes: Notes
) -> Other:
    """What sends uplinks as gateways that speak the protocol of lnsd."""

    def run(over: Any, count: Any) -> None:
        links = [Gateway(address, load.gateway_eui(number)) for number in range(gateways)]
        count.value = gateways
        gc.disable()
        for place in paced(len(plan), rate, notes.sent):
            links[plan[place].gateway].say(plan[place].message)
        count.value = -1
        over.wait()

    return Other(run)


def interleaved(by_store: list[list[Heard]]) -> list[Heard]:
    """The uplinks of all stores in turn."""
    return [one for each in zip(*by_store) for one in each]


def await_all(sender: Other, notes: Notes) -> None:
    """Waits until all is sent, and all has come out or nothing has come for a while."""
    while sender.count.value >= 0:
        if not sender.process.is_alive():
            raise Failed("what sends uplinks has ended")
        time.sleep(0.05)
    sent = time.monotonic()
    while not all(notes.came):
        if time.monotonic() > max(sent, notes.last.value) + QUIET:
            return
        time.sleep(0.2)
