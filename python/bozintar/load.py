"""Loads of many devices for lnsd: the devices and their frames, made in advance; what sends them
at a rate; and what notes when their lines come."""

import gc
import multiprocessing
import os
import select
import time
from array import array
from collections.abc import Callable, Iterable, Sequence
from dataclasses import dataclass
from multiprocessing.process import BaseProcess
from typing import Any

from . import network, quick, store, wire
from .devices import Device
from .frames import CHANNELS, session_keys
from .links import Application, Gateway, Link
from .wire import Copy

quick.use()
JOIN_EUI = "0102030405060708"
# no more windows than this are to be open, of the 1,024 that there may be
MOST_OPEN, WINDOW = 960, 200_000_000
# the copies of a frame, each as the bytes that its gateway sends
Copies = list[bytes]
# frames, each as the gateways and bytes of its copies
Plan = list[list[tuple[int, bytes]]]
Pieces = dict[Link, list[tuple[int, bytes]]]


def dev_eui(number: int) -> str:
    """A device's DevEUI."""
    return f"{0xA0B0C0D000000000 + number:016X}"


def gateway_eui(number: int) -> str:
    """A gateway's EUI."""
    return f"{0xB1 + number:016X}"


def app_key(number: int) -> str:
    """A device's AppKey, each of its own."""
    return f"{0x9E3779B97F4A7C15F39CC0605CEDC834 * (2 * number + 1) % 2**128:032X}"


def device(number: int) -> Device:
    """A device in the session of its first join, before its uplink of counter 1."""
    made = Device(dev_eui(number), JOIN_EUI, app_key(number))
    made.dev_nonce, made.next_up = 1, 1
    made.dev_addr = network.address(number, 1)
    made.keys = session_keys(made.app_key, 1, network.NET_ID, 1)
    return made


def record(number: int, applications: int, is_full: bool = False) -> store.Record:
    """The device's record: bare, or with all that a record has room for."""
    of = device(number)
    names = (of.dev_eui, JOIN_EUI, app_key(number), number % applications)
    current = (1, *of.session()[1], 0, 0)
    if not is_full:
        return store.Record(*names, dev_nonce=1, granted=1, current=current)
    pending = (2, *session_keys(of.app_key, 2, network.NET_ID, 2))
    items = tuple((tag, 7, True, bytes([tag]) * 242) for tag in range(16))
    more: dict[str, Any] = {"dev_nonce": 2, "granted": 2, "pending": pending, "awaited": 99}
    return store.Record(*names, current=current, mac=b"\x06" * 64, items=items, **more)


def payload(number: int, counter: int) -> bytes:
    """Twelve bytes that are the device's and the counter's own."""
    return number.to_bytes(4, "big") + counter.to_bytes(4, "big") + b"\x00\x11\x22\x33"


def copies_of(
    numbers: Iterable[int], rounds: int, gateways: int, copies: int
) -> list[list[Copies]]:
    """Of these devices, the copies of each one's frames, in the order of their counters."""
    return [frames_of(number, rounds, gateways, copies) for number in numbers]


def frames_of(number: int, rounds: int, gateways: int, copies: int) -> list[Copies]:
    """The copies of a device's frames, in the order of their counters."""
    sender, made = device(number), []
    for counter in range(1, rounds + 1):
        frame = sender.uplink(7, payload(number, counter))
        how = {"frequency": CHANNELS[counter % 8], "stamp": counter * 1_000_000}
        euis = [gateway_eui((number + more) % gateways) for more in range(copies)]
        made.append([wire.copy_of(frame, Copy(eui, **how)) for eui in euis])
    return made


def made(devices: int, rounds: int, gateways: int, copies: int, jobs: int) -> list[list[Copies]]:
    """All frames' copies, by device and counter, made by this many processes."""
    size = max(1, min(64, devices // jobs))
    parts = [range(first, min(first + size, devices)) for first in range(0, devices, size)]
    words = [(part, rounds, gateways, copies) for part in parts]
    if jobs == 1:
        return [frames for word in words for frames in copies_of(*word)]
    # spawned, since a pool forks from its own threads, and a lock that one of them holds stays held
    with multiprocessing.get_context("spawn").Pool(jobs) as pool:
        return [frames for part in pool.starmap(copies_of, words) for frames in part]


@dataclass
class Links:
    """The links of a load."""

    gateways: list[Gateway]
    applications: list[Application]

    @classmethod
    def to(cls, address: tuple[str, int], gateways: int, applications: int) -> "Links":
        """Links this many gateways and applications."""
        return cls(
            [Gateway(address, gateway_eui(number)) for number in range(gateways)],
            [Application(address, number) for number in range(applications)],
        )

    def all(self) -> list[Link]:
        """All of them."""
        return [*self.applications, *self.gateways]

    def close(self) -> None:
        """Closes all of them."""
        for link in self.all():
            link.close()


def send(plan: Plan, links: Links, rate: float, moments: Any) -> None:
    """Sends the plan's frames at a rate, and notes when: each is a list of (gateway, bytes). After
    a pause of the machine it goes on at that rate, so that not too many windows are open."""
    gc.disable()
    sockets = [link.socket for link in links.gateways]
    for own in sockets:
        own.settimeout(10)
    start, late, step = time.monotonic_ns(), 0, 1e9 / rate
    for place, copies in enumerate(plan):
        due = start + late + int(place * step)
        now = time.monotonic_ns()
        if now < due:
            time.sleep((due - now) / 1e9)
            now = time.monotonic_ns()
        if place >= MOST_OPEN and now - moments[place - MOST_OPEN] < WINDOW:
            pause = WINDOW - (now - moments[place - MOST_OPEN])
            time.sleep(pause / 1e9)
            now, late = time.monotonic_ns(), late + pause
        moments[place] = now
        for gateway, said in copies:
            sockets[gateway].sendall(said)


def sending(plan: Plan, links: Links, rate: float, count: int) -> tuple[BaseProcess, Any]:
    """Sends in a process of its own; the process, and the moments that it writes."""
    context = multiprocessing.get_context("fork")
    moments = context.RawArray("q", count)
    process = context.Process(target=send, args=(plan, links, rate, moments), daemon=True)
    process.start()
    return process, moments


def noted(links: Links, wanted: int, is_over: Callable[[], bool], patience: float = 5.0) -> Pieces:
    """The pieces that come over all links, each with its moment, until this many lines came or,
    once it is over, nothing has come for a while. Lines are counted by their first byte."""
    pieces: Pieces = {link: [] for link in links.all()}
    by_number = {link.socket.fileno(): link for link in links.all()}
    poll = select.epoll()
    for number, link in by_number.items():
        link.socket.setblocking(False)
        poll.register(number, select.EPOLLIN)
    came, quiet = 0, time.monotonic()
    gc.disable()
    while came < wanted and not (is_over() and time.monotonic() - quiet > patience):
        for number, _ in poll.poll(0.2):
            try:
                piece = os.read(number, 65536)
            except BlockingIOError:
                continue
            if not piece:
                poll.unregister(number)
                continue
            pieces[by_number[number]].append((time.monotonic_ns(), piece))
            came += piece.count(b"\x13up ")
            quiet = time.monotonic()
    gc.enable()
    poll.close()
    return pieces


def contents(pieces: Iterable[tuple[int, bytes]]) -> list[tuple[int, bytes]]:
    """The contents in pieces, each with the moment at which it was whole."""
    frames = wire.Frames()
    return [(moment, content) for moment, piece in pieces for content in frames.feed(piece)]


@dataclass
class Outcome:
    """What became of a load: how many frames were sent and came out, how long each took beyond its
    window in nanoseconds and when it came, what is wrong, and how long it took to send them in
    seconds."""

    sent: int
    waits: array
    came: array
    wrong: list[str]
    seconds: float
    downlinks: int


def judged(order: Sequence[tuple[int, int]], moments: Any, links: Links, pieces: Pieces) -> Outcome:
    """Compares the lines that came with the frames that were sent: each is (device, counter)."""
    sent = dict(zip(order, moments))
    last: dict[int, int] = {}
    waits, came, wrong = array("q"), array("q"), []
    for place, link in enumerate(links.applications):
        for moment, content in contents(pieces[link]):
            words = wire.line_of(content).split(" ")
            if words[0] != "up":
                wrong.append(" ".join(words))
                continue
            number, counter = int(words[1], 16) - int(dev_eui(0), 16), int(words[3])
            due = ["7", wire.byte_text(payload(number, counter))]
            is_own = number % len(links.applications) == place
            if (number, counter) not in sent or words[4:6] != due or not is_own:
                wrong.append(" ".join(words))
            elif last.get(number, 0) >= counter:
                wrong.append(f"out of order: {' '.join(words)}")
            else:
                last[number] = counter
                waits.append(moment - sent[number, counter] - WINDOW)
                came.append(moment)
    downlinks = sum(len(contents(pieces[link])) for link in links.gateways)
    seconds = (moments[len(order) - 1] - moments[0]) / 1e9
    return Outcome(len(order), waits, came, wrong, seconds, downlinks)


def played(
    links: Links, frames: list[list[Copies]], first: int, count: int, rate: float
) -> Outcome:
    """Sends `count` frames from the `first` on, of all devices in turn, at a rate; what became of
    them. `frames` are those of `made`."""
    order = [
        (place % len(frames), 1 + place // len(frames)) for place in range(first, first + count)
    ]
    gateways = len(links.gateways)
    plan = []
    for number, counter in order:
        copies = frames[number][counter - 1]
        plan.append([((number + more) % gateways, said) for more, said in enumerate(copies)])
    process, moments = sending(plan, links, rate, count)
    pieces = noted(links, count, lambda: not process.is_alive())
    process.join(10)
    if process.is_alive():
        process.kill()
        process.join()
    return judged(order, moments, links, pieces)
