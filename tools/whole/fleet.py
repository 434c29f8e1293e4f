"""The devices of many stores, each in the session of its first join, and their uplinks. An uplink
of a store has a turn: devices send one after another, so a turn is a device and a counter."""

import multiprocessing
from dataclasses import dataclass

from bozintar import load, store
from bozintar.devices import Device
from bozintar.frames import CHANNELS, session_keys
from bozintar.wire import Copy, copy_of

# how far apart the numbers of two stores' devices are
SLOTS = 4096
PORT, SECOND = 7, 1_000_000
# turns that one process makes at a time
PIECE = 2000


def name_of(at: int) -> str:
    """The name of a store."""
    return f"d{at:02X}"


def net_id_of(at: int) -> int:
    """The NetID of a store."""
    return at % 64


def number_of(at: int, slot: int) -> int:
    """The number of a device, by which its DevEUI and its AppKey are made."""
    return at * SLOTS + slot


def place_of(dev_eui: str) -> tuple[int, int]:
    """The store and the slot of a device."""
    return divmod(int(dev_eui, 16) - int(load.dev_eui(0), 16), SLOTS)


def device_of(at: int, slot: int) -> Device:
    """A device in the session of its first join, before its uplink of counter 1."""
    number = number_of(at, slot)
    made = Device(load.dev_eui(number), load.JOIN_EUI, load.app_key(number))
    made.dev_nonce, made.next_up = 1, 1
    made.dev_addr = net_id_of(at) << 25 | slot << 13 | 1
    made.keys = session_keys(made.app_key, 1, net_id_of(at), 1)
    return made


def record_of(at: int, slot: int, application: int) -> store.Record:
    """The record of such a device."""
    of = device_of(at, slot)
    names = (of.dev_eui, load.JOIN_EUI, load.app_key(number_of(at, slot)), application)
    current = (1, *of.session()[1], 0, 0)
    return store.Record(*names, dev_nonce=1, granted=1, current=current)


def fill(path: str, at: int, devices: int, application: int) -> None:
    """Puts the devices of a store into its file."""
    store.put(path, [record_of(at, slot, application) for slot in range(devices)])


@dataclass(frozen=True)
class Heard:
    """An uplink, the gateway that hears it, and what that gateway says of it."""

    gateway: int
    frame: bytes
    message: bytes


def slot_of(turn: int, devices: int) -> tuple[int, int]:
    """The slot and the counter of a turn."""
    return turn % devices, 1 + turn // devices


def turn_of(slot: int, counter: int, devices: int) -> int:
    """The turn of a slot's counter."""
    return (counter - 1) * devices + slot


def heard(at: int, devices: int, gateways: int, first: int, count: int, base: int) -> list[Heard]:
    """The uplinks of a store's turns, of which each is heard by one gateway. Gateways are numbered
    from `base` on."""
    senders: dict[int, Device] = {}
    found = []
    for turn in range(first, first + count):
        slot, counter = slot_of(turn, devices)
        if slot not in senders:
            senders[slot] = device_of(at, slot)
        senders[slot].next_up = counter
        frame = senders[slot].uplink(PORT, load.payload(number_of(at, slot), counter))
        gateway = (turn + at) % gateways
        how = {"frequency": CHANNELS[turn % 8], "stamp": turn * SECOND % 2**32}
        message = copy_of(frame, Copy(load.gateway_eui(base + gateway), **how))
        found.append(Heard(gateway, frame, message))
    return found


def of_all(
    firsts: list[int], devices: int, gateways: int, each: int, jobs: int, base: int
) -> list[list[Heard]]:
    """The next uplinks of several stores, `each` of each store, from these turns on."""
    words = [
        (at, devices, gateways, first + begun, min(PIECE, each - begun), base)
        for at, first in enumerate(firsts)
        for begun in range(0, each, PIECE)
    ]
    if jobs == 1 or len(words) == 1:
        parts = [heard(*word) for word in words]
    else:
        with multiprocessing.get_context("spawn").Pool(jobs) as pool:
            parts = pool.starmap(heard, words)
    found: list[list[Heard]] = [[] for _ in firsts]
    for word, part in zip(words, parts):
        found[word[0]] += part
    return found
