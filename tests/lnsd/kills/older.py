"""A store as an older program left it: the same devices and number, in records of version 1."""

import os
from pathlib import Path

from bozintar import image, store
from bozintar.server import Program


def session(of: image.Session | None, *counters: int) -> tuple | None:
    """A session as a record has it."""
    return (of.join_nonce, of.keys[:16], of.keys[16:], *counters) if of else None


def record(device: image.Recorded) -> store.Record:
    """The record of a device that was read. All of its sessions have eight channels, or three."""
    front = image.Fields(device.front)
    names = [front.take(length).hex().upper() for length in (8, 8, 16)]
    application, offset, delay = (front.number(1) for _ in range(3))
    dev_nonce, granted = device.nonces
    sessions = (device.current, device.pending)
    return store.Record(
        names[0],
        names[1],
        names[2],
        application,
        offset,
        delay,
        dev_nonce=dev_nonce,
        granted=granted,
        current=session(device.current, *(device.counters or ())),
        pending=session(device.pending),
        awaited=device.awaited,
        mac=device.mac,
        items=device.items,
        has_three_channels=any(of and of.channels == 1 for of in sessions),
    )


def put(program: Program, slots: int) -> None:
    """The program's store becomes one of version 1, with the table and the number that it has."""
    found = image.read(Path(program.store).read_bytes())
    os.remove(program.store)
    came = program.format(slots=slots)
    if came != (0, "", ""):
        raise ValueError(f"lnsd format: {came}")
    records = [record(device) for device in found.devices]
    store.put(program.store, records, version=1, seq=found.seq)
