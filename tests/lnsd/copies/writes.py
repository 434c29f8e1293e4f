"""The writes of a server, as docs/FORMATS.md has them, which come while `lnsd copy` reads: a
library that is loaded before the program makes some of them before each read."""

import random
import struct
from collections.abc import Iterator
from dataclasses import replace
from itertools import islice
from pathlib import Path

import preloads
from bozintar import image, load, store

SLOTS, DECISIONS = 5, 300
# how many decisions come between two checkpoints: few, so that checkpoints come often
EACH = 8
HEADER, SUPERBLOCK, GENERATION_AT = 30, 32, 2
OPEN = b"\xa5"

# Before each read at a place of a file, up to MOST of the writes of the file WRITES are made on the
# file STORE. Each has its place (8 bytes) and length (4) in the machine's order, and its bytes. How
# many were made is in the file MADE. If AT is a place, MOST are made before a read there, all before
# a read from THEN on, and none before others.
WRITING = r"""
#define _GNU_SOURCE
#include <fcntl.h>
#include <stdint.h>
#include <stdio.h>
#include <stdlib.h>
#include <sys/syscall.h>
#include <unistd.h>

static uint64_t chance;

static uint64_t drawn(uint64_t most) {
    chance = chance * 6364136223846793005u + 1442695040888963407u;
    return (chance >> 33) % (most + 1);
}

static int write_one(FILE *writes, int store) {
    int64_t place;
    uint32_t length;
    static char bytes[1 << 20];
    if (fread(&place, 8, 1, writes) != 1 || fread(&length, 4, 1, writes) != 1) return 0;
    if (length > sizeof bytes || fread(bytes, 1, length, writes) != length) abort();
    if (syscall(SYS_pwrite64, store, bytes, length, place) != length) abort();
    return 1;
}

ssize_t pread64(int file, void *bytes, size_t length, off64_t place) {
    static FILE *writes;
    static int store;
    static long made;
    if (!writes) {
        writes = fopen(getenv("WRITES"), "r");
        store = open(getenv("STORE"), O_WRONLY);
        chance = atol(getenv("SEED"));
    }
    long at = getenv("AT") ? atol(getenv("AT")) : -1, most = atol(getenv("MOST"));
    uint64_t left = at < 0 || place == at ? (at < 0 ? drawn(most) : most) : 0;
    if (at >= 0 && place >= atol(getenv("THEN"))) left = UINT64_MAX;
    for (; left && write_one(writes, store); left--) made++;
    FILE *count = fopen(getenv("MADE"), "w");
    fprintf(count, "%ld", made);
    fclose(count);
    return syscall(SYS_pread64, file, bytes, length, place);
}

// the function that the unproved program calls
ssize_t pread(int file, void *bytes, size_t length, off_t place) {
    return pread64(file, bytes, length, place);
}
"""


def entry_of(decision: int) -> bytes:
    """The entry of a decision: the record of a device, with the decision as its JoinNonce."""
    slot = decision % SLOTS
    return store.entry(slot, replace(load.record(slot, 16), granted=decision + 1))


def table_of(decisions: int) -> list[tuple[str, int]]:
    """The devices after some decisions, each with its JoinNonce."""
    last = {decision % SLOTS: decision + 1 for decision in range(decisions)}
    return [(load.dev_eui(slot), last[slot]) for slot in sorted(last)]


def decisions_in(content: bytes) -> int:
    """How many decisions a store has, which are the first ones and no others."""
    found = image.read(content)
    table = [(of.dev_eui, of.nonces[1]) for of in found.devices]
    assert table == table_of(found.seq)
    return int(found.seq)


class Life:
    """The writes of a server that decides something of one device after another: batches of one
    decision each, and checkpoints."""

    def __init__(self, path: Path) -> None:
        self.path, self.disk = path, bytearray(path.read_bytes())
        _, self.length = store.room(str(path), bytes(self.disk[:SUPERBLOCK]))
        self.begin, self.generation, self.decisions = SUPERBLOCK, 1, 0
        self.place = self.begin + HEADER
        self.writes = self.all_writes()

    def all_writes(self) -> Iterator[tuple[int, bytes]]:
        """The writes, as places and bytes."""
        while self.decisions < DECISIONS:
            yield from self.commit()
            if self.decisions % EACH == 0:
                yield from self.checkpoint()

    def commit(self) -> Iterator[tuple[int, bytes]]:
        """A batch: first what is after its gate, with the next one's closed gate."""
        content = store.batch([entry_of(self.decisions)], self.decisions)
        yield self.place + 1, content[1:] + b"\0"
        yield self.place, content[:1]
        self.decisions, self.place = self.decisions + 1, self.place + len(content)

    def checkpoint(self) -> Iterator[tuple[int, bytes]]:
        """The table in the other area, in pieces, as a reader may find it."""
        self.begin = 2 * SUPERBLOCK + self.length - self.begin
        self.generation += 1
        last = range(max(0, self.decisions - SLOTS), self.decisions)
        entries = [entry_of(decision) for decision in sorted(last, key=lambda one: one % SLOTS)]
        records = b"".join(entries)
        numbers = ((2, 1), (self.generation, 8), (self.decisions, 8), (len(entries), 4))
        head = b"".join(store.big(*number) for number in (*numbers, (len(records), 8)))
        content, middle = head + records + b"\0", len(head) + len(records) // 2
        yield self.begin, b"\0"
        yield self.begin + 1, content[:12]
        yield self.begin + 13, content[12:middle]
        yield self.begin + 1 + middle, content[middle:]
        yield self.begin, OPEN
        self.place = self.begin + HEADER + len(records)

    def go_on(self, count: int) -> int:
        """Makes some writes; how many decisions are made after them."""
        for _, (place, content) in zip(range(count), self.writes):
            self.disk[place : place + len(content)] = content
        return self.decisions


class Served:
    """A store that a server writes while it is copied."""

    def __init__(self, path: Path, library: str, seed: int, most: int) -> None:
        self.chance, self.path, self.most = random.Random(seed), path, most
        self.empty, self.library = path.read_bytes(), library

    def begin(self, folder: Path, before: int, after: int | None = None) -> dict[str, str]:
        """Makes the store of a server that has made this many writes; the environment in which a
        program's reads are between the next ones, of which there are as many or no limit."""
        self.path.write_bytes(self.empty)
        life = Life(self.path)
        life.go_on(before)
        self.path.write_bytes(life.disk)
        written = b"".join(
            struct.pack("=qI", place, len(content)) + content
            for place, content in islice(life.writes, after)
        )
        (folder / "writes").write_bytes(written)
        files = {"WRITES": folder / "writes", "MADE": folder / "made", "STORE": self.path}
        return preloads.environment(
            self.library,
            MOST=self.most,
            SEED=self.chance.randrange(2**31),
            **{name: str(file) for name, file in files.items()},
        )

    def decisions(self, writes: int) -> int:
        """How many decisions the server has made after this number of writes."""
        self.path.write_bytes(self.empty)
        return Life(self.path).go_on(writes)
