"""Prints the five most expensive functions of each crate's last `rt check --jobs 1` from nothing:
by the megabytes that the prover keeps of them, and their seconds.

The prover keeps a file for each module that it has checked, so the time between two files is that
of a module. This time depends on the load of the machine as much as on the function. The size of
the files doesn't: a megabyte is about a second of a quiet machine. A function's modules are its
code (Lts, Tie, Kinds), its answers and its proof; the largest two are named.

Status: 0; 1 if no check of a crate kept anything; 2 for a wrong word."""
import os
import re
import sys
from collections import Counter, defaultdict

import commands
from commands import ROOT
from bozintar.words import Words

MOST = 5
# What follows a function's name in the name of one of its modules.
PARTS = (
    r"\.((Lts|Tie|Kinds|Proof|Answers|Invariants|Goals|Statement|Code|Met|Symbol|Key|Borrows"
    r"|Loans)\b.*|TheLinks?.*)$"
)


def modules(crate):
    """The modules that the prover kept: when each was done, and its bytes; the first one first."""
    found = []
    for folder, _, files in os.walk(f"{ROOT}/crates/{crate}/out/incremental"):
        kept = [(os.stat(f"{folder}/{name}"), name) for name in files if name.endswith(".oantt")]
        found += [(stat.st_mtime, stat.st_size, name) for stat, name in kept]
    cut = len(f"Rattle-{crate}-")
    ending = re.compile(r"(\.decls)?\.oantt$")
    return [(at, size, ending.sub("", name)[cut:]) for at, size, name in sorted(found)]


def dearest(crate):
    """The bytes of each function or file by its modules, and its seconds."""
    sizes: dict = defaultdict(Counter)
    seconds: Counter = Counter()
    kept = modules(crate)
    for (before, _, _), (at, size, module) in zip(kept, kept[1:]):
        part = re.search(PARTS, module)
        name = module[: part.start()] if part else module
        sizes[name][part[1] if part else "itself"] += size
        seconds[name] += at - before
    sizes.pop("", None)  # the crate itself, before which the libraries are read
    order = sorted(sizes.items(), key=lambda pair: -sum(pair[1].values()))
    return [(name, parts, seconds[name]) for name, parts in order[:MOST]]


def main():
    words = Words(__doc__)
    words.add_argument("crates", nargs="+", metavar="CRATE", type=commands.crate, help="a crate")
    lacking = 0
    for crate in words.parse_args().crates:
        found = dearest(crate)
        if not found:
            why = "no check of it kept anything: run rt check --jobs 1 there"
            print(f"gate-costs functions: {crate}: {why}", file=sys.stderr)
            lacking = 1
        for name, parts, seconds in found:
            most = ", ".join(f"{part} {size / 1e6:.1f}" for part, size in parts.most_common(2))
            size = f"{sum(parts.values()) / 1e6:5.1f} MB"
            print(f"{crate}: {size}, {seconds:4.1f} s {re.sub('^proofs[.]', '', name)} ({most})")
    return lacking
