"""Watches a run of rt ci, and prints what it cost, crate by crate, once it has ended. Times are
processor minutes: of a crate's proof, of the proof with its tests, and of its edits. They are read
four times a second from the processes that rt ci starts, so the last quarter of a second of each is
missing.

.ci/run has this beside its proofs, prints the table, and keeps it if the run was green. This copies
it to where bin/build and bin/prove read it:

    cp ~/.cache/bozintar-gate/*/costs tools/costs.txt

Status: 0; 2 for a wrong word."""
import os
import time

import commands
from bozintar.words import Words

TICKS = os.sysconf("SC_CLK_TCK")
KINDS = ("proof", "tests", "edits")


def descendants(of):
    """The process numbers below a process."""
    parents = {}
    for name in os.listdir("/proc"):
        if name.isdigit():
            try:
                with open(f"/proc/{name}/stat") as stat:
                    parents[int(name)] = int(stat.read().rpartition(")")[2].split()[1])
            except OSError:
                pass
    found: set = set()
    last = {of}
    while last:
        last = {pid for pid, parent in parents.items() if parent in last} - found
        found |= last
    return found


def work_of(pid):
    """The crate that a process of the prover works for, and on what."""
    with open(f"/proc/{pid}/cmdline", "rb") as file:
        words = file.read().decode(errors="replace").split("\0")
    if not words or os.path.basename(words[0]) != "rattle":
        return None
    crate = words[words.index("--crate-name") + 1] if "--crate-name" in words else "?"
    if os.path.basename(os.readlink(f"/proc/{pid}/cwd")).startswith("rt-edit-"):
        return crate, "edits"
    return crate, "tests" if "--test" in words else "proof"


def spent_by(pid):
    """When a process began, and its processor seconds so far."""
    with open(f"/proc/{pid}/stat") as stat:
        fields = stat.read().rpartition(")")[2].split()
    return fields[19], (int(fields[11]) + int(fields[12])) / TICKS


def look(pid, seen):
    """Notes what each prover below a process has spent."""
    for prover in descendants(pid):
        try:
            if work := work_of(prover):
                began, seconds = spent_by(prover)
                seen[prover, began] = (work, seconds)
        except (OSError, ValueError, IndexError):
            pass


def table(seen):
    """The lines of the table: a crate each, and the sums."""
    spent: dict = {}
    for work, seconds in seen.values():
        spent[work] = spent.get(work, 0) + seconds
    yield f"# Processor minutes, by gate-costs watch, {time.strftime('%F')}."
    yield f"{'crate':<20} {'proof':>6} {'tests':>6} {'edits':>6}"
    for crate in commands.lines():
        yield row(crate, [spent.get((crate, kind)) for kind in KINDS])
    yield row("all", [sum(s for (_, of), s in spent.items() if of == kind) for kind in KINDS])


def row(name, spends):
    """A line of the table, in minutes."""
    cells = ["     -" if seconds is None else f"{seconds / 60:6.1f}" for seconds in spends]
    return f"{name:<20} {' '.join(cells)}"


def main():
    words = Words(__doc__)
    words.add_argument("process", metavar="PID", type=int, help="the process of rt ci")
    pid = words.parse_args().process
    seen: dict = {}
    while os.path.exists(f"/proc/{pid}"):
        look(pid, seen)
        time.sleep(0.25)
    print("\n".join(table(seen)))
    return 0
