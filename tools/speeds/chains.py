"""Measures how much sooner decisions are durable if batches are committed in chains, for several
durations of a sync of the disk. It runs `lns-speed chains` on a file, with syncs that take 0, 0.5,
1, 2 and 5 ms longer than they do, and prints the median: decisions a second with each batch of 64
alone and with chains of 64 batches, the quotient of these, and how many calls of the disk 64
batches take.

The aim is 1.6 times as many, with syncs as they are and with longer ones, and 256 calls alone and
193 in a chain. The last line is 'N passed, M failed': each is a comparison with the aim. With syncs
as they are the figure varies from run to run if a sync takes no longer than the work beside it: so
the least and the largest of the runs are printed too, after the median.

It needs a C compiler, for what delays the syncs.

Status: 0; 1 if the aim is missed, nothing was measured, or there is no compiler; 2 for a wrong
word, or if there is no program."""
import os
import re
import statistics
import subprocess
import tempfile

import commands
import preloads
from bozintar.words import Words, between, folder, stop

# how much longer a sync takes, in microseconds; the aim, in percent
DELAYS, AIM = (0, 500, 1000, 2000, 5000), 160
CALLS = (256, 193)
EVERY_SYNC = 1_000_000
LINE = re.compile(r"durable on a file, .*: (\d+) decisions a second, (\d+) calls a run")
SECONDS = 300


def measured(program, where, how):
    """Decisions a second and calls, alone and in chains, of one run."""
    ran = subprocess.run(
        [program, "chains"],
        cwd=where,
        env=how,
        stdin=subprocess.DEVNULL,
        capture_output=True,
        text=True,
        timeout=SECONDS,
        check=False,
    )
    found = [tuple(map(int, numbers)) for numbers in LINE.findall(ran.stderr)]
    if ran.returncode != 0 or len(found) != 2:
        said = ran.stderr.strip().partition("\n")[0]
        stop(f"nothing was measured, with status {ran.returncode}: {said}")
    return found


def medians(runs):
    """The runs' medians of decisions a second, alone and in chains, and the calls of all runs."""
    rates = [statistics.median(run[which][0] for run in runs) for which in range(2)]
    return rates, {tuple(pair[1] for pair in run) for run in runs}


def told(delay, runs, rates, calls):
    shown = ", ".join(f"{alone} and {chained}" for alone, chained in sorted(calls))
    each = sorted(run[1][0] / run[0][0] for run in runs)
    spread = f"{each[0]:.2f} to {each[-1]:.2f}"
    rates = f"{rates[0]:>10,.0f}  {rates[1]:>10,.0f}  {rates[1] / rates[0]:>5.2f}"
    print(f"{delay / 1000:>8.1f} ms  {rates}  {spread}  {shown}", flush=True)


def main():
    words = Words(__doc__)
    words.add_argument(
        "--program",
        metavar="FILE",
        help="the program (the proved lns-speed, which bin/build lns-speed makes)",
    )
    words.add_argument(
        "--folder",
        type=folder,
        default=".",
        metavar="DIR",
        help="the folder of the file (the current one)",
    )
    words.add_argument(
        "--times", type=between(1, 100), default=1, metavar="N", help="how often each is run (1)"
    )
    given = words.parse_args()
    program = commands.program_of(given.program, "lns_speed")
    passed, failed = 0, 0
    with tempfile.TemporaryDirectory(prefix="chain-speed-", dir=given.folder) as where:
        library = preloads.made(preloads.CALLS, os.path.abspath(where))
        print("sync longer by  alone/s  in chains/s  times  in runs  calls for 64", flush=True)
        for delay in DELAYS:
            how = preloads.environment(library, SLOW_SYNCS=EVERY_SYNC, SLOW_MICROS=delay)
            runs = [measured(program, where, how) for _ in range(given.times)]
            rates, calls = medians(runs)
            told(delay, runs, rates, calls)
            aims = [calls == {CALLS}, 100 * rates[1] >= AIM * rates[0]]
            passed, failed = passed + sum(aims), failed + aims.count(False)
    print(f"{passed} passed, {failed} failed")
    return 1 if failed else 0
