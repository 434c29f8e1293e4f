"""Measures how fast `lnsd serve` is, on the loopback of this machine and a real file with real
syncs, with 4,096 devices, 8 gateways and 4 applications:

- latency: from a frame's last copy to its line, beyond the window of 200 ms, at 100 uplinks a
  second for 10 s, and at 4,000 a second for 20 s, of which none may be lost;
- processor time of an uplink; memory; what it does in 10 s while nothing comes;
- starting on a store of 4,096 devices whose records are full, and memory with these; and on one of
  version 1, which is migrated;
- beside it, the syncs of the same file system.

A line prints each figure, with its aim. The last line is 'N passed, M failed', of the aims.

Status: 0; 1 if an aim was missed or the run failed; 2 for a wrong word, or if there is no
program."""
import os
import shutil
import time

import bozintar.load
from bozintar.links import Application
from bozintar.processes import Failed
from speeds import runs
from speeds.measure import Probe, by_command, idle, memory, seconds_of, share, spread, syncs, told
from speeds.runs import APPLICATIONS, DEVICES, GATEWAYS

SMALL_RATE, SMALL_SECONDS, IDLE_SECONDS, STARTS = 100, 10, 10, 5
FULL_RATE = 1000


def ended(run, program, links, name):
    """All inputs end; how long the server takes to end then."""
    for link in links.all():
        link.end()
    begun = time.monotonic()
    came = program.ended()
    took = round(1000 * (time.monotonic() - begun), 1)
    run.figures[name] = {"end_ms": took, "said": came[2]}
    links.close()
    is_other = came != (0, "", "dropped 0\nfaulted 0\n")
    run.aim(f"{name}: another end than dropped 0, faulted 0", int(is_other), 0, "")
    if is_other:
        print(f"speed server: it ended with {came}")
    run.tell(f"{name}: its end after that of the last input", f"{took} ms")


def load(run, program, links, frames, first, count, rate):
    """A load at a rate, and its figures."""
    pid, name = program.server.pid, f"{rate} uplinks a second"
    begun = seconds_of(pid)
    before = memory(pid)
    with Probe(run.given.folder) as probe:
        outcome = bozintar.load.played(links, frames, first, count, rate)
        time.sleep(0.3)
    took = 1e6 * (seconds_of(pid) - begun) / count
    found = {
        "sent": outcome.sent,
        "came": len(outcome.waits),
        "wrong": outcome.wrong[:5],
        "uplinks_a_second": round((outcome.sent - 1) / outcome.seconds, 1),
        "processor_us_an_uplink": round(took, 1),
        "memory_before": before,
        "memory_after": memory(pid),
        "latency": spread(outcome.waits),
        "syncs": told(probe.pairs),
    }
    run.figures.setdefault("loads", {})[str(rate)] = found
    run.tell(f"{name}: sent, in {outcome.seconds:.1f} s", outcome.sent)
    run.aim(f"{name}: lost", outcome.sent - len(outcome.waits), 0, "")
    run.aim(f"{name}: wrong lines", len(outcome.wrong), 0, "")
    for line in outcome.wrong[:3]:
        print(f"speed server: a line that shouldn't have come: {line}")
    return found


def latency(run, found, rate, more, p99=None):
    """Compares a load's latency with two syncs that were made meanwhile and so much more."""
    latency, two = found["latency"], found["syncs"]["two"]
    name = f"{rate} uplinks a second: beyond the window,"
    run.tell(f"{rate} uplinks a second: two syncs meanwhile, median", f"{two.get('median_ms')} ms")
    run.aim(
        f"{name} median", latency.get("median_ms"), round(two.get("median_ms", 0) + more, 3), "ms"
    )
    if p99:
        run.aim(f"{name} 99th percentile", latency.get("p99_ms"), p99, "ms")
    else:
        run.tell(f"{name} 99th percentile", f"{latency.get('p99_ms')} ms")


def uplinks(run):
    """The loads of uplinks, and what the server does while nothing comes."""
    given = run.given
    many, few = given.rate * given.seconds, SMALL_RATE * SMALL_SECONDS
    rounds = -(-(many + few) // DEVICES)
    begun = time.monotonic()
    frames = runs.frames_of(run, rounds)
    run.tell("frames made in advance", f"{DEVICES * rounds} in {time.monotonic() - begun:.0f} s")
    with run.store(runs.bare()) as program:
        address = program.serve(GATEWAYS + APPLICATIONS)
        links = bozintar.load.Links.to(address, GATEWAYS, APPLICATIONS)
        time.sleep(1)
        found = run.figures["idle"] = idle(program.server.pid, IDLE_SECONDS)
        run.aim(f"idle: switches of its threads in {IDLE_SECONDS} s", found["switches"], 0, "")
        run.aim(f"idle: system calls in {IDLE_SECONDS} s", found["system_calls"], 0, "")
        found = load(run, program, links, frames, 0, few, SMALL_RATE)
        latency(run, found, SMALL_RATE, 0.5)
        found = load(run, program, links, frames, few, many, given.rate)
        latency(run, found, given.rate, 1, 20)
        run.tell("the rate that came about", f"{found['uplinks_a_second']} uplinks a second")
        run.aim("processor time an uplink", found["processor_us_an_uplink"], 40, "us")
        after = memory(program.server.pid)
        run.tell("memory after these loads, VmRSS and VmHWM", f"{after} MiB")
        ended(run, program, links, "uplinks")
        runs.listed(run, program, few + many)


def first_answer(program):
    """Starts the server; how long until it takes a link, and until it answers a line, in ms."""
    begun = time.monotonic()
    with Application(program.serve(1), 0) as application:
        taken = time.monotonic() - begun
        application.asks("hello")
        if application.hears() != "refused 51":
            raise Failed("a line that is no request was answered otherwise")
        answered = time.monotonic() - begun
    program.ended()
    return round(1000 * taken, 1), round(1000 * answered, 1)


def listed_full(program):
    """How long the list of full records takes, in ms."""
    begun = time.monotonic()
    lines = program.list()
    took = round(1000 * (time.monotonic() - begun), 1)
    if lines[0] != f"0 {bozintar.load.dev_eui(0)} 2 1 0 0 16 0":
        raise Failed(f"the list begins with {lines[0]}")
    return took


def older(run, records, list_ms):
    """The list of full records of version 1, which takes them over, beside that of version 2."""
    with run.store(records, version=1) as program:
        kept = f"{program.store}.kept"
        shutil.copyfile(program.store, kept)
        took = []
        for _ in range(STARTS):
            shutil.copyfile(kept, program.store)
            took.append(listed_full(program))
        os.remove(kept)
    run.figures["older"] = {"list_ms": took}
    run.aim("version 1, full: lnsd list, which takes it over, median", share(took, 0.5), 300, "ms")
    times = round(share(took, 0.5) / list_ms, 2)
    run.aim("the same, by that of version 2", times, 3, "times")


def full(run):
    """Starting on full records, and what they take."""
    records = [bozintar.load.record(device, APPLICATIONS, True) for device in range(DEVICES)]
    with run.store(records) as program:
        lists, starts = [], []
        for _ in range(STARTS):
            lists.append(listed_full(program))
            starts.append(first_answer(program))
        older(run, records, share(lists, 0.5))
        found = run.figures["full"] = {"list_ms": lists, "taken_and_answered_ms": starts}
        run.aim("full: lnsd list, median", share(lists, 0.5), 300, "ms")
        run.aim(
            "full: serve takes a link, median",
            share([start[0] for start in starts], 0.5),
            300,
            "ms",
        )
        run.tell(
            "full: serve answers a line, median", f"{share([start[1] for start in starts], 0.5)} ms"
        )
        full_load(run, program, found)


def full_load(run, program, found):
    """One uplink of each full device, which is answered by an item."""
    frames = runs.frames_of(run, 1)
    address = program.serve(GATEWAYS + APPLICATIONS)
    links = bozintar.load.Links.to(address, GATEWAYS, APPLICATIONS)
    time.sleep(0.5)
    found["memory_before"] = memory(program.server.pid)
    outcome = bozintar.load.played(links, frames, 0, DEVICES, FULL_RATE)
    found["memory_after"] = memory(program.server.pid)
    found["latency"] = spread(outcome.waits)
    wrong = [line for line in outcome.wrong if not line.startswith("lost ")]
    run.aim("full: uplinks lost", DEVICES - len(outcome.waits), 0, "")
    run.aim("full: wrong lines", len(wrong), 0, "")
    run.aim("full: memory, VmHWM", found["memory_after"]["VmHWM"], 64, "MiB")
    sizes = [found[name]["VmRSS"] for name in ("memory_before", "memory_after")]
    run.tell("full: memory, VmRSS before and after the uplinks", f"{sizes[0]}, {sizes[1]} MiB")
    told = f"{found['latency'].get('median_ms')} ms (99th {found['latency'].get('p99_ms')})"
    run.tell(f"full: beyond the window at {FULL_RATE} a second, median", told)
    ended(run, program, links, "full_end")


def measured(run):
    """All of it."""
    folder = run.given.folder
    run.figures["program"] = by_command("sha256sum", run.given.program).partition(" ")[0]
    run.figures["syncs_before"] = syncs(folder)
    uplinks(run)
    full(run)
    run.figures["syncs_after"] = syncs(folder)
    for name in ("syncs_before", "syncs_after"):
        one, two = (run.figures[name][many]["median_ms"] for many in ("one", "two"))
        run.tell(f"{name.replace('_', ' ')}: one, two, median", f"{one}, {two} ms")


def main():
    given = runs.words_of(__doc__, **runs.rates(20)).parse_args()
    return runs.done("server", given, measured)
