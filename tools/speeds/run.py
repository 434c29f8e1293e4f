"""Measures what it costs that links come and go: `lnsd run` beside `lnsd serve`, with 4,096
devices:

- both by turns, with one load: 4,000 uplinks a second for 10 s, of 8 gateways, to 4 applications,
  each turn on a store of its own. It measures how long they take beyond their window of 200 ms, and
  the processor time of an uplink: that of `run` has to be within 10 % of that of `serve`;
- what an uplink's time goes to: by threads, in the program and in the kernel; how often a thread is
  taken off its processor; commits; and, in one more turn, by strace, the system calls;
- 80 links that say nothing, of all possible names, and 16 places that wait: how often a thread
  wakes in 10 s;
- 10,000 new links, ended, reset and taken over: memory, descriptors and threads.

A line prints each figure, with its aim. The last line is 'N passed, M failed', of the aims.

Status: 0; 1 if an aim was missed or the run failed; 2 for a wrong word, or if there is no
program."""
import time
from array import array
from collections import Counter

import bozintar.load
from bozintar.links import Application, Gateway, Link
from bozintar.processes import Failed
from lnsd.anew import connect_anew
from speeds import runs
from speeds.measure import counted, idle, seconds_of, spread, tasks, times_of
from speeds.runs import APPLICATIONS, DEVICES, GATEWAYS

PLACES, NAMED = 96, (64, 16)
IDLE_SECONDS, WITHIN = 10, 1.1
# how often links come anew, and where it is looked what the server has then; its memory has settled
# after the first 2,500, and may grow by some pages from there, in KiB
ANEW, SETTLED, PAGES = (100, 2500, 5000, 7500, 10_000), 1, 64
STRACED = 5
# what a thread's name ends with, or is: what it does
ROLES = {"in": "readers", "closer": "the closer", "lnsd": "the flusher", "out": "senders"}


class Turns:
    """What the turns of one mode came to."""

    def __init__(self):
        self.waits, self.count, self.seconds = array("q"), 0, 0.0
        self.user, self.kernel = 0.0, 0.0
        # by what a thread does: ns on a processor, and how often it was taken off one
        self.ran: Counter = Counter()
        self.switches: Counter = Counter()
        self.status: Counter = Counter()

    def add(self, before, after):
        """What each thread took in a turn."""
        for task, (name, ran, switches) in after.items():
            _, ran_before, switches_before = before.get(task, (name, 0, 0))
            role = ROLES.get(name.rpartition("-")[2], "others")
            self.ran[role] += ran - ran_before
            self.switches[role] += switches - switches_before

    def of_uplink(self, value, digits=2):
        """So much of an uplink."""
        return round(value / self.count, digits)

    def figures(self):
        found = {
            "uplinks": self.count,
            "latency": spread(self.waits),
            "uplinks_a_second": round(self.count / self.seconds, 1),
            "processor_us": self.of_uplink(1e6 * (self.user + self.kernel)),
            "kernel_us": self.of_uplink(1e6 * self.kernel),
            "threads_us": {role: self.of_uplink(ran / 1000) for role, ran in self.ran.items()},
            "switches": {role: self.of_uplink(count, 3) for role, count in self.switches.items()},
        }
        for name in ("commits", "syncs"):
            if self.status:
                found[name] = self.of_uplink(self.status[name], 3)
        return found


def started(program, mode):
    """A server in this mode, and the links of a load."""
    address = program.serve(GATEWAYS + APPLICATIONS) if mode == "serve" else program.run_on(PLACES)
    links = bozintar.load.Links.to(address, GATEWAYS, APPLICATIONS)
    time.sleep(1)
    return links


def ended(run, program, links, mode):
    """The server ends, and nothing was dropped."""
    if mode == "serve":
        for link in links.all():
            link.end()
        came = program.ended()
    else:
        came = program.stop()
    links.close()
    is_other = came[0] or came[1] or not came[2].startswith("dropped 0\nfaulted 0\n")
    if is_other:
        run.miss(f"{mode} ended with {came}")


def counts_of(program, mode):
    """What `run` has counted of the disk."""
    status = program.status() if mode == "run" else {}
    return Counter({name: int(status[name]) for name in ("commits", "syncs") if name in status})


def turn(run, mode, frames, turns, seconds):
    """One turn of a mode."""
    count = run.given.rate * seconds
    with run.store(runs.bare()) as program:
        links = started(program, mode)
        pid, first = program.server.pid, counts_of(program, mode)
        before, times = tasks(pid), times_of(pid)
        outcome = bozintar.load.played(links, frames, 0, count, run.given.rate)
        time.sleep(0.3)
        user, kernel = times_of(pid)
        turns.add(before, tasks(pid))
        turns.user, turns.kernel = turns.user + user - times[0], turns.kernel + kernel - times[1]
        turns.status += counts_of(program, mode) - first
        lost = count - len(outcome.waits)
        if lost or outcome.wrong:
            run.miss(f"{mode}: {lost} lost, {len(outcome.wrong)} wrong lines: {outcome.wrong[:3]}")
        turns.waits.extend(outcome.waits)
        turns.count, turns.seconds = turns.count + count, turns.seconds + outcome.seconds
        ended(run, program, links, mode)
        runs.listed(run, program, count)


def by_turns(run, frames):
    """Both modes by turns, the first one of a pair in turn too, and what `run` has more."""
    modes = {"serve": Turns(), "run": Turns()}
    for number in range(run.given.turns):
        for mode in sorted(modes, reverse=number % 2 == 0):
            turn(run, mode, frames, modes[mode], run.given.seconds)
    found = run.figures["run"] = {mode: turns.figures() for mode, turns in modes.items()}
    for mode, figures in found.items():
        told = f"{figures['latency']['median_ms']} ms (99th {figures['latency']['p99_ms']})"
        run.tell(f"{mode}: beyond the window, median of {figures['uplinks']:,}", told)
        run.tell(
            f"{mode}: processor time an uplink; in the kernel",
            f"{figures['processor_us']} us; {figures['kernel_us']} us",
        )
        run.tell(f"{mode}: of each thread, us", figures["threads_us"])
        run.tell(f"{mode}: how often each was taken off, an uplink", figures["switches"])
    serve, of = found["serve"], found["run"]
    run.tell("run: commits and syncs an uplink", f"{of['commits']}, {of['syncs']}")
    for name in ("median_ms", "p99_ms"):
        times = round(of["latency"][name] / serve["latency"][name], 3)
        run.aim(f"run by serve: {name}", times, WITHIN, "times")
    times = round(of["processor_us"] / serve["processor_us"], 3)
    run.aim("run by serve: processor time", times, WITHIN, "times")


def straced(run, frames):
    """The system calls of an uplink, in a turn of its own."""
    count = run.given.rate * STRACED
    with run.store(runs.bare()) as program:
        links = started(program, "run")
        first = counts_of(program, "run")
        with counted(program.server.pid) as calls:
            outcome = bozintar.load.played(links, frames, 0, count, run.given.rate)
            time.sleep(0.3)
        many = counts_of(program, "run") - first
        ended(run, program, links, "run")
    if not calls:
        run.tell("system calls", "not counted: there is no strace")
        return
    each = {
        call: round(number / count, 3) for call, number in calls.items() if number > count / 200
    }
    found = {"calls": each, "commits": round(many["commits"] / count, 3)}
    found["uplinks_a_second"] = round(count / outcome.seconds, 1)
    run.figures["calls"] = found
    run.tell("calls an uplink, under strace", each)
    run.tell(
        "commits an uplink, and uplinks a second, then",
        f"{found['commits']}, {found['uplinks_a_second']}",
    )


def idle_links(run):
    """Links that say nothing."""
    with run.store(runs.bare()) as program:
        address = program.run_on(PLACES)
        links: list[Link] = [
            Gateway(address, bozintar.load.gateway_eui(at)) for at in range(NAMED[0])
        ]
        links += [Application(address, number) for number in range(NAMED[1])]
        time.sleep(2)
        linked = program.status()["links"]
        if linked != str(sum(NAMED)):
            raise Failed(f"{linked} links are there")
        time.sleep(3)
        found = run.figures["idle run"] = idle(program.server.pid, IDLE_SECONDS)
        found |= {"links": sum(NAMED), "places": PLACES, "threads": len(tasks(program.server.pid))}
        name = f"{sum(NAMED)} links, {found['threads']} threads, {IDLE_SECONDS} s:"
        run.aim(f"{name} wake-ups", found["switches"], 0, "")
        run.aim(f"{name} system calls", found["system_calls"], 0, "")
        for link in links:
            link.close()
        program.stop()


def anew(run):
    """Links that come anew."""
    with run.store(runs.bare()) as program:
        program.run_on(PLACES)
        done, found, begun = 0, [], seconds_of(program.server.pid)
        for count in ANEW:
            found.append((count, *connect_anew(program, count - done)))
            done = count
            run.tell(f"after {count:,} links: memory, descriptors, threads", found[-1][1:])
        took = 1e6 * (seconds_of(program.server.pid) - begun) / done
        run.figures["anew"] = {"used": found, "processor_us": round(took, 1)}
        run.tell("processor time a link", f"{took:.1f} us")
        first, settled, last = found[0], found[SETTLED], found[-1]
        run.aim("descriptors and threads more", sum(last[2:]) - sum(first[2:]), 0, "")
        name = f"memory more after {last[0]:,} links than after {settled[0]:,}"
        run.aim(name, last[1] - settled[1], PAGES, "KiB")
        program.stop()


def measured(run):
    """All of it."""
    most = run.given.rate * max(run.given.seconds, STRACED)
    frames = runs.frames_of(run, -(-most // DEVICES))
    by_turns(run, frames)
    straced(run, frames)
    idle_links(run)
    anew(run)


def main():
    words = runs.words_of(__doc__, turns=(1, 100, 4), **runs.rates(10))
    return runs.done("run", words.parse_args(), measured)
