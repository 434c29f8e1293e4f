"""Measures what the console costs the server, with 4,096 devices:

- how long the list of the devices takes (`lnsd devices`), asked 50 times while nothing else
  happens: until its first byte, before which the server makes it under the lock of its sessions,
  and until its end;
- the same beside 4,000 uplinks a second, asked twice a second: how much longer than others those
  uplinks take whose window ends while a list is made;
- by turns, 4,000 uplinks a second for 20 s without the console, and with it: its lookout asks for
  the status and the devices and watches, and somebody has its overview and its list of devices
  open, which are fetched every 2 s. Events of the broker don't come, since no bridge runs. It
  measures how long uplinks take beyond their window, and the server's processor time of an uplink.

Each turn has a store of its own. It needs mosquitto, python3-aiohttp and python3-jinja2.

A line prints each figure, with its aim. The last line is 'N passed, M failed', of the aims.

Status: 0; 1 if an aim was missed or the run failed; 2 for a wrong word, or if there is no
program."""
import http.client
import multiprocessing
import socket
import time
from array import array
from collections import Counter
from contextlib import contextmanager

import bozintar.load
from bozintar.processes import HOST, Failed, Processes, await_that, command, free_port
from commands import ROOT
from speeds import runs
from speeds.measure import seconds_of, spread
from speeds.runs import APPLICATIONS, DEVICES, GATEWAYS

FORK = multiprocessing.get_context("fork")
PLACES, LISTS, EVERY = 96, 50, 0.5
# pages that somebody has open, and how often a page is fetched anew, in seconds
OPEN, RENEWED = ("/?part=1", "/devices?part=1"), 2.0
# how many times longer uplinks may take beside the console
WITHIN = 1.1


def listed(store):
    """Asks for the devices; when it began, when the first byte came and the last one, in ns."""
    begun, first, size = time.monotonic_ns(), 0, 0
    with socket.socket(socket.AF_UNIX) as asked:
        asked.settimeout(30)
        asked.connect(f"{store}.control")
        asked.sendall(b"devices\n")
        while piece := asked.recv(1 << 20):
            first = first or time.monotonic_ns()
            size += len(piece)
    if size < 40 * DEVICES:
        raise Failed(f"the list of the devices has {size} bytes")
    return begun, first, time.monotonic_ns()


class Asker:
    """Asks for the devices again and again, in a process of its own."""

    def __init__(self, store):
        self.found, self.ends = FORK.Pipe(duplex=False)
        self.stop = FORK.Event()
        self.process = FORK.Process(target=self.go_on, args=(store,), daemon=True)

    def go_on(self, store):
        """The process."""
        asks = []
        while not self.stop.wait(EVERY):
            asks.append(listed(store))
        self.ends.send(asks)

    def __enter__(self):
        self.process.start()
        return self

    def __exit__(self, *_):
        self.stop.set()
        self.asks = self.found.recv() if self.found.poll(30) else []
        self.process.join(10)


@contextmanager
def loaded(run):
    """A server with all devices, and the links of a load; it ends well."""
    with run.store(runs.bare()) as program:
        address = program.run_on(PLACES)
        links = bozintar.load.Links.to(address, GATEWAYS, APPLICATIONS)
        time.sleep(1)
        yield program, links
        came = program.stop()
        links.close()
        if came[0] or not came[2].startswith("dropped 0\nfaulted 0\n"):
            run.miss(f"the server ended with {came}")


def play(run, links, frames):
    """The load; what became of it."""
    count = run.given.rate * run.given.seconds
    outcome = bozintar.load.played(links, frames, 0, count, run.given.rate)
    if lost := count - len(outcome.waits):
        run.miss(f"{lost} lost")
    if outcome.wrong:
        run.miss(f"{len(outcome.wrong)} wrong lines: {outcome.wrong[:3]}")
    return outcome


def told(of):
    """A spread."""
    return f"{of['median_ms']} ms (99th {of['p99_ms']}, largest {of['largest_ms']})"


def alone(run):
    """The list, while nothing else happens."""
    with loaded(run) as (program, _):
        asks = []
        for _ in range(LISTS):
            asks.append(listed(program.store))
            time.sleep(0.05)
    found = {
        "first byte": spread(first - begun for begun, first, _ in asks),
        "end": spread(end - begun for begun, _, end in asks),
    }
    run.figures["lists"] = found
    for name, of in found.items():
        run.tell(f"the list of {DEVICES:,} devices: until its {name}", told(of))


def beside(run, frames):
    """The list beside uplinks: how long those take whose window ends while it is made."""
    with loaded(run) as (program, links), Asker(program.store) as asker:
        outcome = play(run, links, frames)
    held, others = array("q"), array("q")
    dues = sorted((came - wait, wait) for came, wait in zip(outcome.came, outcome.waits))
    asks = iter([*asker.asks, (2**63, 2**63, 2**63)])
    begun, first, _ = next(asks)
    for due, wait in dues:
        while due > first:
            begun, first, _ = next(asks)
        (held if due >= begun else others).append(wait)
    found = {
        "lists": len(asker.asks),
        "first byte": spread(first - begun for begun, first, _ in asker.asks),
        "meanwhile": spread(held),
        "else": spread(others),
    }
    run.figures["lists beside uplinks"] = found
    run.tell(
        f"{found['lists']} lists beside uplinks: until the first byte", told(found["first byte"])
    )
    run.tell(f"uplinks meanwhile, {len(held):,}: beyond the window", told(found["meanwhile"]))
    run.tell(f"the other {len(others):,}", told(found["else"]))


def look_at(port, stop):
    """Fetches the open pages again and again."""
    while not stop.wait(RENEWED):
        for path in OPEN:
            client = http.client.HTTPConnection(HOST, port, timeout=30)
            client.request("GET", path)
            client.getresponse().read()
            client.close()


@contextmanager
def console(store):
    """The console beside a server, and somebody who looks at it."""
    broker, port, stop = free_port(), free_port(), FORK.Event()
    with Processes("console-cost-") as parts:
        text = f"listener {broker} {HOST}\nallow_anonymous true\n"
        conf, look = parts.file("mosquitto.conf", text), parts.file("look")
        parts.process("mosquitto", command("mosquitto"), "-v", "-c", conf).start("running")
        lookout = parts.python(f"{ROOT}/pilot/console/lookout", store, "--socket", look)
        lookout.start("passes on")
        words = ("--lookout", look, "--broker", f"{HOST}:{broker}", "--listen", f"{HOST}:{port}")
        site = parts.python(
            f"{ROOT}/pilot/console/web-console", *words, "--db", parts.file("console.db")
        )
        site.start("listens on")
        looking = FORK.Process(target=look_at, args=(port, stop), daemon=True)
        looking.start()
        await_that("the console has the devices", lambda: shows(port), 60, 0.5)
        try:
            yield {"lookout": lookout.processor, "console": site.processor}
        finally:
            stop.set()
            looking.join(40)


def shows(port):
    """Whether the console has all devices."""
    client = http.client.HTTPConnection(HOST, port, timeout=30)
    client.request("GET", "/devices")
    text = client.getresponse().read().decode()
    client.close()
    return f"{DEVICES}" in text or f"{DEVICES:,}" in text


class Turns:
    """What the turns with the console, or without it, came to."""

    def __init__(self):
        self.waits, self.server, self.seconds = array("q"), 0.0, 0.0
        # of the lookout and of the console
        self.others: Counter = Counter()

    def figures(self):
        """Their figures."""
        share = {name: round(100 * took / self.seconds, 1) for name, took in self.others.items()}
        each = round(1e6 * self.server / len(self.waits), 1)
        return {"latency": spread(self.waits), "processor_us": each, "percent": share}


def turn(run, frames, turns, with_console):
    """One turn."""
    with loaded(run) as (program, links):
        if not with_console:
            measure(run, program, links, frames, turns, {})
            return
        with console(program.store) as parts:
            measure(run, program, links, frames, turns, parts)


def measure(run, program, links, frames, turns, parts):
    """The load of a turn."""
    pid = program.server.pid
    before = Counter({name: processor() for name, processor in parts.items()})
    begun, at = seconds_of(pid), time.monotonic()
    outcome = play(run, links, frames)
    time.sleep(0.3)
    turns.server += seconds_of(pid) - begun
    turns.seconds += time.monotonic() - at
    for name, processor in parts.items():
        turns.others[name] += processor() - before[name]
    turns.waits.extend(outcome.waits)


def by_turns(run, frames):
    """Uplinks with the console and without it, by turns."""
    modes = {"without the console": Turns(), "with it": Turns()}
    for number in range(run.given.turns):
        for name in sorted(modes, reverse=number % 2 == 0):
            turn(run, frames, modes[name], name == "with it")
    found = {name: turns.figures() for name, turns in modes.items()}
    run.figures["beside the console"] = found
    for name, of in found.items():
        run.tell(f"{name}, {of['latency']['count']:,} uplinks", told(of["latency"]))
        run.tell(f"{name}: the server's processor time an uplink", f"{of['processor_us']} us")
    run.tell("of a processor, in percent", found["with it"]["percent"])
    own, beside_it = (found[name] for name in modes)
    for name in ("median_ms", "p99_ms"):
        times = round(beside_it["latency"][name] / own["latency"][name], 3)
        run.aim(f"with the console by without it: {name}", times, WITHIN, "times")
    times = round(beside_it["processor_us"] / own["processor_us"], 3)
    run.aim("with the console by without it: processor time", times, WITHIN, "times")


def measured(run):
    """All of it."""
    alone(run)
    frames = runs.frames_of(run, -(-run.given.rate * run.given.seconds // DEVICES))
    beside(run, frames)
    by_turns(run, frames)


def main():
    words = runs.words_of(__doc__, turns=(1, 100, 4), **runs.rates(20))
    return runs.done("console", words.parse_args(), measured)
