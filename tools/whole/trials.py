"""What is tried of the whole network, each part under a load that goes through the hub: what an
uplink costs, a load of all stores, and stores whose server is killed, that move, or that have no
etcd."""

import argparse
import time
from collections.abc import Callable, Iterator
from contextlib import contextmanager
from typing import Any

from bozintar.processes import await_that
from tests.fence.clusters import answers

from . import fleet, loads
from .city import LONG, City
from .loads import Notes, Other
from .outcomes import Outcome, share
from .table import Table

# by how much an uplink may cost more than with one store, and what is below which, in seconds
MOST_COST, SERVER_SILENCE, NO_SILENCE = 1.2, 3.0, 0.5
# how long a load goes on before something is done to the network, and after
BEFORE, AFTER = 3.0, 12.0
# what an uplink costs, of one store after the other
OF_STORES = ("lnsd", "router", "keepers")


class Load:
    """A load that is under way."""

    def __init__(self, notes: Notes, sender: Other):
        self.notes, self.sender = notes, sender

    def outcome(self) -> Outcome:
        """What became of it, once all is sent."""
        loads.await_all(self.sender, self.notes)
        return self.notes.outcome()


class Trial:
    """A network, its loads, and the table of what is found."""

    def __init__(self, given: argparse.Namespace, city: City, table: Table):
        self.given, self.city, self.table = given, city, table

    def plan(
        self, stores: int, rate: float, seconds: float, base: int = 0
    ) -> tuple[Notes, list[fleet.Heard]]:
        """The next uplinks of the first stores, which take turns."""
        city, each = self.city, max(1, round(rate * seconds / stores))
        firsts = city.firsts[:stores]
        made = fleet.of_all(firsts, city.devices, self.given.gateways, each, self.given.jobs, base)
        city.firsts[:stores] = [first + each for first in firsts]
        return Notes(firsts, city.devices, each), loads.interleaved(made)

    @contextmanager
    def load(self, stores: int, rate: float, seconds: float) -> Iterator[Load]:
        """A load of the first stores, at a rate of all, through the router."""
        notes, plan = self.plan(stores, rate, seconds)
        with loads.listening(self.city.list, notes) as listener:
            listener.await_count("the application is linked to all stores", stores)
            sender = loads.by_wire(self.city.address, plan, self.given.gateways, rate, notes)
            with sender:
                yield Load(notes, sender)

    def warm_up(self, stores: int) -> None:
        """Opens the links of all gateways to the first stores."""
        each = self.given.each
        with self.load(stores, each * stores, self.given.gateways / each) as load:
            load.outcome()

    def after(self, seconds: float, do: Callable[[], Any]) -> tuple[Outcome, int]:
        """Does something while all stores have a load, which goes on for these seconds; what became
        of the load, and the moment at which it was done."""
        stores = self.city.stores
        with self.load(stores, self.given.each * stores, BEFORE + seconds) as load:
            time.sleep(BEFORE)
            begun = time.monotonic_ns()
            do()
            return load.outcome(), begun


def steps(stores: int) -> list[int]:
    """1, 2, 4 stores and so on, and all."""
    found = [1]
    while 2 * found[-1] < stores:
        found.append(2 * found[-1])
    return [*found, stores] if stores > 1 else found


def cost_of(trial: Trial, stores: int) -> dict[str, float]:
    """What an uplink costs with this many stores, in microseconds, at one rate of each store."""
    trial.city.serve_first(stores)
    trial.warm_up(stores)
    before = trial.city.processors()
    with trial.load(stores, trial.given.each * stores, trial.given.cost_seconds) as load:
        outcome = load.outcome()
    after, count = trial.city.processors(), len(outcome.came)
    waits = outcome.waits()
    found = {name: 1e6 * (after[name] - before[name]) / count for name in after}
    more = {"lost": outcome.lost(), "twice": outcome.twice, "wrong": outcome.wrong}
    times = {"median": share(waits, 0.5), "p99": share(waits, 0.99)}
    return {"stores": stores, "sent": count, **found, **more, **times}


def cost(trial: Trial) -> None:
    """What an uplink costs, by the number of stores."""
    table, costs = trial.table, []
    for stores in steps(trial.city.stores):
        costs.append(found := cost_of(trial, stores))
        each = sum(found[name] for name in OF_STORES)
        first = sum(costs[0][name] for name in OF_STORES)
        parts = " + ".join(f"{name} {found[name]:.0f}" for name in OF_STORES)
        text = f"{each:.0f} µs: {parts}; and etcd {found['etcd']:.0f}"
        due = f"at most {MOST_COST} times that of one"
        is_right = each <= MOST_COST * first
        what = f"an uplink, stores: {stores}, of each {trial.given.each} a second"
        table.add(what, text, due if stores > 1 else "", is_right if stores > 1 else None)
        lost = ", ".join(f"{name} {found[name]}" for name in ("sent", "lost", "twice", "wrong"))
        table.add("  of these", f"{lost}; median {found['median']:.1f}, 99th {found['p99']:.1f} ms")
    table.numbers["cost"] = costs


def whole(trial: Trial) -> None:
    """All stores at the whole rate."""
    given, table, city = trial.given, trial.table, trial.city
    trial.warm_up(city.stores)
    before = city.processors()
    with trial.load(city.stores, given.rate, given.seconds) as load:
        outcome = load.outcome()
    after, count, waits = city.processors(), len(outcome.came), outcome.waits()
    took = (outcome.sent[-1] - outcome.sent[0]) / 1e9
    table.add(
        "uplinks a second, of all stores", f"{(count - 1) / max(took, 1e-9):.0f}, {count:,} sent"
    )
    table.equal("lost", outcome.lost(), 0)
    table.equal("delivered twice", outcome.twice, 0)
    table.equal("wrong lines", outcome.wrong, 0)
    times = ", ".join(f"{name} {share(waits, part):.1f} ms" for name, part in PARTS.items())
    table.add("beyond the window", times)
    parts = ", ".join(
        f"{name} {1e6 * (after[name] - before[name]) / count:.0f} µs" for name in after
    )
    table.add("an uplink takes of a processor", parts)
    table.numbers["load"] = {"rate": given.rate, "sent": count, "lost": outcome.lost()}


PARTS = {"median": 0.5, "99th": 0.99, "most": 1.0}


def say_silence(trial: Trial, outcome: Outcome, at: int, begun: int) -> None:
    """The rows of the stores that nothing was done to."""
    table = trial.table
    table.below("the others' longest silence", outcome.silence_of_others(at, begun), NO_SILENCE)
    table.add("the same before", f"{outcome.silence_before(begun):.2f} s")
    others = outcome.lost() - outcome.lost(at)
    table.equal("uplinks of the others that were lost", others, 0)
    table.add("uplinks of this store that were lost", outcome.lost(at))
    table.equal("delivered twice", outcome.twice, 0)


def server(trial: Trial) -> None:
    """A server is killed."""
    outcome, begun = trial.after(AFTER, lambda: trial.city.kill_server(0))
    silence = outcome.silence(0, begun)
    trial.table.below("the store's silence after its lnsd was killed", silence, SERVER_SILENCE)
    say_silence(trial, outcome, 0, begun)


def move(trial: Trial) -> None:
    """A store is moved to another machine, while the others go on."""
    city, at = trial.city, trial.city.stores - 1

    def do() -> None:
        city.stop(at)
        city.move(at, f"{fleet.name_of(at)}.moved")
        city.serve(at, machine="m2")

    outcome, begun = trial.after(AFTER, do)
    trial.table.add("the store's silence while it moves", f"{outcome.silence(at, begun):.2f} s")
    say_silence(trial, outcome, at, begun)
    is_served = city.fence(at).host == "m2"
    trial.table.add("it is served on the other machine", is_served, "True", is_served)


def members(trial: Trial) -> None:
    """Two of three members of etcd are killed, and start again later."""
    city, table = trial.city, trial.table
    lives = [city.fence(at).life for at in range(city.stores)]
    outcome, begun = trial.after(AFTER, lambda: city.cluster.kill(1, 2))
    silence = max(outcome.silence(at, begun) for at in range(city.stores))
    table.below("the longest silence of a store after two members were killed", silence, NO_SILENCE)
    table.add("the same before", f"{outcome.silence_before(begun):.2f} s")
    table.equal("uplinks that were lost", outcome.lost(), 0)
    copy = city.processes.file("copy-without-etcd")
    city.run("cp", city.files[0], copy)
    keeper = city.keeper(fleet.name_of(0), copy, 0, machine="m3")
    table.equal("the status of a keeper that begins meanwhile", keeper.ended(LONG), 1)
    city.cluster.start(1, 2)
    await_that("etcd answers", lambda: answers(city.etcd), LONG)
    found = [city.fence(at).life for at in range(city.stores)]
    table.equal("stores whose life went on", sum(map(int.__eq__, lives, found)), city.stores)
    for at in range(city.stores):
        city.await_served(at)
