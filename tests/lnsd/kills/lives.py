"""All lives of a server under load: each is killed or stopped, and what was seen in it is compared
with the store and with earlier lives."""

import math
import random
from collections import Counter
from dataclasses import dataclass
from pathlib import Path

import preloads
from bozintar import image
from bozintar.links import Ended, Silent
from bozintar.processes import Failed
from bozintar.server import Program

from ..fleet import APPLICATIONS, CHANGES, DROPS, INSIDE, MOST, TAKEOVER, Load
from ..seen import Meter, Rule, Seen
from . import falsified, older

DEVICES, LONGEST = 256, 1.5
COUNTS = ["dropped", "faulted", "taken_over", "silent"]


@dataclass(frozen=True)
class Plan:
    """How many lives there are, whether links come and go, and how many links are dropped and taken
    over in all of these."""

    times: int
    seed: int
    comes_and_goes: bool = False
    drops: int = 0
    takeovers: int = 0


class Lives:
    """All lives: what was seen in them, and their sums."""

    def __init__(self, program: Program, plan: Plan):
        self.program, self.plan, self.chance = program, plan, random.Random(plan.seed)
        self.seen = Seen([Meter(at, APPLICATIONS[at % 2]) for at in range(DEVICES)])
        self.sums: Counter[str] = Counter()
        self.noticed: list[falsified.Noticed] = []
        self.load: Load | None = None

    def go(self) -> None:
        """Lives all of them. What breaks them off is a fault."""
        formatted = self.program.format(slots=DEVICES)
        self.seen.expect(Rule.ENDED, "lnsd format", formatted, (0, "", ""))
        try:
            for number in range(1, self.plan.times + 1):
                self.life(number)
                if number == (self.plan.times + 1) // 2:
                    self.migrate()
            self.last_life()
        except preloads.NoCompiler as why:
            self.seen.wrong(Rule.MIGRATED, str(why))
        except (Failed, Ended, Silent, ValueError) as why:
            self.seen.wrong(Rule.ENDED, f"{type(why).__name__}: {why}")
            self.program.clean()
            if self.load:
                self.load.close()
        self.sums["comparisons"] = self.seen.passed.total()

    def life(self, number: int) -> None:
        """One life, to its end, and what the store has then. If links come and go, every other one
        is stopped: then nothing that was decided is missing."""
        plan, seen = self.plan, self.seen
        listed = seen.listed
        changes = CHANGES if plan.comes_and_goes else 0
        self.load = load = Load(self.program, seen, self.chance, changes)
        seen.begin()
        load.provision()
        is_stopped = plan.comes_and_goes and number % 2 > 0
        is_falsified = is_stopped and number + 2 > plan.times
        share = [math.ceil(count / plan.times) for count in (plan.drops, plan.takeovers)]
        load.run(self.chance.uniform(0.25, LONGEST), share, needs_both=is_falsified)
        if is_stopped:
            self.stop(load)
        else:
            self.program.kill()
        load.rest()
        self.note(load, "stopped" if is_stopped else "killed")
        seen.compare(self.program.list())
        if plan.comes_and_goes:
            falsified.compared(load, listed, seen.listed, is_stopped)
        if is_falsified:
            self.noticed += falsified.lines(load)
            self.noticed += falsified.orders(load)
            self.noticed += falsified.lists(load, listed, is_stopped)

    def stop(self, load: Load) -> None:
        """The server is stopped, and prints its counts."""
        seen, (status, _, said) = self.seen, load.stop()
        words = [line.split(" ") for line in said.splitlines()]
        seen.expect(Rule.ENDED, "the status of a life that was stopped", status, 0)
        seen.expect(Rule.ENDED, "what it printed", [name for name, *_ in words], COUNTS)
        counts = {name: int(count) for name, count in words}
        least, may = load.changed[TAKEOVER], load.changed["closed"] + load.changed["reset"]
        took = counts.get("taken_over", -1)
        words_of = f"{took} taken over, of {least} and {may} more"
        seen.holds(Rule.ENDED, least <= took <= least + may, words_of)
        cut = load.changed[INSIDE]
        is_so = counts.get("faulted", -1) <= cut
        seen.holds(Rule.ENDED, is_so, f"{said} of {cut} inside a message")
        seen.expect(Rule.ENDED, "silent links", counts.get("silent"), 0)

    def note(self, load: Load, end: str) -> None:
        """Adds a life to the sums."""
        self.sums.update(load.changed)
        self.sums.update({f"lives {end}": 1, "links dropped": 0})
        self.sums["links dropped"] += sum(load.changed[how] for how in DROPS)
        names = ("uplinks", "accepts", "downlinks", "answers")
        self.sums.update({
            name: count - self.sums[name] for name, count in zip(names, self.seen.counts())
        })  # fmt: skip
        if self.plan.comes_and_goes:
            for kind in falsified.KINDS:
                due, may, _ = self.seen.handed.counts(kind, end == "stopped")
                self.sums.update({f"{kind} due": due.total(), f"{kind} handed in": may.total()})

    def migrate(self) -> None:
        """The store becomes one of an older program, and what migrates it is killed in each of its
        calls, from the same beginning each time. Then it is migrated."""
        seen, program = self.seen, self.program
        older.put(program, DEVICES)
        seen.count_anew()
        before = Path(program.store).read_bytes()
        library = preloads.made(preloads.CALLS, program.folder)
        for number in range(1, MOST):
            Path(program.store).write_bytes(before)
            how = preloads.environment(library, KILLING_CALL=number)
            status, _, said = program.run("list", program.store, env=how)
            if not status:
                break
            what = f"a list that is killed in call {number}"
            seen.expect(Rule.MIGRATED, what, (status, said), (-9, ""))
            left = image.read(Path(program.store).read_bytes())
            seen.compare(left.lines(), Rule.MIGRATED)
            seen.compare(program.list(), Rule.MIGRATED)
        seen.holds(Rule.MIGRATED, 4 < number < MOST - 1, f"{number} calls migrate a store")
        seen.compare(program.list(), Rule.MIGRATED)
        self.sums["kills of a migration"] = number - 1

    def last_life(self) -> None:
        """The last life ends by the end of all inputs."""
        self.load = load = Load(self.program, self.seen, self.chance)
        self.seen.begin()
        load.run(1.0)
        for link in load.links():
            link.end()
        load.rest()
        came, due = self.program.ended(), (0, "", "dropped 0\nfaulted 0\n")
        self.seen.expect(Rule.ENDED, "the end of the last life", came, due)
        self.seen.compare(self.program.list())
