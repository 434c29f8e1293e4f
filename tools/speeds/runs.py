"""What the measurements of lnsd share: their words, figures and aims, a store of 4,096 devices, and
the links of a load."""
import json
import os

import bozintar.load
import bozintar.store
from commands import ROOT
from bozintar.links import Ended, Silent
from bozintar.processes import Failed
from bozintar.server import Program, ProgramWords
from bozintar.words import folder, between, stop
from speeds.measure import machine

# the C library's allocator, as bin/lnsd sets it
ALLOCATOR = {
    "MALLOC_ARENA_MAX": "1",
    "MALLOC_MMAP_THRESHOLD_": "1048576",
    "MALLOC_TRIM_THRESHOLD_": "2097152",
}
DEVICES, GATEWAYS, APPLICATIONS = 4096, 8, 4


class Run:
    """The figures of a run, and how many aims were met."""

    def __init__(self, given):
        self.given, self.figures = given, found_in(given.out) if given.out else {}
        self.met = self.missed = 0

    def tell(self, what, value):
        print(f"{what:<58} {value}", flush=True)

    def aim(self, what, value, most, unit):
        """Prints a figure that has an upper bound."""
        is_met = value is not None and value <= most
        self.met, self.missed = self.met + is_met, self.missed + (not is_met)
        self.tell(what, f"{value} {unit} (at most {most}){'' if is_met else '  MISSED'}".strip())

    def miss(self, why):
        """Something that was to be measured wasn't."""
        print(f"{self.given.name}: {why}", flush=True)
        self.missed += 1

    def store(self, records, version=2):
        """A program with a store of these records, of a version."""
        program = Program(self.given.program, self.given.folder)
        try:
            came = program.format(slots=DEVICES)
            if came != (0, "", ""):
                raise Failed(f"lnsd format: {came}")
            bozintar.store.put(program.store, records, version=version)
        except BaseException:
            program.clean()
            raise
        return program

    def keep(self):
        """Puts the figures into the file that they are for."""
        with open(self.given.out, "w", encoding="utf-8") as file:
            json.dump(self.figures, file, indent=1)
            file.write("\n")


def found_in(out):
    """What other measurements put into a file, which is made where there is none."""
    with open(out, "a+", encoding="utf-8") as file:
        file.seek(0)
        text = file.read()
    try:
        found = json.loads(text or "{}")
    except ValueError:
        found = None
    if not isinstance(found, dict):
        stop(f"{out} is there, and has no figures")
    return found


# the numbers that a measurement may take
NUMBERS = {
    "rate": "uplinks a second of the large load",
    "seconds": "how long a load lasts; of databases: how many rounds of a second there are",
    "turns": "how many turns each has",
    "jobs": "how many processes make the frames in advance",
}


def words_of(text, **numbers):
    """The words of a measurement: the program, a folder, --out, and numbers, each with its least,
    its most and its default."""
    words = ProgramWords(text)
    words.add_argument(
        "--folder",
        type=folder,
        metavar="DIR",
        default=ROOT,
        help="where stores are while it runs (the repository)",
    )
    more = "adds the figures to this JSON file, from which tools/speed page draws"
    words.add_argument("--out", metavar="FILE", help=more)
    for name, (least, most, default) in numbers.items():
        how = {"type": between(least, most), "default": default, "metavar": "N"}
        words.add_argument(f"--{name}", help=f"{NUMBERS[name]} ({default})", **how)
    return words


def rates(seconds):
    """The numbers of a load."""
    jobs = (1, 256, len(os.sched_getaffinity(0)))
    return {"rate": (101, 5000, 4000), "seconds": (1, 600, seconds), "jobs": jobs}


def done(name, given, measure):
    """Does a measurement; the status."""
    for variable, value in ALLOCATOR.items():
        os.environ.setdefault(variable, value)
    given.name = f"speed {name}"
    run = Run(given)
    run.figures[f"machine of {name}"] = of = machine(given.folder)
    for what, value in of.items():
        run.tell(what.replace("_", " "), value)
    try:
        measure(run)
    except (Failed, Ended, Silent, ValueError) as why:
        run.miss(why)
    if given.out:
        run.keep()
    print(f"{run.met} passed, {run.missed} failed")
    return 1 if run.missed else 0


def listed(run, program, count):
    """The list has each device's last counter, and as many decisions as frames."""
    lines = program.list()
    sent = [count // DEVICES + (device < count % DEVICES) for device in range(DEVICES)]
    due = [
        f"{device} {bozintar.load.dev_eui(device)} 1 1 {sent[device]} 0 0 {sent[device]}"
        for device in range(DEVICES)
    ]
    due.append(f"devices {DEVICES} seq {DEVICES + count}")
    differ = sum(map(str.__ne__, lines, due)) + abs(len(lines) - len(due))
    run.aim("the list afterwards: lines that differ", differ, 0, "")


def frames_of(run, rounds):
    """The frames of this many rounds of all devices, one copy each."""
    return bozintar.load.made(DEVICES, rounds, GATEWAYS, 1, run.given.jobs)


def bare(applications=APPLICATIONS):
    """Records of all devices, each in its session."""
    return [bozintar.load.record(device, applications) for device in range(DEVICES)]
