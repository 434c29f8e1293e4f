"""Rewritings of short scripts, by hand: each script has a line a step, with its answer after a
colon where there is memory to spare (a list has a `/` for a newline). Words of steps that the
rewriting doesn't read are left out."""
from dataclasses import dataclass

from .rewritten import Script, Unfit


@dataclass
class Row:
    """A step of a script that wants for memory in a way: what is asked of the simulator, and what
    is written, with a `;` for a newline."""

    place: int
    way: str
    asked: tuple
    wrote: str


WINDOW_DUE = """format: formatted 1
hear 0 F: turn 0 0
provision 250 A: turn 0 2
queue 100 B: turn 2 3
list: 0 A/devices 1 seq 3
hear 100 F: turn 3 3 refused 24
fail: armed"""
WAYS_OF_WINDOW_DUE = [
    (1, "its own", True), (2, "its own", True), (2, "its window", True), (3, "its own", True),
    (4, "nothing", True), (5, "its own", False),
]  # fmt: skip
OF_WINDOW_DUE = (
    Row(1, "its own", (
        """format: formatted 1
tick 0: turn 0 0
provision 250 A: turn 0 1
queue 100 B: turn 1 2
list: 0 A/devices 1 seq 2
hear 100 F: turn 2 2 refused 24
fail: armed""",),
        "formatted 1;turn 0 0 refused 30;turn 0 1;turn 1 2;0 A;devices 1 seq 2;"
        "turn 2 2 refused 24;armed;"),
    Row(2, "its own", (
        """format: formatted 1
hear 0 F: turn 0 0
tick 250: turn 0 1
queue 100 B: turn 1 1 refused 7
list: devices 0 seq 1
hear 100 F: turn 1 1 refused 24
fail: armed""",),
        "formatted 1;turn 0 0;turn 0 1 refused 30;turn 1 1 refused 7;devices 0 seq 1;"
        "turn 1 1 refused 24;armed;"),
    Row(2, "its window", (
        """format: formatted 1
hear 0 F: turn 0 0
queue 250 B: turn 0 1 refused 7
list: devices 0 seq 1
hear 250 F: turn 1 1 refused 24
fail: armed""",),
        "formatted 1;turn 0 0;turn 0 0 refused 30;turn 0 1 refused 7;devices 0 seq 1;"
        "turn 1 1 refused 24;armed;"),
    Row(4, "nothing", (
        """format: formatted 1
hear 0 F: turn 0 0
provision 250 A: turn 0 2
queue 100 B: turn 2 3
hear 100 F: turn 3 3 refused 24
fail: armed""",),
        "formatted 1;turn 0 0;turn 0 2;turn 2 3;refused 30;turn 3 3 refused 24;armed;"),
)  # fmt: skip

BATCH_LOST = """format: formatted 1
tick 0: turn 0 0
crash old: opened 0 0
provision 0 A: turn 0 1
provision 0 B: turn 1 2
provision 0 C: turn 2 3
take 1: taken 1
next 1: idle
take 2: idle
call: called
checkpoint: idle
take 1: idle
crash old: opened 0 0
hello: bad line
take 1: idle
crash new: refused 40
tick 0: idle"""
WAYS_OF_BATCH_LOST = [
    (2, "its opening", True), (3, "its own", True), (4, "its own", True), (5, "its own", True),
    (6, "nothing", True), (6, "lost", True), (12, "its opening", True),
]  # fmt: skip
FRAME_REFUSED = """format: formatted 1
hear 0 F: turn 0 0
tick 200: turn 0 0
hear 200 F: turn 0 0
mac 500 A: turn 0 1"""
WAYS_OF_FRAME_REFUSED = [
    (1, "its own", True), (2, "its window", False), (3, "its own", True), (4, "its own", True),
    (4, "its window", False),
]  # fmt: skip
# the two steps that stand before all else, and the life that follows
AHEAD = "format: formatted 1\ntick 0: turn 0 0\ncrash old: opened 0 0\n"
MADE = "provision 0 A: turn 0 1\nprovision 0 B: turn 1 2\nprovision 0 C: turn 2 3\n"
BEHIND = "crash old: opened 0 0\nhello: bad line\ntake 1: idle\ncrash new: refused 40\ntick 0: idle"
OF_BATCH_LOST = (
    Row(2, "its opening", (
        f"{AHEAD}{BEHIND}",),
        "formatted 1;turn 0 0;refused 30;idle;idle;idle;idle;idle;idle;idle;idle;idle;"
        "opened 0 0;bad line;idle;refused 40;idle;"),
    # the batch that was lost had one of three decisions, and the two others are taken at once
    Row(6, "lost", (
        f"{AHEAD}{MADE}take 1: taken 1",
        f"{AHEAD}{MADE}next 1: idle",
        f"{AHEAD}{MADE}take 2: taken 2",
        f"{AHEAD}{MADE}call: idle\ncheckpoint: begun\ntake 1: idle",
        f"{AHEAD}{MADE}call: idle\ncheckpoint: begun\n{BEHIND}",),
        "formatted 1;turn 0 0;opened 0 0;turn 0 1;turn 1 2;turn 2 3;refused 30;idle;refused 42;"
        "idle;begun;idle;opened 0 0;bad line;idle;refused 40;idle;"),
    Row(12, "its opening", (
        BATCH_LOST.replace("hello: bad line\ntake 1: idle\n", ""),),
        "formatted 1;turn 0 0;opened 0 0;turn 0 1;turn 1 2;turn 2 3;taken 1;idle;idle;called;idle;"
        "idle;refused 30;bad line;idle;refused 40;idle;"),
)  # fmt: skip
TABLE = (
    (WINDOW_DUE, WAYS_OF_WINDOW_DUE, OF_WINDOW_DUE),
    (BATCH_LOST, WAYS_OF_BATCH_LOST, OF_BATCH_LOST),
    (FRAME_REFUSED, WAYS_OF_FRAME_REFUSED, ()),
)
UNFIT = (
    "format: refused 44",
    "format: formatted 1\nhear 0 F: turn 0 0\nhear 1 G: turn 0 0\ntick 201: turn 0 0",
)


def parted(script):
    """The steps of a script, and their answers."""
    pairs = [line.split(": ") for line in script.split("\n")]
    return [step for step, _ in pairs], [answer.replace("/", "\n") for _, answer in pairs]


def player(scripts):
    """What answers these scripts, and no others."""
    kept = {tuple(steps): answers for steps, answers in map(parted, scripts)}
    return lambda steps: kept[tuple(steps)]


def compared(script, ways, rows):
    """What is wrong with the rewriting of one script, by its rows."""
    wrong, steps = [], parted(script)[0]
    came = list(Script(steps, player([script])).ways())
    if sorted(came) != sorted(ways):
        wrong.append(f"the ways of {steps}: {came}")
    for row in rows:
        try:
            wrote = Script(steps, player([script, *row.asked])).output(row.place, row.way)
        except KeyError as why:
            wrote = f"nothing, since {why} was asked"
        if wrote != row.wrote.replace(";", "\n"):
            wrong.append(f"step {row.place}, {row.way}: {wrote!r}")
    return wrong


def checked():
    """How many comparisons held, and what is wrong with the others."""
    wrong = [fault for row in TABLE for fault in compared(*row)]
    for script in UNFIT:
        try:
            Script(parted(script)[0], player([script]))
            wrong.append(f"{script!r} isn't refused")
        except Unfit:
            pass
    count = len(UNFIT) + sum(1 + len(rows) for _, _, rows in TABLE)
    return count - len(wrong), wrong
