"""A script of lives for lns-sim, and a plain model of it, written from docs/FORMATS.md alone, in
which one step at most wants for memory. It is answered `refused 30`, and nothing has changed; or
the batch that it took is lost, so that the next one is refused 42, and the next life begins with
what is on the disk. If there is no memory before the first step, `refused 30` is all.

The script has commits, batches that follow others, checkpoints and crashes."""

# a life a line: a digit is a device that is provisioned, and a letter one of the steps below
LIVES = """
1234 tccc nn cc r c nn cc r e cc r ee T cccc re l o
56 tccc NN w t cccc r l o
7 Tcccc r p cccccc e T p cccccc l o
8 tcc l w l o l o
"""
STEPS = {
    "t": ("take", 1),
    "T": ("take", 64),
    "n": ("next", 1),
    "N": ("next", 64),
    "p": ("checkpoint",),
    "c": ("call",),
    "r": ("release",),
    "e": ("emit",),
    "l": ("list",),
    "o": ("crash", "old"),
    "w": ("crash", "new"),
}


class Batch:
    """Decisions that are begun, and how many of the four device calls of a commit were made."""

    def __init__(self, decisions):
        self.decisions, self.calls = decisions, 0


class Sim:
    """The simulator, plainly. A decision is a device with its slot. What needs memory is listed in
    which way it has none: "" where it has, "nothing changed", or "lost" of a batch."""

    def __init__(self):
        self.disk, self.other_is_open = [], False
        self.open()

    def open(self):
        """A life begins with what the disk has."""
        self.is_open = True
        self.decided, self.waiting, self.made = list(self.disk), [], 0
        self.begun, self.has_lost, self.calls_left = [], False, 0
        self.released = []

    def provision(self, number, lack):
        turn = f"turn {self.made}"
        if lack:
            return f"{turn} {self.made} refused 30"
        self.made += 1
        self.waiting.append((f"{number:016X}", len(self.decided)))
        self.decided.append(self.waiting[-1])
        return f"{turn} {self.made}"

    def take(self, most, lack):
        return "idle" if self.begun or self.calls_left else self.begin(most, lack)

    def next(self, most, lack):
        return self.begin(most, lack) if [batch.calls for batch in self.begun] == [3] else "idle"

    def begin(self, most, lack):
        if not self.waiting:
            return "idle"
        if lack == "nothing changed":
            return "refused 30"
        taken, self.waiting = self.waiting[:most], self.waiting[most:]
        if self.has_lost:
            return "refused 42"
        if lack:
            self.has_lost = True
            return "refused 30"
        self.begun.append(Batch(taken))
        return f"taken {len(taken)}"

    def checkpoint(self, lack):
        if self.begun or self.calls_left:
            return "idle"
        if lack:
            return "refused 30"
        self.calls_left = 6 if self.other_is_open else 4
        return "begun"

    def call(self, _):
        if self.calls_left:
            self.calls_left -= 1
            self.other_is_open = self.other_is_open or self.calls_left == 0
            return "called"
        if not self.begun or self.begun[-1].calls == 4:
            return "idle"
        last = self.begun[-1]
        last.calls += 1
        # the sync of the following batch's body is that of the gate in front of it
        durable = self.begun[0] if len(self.begun) == 2 and last.calls == 2 else last
        if durable is not last:
            durable.calls = 4
        if durable.calls == 4:
            self.disk += durable.decisions
        return "called"

    def release(self, _):
        if not self.begun or self.begun[0].calls < 4:
            return "idle"
        self.released += self.begun[0].decisions
        return f"released {len(self.begun.pop(0).decisions)}"

    def emit(self, lack):
        if not self.released:
            return "idle"
        if lack:
            return "refused 30"
        dev_eui, slot = self.released.pop(0)
        return f"app 3 provisioned {dev_eui} {slot}"

    def list(self, lack):
        if lack:
            return "refused 30"
        count = len(self.decided)
        devices = [f"{slot} {dev_eui} 0 - - - 0 0" for dev_eui, slot in self.decided]
        return "\n".join([*devices, f"devices {count} seq {count}"])

    def crash(self, image, lack):
        if image == "new":
            torn = [batch for batch in self.begun if batch.calls == 3]
            self.disk += torn[0].decisions if torn else []
        self.open()
        if lack:
            self.is_open = False
            return "refused 30"
        return f"opened {len(self.disk)} {len(self.disk)}"

    def answer(self, step, lack):
        if not self.is_open and step[0] != "crash":
            return "idle"
        return getattr(self, step[0])(*step[1:], lack)


def steps():
    """The steps of all lives."""
    letters = LIVES.replace(" ", "").replace("\n", "")
    return [("provision", int(letter)) if letter.isdigit() else STEPS[letter] for letter in letters]


def line_of(step):
    if step[0] != "provision":
        return " ".join(map(str, step))
    key = "2B7E151628AED2A6ABF7158809CF4F3C"
    return f"provision 0 3 {step[1]:016X} 0102030405060708 {key} 0 1"


def lines():
    """The script."""
    return ["format 00002A 8", *map(line_of, steps())]


def answers(script, at=None, how=""):
    """What the model answers, where the step at this place wants for memory in this way."""
    sim = Sim()
    came = [sim.answer(step, how if number == at else "") for number, step in enumerate(script)]
    return "\n".join(["formatted 2166124", *came, ""])


def outputs():
    """All that may be written, each with its meaning."""
    script = steps()
    found = {answers(script): "all is as with memory", "refused 30\n": "nothing is done"}
    for at, step in enumerate(script):
        ways = ["nothing changed"] if step[0] not in ("call", "release") else []
        ways += ["lost"] if step[0] in ("take", "next") else []
        for how in ways:
            name = f"line {at + 2}, {line_of(step)[:60]}: {how}"
            found.setdefault(answers(script, at, how), name)
    return found
