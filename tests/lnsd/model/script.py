"""Random loads as scripts for the simulator lns-sim, with a checkpoint after each round, and what
has to come."""

import subprocess
from collections.abc import Sequence

from bozintar.wire import Copy

from . import plain
from .crowd import Asked, Crowd, Sent
from .steps import Round

# a batch has this many decisions at most, and a checkpoint takes this many device calls
BATCH, CALLS = 64, 6
SECONDS = 600


class Script:
    """Lines for the simulator, and the lines that it has to emit, in order."""

    def __init__(self, load: Sequence[Round], slots: int):
        self.model, self.crowd = plain.Network(slots), Crowd()
        self.lines, self.due = [f"format 00002A {slots}"], list[str]()
        self.now = 0
        # the frames that left in a round
        self.frames: list[bytes] = []
        for this in load:
            self.play(this)
        self.lines.append("list")

    def let_out(self, left: plain.Effects) -> None:
        """What the model lets out, as the simulator writes it."""
        for kind, to, what in left:
            if kind == "gw":
                self.due.append(f"gw {to} {len(what) // 2:04X}{what}")
                self.frames.append(bytes.fromhex(what)[20:])
            else:
                self.due.append(f"app {to} {what}")

    def ask(self, asked: Asked) -> None:
        """A request, which is decided at once."""
        kind, _, rest = asked.line.partition(" ")
        self.lines.append(f"{kind} {self.now} {asked.application} {rest}")
        try:
            self.let_out(self.model.ask(asked.application, asked.line))
        except plain.Refused:
            pass

    def hear(self, sent: Sent) -> tuple[bytes, list[Copy]]:
        """A frame with those of its copies that are taken."""
        for copy in sent.copies:
            how = f"{copy.frequency} {copy.data_rate} {copy.snr} {copy.rssi} {copy.stamp}"
            text = plain.text_of(sent.frame)
            self.lines.append(f"hear {self.now} {copy.gateway} {how} {text}")
        return sent.frame, plain.taken(sent.copies)

    def play(self, this: Round) -> None:
        """A round's requests, then its frames as their windows are closed, and the commits."""
        self.now += 1000
        seq, heard = self.model.seq, []
        for act in self.crowd.acts(this):
            if isinstance(act, Asked):
                self.ask(act)
            else:
                heard.append(self.hear(act))
        heard.append(self.hear(self.crowd.ring()))
        self.lines.append(f"tick {self.now + 200}")
        for frame, copies in heard:
            try:
                self.let_out(self.model.heard(frame, copies) if copies else [])
            except plain.Refused:
                pass
        for _ in range(seq, self.model.seq, BATCH):
            self.lines += [f"take {BATCH}", *["call"] * CALLS, "release"]
        # of an uplink come four at most: acked or lost, mac, up, and a downlink
        self.lines += ["emit"] * (4 * (self.model.seq - seq))
        self.lines += ["checkpoint", *["call"] * CALLS]
        for frame in self.frames:
            self.crowd.take(frame)
        self.frames = []


def difference(program: str, load: Sequence[Round], slots: int) -> str:
    """Plays a load on the simulator; the first line that isn't as it should be, with the script,
    or nothing."""
    script = Script(load, slots)
    said = "\n".join([*script.lines, ""]).encode()
    ran = subprocess.run([program], input=said, capture_output=True, check=False, timeout=SECONDS)
    lines = ran.stdout.decode(errors="replace").splitlines()
    listed = script.model.listed()
    came = [line for line in lines[: -len(listed)] if line.startswith(("app ", "gw "))]
    came, due = [*came, *lines[-len(listed) :]], [*script.due, *listed]
    wrong = next((pair for pair in zip(came, due) if pair[0] != pair[1]), None)
    if wrong:
        return "\n".join([f"{wrong[0]} came, and the model has {wrong[1]}", *script.lines])
    if len(came) != len(due) or ran.returncode:
        why = f"{len(came)} lines came, with status {ran.returncode}, of {len(due)}"
        return "\n".join([why, *script.lines])
    return ""
