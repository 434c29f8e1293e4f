"""A random load is played on the server beside the model, over several lives of the server, whose
clock stands still but where a round moves it."""

import select
import time
from collections import defaultdict, deque
from collections.abc import Sequence
from itertools import zip_longest
from typing import Any

from bozintar.devices import Rejected
from bozintar.links import Application, Ended, Gateway, Link, Silent
from bozintar.processes import Failed
from bozintar.server import Program
from bozintar.wire import line_of
from lnsd.anew import await_status

from ..clocks import Clock
from . import plain
from .crowd import Asked, Crowd, Sent
from .steps import EUIS, OWNERS, Change, Round

# how long a window lasts, after how long a link may send the most copies, and how much later the
# last window of a round is opened, in seconds
SLOTS, WINDOW, RESTED, LATER = 12, 0.2, 1, 0.01
# places for links that end while others of their names come
SPARE = 8
# how long what is due may take, and what is read in one step, in seconds
PATIENCE, QUICK = 60, 0.02


class Differs(Exception):
    """Something else came than the model has."""


WRONG = (Differs, Failed, Ended, Silent, Rejected, ValueError)


def key_of(kind: str, to: Any, what: str) -> tuple[str, Any, str]:
    """Within what the order holds: on a link the lines about one device, or refusals. The bytes of
    a downlink are of one device alone."""
    if kind == "gw":
        return kind, to, "frame"
    word, _, rest = what.partition(" ")
    return kind, to, "refused" if word == "refused" else rest.partition(" ")[0]


class Life:
    """The server between a start and an end, the model, and what is still to come."""

    def __init__(self, play: "Play"):
        self.play, self.model, self.crowd = play, play.model, play.crowd
        program, links = play.program, len(EUIS) + len(OWNERS)
        play.clock.begins()
        if play.comes_and_goes:
            self.address = program.run_on(links + SPARE, env=play.clock.how)
        else:
            self.address = program.serve(links, env=play.clock.how)
        self.gateways = {eui: Gateway(self.address, eui) for eui in EUIS}
        self.applications = {number: Application(self.address, number) for number in OWNERS}
        self.passes(RESTED)
        # by link and device, what has to come; and the gateways' frames by their bytes
        self.due: dict[Any, deque[str]] = defaultdict(deque)

    def links(self) -> list[Link]:
        """All links."""
        return [*self.gateways.values(), *self.applications.values()]

    def passes(self, seconds: float) -> None:
        """Moves the clock on, once the server has done all that was said before."""
        self.play.clock.passes(seconds, self.play.program, self.links())

    def expect(self, left: plain.Effects) -> None:
        """What the model lets out, in order."""
        for kind, to, what in left:
            self.due[key_of(kind, to, what)].append(what)

    def linked_again(self, link: Link) -> Link:
        """The next link of a link's name."""
        if isinstance(link, Gateway):
            self.gateways[link.eui] = Gateway(self.address, link.eui)
            return self.gateways[link.eui]
        assert isinstance(link, Application)
        self.applications[link.number] = Application(self.address, link.number)
        return self.applications[link.number]

    def change(self, change: Change) -> None:
        """A link ends in one way or another, and the next one of its name is there."""
        older = self.links()[change.link]
        self.play.note(f"link {change.link} of {[*EUIS, *OWNERS]}: {change.how}")
        if change.how == "reset":
            older.reset()
        elif change.how == "close":
            older.close()
        self.linked_again(older)
        if change.how == "take over":
            if older.more(PATIENCE):
                raise Differs(f"something came on link {change.link} that was taken over")
            older.close()
        self.passes(RESTED)

    def leave(self, number: int) -> None:
        """An application ends its link, and is away once the server has ended it, too."""
        self.play.note(f"application {number} is away")
        link = self.applications[number]
        link.end()
        if link.more(PATIENCE):
            raise Differs(f"something came to application {number}, which had nothing to come")

    def come_back(self) -> None:
        """Applications that are away are linked again."""
        for link in list(self.applications.values()):
            if link.is_over:
                link.close()
                self.linked_again(link)

    def ask(self, asked: Asked) -> None:
        """A request, and what the model answers."""
        if self.applications[asked.application].is_over:
            self.come_back()
        self.play.note(f"application {asked.application} asks {asked.line}")
        self.applications[asked.application].asks(asked.line)
        try:
            left = self.model.ask(asked.application, asked.line)
        except plain.Refused as why:
            left = [("app", asked.application, f"refused {why.args[0]}")]
        self.expect(left)
        if asked.waits:
            self.settle(left)

    def send(self, sent: Sent) -> plain.Effects:
        """A frame by some gateways; what the model makes of it, which is then due."""
        for copy in sent.copies:
            heard = f"{copy.heard()} {copy.stamp}"
            self.play.note(f"gateway {heard} hears {plain.text_of(sent.frame)}")
            self.gateways[copy.gateway].hands_in(sent.frame, copy)
        copies = plain.taken(sent.copies)
        try:
            left = self.model.heard(sent.frame, copies) if copies else []
        except plain.Refused:
            left = []
        self.expect(left)
        return left

    def came(self, kind: str, to: Any, what: str) -> None:
        """Compares what came."""
        waiting = self.due[key_of(kind, to, what)]
        if kind == "gw" and what in waiting:
            # of two devices' frames any may be first
            waiting.remove(what)
            self.crowd.take(bytes.fromhex(what)[20:])
        elif waiting and waiting[0] == what:
            waiting.popleft()
        else:
            due = list(waiting)[:3] or "nothing"
            raise Differs(f"{what}\n  came to {kind} {to}, and the model has {due}")
        self.play.compared += 1

    def read(self, wait: float) -> None:
        """Takes and compares what has come."""
        by_socket = {link.socket: link for link in self.links() if not link.is_over}
        for ready in select.select(list(by_socket), [], [], wait)[0] if by_socket else ():
            link = by_socket[ready]
            link.more(0)
            while link.contents:
                content = link.contents.popleft()
                if isinstance(link, Gateway):
                    self.came("gw", link.eui, content.hex().upper())
                elif isinstance(link, Application):
                    self.came("app", link.number, line_of(content))

    def is_due(self, left: plain.Effects) -> bool:
        """Whether any of this is still to come."""
        return any(what in self.due[key_of(kind, to, what)] for kind, to, what in left)

    def settle(self, left: plain.Effects) -> None:
        """Waits until this has come."""
        last = time.monotonic() + PATIENCE
        while self.is_due(left):
            self.read(QUICK)
            if time.monotonic() > last:
                raise Differs(f"nothing more came, and the model has {left}")

    def settle_all(self, bell: plain.Effects) -> None:
        """Waits until all that is due has come: first what the bell led to, whose window is the
        last to be closed."""
        if not bell:
            raise Differs("the bell led to nothing")
        self.settle(bell)
        last = time.monotonic() + PATIENCE
        while any(self.due.values()):
            self.read(QUICK)
            if time.monotonic() > last:
                due = {key: list(of)[:3] for key, of in self.due.items() if of}
                raise Differs(f"nothing more came, and the model has {str(due)[:600]}")

    def round(self, this: Round) -> None:
        """One thing of each device, and then a frame whose window is the last to be closed."""
        if this.change:
            self.change(this.change)
        if this.away is not None:
            self.leave(OWNERS[this.away])
        for act in self.crowd.acts(this):
            if isinstance(act, Asked):
                self.ask(act)
            else:
                self.send(act)
        self.passes(LATER)
        bell = self.send(self.crowd.ring())
        self.passes(WINDOW)
        if this.away is not None:
            await_status(self.play.program, windows=0, waiting=0)
            self.come_back()
        self.settle_all(bell)

    def end(self) -> None:
        """All inputs end, or the server is stopped; what comes then is nothing."""
        program = self.play.program
        self.play.note("the server ends")
        came = program.stop() if self.play.comes_and_goes else None
        for link in self.links():
            link.end()
        last = time.monotonic() + PATIENCE
        while any(not link.is_over for link in self.links()) and time.monotonic() < last:
            self.read(0.1)
        self.close()
        status, out, said = came or program.ended()
        if (status, out) != (0, "") or not said.startswith("dropped 0\nfaulted 0\n"):
            raise Differs(f"the server ended with {(status, out, said)}")
        for line, due in zip_longest(program.list(), self.model.listed()):
            if line != due:
                raise Differs(f"the list has {line!r}, and the model has {due!r}")
        self.play.compared += 2

    def close(self) -> None:
        """Closes all links."""
        for link in self.links():
            link.close()


class Play:
    """A load that is played from an empty store on: the model, what was done, and the number of
    comparisons."""

    def __init__(self, program: Program, clock: Clock, comes_and_goes: bool):
        self.program, self.clock, self.comes_and_goes = program, clock, comes_and_goes
        self.model, self.crowd = plain.Network(SLOTS), Crowd()
        self.script: list[str] = []
        self.compared = 0

    def note(self, line: str) -> None:
        """Notes what is done."""
        self.script.append(line)

    def go(self, load: Sequence[Round]) -> None:
        """Plays all of it, and raises what is wrong."""
        came = self.program.format(slots=SLOTS)
        if came != (0, "", ""):
            raise Failed(f"lnsd format: {came}")
        life = Life(self)
        try:
            for number, this in enumerate(load, 1):
                self.note(f"round {number}")
                if this.is_after_end and number > 1:
                    life.end()
                    life = Life(self)
                life.round(this)
            life.end()
        finally:
            life.close()


def difference(
    program: str, clock: Clock, load: Sequence[Round], comes_and_goes: bool
) -> tuple[Play, str]:
    """Plays a load; what is wrong, with all that was done, or nothing."""
    with Program(program) as made:
        play = Play(made, clock, comes_and_goes)
        try:
            play.go(load)
        except WRONG as why:
            what = why.args[0] if isinstance(why, Differs) else f"{type(why).__name__}: {why}"
            return play, "\n".join([what, *play.script])
    return play, ""
