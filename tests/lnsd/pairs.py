"""What trials of lnsd share: stores with records, a healthy gateway with an application, of which
all bytes that come are known, and how links and servers end."""

import os
import shutil
from collections.abc import Iterator, Sequence
from contextlib import contextmanager
from typing import Any

from bozintar import load, network, store, wire
from bozintar.devices import Device
from bozintar.links import Application, Gateway, Link
from bozintar.server import Program
from bozintar.wire import Copy

from .clocks import await_rest

DEV_EUI, JOIN_EUI = "1112131415161718", "0102030405060708"
APP_KEY = "2B7E151628AED2A6ABF7158809CF4F3C"
OWNER, EUI = 3, "00000000000000B1"
PROVISION = f"provision {DEV_EUI} {JOIN_EUI} {APP_KEY} 0 1"
HEARD = Copy(EUI)
SUCCESS = (0, "", "")
WINDOW = 0.2  # how long a window lasts, in seconds


@contextmanager
def formatted(path: str, slots: int = 8, records: Sequence[store.Record] = ()) -> Iterator[Program]:
    """A program with a store that has these records."""
    with Program(path) as program:
        assert program.format(slots=slots) == SUCCESS
        if records:
            store.put(program.store, records)
        yield program


def records(count: int, application: int | None = None) -> list[store.Record]:
    """Devices in their session, owned by that application, or by 16 in turn."""
    made = [load.record(number, 16) for number in range(count)]
    for record in made:
        record.application = record.application if application is None else application
    return made


class Pair:
    """A healthy gateway and an application. `came` counts what has come, which is right."""

    def __init__(self, address: tuple[str, int], piece: int = 700):
        self.application, self.gateway = Link(address), Link(address)
        self.piece, self.came = piece, 0
        self.device = Device(DEV_EUI, JOIN_EUI, APP_KEY)
        self.session = network.Session(0, APP_KEY, 1, 1)

    def say(self, link: Link, said: bytes) -> None:
        """Says it in pieces."""
        for at in range(0, len(said), self.piece):
            link.say(said[at : at + self.piece])

    def greet(self) -> None:
        """Both greet."""
        self.say(self.application, wire.application_greeting(OWNER))
        self.say(self.gateway, wire.gateway_greeting(EUI))

    def hears(self, due: str) -> None:
        """The application's next line is this one."""
        assert self.application.read() == b"\x13" + due.encode()
        self.came += 1

    def play(self) -> None:
        """A provisioning, a join and an uplink, with what has to come, byte for byte."""
        self.say(self.application, wire.request(PROVISION))
        self.hears(f"provisioned {DEV_EUI} 0")
        self.say(self.gateway, wire.copy_of(self.device.join_request(), HEARD))
        accept = self.gateway.read()
        assert accept == bytes.fromhex(self.session.accept(HEARD).split(" ")[2])[2:]
        self.came += 1
        self.device.take_accept(accept[20:])
        self.sends()

    def sends(self) -> None:
        """An uplink, with what has to come."""
        counter = self.device.next_up
        self.say(self.gateway, wire.copy_of(self.device.uplink(7, b"\x04\xd2"), HEARD))
        self.hears(f"up {DEV_EUI} 1 {counter} 7 04D2 1 {HEARD.heard()}")

    def links(self) -> list[Link]:
        """Both links."""
        return [self.application, self.gateway]


def greeted(address: tuple[str, int]) -> Pair:
    """A pair that has greeted."""
    pair = Pair(address)
    pair.greet()
    return pair


def linked(program: Program, **how: Any) -> tuple[Application, Gateway]:
    """An application and a gateway, once the server has taken their greetings. It is started for
    them, if it doesn't run."""
    address = program.address or program.serve(2, **how)
    both = Application(address, OWNER), Gateway(address, EUI)
    await_rest(program, both)
    return both


def end_all(links: Sequence[Link]) -> None:
    """All inputs end, and nothing more comes."""
    for link in links:
        link.end()
    for link in links:
        assert link.rest() == [], "what came after all that was due"
        link.close()


def assert_ended(program: Program, dropped: int = 0, faulted: int = 0) -> None:
    """The server ends by itself, with these numbers."""
    assert program.ended() == (0, "", f"dropped {dropped}\nfaulted {faulted}\n")


def finish(program: Program, links: Sequence[Link], dropped: int = 0, faulted: int = 0) -> None:
    """All inputs end, and the server then."""
    end_all(links)
    assert_ended(program, dropped, faulted)


def as_nobody(program: Program) -> tuple[dict[str, Any], str]:
    """How to run the program as a user to whom permissions apply, and its path for that user."""
    if os.getuid():
        return {}, program.path
    copied = os.path.join(program.folder, "lnsd")
    shutil.copy(program.path, copied)
    for path in (program.folder, copied):
        os.chmod(path, 0o755)
    return {"user": 65534, "group": 65534, "extra_groups": []}, copied
