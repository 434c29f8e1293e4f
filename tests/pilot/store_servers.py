"""Servers of many stores, each with a store of its own, and the files that name them."""

from collections.abc import Iterable
from contextlib import ExitStack
from typing import Any

from bozintar import load, store
from bozintar.network import NET_ID
from bozintar.processes import HOST, Failed, free_port
from bozintar.server import Program

from .parts import Parts


class Servers(Parts):
    """Servers by the names of their stores, and what is started beside them."""

    def __init__(self, program: str) -> None:
        super().__init__()
        self.path, self.stack = program, ExitStack()
        self.programs: dict[str, Program] = {}
        self.lines: list[str] = []

    def add(self, name: str, net_id: int, slots: int, numbers: Iterable[int] = ()) -> Program:
        """One more server, whose store has these devices of `load` in their first session."""
        made = self.programs[name] = self.stack.enter_context(Program(self.path, self.folder))
        ended = made.format(f"{net_id:06X}", slots)
        if ended != (0, "", ""):
            raise Failed(f"lnsd format ended so: {ended}")
        if records := [load.record(number, 1) for number in numbers]:
            store.put(made.store, records)
        _, port = made.run_on(96)
        self.lines.append(f"{name} {net_id:06X} {HOST}:{port}\n")
        return made

    def add_loaded(self, name: str, devices: int) -> Program:
        """A server with devices of `load`, of its NetID."""
        return self.add(name, NET_ID, devices, range(devices))

    @property
    def stores(self) -> str:
        """The file of stores."""
        return self.file("stores", "".join(self.lines))

    def router(self, *words: Any, after: str = "") -> tuple[str, int]:
        """A router before these stores; its address."""
        at = (HOST, free_port())
        said = ("--listen", f"{HOST}:{at[1]}", "--stores", self.stores, *words)
        self.own("router", *said, name=f"router-{at[1]}", after=after).start("listens on")
        return at

    def clean(self) -> None:
        self.stack.close()
        super().clean()
