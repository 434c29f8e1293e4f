"""The keeper of a store: it starts the server if the fence lets it, and watches over both."""

import argparse
import asyncio
import os
import secrets
import signal
import socket
import time
from collections.abc import Callable
from typing import Any, TypeVar

from bozintar.logs import Seldom, log, warn
from bozintar.running import on_signals

from . import files
from .etcd import Etcd, Gone, NoLease
from .holds import Hold, Lost, Seen, seen
from .judging import Found, Word, judge
from .records import RUNNING, Fence, Unreadable
from .server import Failed, Lnsd, Server

# exit statuses, beside 0 after a clean end and 2 for wrong words: a fault that may pass, the
# fence's refusal, another life of the store, and a fault of the server that needs its operator
AGAIN, REFUSED, OTHER_LIFE, FAULT = 1, 3, 4, 5
# statuses of `lnsd run`: it can't listen on the address
CANT_LISTEN = 3
# seconds between two looks while another lease is waited for, and between two lives if one was
# short
LOOK, PAUSE, SHORT = 0.2, 1.0, 5.0
# for how long a clean end is written again and again while the cluster is away, and how long the
# server may take to end well, in seconds
WRITING, STOPPING = 8.0, 25.0
# which part of the lease's time may pass until the server is killed, with --strict
STRICT = 2 / 3
T = TypeVar("T")


class Refused(Exception):
    """The file isn't served."""


class Keeper:
    """A store's keeper, over the lives of its server."""

    def __init__(self, given: argparse.Namespace, etcd: Etcd):
        self.given, self.etcd = given, etcd
        self.lnsd = Lnsd(given.lnsd, given.file)
        self.machine = given.machine or files.machine()
        self.host = given.host or socket.gethostname()
        self.told, self.seldom = asyncio.Event(), Seldom()
        # one call of the cluster at a time, each in a thread
        self.one = asyncio.Lock()

    async def run(self) -> int:
        """Serves the store for as long as it may; the exit status."""
        on_signals((signal.SIGTERM, signal.SIGINT), self.told.set)
        name = self.given.name
        try:
            while not self.told.is_set():
                begun = time.monotonic()
                status = await self.live()
                if status is not None:
                    return status
                if time.monotonic() - begun < SHORT:
                    await self.unless_told(PAUSE)
            return 0
        except (Refused, Unreadable) as why:
            warn(f"{name} is refused: {why}")
            return REFUSED
        except Lost as why:
            warn(f"{name}: {why}: the server is killed")
            return OTHER_LIFE
        except (Gone, NoLease) as why:
            warn(f"{name}: the cluster is away: {why}")
            return AGAIN
        except (Failed, OSError) as why:
            warn(f"{name}: {why}")
            return FAULT

    async def asks(self, what: Callable[..., T], *words: Any) -> T:
        """Asks the cluster in a thread, so that nothing here waits for a member that hangs."""
        async with self.one:
            return await asyncio.to_thread(what, *words)

    async def unless_told(self, seconds: float) -> None:
        """Waits, unless the keeper is to end."""
        try:
            await asyncio.wait_for(self.told.wait(), seconds)
        except asyncio.TimeoutError:
            pass

    # the beginning of a life

    async def free(self) -> Seen:
        """What the cluster has of the store, once nobody serves it."""
        begun, has_said = time.monotonic(), False
        while True:
            there = await self.asks(seen, self.etcd, self.given.name)
            if not there.serving or self.told.is_set():
                return there
            at = f"at {there.serving.address}, " if there.serving.address else ""
            text = f"it is served {at}by {there.serving.host}"
            if time.monotonic() >= begun + self.given.wait:
                raise Refused(text)
            if not has_said:
                log(f"{self.given.name}: {text}; waits for the end of that lease")
            has_said = True
            await self.unless_told(LOOK)

    async def live(self) -> int | None:
        """One life of the store; the exit status, or None if a signal has ended the server."""
        before = await self.free()
        if self.told.is_set():
            return 0
        found = await asyncio.to_thread(self.found)
        word = Word(self.given.adopt, self.given.replace)
        if why := judge(before.net_id, before.fence, found, word):
            raise Refused(why)
        await self.check_number(before, found)
        if self.told.is_set():
            return 0
        fence = self.fence_of(before, found)
        hold = Hold(self.etcd, self.given.name, self.given.lease)
        if not await self.asks(hold.take, before, fence):
            raise Refused("another keeper was quicker")
        life = Life(self, hold, found.number)
        try:
            return await life.serve()
        finally:
            await life.leave()

    def found(self) -> Found:
        """The file, as it is before lnsd opens it."""
        try:
            return files.found(self.given.file, self.given.home or "", self.machine)
        except (files.NoStore, OSError) as why:
            raise Failed(f"{self.given.file} can't be read: {why}") from None

    async def check_number(self, before: Seen, found: Found) -> None:
        """lnsd reads the same number, and nobody else has the file. The bytes of a store that ended
        well are known already, and are left as they are until it is served: lnsd may migrate
        them."""
        is_known = before.fence and before.fence.has_ended_well and not self.given.replace
        if not is_known and (number := await self.lnsd.last()) != found.number:
            raise Failed(f"the file changes: lnsd reads number {number}, and it was {found.number}")

    def fence_of(self, before: Seen, found: Found) -> Fence:
        """What the fence is to have of the life that begins."""
        return Fence(
            life=before.fence.life + 1 if before.fence else 1,
            state=RUNNING,
            number=found.number,
            home=found.home,
            digest="",
            keeper=secrets.token_hex(8),
            host=self.host,
            file=os.path.abspath(self.given.file),
            generation=found.generation,
        )


class Life:
    """A life of the store, once the cluster has it."""

    def __init__(self, keeper: Keeper, hold: Hold, number: int):
        self.keeper, self.given, self.hold = keeper, keeper.given, hold
        self.server = Server(keeper.lnsd, self.given.listen)
        self.number, self.is_over = number, asyncio.Event()
        self.guard: asyncio.TimerHandle | None = None

    async def serve(self) -> int | None:
        """Serves until the server ends, or the keeper is to end; how."""
        self.watch()
        self.check_time()
        turns = asyncio.ensure_future(self.turns())
        told = asyncio.ensure_future(self.keeper.told.wait())
        try:
            if not await self.start(turns):
                return self.status_of(await self.ended)
            await asyncio.wait({self.ended, turns, told}, return_when="FIRST_COMPLETED")
            if turns.done():
                turns.result()
            return await self.end(turns)
        finally:
            told.cancel()
            self.is_over.set()
            await asyncio.wait({turns})

    async def start(self, turns: asyncio.Task) -> bool:
        """Starts the server, which may take longer than the lease lasts, and shows bridges where it
        is; whether it serves."""
        starting = asyncio.ensure_future(self.server.start())
        await asyncio.wait({starting, turns}, return_when="FIRST_COMPLETED")
        if turns.done():
            starting.cancel()
            turns.result()
        if not (address := await starting):
            return False
        shown = self.given.address or address
        await self.keeper.asks(self.hold.show, shown)
        fence = self.hold.fence
        assert fence
        log(f"{self.given.name} is served at {shown}, life {fence.life}, from {fence.number}")
        return True

    @property
    def ended(self) -> asyncio.Task[int]:
        """The server's end, once it was started."""
        assert self.server.ended
        return self.server.ended

    def check_time(self) -> None:
        """A keeper that was stopped for long since it took the store doesn't begin any more."""
        if time.monotonic() > self.hold.begun + self.given.lease * STRICT:
            raise Gone("the lease is nearly over before the server has begun")

    # while it lasts

    def watch(self) -> None:
        """With --strict the server doesn't outlive the lease. A timer sees to it, whatever else is
        under way: questions to the cluster are asked in threads."""
        if not self.given.strict:
            return
        if self.guard:
            self.guard.cancel()
        # the loop's clock is time.monotonic
        last = self.hold.begun + self.given.lease * STRICT
        self.guard = asyncio.get_running_loop().call_at(last, self.bite)

    def bite(self) -> None:
        """The lease wasn't renewed in time."""
        warn(f"{self.given.name}: the lease can't be renewed: the server is killed")
        self.server.kill()

    async def turns(self) -> None:
        """Renews the lease and writes the number, again and again."""
        while not self.is_over.is_set():
            try:
                await self.turn()
            except Gone as why:
                text = f"{self.given.name}: the cluster is away, and the server goes on: {why}"
                self.keeper.seldom.warn("away", text)
            except NoLease:
                pass  # the next turn gets another one
            try:
                await asyncio.wait_for(self.is_over.wait(), self.given.every)
            except asyncio.TimeoutError:
                pass

    async def turn(self) -> None:
        """Renews the lease, and writes how far the store is. A lease that is over is a new one, if
        no other life has begun."""
        if await self.keeper.asks(self.hold.renew):
            self.watch()
        elif self.given.strict:
            self.bite()
            return
        else:
            await self.keeper.asks(self.hold.grant)
        self.number = max(self.number, await self.keeper.lnsd.durable())
        await self.keeper.asks(self.hold.see, self.number)

    # its end

    async def end(self, turns: asyncio.Task) -> int | None:
        """Ends the server well, if the keeper is to end, and writes what the file then is."""
        if self.keeper.told.is_set():
            stopping = asyncio.ensure_future(self.keeper.lnsd.run("stop"))
            await asyncio.wait({self.ended}, timeout=STOPPING)
            self.server.kill()
            await asyncio.wait({stopping})
        status = await self.ended
        self.is_over.set()
        await turns
        if status == 0:
            await self.finish()
        return self.status_of(status)

    async def finish(self) -> None:
        """Writes a clean end."""
        number = await self.keeper.lnsd.last()
        found = await asyncio.to_thread(self.keeper.found)
        if found.number != number:
            raise Failed(f"the file changes after the server's end, at {number}")
        last = time.monotonic() + WRITING
        while True:
            try:
                await self.keeper.asks(self.hold.finish, number, found.digest)
                log(f"{self.given.name} ended well, at {number}")
                return
            except Gone as why:
                if time.monotonic() > last:
                    text = "the cluster is away, so only this very file can be served next"
                    warn(f"{self.given.name} ended well, at {number}, but {text}: {why}")
                    return
            await asyncio.sleep(LOOK)

    def status_of(self, status: int) -> int | None:
        """The keeper's status by the server's; None if the server is to be started again."""
        if status == 0:
            return 0
        if status < 0:
            name = signal.Signals(-status).name
            warn(f"{self.given.name}: the server was ended by {name}")
            return None
        warn(f"{self.given.name}: the server ended with status {status}")
        return AGAIN if status == CANT_LISTEN else FAULT

    async def leave(self) -> None:
        """Ends what is left of it: the server, the timer and the lease."""
        if self.guard:
            self.guard.cancel()
        self.server.kill()
        if self.server.ended:
            await self.server.ended
        try:
            await self.keeper.asks(self.hold.release)
        except Gone:
            pass  # it ends by itself
