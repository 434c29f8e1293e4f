"""Each line of `lnsd status` and `lnsd devices`, as docs/OPERATING.md has it, and that it is true;
and what a server leaves that was ended by a signal."""

import os
import socket
import subprocess
import time
from collections.abc import Sequence
from pathlib import Path

import pytest
from bozintar import load, wire
from bozintar.links import Application, Gateway
from bozintar.processes import HOST, await_that, free_port
from bozintar.server import Program
from lnsd.anew import PATIENCE, await_status
from lnsd.calls import kinds_of

from ..clocks import Clock, await_rest, held_syncs, stepped_syncs
from ..conftest import Environment, NewServer
from ..pairs import DEV_EUI, EUI, OWNER, WINDOW, greeted, records
from .conftest import NewWatcher
from .operating import (
    NOTHING_MORE,
    PLACES,
    all_of,
    assert_stopped,
    failure,
    heard,
    operator,
)

# the names of a status, except the last copies and the moment after them
NAMES = """listening places links gateways applications devices slots windows waiting made decided
    durable commits dropped faulted taken_over silent unlisted slowed checkpoints syncs
    longest_sync_us""".split()
# those whose values aren't known before
MEASURED = ("durable", "commits", "syncs", "longest_sync_us")
SLOW = 0.5
OTHER, LAST = "00000000000000B2", 15
# how much time passes before the sync after each decision, in seconds
TOOK = (0, 3, 1, 0)
DEVICE = f"0 {DEV_EUI} 1 1 0 0 0 1"
COMMANDS = ("stop", "status", "devices", "watch", "reload")


def status_of(server: Program, copies: Sequence[str] = (), **due: int) -> dict[str, str]:
    """The status has its lines, in order, with these values and 0 for the other counts."""
    status = server.status()
    assert list(status) == [*NAMES, *(f"last_copy_{eui}" for eui in copies), "now"]
    assert server.address
    values = {"listening": f"{HOST}:{server.address[1]}", "places": PLACES, "slots": 8, **due}
    wanted = {name: str(values.get(name, 0)) for name in NAMES if name not in MEASURED}
    assert {name: status[name] for name in wanted} == wanted
    return status


def heard_at(server: Program, seq: int) -> int:
    """`lnsd devices` prints the device, and how it was heard; when that was, in milliseconds."""
    (first, *rest), now = server.devices()
    assert rest == [f"devices 1 seq {seq}"]
    words = first.split(" ")
    assert words[:8] == DEVICE.split(" ")
    assert words[9:] == [EUI, "-20", "-95"]
    assert int(words[8]) <= now
    return int(words[8])


def test_status(server: Program, with_disk: Environment) -> None:
    """Three decisions, each committed alone, are in the status, and the syncs of the disk."""
    begun, log = time.monotonic(), f"{server.folder}/log"
    how = with_disk(SLOW_SYNCS=1_000_000, SLOW_MS=int(1000 * SLOW), CALL_LOG=log)
    address = server.run_on(PLACES, env=how)
    first, before = status_of(server), kinds_of(log).count("s")
    pair = greeted(address)
    pair.play()
    await_status(server, durable=3)
    linked = {"links": 2, "gateways": 1, "applications": 1, "devices": 1}
    status = status_of(server, (EUI,), made=3, decided=3, **linked)
    assert (first["commits"], status["commits"]) == ("0", "3")
    syncs = int(status["syncs"]) - int(first["syncs"])
    assert 6 <= syncs == kinds_of(log).count("s") - before
    taken = 1000 * (time.monotonic() - begun)
    assert SLOW <= int(status["longest_sync_us"]) / 1e6 < taken / 1000
    at = int(status[f"last_copy_{EUI}"])
    assert 0 < at <= int(status["now"]) <= taken
    assert at <= heard_at(server, 3) < taken, "an uplink is decided after its copy"
    for link in pair.links():
        link.close()
    await_status(server, links=0)
    status_of(server, devices=1, made=3, decided=3)
    heard_at(server, 3)
    assert_stopped(server)


def test_what_waits(server: Program, with_disk: Environment, clock: Clock) -> None:
    """An open window is in the status, and decisions that wait for a slow disk."""
    how = with_disk(HELD_SYNCS=server.folder, CLOCK=clock.file)
    pair = greeted(server.run_on(PLACES, env=how))
    await_rest(server, pair.links())
    clock.stands(False)
    pair.play()
    clock.stands()
    pair.gateway.say(heard(b"\xe0\x01"))
    await_status(server, windows=1)
    clock.moves(1)
    await_status(server, windows=0)
    request = wire.request(f"mac {DEV_EUI} 06")
    with held_syncs(server):
        pair.application.say(request)
        await_status(server, made=4, waiting=0)
        pair.application.say(2 * request)
        await_status(server, made=6, waiting=2)
    for _ in range(3):
        pair.hears(f"macqueued {DEV_EUI} 06")
    await_status(server, waiting=0, commits=5, durable=6)
    for link in pair.links():
        link.close()
    await_status(server, links=0)
    status_of(server, devices=1, made=6, decided=6)
    heard_at(server, 6)
    assert_stopped(server)


def test_durable_while_syncs_wait(
    new_server: NewServer, with_disk: Environment, clock: Clock, watch: NewWatcher, folder: Path
) -> None:
    """Four decisions, each of a batch of its own. The first sync is of the first one's body, and
    each later one of a batch's gate and of the next one's body: only a batch whose gate was synced
    is durable. The longer one of the first batch's two syncs is reported."""
    server = new_server(records=records(len(TOOK), OWNER))
    how = with_disk(HELD_SYNCS=folder / "syncs", CLOCK=clock.file)
    address = server.run_on(PLACES, env=how)
    watcher, begun = watch(server), int(server.status()["durable"])
    with Application(address, OWNER) as application:
        await_rest(server, [application])
        with stepped_syncs(folder / "syncs") as step:
            for number, seconds in enumerate(TOOK):
                application.asks(f"mac {load.dev_eui(number)} 06")
                await_status(server, made=number + 1)
                clock.passes(seconds, server, [application])
                if number:
                    step()
                await_rest(server)
                assert int(server.status()["durable"]) <= begun + max(0, number - 1)
        for number in range(len(TOOK)):
            assert application.hears() == f"macqueued {load.dev_eui(number)} 06"
    assert watcher.await_line("slow_sync")[-1] == f"slow_sync {1000 * max(TOOK)}"
    await_status(server, durable=begun + len(TOOK), links=0)
    assert_stopped(server)


def test_one_place(server: Program, clock: Clock) -> None:
    """A fault is in the status. What a place's last link sent isn't: a gateway that has sent
    nothing has no last copy."""
    address = server.run_on(1, env=clock.how)
    with Gateway(address, EUI) as gateway:
        clock.passes(1, server, [gateway])
        gateway.say(heard(b"\xe0\x01"))
        await_rest(server, [gateway])
        status_of(server, (EUI,), places=1, links=1, gateways=1, windows=1)
    await_status(server, links=0)
    with Gateway(address, OTHER) as gateway:
        await_rest(server, [gateway])
        status_of(server, places=1, links=1, gateways=1, windows=1)
        gateway.say(b"\x00\x00")
        await_rest(server, [gateway])
        status_of(server, places=1, windows=1, faulted=1)
    assert_stopped(server, faulted=1)


def test_last_application(new_server: NewServer, clock: Clock) -> None:
    """Beside 96 places the last application gets its lines, too. Of uplinks that are decided
    together, and of later ones, `lnsd devices` has when the device was heard last."""
    server = new_server(records=records(2, LAST))
    address = server.run_on(PLACES, env=clock.how)
    application, gateway = Application(address, LAST), Gateway(address, EUI)
    devices = [load.device(number) for number in range(2)]
    clock.passes(1, server, [application, gateway])
    for milliseconds in (1200, 1400):
        gateway.say(b"".join(heard(device.uplink(7, b"\x01")) for device in devices))
        clock.passes(WINDOW, server, [gateway])
        await_rest(server)
        assert sum(application.hears(0).startswith("up ") for _ in devices) == 2
        (*lines, _), now = server.devices()
        assert [line.split(" ")[8] for line in lines] == [str(milliseconds)] * 2
        assert now == milliseconds
    for link in (application, gateway):
        link.close()
    assert_stopped(server)


def test_time_of_an_answer(server: Program, clock: Clock) -> None:
    """`now` is the time of the answer, also if its order came a second after its operator."""
    server.run_on(PLACES, env=clock.how)
    slow = operator(server)
    clock.passes(1, server, [])
    slow.sendall(b"status\n")
    assert b"\nnow 1000\n" in all_of(slow)
    assert_stopped(server)


def run(server: Program, listen: str) -> tuple[str, ...]:
    """The words of a server at this address."""
    return "run", server.store, "--listen", listen


@pytest.fixture
def killed(server: Program, watch: NewWatcher) -> Program:
    """A server that was killed while somebody watched."""
    server.run_on(2)
    watcher = watch(server)
    server.kill()
    assert watcher.rest() == NOTHING_MORE
    return server


@pytest.mark.parametrize("word", COMMANDS)
def test_order_to_a_killed_server(killed: Program, word: str) -> None:
    """An order to a server that was killed is answered so."""
    assert killed.run(word, killed.store) == failure("left over")


def test_next_server(killed: Program) -> None:
    """The next server removes what was left over; a further one doesn't begin beside it."""
    killed.run_on(2)
    assert killed.run(*run(killed, f"{HOST}:{free_port()}")) == failure(
        "file\nlnsd: in use by another lnsd"
    )
    assert_stopped(killed)
    assert not os.path.exists(f"{killed.store}.control")


def test_text_in_place_of_the_socket(server: Program) -> None:
    """What is no socket stays, and no server begins beside it."""
    control, text = f"{server.store}.control", "a text"
    with open(control, "w", encoding="utf-8") as file:
        file.write(text)
    assert server.run(*run(server, f"{HOST}:{free_port()}")) == failure("control")
    assert server.run(*run(server, "nonsense")) == failure(
        "listen\nlnsd: not an address with a port", 3
    )
    assert server.run("status", server.store)[0] == 1
    with open(control, encoding="utf-8") as file:
        assert file.read() == text


def test_address_that_is_taken(server: Program, new_server: NewServer) -> None:
    """At an address that is taken no server begins."""
    other = new_server()
    port = other.run_on(2)[1]
    assert server.run(*run(server, f"{HOST}:{port}")) == failure("listen\nlnsd: address in use", 3)
    assert_stopped(other)


def is_closed(address: tuple[str, int]) -> bool:
    """Whether nobody listens: the server is ending."""
    with socket.socket() as probe:
        return probe.connect_ex(address) != 0


def test_killed_while_it_is_stopped(new_server: NewServer, with_disk: Environment) -> None:
    """An operator who stops a server learns that it was killed before its end."""
    server = new_server(records=records(1, OWNER))
    address = server.run_on(PLACES, env=with_disk(HELD_SYNCS=server.folder))
    with Application(address, OWNER) as application, held_syncs(server):
        application.asks(f"mac {load.dev_eui(0)} 06")
        await_status(server, made=1)
        words = [server.path, "stop", server.store]
        pipe = subprocess.PIPE
        with subprocess.Popen(words, stdin=subprocess.DEVNULL, stdout=pipe, stderr=pipe) as stop:
            await_that("the server is ending", lambda: is_closed(address))
            server.kill()
            out, errors = stop.communicate(timeout=PATIENCE)
    assert (stop.returncode, out.decode(), errors.decode()) == failure("broken off")
