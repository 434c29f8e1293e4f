"""Operators, strangers, links that come anew, and applications that are away, of a server whose
links come and go (`lnsd run`)."""

import re
import signal
import socket
import threading
import time
from dataclasses import replace

import pytest
from bozintar import load, wire
from bozintar.devices import Device
from bozintar.links import Application, Gateway, Link
from bozintar.processes import await_that
from bozintar.server import Program
from bozintar.store import Record
from lnsd.anew import PATIENCE, Used, await_status, connect_anew, used
from lnsd.unread import await_read

from ..clocks import Clock, await_rest, held_syncs, sleeps
from ..conftest import Environment, NewServer
from ..pairs import EUI, OWNER, records
from .conftest import NewWatcher
from .operating import (
    COUNTS,
    GREETING,
    NOTHING_MORE,
    PLACES,
    all_of,
    assert_stopped,
    failure,
    heard,
    operator,
)

# how many lines wait for an application, or for an operator
WAITING = 1024
# how often links come anew, and how much memory may be lost by that, in KiB
ANEW, LEAK = 10_000, 2048
# copies of one frame by each of some gateways, all refused except the first of a window; a link may
# send 1,000 a second. In all they are twice what an operator's socket holds and what waits besides
LINKS, COPIES = 8, 1250
# devices whose queues are filled and emptied, and how often
QUEUES, ROUNDS = 20, 60
WATCHING = b"watching\n"
# silent clients of the control socket, and how long `lnsd stop` may take beside them, in seconds
MANY, STOPPED = 120, 15
# how many may watch, and how long the place of one who has gone may be taken, in seconds
WATCHERS, FREE = 4, 20
COMMANDS = ("stop", "status", "devices", "watch", "reload")
DEVICES = "devices 0 seq 0\n"
NONSENSE = (b"", b"\n", b"Status\n", b"status", b"status\nstop\n", bytes(40), b"\xff\n")
# what a server may have sent of its devices when it was broken off, and all of it
CUT = (b"", b"\n", b"devices 0", DEVICES.encode())
WHOLE = DEVICES.encode() + b"\n"


@pytest.fixture
def server(new_server: NewServer) -> Program:
    """A server that runs, with the devices of 20 queues."""
    made = new_server(32, records(QUEUES, OWNER))
    made.run_on(PLACES)
    return made


@pytest.fixture
def empty(new_server: NewServer) -> Program:
    """A server that runs on an empty store."""
    made = new_server()
    made.run_on(PLACES)
    return made


def linked(server: Program) -> tuple[Application, Gateway]:
    """An application and a gateway."""
    assert server.address
    return Application(server.address, OWNER), Gateway(server.address, EUI)


@pytest.mark.usefixtures("proved")
def test_operator_who_does_not_read(server: Program) -> None:
    """An operator who doesn't read holds up nobody, and learns how much was left out."""
    slow = operator(server, b"watch\n")
    assert slow.recv(len(WATCHING)) == WATCHING
    assert server.address
    application, frame = Application(server.address, OWNER), b"\x40" + bytes(11)
    euis = [load.gateway_eui(number) for number in range(LINKS)]
    gateways = [Gateway(server.address, eui) for eui in euis]
    for gateway, eui in zip(gateways, euis):
        gateway.say(heard(frame, eui) * COPIES)
    application.asks("hello")
    assert application.hears() == "refused 51", "an answer meanwhile"
    for gateway in gateways:
        await_read(gateway)
    came = b""
    while not re.search(rb"\nleft_out [1-9][0-9]*\n", came):
        came += slow.recv(65536)
    assert WAITING <= came.count(b"refused 21 ") < LINKS * COPIES
    for link in (application, *gateways):
        link.close()
    assert server.stop()[0] == 0
    slow.close()


def fill_queues(application: Application, gateway: Gateway, devices: list[Device]) -> None:
    """Each device is sent 16 long items, one after the other."""
    each = [(tag, device) for tag in range(16) for device in devices]
    for tag, device in each:
        application.asks(f"queue {device.dev_eui} {tag} 7 u {'00' * 40}")
    for _ in each:
        assert application.hears().startswith("queued ")
    gateway.say(b"".join(heard(device.uplink(7, b"\x01")) for _, device in each))
    for _ in each:
        gateway.order()
        application.hears()


@pytest.mark.slow
def test_checkpoint(server: Program, watch: NewWatcher) -> None:
    """Once a mebibyte of changes was written the whole table is written, which is reported."""
    watcher, (application, gateway) = watch(server), linked(server)
    devices = [load.device(number) for number in range(QUEUES)]
    for _ in range(ROUNDS):
        fill_queues(application, gateway, devices)
        if server.status()["checkpoints"] != "0":
            break
    else:
        pytest.fail(f"no checkpoint was written in {ROUNDS} rounds")
    watcher.await_line("checkpoint")
    application.asks(f"mac {devices[0].dev_eui} 06")
    assert application.hears().startswith("macqueued ")
    assert server.status()["checkpoints"] == "1"
    for link in (application, gateway):
        link.close()
    assert server.stop()[0] == 0
    lines, *end = watcher.rest()
    assert (end, lines.count("checkpoint")) == ([0, ""], 0), "another checkpoint"


@pytest.mark.parametrize("order", NONSENSE, ids=ascii)
def test_nonsense(empty: Program, order: bytes) -> None:
    """An operator who gives no order, or none that there is, is sent nothing."""
    with operator(empty, order) as connection:
        connection.shutdown(socket.SHUT_WR)
        assert all_of(connection) == b""
    assert_stopped(empty)


def test_silent_operators(new_server: NewServer, clock: Clock) -> None:
    """Operators who say nothing are given up. Seven hold up nobody, also if no time passes. One who
    is alone later has two seconds again."""
    server = new_server()
    server.run_on(env=clock.how)
    silent = [operator(server) for _ in range(7)]
    server.status()
    silent += [operator(server) for _ in range(8)]
    clock.stands(False)
    server.status()
    for connection in silent:
        assert all_of(connection) == b""
    clock.stands()
    slow = operator(server)
    clock.passes(1, server, [])
    slow.sendall(b"status\n")
    assert all_of(slow).endswith(b"\n\n"), "a whole status"
    assert_stopped(server)


def test_operator_who_reads_no_devices(new_server: NewServer, clock: Clock) -> None:
    """An operator who asks for more devices than the socket holds, and reads nothing, is given up
    when a write has waited for two seconds."""
    last = 0xFFFFFF, bytes(16), bytes(16), 2**32 - 1, 2**32 - 1
    long = Record("", load.JOIN_EUI, "0" * 32, OWNER, dev_nonce=1, granted=last[0], heard=10**18)
    more = [replace(long, dev_eui=load.dev_eui(at), current=last) for at in range(4096)]
    server = new_server(4096, more)
    server.run_on(PLACES, env=clock.how)
    slow = operator(server, b"devices\n")
    # after the first two the server has written a part
    for _ in range(2):
        clock.passes(2, server, [])
    await_rest(server)
    assert not all_of(slow).endswith(b"\n\n"), "a whole answer"
    assert_stopped(server)


def test_second_stop(new_server: NewServer, with_disk: Environment) -> None:
    """A server that is ending and waits for its disk ends, also if it is stopped again."""
    server = new_server(records=records(1, OWNER))
    address = server.run_on(PLACES, env=with_disk(HELD_SYNCS=server.folder))
    stops = []
    with Application(address, OWNER) as application:
        with held_syncs(server):
            application.asks(f"mac {load.dev_eui(0)} 06")
            await_status(server, made=1)
            for _ in range(2):
                stops.append(operator(server, b"stop\n"))
                await_rest(server)
        assert application.hears() == f"macqueued {load.dev_eui(0)} 06"
    assert server.ended() == (0, "", "".join(f"{name} 0\n" for name in COUNTS))
    assert all(map(all_of, stops)), "each is answered"


def test_link_that_is_slowed(server: Program, clock: Clock) -> None:
    """A link that sends more than it may is slowed once, however often the server looks again. It
    is read on then, also if more copies have come meanwhile than the 400 that may come at once."""
    assert server.stop()[0] == 0
    address = server.run_on(1, env=clock.how)
    with Gateway(address, EUI) as gateway:
        # a link that begins may send no copy yet
        gateway.say(heard(b"\xe0\x01"))
        await_status(server, slowed=1)
        before = switches(server)
        await_that("its worker has looked again", lambda: switches(server) > before + 2)
        assert server.status()["slowed"] == "1"
        gateway.say(heard(b"\xe0\x02") * 700)
        await_rest(server, [gateway])
        clock.stands(False)
        await_read(gateway)
        assert server.status()["gateways"] == "1"
    assert server.stop()[0] == 0


@pytest.mark.timed
def test_stop_beside_many_silent_operators(empty: Program) -> None:
    """`lnsd stop` beside 120 clients of the control socket that say nothing, which leave when the
    server ends, takes 15 seconds at most. With two seconds for each of eight at a time it takes 30.
    """
    silent = [operator(empty) for _ in range(MANY)]
    begun = time.monotonic()
    assert_stopped(empty)
    assert time.monotonic() - begun <= STOPPED
    for connection in silent:
        connection.close()


def test_fifth_watcher(empty: Program, watch: NewWatcher) -> None:
    """Four operators may watch, and a fifth is refused; other orders are taken. Who hangs up
    before the answer takes no place."""
    empty.running().send_signal(signal.SIGSTOP)
    for _ in range(WATCHERS):
        operator(empty, b"watch\n").close()
    empty.running().send_signal(signal.SIGCONT)
    await_rest(empty)
    watchers = [watch(empty) for _ in range(WATCHERS)]
    assert empty.run("watch", empty.store) == failure("busy")
    assert empty.devices()[0] == DEVICES.splitlines()
    assert_stopped(empty)
    for watcher in watchers:
        assert watcher.rest() == NOTHING_MORE


@pytest.mark.parametrize("word", COMMANDS)
def test_order_after_the_end(empty: Program, word: str) -> None:
    """Once a server has ended, an order is answered so."""
    assert_stopped(empty)
    assert empty.run(word, empty.store) == failure("not running")


def switches(server: Program) -> int:
    """How often the threads of the server have gone to sleep."""
    return sum(int(count) for _, count in sleeps(server))


@pytest.mark.parametrize("number", [signal.SIGINT, signal.SIGKILL], ids=["SIGINT", "SIGKILL"])
def test_watchers_who_have_gone(empty: Program, watch: NewWatcher, number: int) -> None:
    """The place of an operator who watched and has gone is soon free, also if nothing happens.
    Until then the server looks now and then, and not all the time. Others still hear all."""
    files, watchers = used(empty)[1], [watch(empty) for _ in range(WATCHERS)]
    await_rest(empty)
    begun, before = time.monotonic(), switches(empty)
    time.sleep(2)
    looks = switches(empty) - before
    assert looks <= 4 * WATCHERS * (time.monotonic() - begun), "how often it looks"
    for watcher in watchers:
        watcher.leave(number)
    await_that("those who have gone are given up", lambda: used(empty)[1] == files, FREE)
    again = [watch(empty) for _ in range(WATCHERS)]
    assert empty.address
    with Gateway(empty.address, EUI):
        for watcher in again:
            assert watcher.line() == f"linked gateway {EUI}"
        files = used(empty)[1]
        again.pop(0).leave(number)
        await_that("the first has gone", lambda: used(empty)[1] < files, FREE)
    for watcher in again:
        assert watcher.line() == f"ended gateway {EUI}"
    assert_stopped(empty)


def answer_once(listener: socket.socket, answer: bytes) -> None:
    """Sends this to the next client when its order is whole, and ends."""
    connection, _ = listener.accept()
    with connection, connection.makefile("rb") as order:
        order.readline()
        connection.sendall(answer)


@pytest.mark.parametrize("answer", [*CUT, WHOLE], ids=ascii)
@pytest.mark.parametrize("word", ["status", "devices"])
def test_answer_that_is_cut(new_server: NewServer, word: str, answer: bytes) -> None:
    """An answer that is cut off is reported as such, from any server."""
    program = new_server()
    due = (0, DEVICES, "") if answer == WHOLE else failure("broken off")
    with socket.socket(socket.AF_UNIX) as listener:
        listener.bind(program.store + ".control")
        listener.listen()
        other = threading.Thread(target=answer_once, args=(listener, answer), daemon=True)
        other.start()
        assert program.run(word, program.store) == due
        other.join(PATIENCE)


def test_strangers(new_server: NewServer, clock: Clock) -> None:
    """Who connects and doesn't greet has ten seconds, also who begins to. A gateway that waits
    after 96 of them is served then."""
    server = new_server()
    address = server.run_on(PLACES, env=clock.how)
    silent = [Link(address) for _ in range(PLACES)]
    await_that("each is read", lambda: sum(map(bool, clock.words[2:1024])) == PLACES)
    gateway = Gateway(address, EUI, patience=PATIENCE)
    clock.moves(GREETING - 0.01)
    await_status(server, links=PLACES, gateways=0, silent=0)
    silent[0].say(wire.gateway_greeting(EUI)[:5])
    clock.passes(0.01, server, silent[:1])
    await_status(server, links=1, gateways=1, silent=PLACES)
    for link in silent:
        assert link.rest() == []
        link.close()
    gateway.close()
    assert_stopped(server, silent=PLACES)


def test_greetings_while_it_stands_still(server: Program) -> None:
    """A link whose greeting comes while the process stands still isn't taken for a silent one,
    however long that lasts, also if it had begun before. One that says nothing is."""
    assert server.address
    silent, application, gateway = (Link(server.address) for _ in range(3))
    gateway.say(wire.gateway_greeting(EUI)[:5])
    await_status(server, links=3)
    server.running().send_signal(signal.SIGSTOP)
    application.say(wire.application_greeting(OWNER))
    gateway.say(wire.gateway_greeting(EUI)[5:])
    time.sleep(GREETING + 1)
    server.running().send_signal(signal.SIGCONT)
    await_status(server, links=2, gateways=1, applications=1, silent=1)
    for link in (silent, application, gateway):
        link.close()
    await_status(server, links=0)
    assert_stopped(server, silent=1)


def used_after(server: Program, links: int) -> Used:
    """What the server has after this many links, once the thread that answered is gone, too."""
    connect_anew(server, links)
    await_rest(server)
    return used(server)


@pytest.mark.slow
@pytest.mark.usefixtures("proved")
def test_links_that_come_anew(empty: Program) -> None:
    """10,000 links come anew, by one name and by many, ended, reset and taken over: no descriptor,
    no thread and no memory remains."""
    before, after = (used_after(empty, links) for links in (100, ANEW))
    assert after[1:] == before[1:], "descriptors and threads"
    assert after[0] - before[0] < LEAK, "memory in KiB"
    assert empty.stop()[0] == 0


def send_rounds(server: Program, gateway: Gateway, devices: list[Device], rounds: int) -> None:
    """Each device sends in each round, and all that is decided."""
    for number in range(1, rounds + 1):
        gateway.say(b"".join(heard(device.uplink(7, b"\x01")) for device in devices))
        if number % 25 == 0 or number == rounds:
            await_status(server, windows=0, made=number * len(devices))


def test_application_that_is_away(server: Program, watch: NewWatcher) -> None:
    """Lines for an application that is away wait, 1,024 of them, and come in order on its next
    link. What waits when the server ends is dropped."""
    assert server.address
    rounds = 56
    devices = [load.device(number) for number in range(QUEUES)]
    watcher, gateway = watch(server), Gateway(server.address, EUI)
    send_rounds(server, gateway, devices, rounds)
    lost = QUEUES * rounds - WAITING
    await_status(server, waiting=0, dropped=lost)
    with Application(server.address, OWNER) as application:
        lines = [application.hears().split(" ") for _ in range(WAITING)]
        for device in devices:
            came = [int(words[3]) for words in lines if words[1] == device.dev_eui]
            assert came == list(range(1, len(came) + 1)), device.dev_eui
        application.end()
        assert application.rest() == []
    gateway.say(heard(devices[0].uplink(7, b"\x02")))
    await_status(server, windows=0, made=QUEUES * rounds + 1)
    gateway.close()
    assert_stopped(server, dropped=lost + 1)
    reported = watcher.rest()[0].count(f"dropped application {OWNER} 1")
    assert reported == lost, "dropped lines that were reported, except the last"
