"""A server with a list of the names that may connect (`lnsd run --names`), beside strangers."""

import os
import time
from concurrent.futures import ThreadPoolExecutor
from contextlib import ExitStack
from pathlib import Path

import pytest
from bozintar import load
from bozintar.links import Application, Ended, Gateway, Link, Silent
from bozintar.processes import HOST, free_port
from bozintar.server import Program
from lnsd.anew import PATIENCE, await_status

from ..clocks import Clock, await_rest
from ..conftest import NewServer
from ..pairs import EUI, HEARD, OWNER, records
from .conftest import NewWatcher
from .operating import PLACES, assert_stopped, failure

# invented gateways, and strangers that stay silent and come again
INVENTED, SILENT = 64, 400
# places of a server that are soon taken, and silent strangers that have gone before
CROWD, GONE = 3, 9
# how long a gateway that is listed may take to connect and be heard, in seconds, and how often that
# is tried: it would take 13 if strangers had ten seconds each, since 128 wait for 96 places
SOON, TRIES = 9, 3
OTHER = "00000000000000B2"
LISTED = f"gateway {EUI}\napplication {OWNER}\n"
# what isn't a line of a list, by docs/OPERATING.md
WRONG = (
    "gateway",
    "gateway ",
    "gateway 00000000000000b1",
    "gateway 0000000000000B1",
    f"gateway  {EUI}",
    f"gateway {EUI} ",
    f" gateway {EUI}",
    "application 16",
    "application 03",
    "application -1",
    "application",
    "device 0000000000000001",
    EUI,
    " ",
    " # remark",
)
NO_NAME = "neither 'gateway EUI' nor 'application N'"
# how often operators reload beside each other, and how many of them
RELOADS, OPERATORS = 20, 6
LINES = "\n# all of ours\n\n"


@pytest.fixture
def names(folder: Path) -> Path:
    """The file of names."""
    file = folder / "names"
    file.write_text(LINES + LISTED, encoding="utf-8")
    return file


@pytest.fixture
def server(new_server: NewServer, names: Path) -> Program:
    """A server with a list, and a device in its session."""
    made = new_server(records=records(1, OWNER))
    made.run_on(PLACES, names=str(names))
    return made


def is_closed(link: Link, seconds: float = PATIENCE) -> bool:
    """Whether the server closes a link, on which nothing comes."""
    try:
        link.read(seconds)
    except Ended:
        return True
    except Silent:
        pass
    return False


def assert_uplink(server: Program, application: Application, counter: int) -> None:
    """The listed gateway connects, and its uplink comes out, soon."""
    assert server.address
    device, last = load.device(0), time.monotonic() + SOON
    device.next_up = counter
    with Gateway(server.address, EUI, patience=SOON) as gateway:
        gateway.hands_in(device.uplink(7, b"\x01"), HEARD)
        line = application.hears(last - time.monotonic())
    assert line.split(" ")[:4] == ["up", load.dev_eui(0), "1", str(counter)]


@pytest.mark.timed
def test_invented_names(server: Program, watch: NewWatcher) -> None:
    """64 links with invented names are closed at once and counted, and are given nothing. The
    listed gateway connects, and its uplinks come out."""
    assert server.address
    watcher = watch(server)
    with Application(server.address, OWNER) as application:
        watcher.await_line(f"linked application {OWNER}")
        with ExitStack() as strangers:
            for number in range(INVENTED):
                eui = f"{0xDEAD000000000000 + number:016X}"
                link = strangers.enter_context(Gateway(server.address, eui))
                assert is_closed(link)
            status = await_status(server, unlisted=INVENTED)
            assert (status["gateways"], status["faulted"]) == ("0", "0")
            assert_uplink(server, application, 1)
        came = watcher.await_line(f"linked gateway {EUI}")
        assert sum(line.startswith("unlisted gateway DEAD") for line in came) == INVENTED
    await_status(server, links=0)
    assert server.stop()[0] == 0


def test_another_application(server: Program) -> None:
    """An application that isn't listed is closed, and gets nothing that waits for it."""
    assert server.address
    with Application(server.address, OWNER + 1) as other:
        assert is_closed(other)
    await_status(server, unlisted=1, applications=0)
    assert_stopped(server)


class Strangers:
    """Clients that connect, say nothing, and come again when they are closed."""

    def __init__(self, address: tuple[str, int], count: int) -> None:
        self.address = address
        self.links: list[Link] = []
        for _ in range(count):
            self.come()

    def come(self) -> None:
        """One more connects, if it can."""
        try:
            self.links.append(Link(self.address, patience=0.2))
        except (Silent, OSError):
            pass

    def come_again(self) -> None:
        """Those that were closed come again."""
        closed = [link for link in self.links if is_closed(link, 0)]
        for link in closed:
            self.links.remove(link)
            link.close()
            self.come()

    def close(self) -> None:
        """All of them leave."""
        for link in self.links:
            link.close()


@pytest.mark.timed
@pytest.mark.usefixtures("proved")
def test_silent_strangers(server: Program) -> None:
    """400 strangers that stay silent, and come again when they are closed, don't keep the listed
    gateway out."""
    assert server.address
    with Application(server.address, OWNER) as application:
        await_status(server, applications=1)
        strangers = Strangers(server.address, SILENT)
        try:
            for number in range(TRIES):
                strangers.come_again()
                assert_uplink(server, application, number + 1)
        finally:
            strangers.close()
    assert int(await_status(server, links=0)["silent"]) > 0
    assert server.stop()[0] == 0


def test_time_to_greet(new_server: NewServer, names: Path, clock: Clock) -> None:
    """If names are listed and all places are taken, the one link that hasn't greeted has a second
    for that. Links that have greeted don't count, nor do silent ones that have gone."""
    server = new_server()
    address = server.run_on(CROWD, names=str(names), env=clock.how)
    for _ in range(GONE):
        Link(address).close()
    await_rest(server)
    await_status(server, links=0)
    with Application(address, OWNER), Gateway(address, EUI), Link(address) as late:
        await_status(server, links=CROWD, gateways=1, applications=1)
        # twice, since a read that begins when the time is over waits a millisecond
        for seconds, closes in ((0.45, False), (0.1, True)):
            for _ in range(2):
                clock.passes(seconds, server, [late])
            await_rest(server)
            assert is_closed(late, 0) == closes, "after 0.9 seconds, or 1.1"
    await_status(server, links=0)
    assert_stopped(server, silent=1)


def test_reload(server: Program, names: Path) -> None:
    """A list that was changed is read again by `lnsd reload`: a new name may connect, and the link
    of a name that isn't there any more is closed, of a gateway and of an application."""
    assert server.address
    with Gateway(server.address, EUI) as first, Application(server.address, OWNER) as application:
        await_status(server, links=2, gateways=1, applications=1)
        names.write_text(f"application {OWNER}\ngateway {OTHER}\n", encoding="utf-8")
        assert server.run("reload", server.store) == (0, "", "")
        assert is_closed(first)
        with Gateway(server.address, OTHER) as second:
            await_status(server, gateways=1, links=2, unlisted=0)
            assert not is_closed(second, 0)
        application.asks("hello")
        assert application.hears() == "refused 51"
        names.write_text(f"gateway {OTHER}\n", encoding="utf-8")
        assert server.run("reload", server.store) == (0, "", "")
        assert is_closed(application)
    with Gateway(server.address, EUI) as first:
        assert is_closed(first)
    await_status(server, unlisted=1, links=0)
    assert_stopped(server)


def test_reload_that_lists_nobody(server: Program, names: Path) -> None:
    """Of several links whose names aren't listed any more each is closed."""
    names.write_text(f"{LISTED}gateway {OTHER}\n", encoding="utf-8")
    assert server.address and server.run("reload", server.store) == (0, "", "")
    links: list[Link] = [Gateway(server.address, eui) for eui in (EUI, OTHER)]
    links.append(Application(server.address, OWNER))
    await_status(server, gateways=2, applications=1)
    names.write_text("", encoding="utf-8")
    assert server.run("reload", server.store) == (0, "", "")
    await_rest(server)
    assert [is_closed(link, 0) for link in links] == [True] * 3
    for link in links:
        link.close()
    assert_stopped(server)


@pytest.mark.parametrize("line", WRONG, ids=ascii)
def test_wrong_line(server: Program, names: Path, line: str) -> None:
    """A list with a wrong line is refused by `run`, which doesn't open the store, and by `reload`,
    after which the old list holds."""
    names.write_text(f"{LISTED}{line}\n", encoding="utf-8")
    assert server.run("reload", server.store) == failure("names line 3")
    assert server.address
    with Gateway(server.address, EUI):
        await_status(server, gateways=1)
    await_status(server, links=0)
    assert_stopped(server)
    due = (1, "", f"lnsd: names line 3\nlnsd: {NO_NAME}\n")
    assert run(server, names) == due


def run(server: Program, names: Path | str, links: int = PLACES, store: str = "") -> tuple:
    """How `lnsd run` ends with this list."""
    words = ["run", store or server.store, "--listen", f"{HOST}:{free_port()}"]
    return server.run(*words, "--links", str(links), "--names", str(names))


def test_lists_that_are_refused(new_server: NewServer, names: Path) -> None:
    """A list that can't be read, or has too many names, is refused before the store is opened."""
    server, gone = new_server(), "no store"
    due = (1, "", "lnsd: names file\nlnsd: not found\n")
    assert run(server, f"{names}.gone", store=gone) == due
    many = "".join(f"gateway {number:016X}\n" for number in range(65))
    names.write_text(many, encoding="utf-8")
    due = (1, "", "lnsd: names gateways\nlnsd: more than 64 gateways\n")
    assert run(server, names, store=gone) == due
    names.write_text("".join(many.splitlines(True)[:3]), encoding="utf-8")
    cause = "more names than places; --links is at least one more"
    due = (1, "", f"lnsd: names places\nlnsd: {cause}\n")
    assert run(server, names, 3, store=gone) == due
    assert server.list() == ["devices 0 seq 0"]


def test_files_without_a_list(server: Program, names: Path) -> None:
    """A pipe that nobody writes to, a folder, and a device without an end: neither `run` nor
    `reload` waits, and the old list holds."""
    pipe = names.with_name("pipe")
    os.mkfifo(pipe)
    other = "another error of the system"
    causes = {pipe: other, names.parent: "it is a folder", Path("/dev/zero"): other}
    for file, cause in causes.items():
        due = (1, "", f"lnsd: names file\nlnsd: {cause}\n")
        assert run(server, file, store="no store") == due
    names.unlink()
    pipe.rename(names)
    assert server.run("reload", server.store) == failure("names file")
    assert server.address
    with Gateway(server.address, EUI):
        await_status(server, gateways=1)
    assert_stopped(server)


def test_reloads_beside_each_other(server: Program, names: Path) -> None:
    """Of lists that several operators have read again at a time, the newest holds."""
    lists = [f"gateway {EUI}\n", f"gateway {OTHER}\n"]
    assert server.address
    for turn in range(RELOADS):
        with ThreadPoolExecutor(OPERATORS) as pool:
            reloads = []
            for listed in (lists[turn % 2], lists[1 - turn % 2]):
                new = names.with_name("new names")
                new.write_text(listed, encoding="utf-8")
                new.rename(names)
                reload = ("reload", server.store)
                reloads += [pool.submit(server.run, *reload) for _ in range(OPERATORS // 2)]
            assert {reload.result() for reload in reloads} == {(0, "", "")}
        with Gateway(server.address, OTHER if turn % 2 == 0 else EUI) as newest:
            await_status(server, gateways=1)
            assert not is_closed(newest, 0)
        await_status(server, links=0)
    assert_stopped(server)


def test_server_without_a_list(new_server: NewServer) -> None:
    """A server that was started without a list has nothing to read again."""
    server = new_server()
    assert server.run("reload", server.store) == failure("not running")
    server.run_on()
    due = (1, "", "lnsd: no names\nlnsd: the server runs without --names\n")
    assert server.run("reload", server.store) == due
    assert_stopped(server)
