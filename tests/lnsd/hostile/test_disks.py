"""A disk whose calls fail, or whose syncs are slow. The C library's calls are replaced in the
server's process, so a C compiler is needed."""

from collections.abc import Sequence
from concurrent.futures import ThreadPoolExecutor

import pytest
from bozintar import load, wire
from bozintar.links import Application
from bozintar.links import Ended as LinkEnded
from bozintar.processes import HOST, free_port
from bozintar.server import Program
from lnsd.calls import kinds_of

from ..clocks import Clock, await_rest, held_syncs
from ..conftest import Environment, NewServer
from ..pairs import OWNER, Pair, finish, formatted, linked, records
from .floods import DEVICES, Flood, decided
from .operating import failure

# more than the calls of a run of `Pair.play` and two more uplinks
CALLS, WAITING, ASKED = 80, 4096, 5000
FAILED = failure("refused 40")
# failing runs that are tried at once: most of the time each of them waits for its windows
AT_ONCE = 4


def calls_of_opening(server: Program, with_disk: Environment) -> int:
    """How many calls an opening makes of a disk: it is killed in no later one. If one of them fails,
    nothing is served."""
    opening = "list", server.store
    killed = lambda number: server.run(*opening, env=with_disk(KILLING_CALL=number))[0] < 0
    count = next(number for number in range(CALLS) if not killed(number + 1))
    assert server.run(*opening) == (0, "devices 0 seq 0\n", "")
    for number in range(1, count + 1):
        how = with_disk(FAILING_CALL=number)
        assert server.run(*opening, env=how) == FAILED, f"a list whose call {number} fails"
        words = ("serve", server.store, "--listen", f"{HOST}:{free_port()}", "--links", "1")
        assert server.run(*words, env=how) == FAILED, f"a server whose call {number} fails"
    return count


def has_failed(server: Program, number: int, with_disk: Environment) -> bool:
    """A run whose call of this number fails, if it makes as many; whether it did. What had left is
    in the store then."""
    pair = Pair(server.serve(2, env=with_disk(FAILING_CALL=number)))
    pair.greet()
    try:
        pair.play()
        pair.sends()
        pair.sends()
    except LinkEnded:
        assert server.ended() == FAILED
    has_ended = server.server is None
    if not has_ended:
        finish(server, pair.links())
    assert decided(server) >= pair.came, "decisions of which something had left"
    return has_ended


def test_failing_call(server: Program, program: str, with_disk: Environment) -> None:
    """Each call of a short run fails, reads and writes too: `lnsd: refused 40`, the links are
    closed, and what had left is there."""
    opening = calls_of_opening(server, with_disk)
    assert opening > 0

    def fails(number: int) -> bool:
        """A run on a store of its own whose call of this number fails; whether one did."""
        with formatted(program) as other:
            try:
                return has_failed(other, number, with_disk)
            except Exception as why:
                raise AssertionError(f"call {number} fails") from why

    failed = [True]
    with ThreadPoolExecutor(AT_ONCE) as pool:
        while all(failed):
            first = opening + len(failed)
            assert first < CALLS, f"a run makes more than {CALLS} calls"
            failed += pool.map(fails, range(first, first + AT_ONCE))
    assert failed.count(True) > 1, "no call of the run failed"


def logged(server: Program, with_disk: Environment, *words: str) -> str:
    """The kinds of the calls of a command, which ends well."""
    log = f"{server.folder}/calls"
    status, _, errors = server.run(*words, env=with_disk(CALL_LOG=log))
    assert (status, errors) == (0, "")
    return kinds_of(log)


def test_new_store_is_synced(server: Program, with_disk: Environment) -> None:
    """A new store's file is synced, and then its folder, before anything is committed: else a power
    cut might leave no file of a store that is there."""
    new = f"{server.folder}/new"
    words = ("--netid", "00002A", "--slots", "8")
    assert logged(server, with_disk, "format", new, *words)[:3] == "wfd"


def test_restored_store_is_synced(server: Program, with_disk: Environment) -> None:
    """The file that `lnsd restore` makes is synced, and then its folder."""
    assert "wfd" in logged(server, with_disk, "restore", server.store, f"{server.folder}/new")


@pytest.mark.usefixtures("proved")
def test_failing_disk_and_application_that_does_not_read(
    new_server: NewServer, with_disk: Environment, clock: Clock
) -> None:
    """A sync fails while an application doesn't read: the end comes, though no time passes."""
    server = new_server(4096, records(DEVICES, OWNER))
    flood = Flood(server, clock, with_disk(FAILING_CALL=600, CLOCK=clock.file))
    with pytest.raises(LinkEnded):
        flood.sent()
    assert server.ended() == FAILED
    flood.close()


def test_slow_syncs(new_server: NewServer, with_disk: Environment) -> None:
    """While a sync lasts, what waits goes into one batch, and nothing else waits for the disk."""
    server = new_server(32, records(20, OWNER))
    log = f"{server.folder}/log"
    how = with_disk(HELD_SYNCS=server.folder, CALL_LOG=log)
    application, gateway = linked(server, env=how)
    before = len(kinds_of(log))
    with held_syncs(server):
        for number in range(20):
            application.asks(f"queue {load.dev_eui(number)} {number} 7 u -")
            await_rest(server, [application])
        assert kinds_of(log)[before:] == "w", "one batch is written"
        for _ in range(3):
            application.asks("hello")
        refused = [application.hears() for _ in range(3)]
        assert refused == ["refused 51"] * 3, "a refusal waited for the disk"
    came = [application.hears() for _ in range(20)]
    assert came == [f"queued {load.dev_eui(number)} {number}" for number in range(20)]
    assert kinds_of(log)[before:] == "wswsws", "20 requests are two batches"
    finish(server, [application, gateway])


def count(lines: Sequence[str], start: str) -> int:
    """How many lines start so."""
    return sum(line.startswith(start) for line in lines)


def test_4096_decisions_that_wait(new_server: NewServer, with_disk: Environment) -> None:
    """While the first request is committed, of 5,000 more 4,096 wait, and 23 is the answer to each
    of the others. What was decided is sent, or counted as dropped: of what leaves at once after
    that commit, 1,024 lines wait for an application."""
    server = new_server(4096, records(4096, OWNER))
    application = Application(server.serve(1, env=with_disk(HELD_SYNCS=server.folder)), OWNER)
    await_rest(server, [application])
    with held_syncs(server):
        lines = [f"mac {load.dev_eui(number % 4096)} 06" for number in range(1 + ASKED)]
        for asked in lines[:1], lines[1:]:
            application.say(b"".join(map(wire.request, asked)))
            await_rest(server, [application])
    await_rest(server)
    application.end()
    came = [wire.line_of(content) for content in application.rest()]
    application.close()
    end, made = server.ended(), decided(server) - 4096
    sent = count(came, "macqueued ")
    assert made == 1 + WAITING
    assert came.count("refused 23") == ASKED - WAITING
    assert len(came) == sent + ASKED - WAITING, "all that came"
    assert end == (0, "", f"dropped {made - sent}\nfaulted 0\n")
