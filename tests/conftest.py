"""What all trials share: options, the program lnsd, ports and processors, trials that the machine
spoils, and the last line, 'N passed, M failed'."""

import errno
import os
import signal
import subprocess
import sys
import tempfile
from collections.abc import Iterator
from pathlib import Path
from types import FrameType
from typing import Any, NoReturn

import pytest
from _pytest.runner import runtestprotocol

from .ports import take_ports, take_processors
from .running import ROOT

take_ports()  # before bozintar.processes looks which ones there are

from bozintar.links import Silent
from bozintar.processes import Late, forget_started, has_crashed
from bozintar.server import BUILT
from bozintar.words import is_program

from .pauses import Pauses
from .unsteady import put_off

# programs that trials start write no bytecode into the tree
sys.dont_write_bytecode = True
os.environ["PYTHONDONTWRITEBYTECODE"] = "1"
# how often a trial is done that took too long while the machine paused
TIMES = 4
# Failures that say only that something took too long. All others are of the program, and a trial
# with one of them is never done again.
OF_TIME = (Late, Silent, TimeoutError, subprocess.TimeoutExpired)
SEED = 7
SIMULATOR = str(ROOT / "crates/lns_sim/out/lns_sim")
pytest_plugins = ("tests.lnsd.options",)
# asserts of modules beside the trials show their values, too
pytest.register_assert_rewrite("tests.lnsd", "tests.pilot")
# the trials below these look at what one fixture has played, which takes long
PLAYED = ("tests/lnsd/kills/", "tests/lnsd/cuts/", "tests/lnsd/restore/test_lost.py")


def pytest_addoption(parser: pytest.Parser) -> None:
    """The options of trials."""
    group = parser.getgroup("trials of Bozintar")
    text = "the program lnsd, for example out/unproved/lnsd, which bin/unproved lnsd makes"
    group.addoption("--program", metavar="FILE", default=BUILT, help=f"{text} ({BUILT})")
    text = "the program lns-sim, for example out/unproved/lns-sim"
    group.addoption("--simulator", metavar="FILE", default=SIMULATOR, help=f"{text} ({SIMULATOR})")
    text = "how often each trial is done, random ones with the next seed each time (1)"
    group.addoption("--rounds", type=int, metavar="N", default=1, help=text)
    group.addoption("--seed", type=int, metavar="N", default=SEED, help=f"the first seed ({SEED})")
    text = "leaves trials that took too long to tests/unsteady.py, in this file"
    group.addoption("--put-off", metavar="FILE", help=text)
    text = "with -n, each worker has processors of its own: trials about time run side by side"
    group.addoption("--own-processors", action="store_true", help=text)


def pytest_configure(config: pytest.Config) -> None:
    """SIGTERM and SIGHUP end a run as Ctrl-C does: fixtures end what they started."""
    for number in (signal.SIGTERM, signal.SIGHUP):
        signal.signal(number, end)
    # A shell lets jobs in the background ignore SIGINT. What they start would ignore it, too.
    signal.signal(signal.SIGINT, signal.default_int_handler)
    if config.getoption("own_processors"):
        take_processors()


def end(number: int, _frame: FrameType | None) -> NoReturn:
    """Ends the run."""
    pytest.exit(f"ended by signal {number}", 128 + number)


def pytest_generate_tests(metafunc: pytest.Metafunc) -> None:
    """With --rounds each trial is done N times, each time with the next seed."""
    rounds, first = metafunc.config.getoption("rounds"), metafunc.config.getoption("seed")
    if "seed" in metafunc.fixturenames:
        seeds = range(first, first + rounds)
        ids = [f"seed{seed}" for seed in seeds]
        metafunc.parametrize("seed", seeds, ids=ids, scope="session")
    elif rounds > 1:
        metafunc.fixturenames.append("of_round")
        metafunc.parametrize("of_round", range(rounds), ids=[f"round{n}" for n in range(rounds)])


@pytest.hookimpl(optionalhook=True)
def pytest_xdist_make_scheduler(config: pytest.Config, log: Any) -> Any:
    """With -n, each worker does one trial after another; those that look at what one fixture has
    played stay together."""
    from xdist.scheduler import LoadScopeScheduling

    class Scheduling(LoadScopeScheduling):
        """Trials by what they share."""

        def _split_scope(self, nodeid: str) -> str:
            file, _, name = nodeid.partition("::")
            return file + name.partition("[")[2] if nodeid.startswith(PLAYED) else nodeid

    return Scheduling(config, log)


@pytest.fixture(scope="session")
def program(pytestconfig: pytest.Config) -> str:
    """The path of the program lnsd."""
    return program_of(pytestconfig, "program", f"bin/build lnsd makes {BUILT}")


@pytest.fixture
def proved(program: str) -> None:
    """Skips a trial that an unproved program can't pass: bin/unproved makes it hundreds of times
    slower, with memory of its own."""
    if Path(program).parent.name == "unproved":
        pytest.skip("only for the proved program: the unproved one is slower, with other memory")


@pytest.fixture(scope="session")
def simulator(pytestconfig: pytest.Config) -> str:
    """The path of the program lns-sim."""
    return program_of(pytestconfig, "simulator", f"bin/build lns-sim makes {SIMULATOR}")


def program_of(config: pytest.Config, option: str, hint: str) -> str:
    """The path of a program, which has to be there."""
    path = config.getoption(option)
    if not is_program(path):
        pytest.fail(f"there is no program {path}: {hint}", pytrace=False)
    return os.path.abspath(path)


@pytest.fixture
def folder() -> Iterator[Path]:
    """An empty folder, which is removed."""
    with tempfile.TemporaryDirectory(prefix="bozintar-") as made:
        yield Path(made)


@pytest.hookimpl(hookwrapper=True)
def pytest_runtest_makereport(item: pytest.Item, call: pytest.CallInfo[None]) -> Any:
    """Notes of a failure whether it says only that something took too long."""
    outcome = yield
    error = call.excinfo and call.excinfo.value
    is_late = isinstance(error, OF_TIME) or type(error).__name__ == "TimeoutException"  # selenium's
    is_taken = isinstance(error, OSError) and error.errno == errno.EADDRINUSE
    outcome.get_result().is_of_time = (is_late or is_taken) and not has_crashed()


def pytest_runtest_protocol(item: pytest.Item, nextitem: pytest.Item | None) -> bool:
    """Does one trial, again if it took too long while the machine paused: that says nothing of what
    is tried. If it took too long all the same, it may be put off."""
    item.ihook.pytest_runtest_logstart(nodeid=item.nodeid, location=item.location)
    for _ in range(TIMES):
        forget_started()
        with Pauses() as pauses:
            reports = runtestprotocol(item, log=False, nextitem=nextitem)
        failed = [report for report in reports if report.failed]
        is_of_time = bool(failed) and all(getattr(report, "is_of_time") for report in failed)
        if not (is_of_time and pauses.is_spoilt()):
            break
        why = [report.longreprtext.splitlines()[-1:] for report in failed]
        print(f"{item.nodeid}: {why}; the machine paused for {pauses.longest:.2f} s: again")
    if is_of_time and (file := item.config.getoption("put_off")):
        put_off(file, item.nodeid, failed)
    for report in reports:
        add_repetition(item, report)
        item.ihook.pytest_runtest_logreport(report=report)
    item.ihook.pytest_runtest_logfinish(nodeid=item.nodeid, location=item.location)
    return True


def add_repetition(item: pytest.Item, report: pytest.TestReport) -> None:
    """Says how a random trial that failed is done again."""
    params: dict[str, Any] = getattr(getattr(item, "callspec", None), "params", {})
    if report.failed and "seed" in params:
        program = item.config.getoption("program")
        words = f"'{item.nodeid}' --program {program} --seed {params['seed']}"
        report.sections.append(("to repeat it", f"/usr/bin/python3 -m pytest {words}"))


def pytest_terminal_summary(terminalreporter: Any) -> None:
    """Counts: the last line of a run. A trial that can't begin or end has failed."""
    failed = {
        report.nodeid
        for kind in ("failed", "error")
        for report in terminalreporter.stats.get(kind, [])
    }
    passed = {report.nodeid for report in terminalreporter.stats.get("passed", [])} - failed
    terminalreporter.config.counted = f"{len(passed)} passed, {len(failed)} failed"


@pytest.hookimpl(trylast=True)
def pytest_unconfigure(config: pytest.Config) -> None:
    """Prints the last line."""
    if counted := getattr(config, "counted", ""):
        print(counted)
