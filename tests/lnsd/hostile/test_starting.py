"""How `lnsd run` begins: threads that can't be started, how many descriptors it needs, and the
names of a store that is served. A C compiler makes what refuses threads."""

import os
import resource
from collections.abc import Callable
from pathlib import Path
from typing import Any

import preloads
import pytest
from bozintar.links import Application, Gateway
from bozintar.processes import HOST, free_port
from bozintar.server import Program
from lnsd.anew import await_status, used

from ..pairs import OWNER, SUCCESS
from .conftest import NewWatcher
from .operating import NOTHING_MORE, PLACES, assert_stopped, failure, operator

# descriptors beside two for each place, attendants of the control socket, and places where all of
# these are tried at once
BESIDE, ATTENDANTS, FEW = 32, 8, 6
# places of a server, and its threads besides one for each place: the flusher, the closer and the
# attendants
TWO, THREADS = 2, 2 + ATTENDANTS
# the stack of each thread, in bytes, by docs/OPERATING.md
STACK = 256 * 1024
DEVICES = ["devices 0 seq 0"]

# The start of a thread of the number REFUSED_THREAD is refused, or none if that is 0. The size of
# the stack that is asked for each thread is added to the file STACK_LOG.
REFUSED = r"""
#define _GNU_SOURCE
#include <dlfcn.h>
#include <errno.h>
#include <pthread.h>
#include <stdio.h>
#include <stdlib.h>

typedef int starts(pthread_t *, const pthread_attr_t *, void *(*)(void *), void *);

static void note(const pthread_attr_t *how) {
    size_t size = 0;
    const char *name = getenv("STACK_LOG");
    FILE *log = name ? fopen(name, "a") : NULL;
    if (!log) return;
    if (how) pthread_attr_getstacksize(how, &size);
    fprintf(log, "%zu\n", size);
    fclose(log);
}

int pthread_create(pthread_t *id, const pthread_attr_t *how, void *(*run)(void *), void *given) {
    static long threads;
    const char *it = getenv("REFUSED_THREAD");
    if (__sync_add_and_fetch(&threads, 1) == (it ? atol(it) : 0)) return EAGAIN;
    note(how);
    return ((starts *)dlsym(RTLD_NEXT, "pthread_create"))(id, how, run, given);
}
"""


def run(program: Program, places: int) -> tuple[str, ...]:
    """The words of a server with this many places."""
    listen = f"{HOST}:{free_port()}"
    return "run", program.store, "--listen", listen, "--links", str(places)


@pytest.fixture(scope="session")
def library(replaced: Callable[[str], str]) -> str:
    """What refuses threads."""
    return replaced(REFUSED)


@pytest.mark.parametrize("number", range(1, TWO + THREADS))
def test_thread_that_cannot_start(server: Program, library: str, number: int) -> None:
    """A server that can't start one of its threads prints nothing, and ends with 30."""
    how = preloads.environment(library, REFUSED_THREAD=number)
    assert server.run(*run(server, TWO), env=how) == failure("refused 30")
    assert not os.path.lexists(f"{server.store}.control"), "a socket is left"


def test_stacks(server: Program, library: str) -> None:
    """A server prints where it listens once all its threads run. Each has a stack of 256 KiB."""
    last, log = TWO + THREADS, f"{server.folder}/stacks"
    how = preloads.environment(library, REFUSED_THREAD=last, STACK_LOG=log)
    server.run_on(TWO, env=how)
    assert used(server)[2] == last, "the threads that run"
    assert_stopped(server)
    assert Path(log).read_text(encoding="utf-8") == f"{STACK}\n" * (last - 1)


def limited(count: int) -> dict[str, Any]:
    """How to run the program so that it may have this many descriptors."""
    return {"preexec_fn": lambda: resource.setrlimit(resource.RLIMIT_NOFILE, (count, count))}


@pytest.mark.parametrize("places", [1, FEW, PLACES])
def test_too_few_descriptors(server: Program, places: int) -> None:
    """A server that may have too few descriptors prints how many it needs, and doesn't begin."""
    needed = 2 * places + BESIDE
    for count in (8, BESIDE, needed - 1):
        came = server.run(*run(server, places), **limited(count))
        assert came == failure(f"descriptors {needed}"), f"{count} descriptors"


def test_as_many_descriptors_as_it_needs(server: Program) -> None:
    """With as many descriptors as it needs a server serves all its links, and as many operators as
    it attends to, and can be stopped."""
    address = server.run_on(FEW, **limited(2 * FEW + BESIDE))
    gateways = [Gateway(address, f"{number:016X}") for number in range(FEW - 1)]
    application = Application(address, OWNER)
    await_status(server, links=FEW, gateways=FEW - 1)
    silent = [operator(server) for _ in range(ATTENDANTS - 1)]
    application.asks("hello")
    assert application.hears() == "refused 51"
    assert server.devices()[0] == DEVICES
    for link in (*gateways, application):
        link.close()
    assert_stopped(server)
    for connection in silent:
        connection.close()


# links in the folder FOLDER to a store there, which is `store`, to the folder, and to nothing
LINKS = {
    "link": "FOLDER/store",
    "apart/second": "../link",
    "second": "apart/second",
    "other": "FOLDER",
    "nowhere": "missing",
}
NAMES = ("store", "link", "second", "other/store", "apart/second")


@pytest.fixture
def named(server: Program) -> Program:
    """A server whose store has these names."""
    os.mkdir(os.path.join(server.folder, "apart"))
    for name, target in LINKS.items():
        os.symlink(target.replace("FOLDER", server.folder), os.path.join(server.folder, name))
    return server


@pytest.mark.parametrize("name", NAMES)
def test_names(named: Program, watch: NewWatcher, name: str) -> None:
    """Each name of a store that is served leads to its server, and the socket stands beside the
    file, whichever name the server was given."""
    folder = named.folder
    named.store = os.path.join(folder, name)
    named.run_on(PLACES)
    there = [file for file in os.listdir(folder) if file.endswith(".control")]
    assert there == ["store.control"]
    for other in ("store", "./link", "second", "other/store"):
        assert named.devices(other, cwd=folder)[0] == DEVICES, other
        assert named.run("status", other, cwd=folder)[0] == 0, other
    named.store = os.path.join(folder, "second")
    watcher = watch(named)
    assert named.run("stop", "link", cwd=folder) == SUCCESS
    assert watcher.rest() == NOTHING_MORE
    assert named.ended()[0] == 0
    for other in NAMES:
        assert named.run("status", other, cwd=folder) == failure("not running"), other


@pytest.mark.parametrize("name", [*NAMES, "nowhere", "missing", "no/such"])
def test_names_that_are_not_served(named: Program, name: str) -> None:
    """A name of a store that isn't served, or of no store, leads to no server."""
    came = named.run("status", os.path.join(named.folder, name))
    assert came == failure("not running")
