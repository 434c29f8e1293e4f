"""The ports that trials listen on, and the processors that they run on. Each worker of pytest-xdist
has its own."""

import os

# none of them is one that the system gives to connections
ALL = "20000-31999"


def own_part() -> tuple[int, int]:
    """The number of this worker, and how many there are."""
    worker = os.environ.get("PYTEST_XDIST_WORKER", "gw0")
    count = int(os.environ.get("PYTEST_XDIST_WORKER_COUNT", "1"))
    return int(worker.removeprefix("gw")), count


def take_processors() -> None:
    """Leaves this worker, and what it starts, the processors that no other worker has."""
    number, count = own_part()
    own = sorted(os.sched_getaffinity(0))[number::count]
    if "PYTEST_XDIST_WORKER" in os.environ and own:
        os.sched_setaffinity(0, own)


def take_ports() -> None:
    """Leaves the ports of this worker alone in LNSD_PORTS, which bozintar.processes reads."""
    if "PYTEST_XDIST_WORKER" not in os.environ:
        return
    number, count = own_part()
    first, _, last = (os.environ.get("LNSD_PORTS") or ALL).partition("-")
    each = (int(last) + 1 - int(first)) // count
    begin = int(first) + number * each
    os.environ["LNSD_PORTS"] = f"{begin}-{begin + each - 1}"
