"""Measures how many requests a second lnsd makes durable, beside how many rows PostgreSQL does:
with 1, 4, 16 and 64 requests that wait for their answers, and 900 on one link.

Each client is a process of its own, in Python, which asks over TCP on the loopback. One loop for
both servers sends bytes that were made before, and takes answers of one length. lnsd (`run`) is
asked to queue an item of 12 bytes, PostgreSQL by a prepared INSERT of a row of ten columns, each a
transaction of its own with a sync, also if many are on their way on one connection. Both answer
what is durable. Each client waits for each answer, with one exception: lnsd has no more than 16
applications, so 64 requests are then four each of 16 clients, and PostgreSQL is asked so and by 64
clients. Rounds of a second alternate between both.

PostgreSQL keeps its default settings. SQLite has one client, in the process that asks, in WAL mode
with synchronous=FULL. A line prints each figure, with the processor time of a request in the server
(all its processes). The last line is 'N passed, M failed': what was measured, and what wasn't.

It installs nothing. PostgreSQL is Debian's package postgresql; SQLite is that of Python.

Status: 0; 1 if one of them isn't here or failed; 2 for a wrong word, or if there is no program."""
import time
from array import array

from speeds import clients, peers, runs
from speeds.measure import seconds_of, spread
from speeds.runs import DEVICES

# clients, and how many requests of each wait for their answers
ASKED = ((1, 1), (4, 1), (16, 1), (16, 4), (64, 1), (1, 900))
MOST_APPLICATIONS, ROUND = 16, 1


class Rounds:
    """What the rounds of one server came to."""

    def __init__(self):
        self.waits, self.nanoseconds, self.processor = array("q"), 0, 0.0

    def add(self, waits, nanoseconds, processor):
        self.waits.extend(waits)
        self.nanoseconds += nanoseconds
        self.processor += processor

    def figures(self):
        rate = round(1e9 * len(self.waits) / self.nanoseconds)
        each = round(1e6 * self.processor / len(self.waits), 1)
        return {"commits_a_second": rate, "processor_us": each, **spread(self.waits)}


def of_lnsd(run, count, window, rounds):
    """A round of lnsd, on a store of its own."""
    with run.store(runs.bare(count)) as program:
        address, pid = program.run_on(count), program.server.pid
        begun = seconds_of(pid)
        how = (clients.OfLnsd, address, count, window, ROUND, DEVICES)
        came = clients.side_by_side(*how)
        rounds.add(*came, seconds_of(pid) - begun)
        program.stop()


def of_postgres(server, count, window, rounds):
    """A round of PostgreSQL."""
    begun = server.seconds()
    how = (clients.OfPostgres, server.address, count, window, ROUND, DEVICES)
    came = clients.side_by_side(*how)
    # the processes of its clients end
    time.sleep(0.5)
    rounds.add(*came, server.seconds() - begun)


def tell(run, name, count, window, rounds):
    """What the rounds of a server came to."""
    if not rounds.waits:
        return None
    found = {"clients": count, "window": window, **rounds.figures()}
    told = f"{found['commits_a_second']} a second, {found['median_ms']} ms (99th {found['p99_ms']})"
    asked = f"{count} client{'s' * (count > 1)}, {window} each" if window > 1 else f"{count}"
    run.tell(f"{name}, {asked}", f"{told}, {found['processor_us']} us")
    run.met += 1
    return found


def measured(run):
    """All of it."""
    try:
        with peers.Postgres(run.given.folder) as server:
            run.figures["postgresql"] = server.told()
            beside(run, server)
            rows = int(server.query("SELECT count(*) FROM uplinks"))
            run.tell("rows of PostgreSQL at the end", rows)
    except peers.Missing as why:
        run.miss(why)
        beside(run, None)
    found = run.figures["sqlite"] = peers.sqlite(run.given.folder, run.given.seconds)
    told = f"{found['commits_a_second']} a second, {found['median_ms']} ms (99th {found['p99_ms']})"
    run.tell(f"SQLite {found['version']}, 1", told)


def beside(run, server):
    """Both servers by turns, or lnsd alone."""
    found: dict[str, list] = {"lnsd": [], "postgresql": []}
    run.figures["requests"] = found
    for count, window in ASKED:
        own, other = Rounds(), Rounds()
        for _ in range(run.given.seconds):
            if count <= MOST_APPLICATIONS:
                of_lnsd(run, count, window, own)
            if server:
                of_postgres(server, count, window, other)
        for name, rounds in (("lnsd", own), ("postgresql", other)):
            figures = tell(run, name, count, window, rounds)
            found[name] += [figures] if figures else []


def main():
    words = runs.words_of(__doc__, seconds=(1, 600, 4))
    return runs.done("databases", words.parse_args(), measured)
