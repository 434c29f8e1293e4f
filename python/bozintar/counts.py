"""Numbers for Prometheus, in its text format, which node_exporter reads from a file. The library is
Debian's python3-prometheus-client."""

import asyncio
import os
import tempfile
from collections.abc import Callable, Iterable
from typing import Any

from .debian import library
from .logs import warn
from .words import stop

prometheus = library("prometheus_client")
EVERY = 10.0
COUNTS_HELP = "writes counts there every ten seconds, for node_exporter; name it *.prom"


def need_it() -> None:
    """Ends with a line if there is no library."""
    if not prometheus:
        stop("there is no Python library prometheus_client: apt install python3-prometheus-client")


class Metric:
    """A metric, a gauge or a counter, with its samples: numbers by the values of their labels. Of a
    counter the library writes the name with "_total" after it."""

    def __init__(self, name: str, kind: str, text: str):
        need_it()
        self.family = prometheus.Metric(name, text, kind)
        self.written = f"{name}_total" if kind == "counter" else name

    def add(self, number: float, **labels: str) -> None:
        """One more sample."""
        self.family.add_sample(self.written, labels, number)


class Collected:
    """What the library writes."""

    def __init__(self, metrics: Iterable[Metric]):
        self.metrics = list(metrics)

    def collect(self) -> list[Any]:
        """The metrics, as the library wants them."""
        return [metric.family for metric in self.metrics]


def text_of(metrics: Iterable[Metric]) -> str:
    """The text of metrics."""
    need_it()
    registry = prometheus.CollectorRegistry()
    registry.register(Collected(metrics))
    return prometheus.generate_latest(registry).decode()


class Counts:
    """Counts by their names, each with a sentence on what it counts. Labels distinguish what two
    programs count under one prefix: node_exporter takes no number twice."""

    def __init__(self, prefix: str, helps: dict[str, str], file: str | None = None, **labels: str):
        self.prefix, self.helps, self.file, self.labels = prefix, helps, file, labels
        self.values = dict.fromkeys(helps, 0)
        # what else is written, as it is at that moment
        self.more: Callable[[], list[Metric]] = list
        if file:
            need_it()

    def add(self, name: str, more: int = 1) -> None:
        """Counts something."""
        self.values[name] += more

    def text(self) -> str:
        """All of them, in Prometheus' text format."""
        metrics = []
        for name, value in self.values.items():
            metrics.append(Metric(f"{self.prefix}_{name}", "counter", self.helps[name]))
            metrics[-1].add(value, **self.labels)
        return text_of([*metrics, *self.more()])

    def gauge(self, name: str, text: str, number: float) -> Metric:
        """A number of this program that goes up and down."""
        metric = Metric(f"{self.prefix}_{name}", "gauge", text)
        metric.add(number, **self.labels)
        return metric

    def summary(self) -> str:
        """Those that aren't 0, in a line."""
        some = [f"{name} {value}" for name, value in self.values.items() if value]
        return ", ".join(some) or "nothing was counted"

    def write(self) -> None:
        """Writes them, if they have a file."""
        if self.file:
            replace(self.file, self.text())

    async def keep(self) -> None:
        """Writes them every few seconds, for as long as the program runs."""
        is_well = True
        while self.file:
            try:
                self.write()
                is_well = True
            except OSError as why:
                if is_well:
                    warn(f"the counts can't be written to {self.file}: {why.strerror}")
                is_well = False
            await asyncio.sleep(EVERY)


def replace(file: str, content: str | bytes, moment: int | None = None) -> None:
    """Puts a text in a file's place at once, so that nobody reads half of it. All may read it, as
    node_exporter does. `moment` is when it was written, in nanoseconds; now, by itself."""
    folder, name = os.path.split(os.path.abspath(file))
    # a new file whose name nobody knows: a link that others have put there isn't followed
    number, part = tempfile.mkstemp(".part", f"{name}.", folder)
    try:
        with os.fdopen(number, "wb") as out:
            out.write(content.encode() if isinstance(content, str) else content)
            os.fchmod(number, 0o644)
        if moment is not None:
            os.utime(part, ns=(moment, moment))
        os.replace(part, file)
    except OSError:
        os.unlink(part)
        raise
