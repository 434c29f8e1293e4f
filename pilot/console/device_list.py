"""The devices that a page lists: filters, search, sorting and pages."""

from collections.abc import Callable, Mapping
from dataclasses import dataclass, replace
from urllib.parse import urlencode

from .devices import Device
from .network import Network

FILTERS = {
    "all": "All",
    "joined": "Joined",
    "not": "Not joined",
    "silent": "Silent",
    "missing": "Missing readings",
    "weak": "Weak signal",
    "battery": "Low battery",
    "alone": "Left alone by ADR",
    "hidden": "Hidden from alarms",
}
PER_PAGE, LONGEST_SEARCH = 50, 100
Key = Callable[[Device], tuple]


@dataclass(frozen=True)
class Query:
    """What a page asks for."""

    show: str = "all"
    text: str = ""
    sort: str = "seen"
    application: str = ""
    page: int = 1

    @classmethod
    def read(cls, query: Mapping[str, str]) -> "Query":
        """What the address says. A value that isn't known is the first one."""
        show, sort, page = (query.get(name, "") for name in ("show", "sort", "page"))
        return cls(
            show if show in FILTERS else "all",
            query.get("q", "").strip()[:LONGEST_SEARCH],
            sort if sort in SORTS else "seen",
            query.get("application", "")[:2],
            int(page) if page.isascii() and page.isdigit() and len(page) < 7 else 1,
        )

    def link(self, **other: str | int) -> str:
        """The address of the same page with something else."""
        values: dict[str, str | int] = {"show": self.show, "q": self.text, "sort": self.sort}
        values["application"] = self.application
        return f"/devices?{urlencode({**values, **other})}"


def at_end(value: float | None) -> tuple:
    """A key that puts what is missing last."""
    return (value is None, value or 0)


SORTS: dict[str, Callable[[Network], Key]] = {
    "seen": lambda network: lambda device: (-device.last,),
    "name": lambda network: lambda device: (
        device.eui not in network.names,
        network.name(device.eui).lower(),
    ),
    "margin": lambda network: lambda device: at_end(device.margin),
    "rate": lambda network: lambda device: at_end(device.uplink.rate if device.uplink else None),
    "missing": lambda network: lambda device: (-device.missing,),
    "battery": lambda network: lambda device: at_end(
        device.report.battery if device.report else None
    ),
}


@dataclass(frozen=True)
class Listed:
    """A page of devices, and how many there are."""

    query: Query
    devices: list[Device]
    found: int
    pages: int
    counts: dict[str, int]
    applications: list[str]


def filters_of(device: Device, now: float) -> list[str]:
    """The filters that a device passes."""
    passed = {
        "joined": device.is_joined,
        "not": not device.is_joined,
        "silent": device.is_silent(now),
        "missing": device.missing > 0,
        "weak": device.is_weak,
        "battery": device.has_low_battery,
        "alone": device.is_left_alone,
        "hidden": bool(device.hidden),
    }
    return ["all", *(name for name, is_so in passed.items() if is_so)]


def listed(network: Network, query: Query, now: float) -> Listed:
    """The devices of a page. The counts of the filters are of those that the search finds."""
    words = query.text.lower().split()
    sorts: dict[str, list[Device]] = {name: [] for name in FILTERS}
    for device in network.devices.values():
        text = f"{device.eui} {network.names.get(device.eui, '')} {device.store}".lower()
        is_of = query.application in ("", device.application)
        if is_of and all(word in text for word in words):
            for name in filters_of(device, now):
                sorts[name].append(device)
    found = sorted(sorts[query.show], key=SORTS[query.sort](network))
    pages = max(1, -(-len(found) // PER_PAGE))
    page = min(max(query.page, 1), pages)
    query = replace(query, page=page)
    numbers = {device.application for device in network.devices.values()} - {""}
    counts = {name: len(devices) for name, devices in sorts.items()}
    shown = found[(page - 1) * PER_PAGE : page * PER_PAGE]
    return Listed(query, shown, len(found), pages, counts, sorted(numbers, key=int))
