"""What was found: a row for each thing that was tried, and whether it is as it should be."""

import os
import platform
import time
from dataclasses import dataclass, field
from typing import Any

from bozintar.processes import read


@dataclass
class Row:
    """A thing that was tried, what was found, and what is due; `is_right` is None if nothing is."""

    part: str
    what: str
    found: str
    due: str = ""
    is_right: bool | None = None


@dataclass
class Table:
    """All rows, and the numbers of some parts as they are."""

    rows: list[Row] = field(default_factory=list)
    numbers: dict[str, Any] = field(default_factory=dict)
    part: str = ""

    def add(self, what: str, found: Any, due: str = "", is_right: bool | None = None) -> None:
        """A row of the part that is under way, which is printed at once."""
        row = Row(self.part, what, str(found), due, is_right)
        self.rows.append(row)
        mark = {None: "", True: "  right", False: "  WRONG"}[is_right]
        print(f"  {what}: {found}{f' (due: {due})' if due else ''}{mark}", flush=True)

    def equal(self, what: str, found: Any, due: Any) -> None:
        """A row whose value is given."""
        self.add(what, found, str(due), found == due)

    def below(self, what: str, found: float, most: float, unit: str = "s") -> None:
        """A row with a number that has to be below another one."""
        self.add(what, f"{found:.2f} {unit}", f"below {most:g} {unit}", found < most)

    def text(self) -> str:
        """The table, in Markdown."""
        lines = ["| Part | What | Found | Due |", "|---|---|---|---|"]
        for row in self.rows:
            mark = " **wrong**" if row.is_right is False else ""
            lines.append(f"| {row.part} | {row.what} | {row.found} | {row.due}{mark} |")
        return "\n".join(lines)

    @property
    def wrong(self) -> int:
        """How many rows are wrong."""
        return sum(row.is_right is False for row in self.rows)


def machine() -> str:
    """This machine, and how much else it does."""
    names = [line for line in read("/proc/cpuinfo").splitlines() if line.startswith("model name")]
    memory = next(line for line in read("/proc/meminfo").splitlines() if "MemTotal" in line)
    name = names[0].partition(":")[2].strip() if names else platform.machine()
    gib = int(memory.split()[1]) / 2**20
    when = time.strftime("%Y-%m-%d %H:%M UTC", time.gmtime())
    return (
        f"{name}, {os.cpu_count()} processors, {gib:.1f} GiB; Linux {platform.release()}; {when}; "
        f"load average {os.getloadavg()[0]:.1f}"
    )
