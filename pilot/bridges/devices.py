"""Lists of devices, by docs/DEVICES.md: values between commas, semicolons or tabs (CSV)."""

import csv
import re
from collections.abc import Iterable, Iterator, Sequence
from dataclasses import dataclass, field

# what a head may call a column, in small letters and digits
CALLED = {
    "deveui": "DevEUI",
    "joineui": "JoinEUI",
    "appeui": "JoinEUI",
    "appkey": "AppKey",
    "application": "Application",
    "offset": "Offset",
    "rx1offset": "Offset",
    "rx1droffset": "Offset",
    "delay": "Delay",
    "rxdelay": "Delay",
    "rx1delay": "Delay",
    "lastdevnonce": "LastDevNonce",
    "lastjoinnonce": "LastJoinNonce",
    "heard": "Heard",
    "session": "Session",
    "name": "Name",
    "devicename": "Name",
}
# the columns, in the order in which faults are looked for
COLUMNS = tuple(dict.fromkeys(CALLED.values()))
# the columns of a list without a head
HEADLESS = ("DevEUI", "JoinEUI", "AppKey", "Offset", "Delay", "Name")
# what a device has to have so that it can be added
NEEDED = ("DevEUI", "JoinEUI", "AppKey")
LENGTHS = {"DevEUI": 16, "JoinEUI": 16, "AppKey": 32}
# the range of each number (TS001-1.0.4 §6.2.5, §6.2.6), and of a server's applications and counts
RANGES = {
    "Application": (0, 15),
    "Offset": (0, 5),
    "Delay": (1, 15),
    "LastDevNonce": (0, 2**16 - 1),
    "LastJoinNonce": (0, 2**24 - 1),
    "Heard": (0, 2**63 - 1),
}
HEX = re.compile(r"[0-9A-Fa-f]*")
EUI = re.compile(r"[0-9a-f]{16}")
COMMENT = re.compile(r'^((?:[^"#]|"[^"]*")*)#.*$')
# the byte order marks of UTF-16, which Excel writes too
UTF_16 = (b"\xff\xfe", b"\xfe\xff")
MOST_NAME = 64
# why a device that was served before isn't provisioned
WAS_SERVED = "a network has served it, and its nonces go on only by `lnsd import`"
# the values of a line, by their columns
Values = dict[str, str]


@dataclass(frozen=True)
class Row:
    """A device, and its line of the list. Its values are in the plain form of docs/DEVICES.md; what
    was left out is missing."""

    place: int
    values: Values

    @property
    def dev_eui(self) -> str:
        """Its DevEUI."""
        return self.values["DevEUI"]

    @property
    def join_eui(self) -> str:
        """Its JoinEUI; empty without one."""
        return self.values.get("JoinEUI", "")

    @property
    def app_key(self) -> str:
        """Its AppKey; empty without one."""
        return self.values.get("AppKey", "")

    @property
    def name(self) -> str:
        """Its name; empty without one."""
        return self.values.get("Name", "")

    @property
    def application(self) -> str:
        """The number of its application; empty if the list doesn't say it."""
        return self.values.get("Application", "")

    @property
    def was_served(self) -> bool:
        """Whether it has nonces of a network, which have to go on."""
        return "LastDevNonce" in self.values or self.values.get("LastJoinNonce", "0") != "0"

    def line(self) -> str:
        """The request that adds it to the network."""
        how = f"{self.values.get('Offset', 0)} {self.values.get('Delay', 1)}"
        return f"provision {self.dev_eui} {self.join_eui} {self.app_key} {how}"


@dataclass(frozen=True)
class Fault:
    """A line that isn't a device. The text isn't kept, since it may have a key."""

    place: int
    why: str


@dataclass
class Devices:
    """What a list has. The file is empty if the list is of no file."""

    file: str = ""
    rows: list[Row] = field(default_factory=list)
    faults: list[Fault] = field(default_factory=list)
    # the columns of the head that have no meaning here
    unused: list[str] = field(default_factory=list)
    # the columns that its lines have
    columns: list[str] = field(default_factory=lambda: list(HEADLESS))
    # the line of each device
    places: dict[str, int] = field(default_factory=dict)

    @property
    def names(self) -> dict[str, str]:
        """The names of devices that have one."""
        return {row.dev_eui: row.name for row in self.rows if row.name}

    def complaints(self) -> list[str]:
        """What is wrong with the list."""
        of = f"{self.file} " if self.file else ""
        said = [f"{of}the column {name!a} isn't used" for name in self.unused]
        return said + [f"{of}line {fault.place}: {fault.why}" for fault in self.faults]

    def add(self, place: int, of: Values, needed: Sequence[str] = NEEDED) -> None:
        """A line's device."""
        try:
            row = device_of(place, of, needed)
            if row.dev_eui in self.places:
                raise ValueError(f"{row.dev_eui} is in line {self.places[row.dev_eui]}, too")
        except ValueError as why:
            self.faults.append(Fault(place, str(why)))
            return
        self.places[row.dev_eui] = place
        self.rows.append(row)

    def leave_out(self, application: int) -> int:
        """Leaves out the devices of other applications; how many these are."""
        before = len(self.rows)
        self.rows = [row for row in self.rows if row.application in ("", str(application))]
        return before - len(self.rows)

    def refuse(self, application: str) -> None:
        """Takes as faults the devices that can't be added to this application: those of others, and
        those that a network has served."""
        for row in list(self.rows):
            if row.application not in ("", application):
                self.fault(row, f"{row.dev_eui} is of application {row.application}")
            elif row.was_served:
                self.fault(row, f"{row.dev_eui}: {WAS_SERVED}")

    def fault(self, row: Row, why: str) -> None:
        """Takes a device as a fault."""
        self.rows.remove(row)
        self.faults.append(Fault(row.place, why))


def hex_of(name: str, text: str, length: int) -> str:
    """Hex digits, in upper case."""
    bare = re.sub(r"[-: ]", "", text).removeprefix("0x")
    if len(bare) != length or not HEX.fullmatch(bare):
        raise ValueError(f"{name} isn't {length} hex digits")
    return bare.upper()


def number_of(name: str, text: str) -> str:
    """A number of its column's range."""
    least, most = RANGES[name]
    if not re.fullmatch(r"[0-9]{1,19}", text) or not least <= int(text) <= most:
        raise ValueError(f"{name} isn't a number from {least} to {most}")
    return str(int(text))


def value_of(name: str, text: str) -> str:
    """A value in the plain form."""
    if name in LENGTHS:
        return hex_of(name, text, LENGTHS[name])
    if name in RANGES:
        return number_of(name, text)
    if name == "Session" and text.lower() not in ("yes", "no"):
        raise ValueError("Session is neither yes nor no")
    if name == "Name" and (len(text) > MOST_NAME or not text.isprintable()):
        raise ValueError(f"Name isn't a text of at most {MOST_NAME} characters")
    return text


def device_of(place: int, of: Values, needed: Sequence[str] = NEEDED) -> Row:
    """The device of a line's values."""
    if missing := [name for name in needed if not of.get(name)]:
        raise ValueError(f"there is no {', '.join(missing)}")
    known = [name for name in COLUMNS if of.get(name)]
    return Row(place, {name: value_of(name, of[name]) for name in known})


def bare_lines(lines: Iterable[str]) -> Iterator[tuple[int, str]]:
    """The lines that have something, with their numbers; # begins a comment."""
    for place, line in enumerate(lines, 1):
        if bare := COMMENT.sub(r"\1", line.rstrip("\r\n")).strip(" "):
            yield place, bare


def values_in(line: str) -> list[str]:
    """The values of a line."""
    separator = max(",;\t", key=line.count)
    try:
        values = next(csv.reader([line], delimiter=separator, skipinitialspace=True))
    except csv.Error as why:
        raise ValueError(f"the line can't be read: {why}") from None
    return [value.strip() for value in values]


def head_of(values: Sequence[str]) -> list[str] | None:
    """The names of columns in the first line, or None if it has a device."""
    bare = [re.sub(r"[^a-z0-9]", "", value.lower()) for value in values]
    if not set(CALLED) & set(bare) or any(map(EUI.fullmatch, bare)):
        return None
    return [CALLED.get(one) or value for one, value in zip(bare, values)]


def by_column(columns: Sequence[str], values: Sequence[str]) -> Values:
    """The values of a line by their columns. One that is there twice may have one value only."""
    if any(values[len(columns) :]):
        raise ValueError(f"there is more than the {len(columns)} columns")
    found: Values = {}
    for name, value in zip(columns, values):
        if value and found.setdefault(name, value) != value and name in COLUMNS:
            raise ValueError(f"there are two values of {name}")
    return found


def in_lines(lines: Iterable[str], needed: Sequence[str] = NEEDED) -> Devices:
    """All devices of these lines. The first one may name the columns, in any order. Each line is
    read by itself, so that a quote that isn't closed spoils no other line."""
    found, is_first = Devices(), True
    for place, line in bare_lines(lines):
        try:
            values = values_in(line)
            head, is_first = head_of(values) if is_first else None, False
            if head:
                # a head may name the first columns alone
                found.columns = list(HEADLESS) if list(HEADLESS[: len(head)]) == head else head
                found.unused = [name for name in head if name and name not in COLUMNS]
                continue
            found.add(place, by_column(found.columns, values), needed)
        except ValueError as why:
            found.faults.append(Fault(place, str(why)))
    return found


def text_of(file: str) -> str:
    """The text of a file in UTF-8 or UTF-16."""
    with open(file, "rb") as raw:
        encoding = "utf-16" if raw.read(2) in UTF_16 else "utf-8-sig"
    with open(file, encoding=encoding, errors="replace") as text:
        return text.read()


def read(file: str, needed: Sequence[str] = NEEDED) -> Devices:
    """All devices of a file."""
    found = in_lines(text_of(file).split("\n"), needed)
    found.file = str(file)
    return found
