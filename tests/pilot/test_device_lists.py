"""Lists of devices: what is read of each, by docs/DEVICES.md, and what the programs that read one
do with it."""

import signal
import sqlite3
from collections.abc import Sequence
from pathlib import Path

import pytest
from bozintar.links import Application
from bozintar.meters import Meter
from bozintar.processes import HOST, await_that
from bridges import devices

from .parts import Pilot, run
from .rows import table

DEVICE, OTHER, JOIN = "0101010101010101", "0101010101010102", "0102030405060708"
# the key of FIPS 197, appendix A.1
KEY = "2B7E151628AED2A6ABF7158809CF4F3C"
PLAIN = f"{DEVICE},{JOIN},{KEY}"
DUE = f"{DEVICE} {JOIN} {KEY} 0 1"
ALL = "DevEUI,JoinEUI,AppKey,Application,Offset,Delay,LastDevNonce,LastJoinNonce,Heard,Session"
TOO_LONG = "the line can't be read: field larger than field limit (131072)"
# a list, and what is read: requests, or what is wrong with a line
LISTS: tuple = (
    (f"{PLAIN}\n", [DUE]),
    (f"{DEVICE};{JOIN};{KEY.lower()};5;15", [f"{DEVICE} {JOIN} {KEY} 5 15"]),
    (
        f'\ufeffDev EUI,Join EUI,App Key\r\n"{DEVICE}" , 01-02-03-04-05-06-07-08,{KEY},2 # roof',
        [f"{DEVICE} {JOIN} {KEY} 2 1"],
    ),
    (f"DevEUI,JoinEUI,AppKey,RX1DROffset,RXDelay\n{PLAIN},0,5\n", [f"{DEVICE} {JOIN} {KEY} 0 5"]),
    (f"{PLAIN}\nDevEUI,JoinEUI,AppKey\n", [DUE, "line 2: DevEUI isn't 16 hex digits"]),
    ("# nothing\n\n", []),
    (
        f'name;AppKey;JoinEUI;DevEUI\n"Roof; #5, north";{KEY};{JOIN};{DEVICE}\n',
        [f"{DUE} Roof; #5, north"],
    ),
    (f"{DEVICE},{JOIN},0x{KEY},0,1,Dach S\u00fcd,\n", [f"{DUE} Dach S\u00fcd"]),
    (f"DevEUI,JoinEUI,AppKey,place\n{PLAIN},roof\n", [DUE, "the column 'place' isn't used"]),
    # a quote that isn't closed spoils its own line alone
    (f'"{PLAIN}\n{PLAIN}\n', [DUE, "line 1: there is no JoinEUI, AppKey"]),
    (f"{PLAIN}\n\n{DEVICE},{JOIN[:-1]}9,{KEY}\n", [DUE, f"line 3: {DEVICE} is in line 1, too"]),
    (f"{PLAIN},0,1,x,y", ["line 1: there is more than the 6 columns"]),
    ("\0,\0,\0", ["line 1: DevEUI isn't 16 hex digits"]),
    (f"{PLAIN}0", ["line 1: AppKey isn't 32 hex digits"]),
    (f"{PLAIN},6", ["line 1: Offset isn't a number from 0 to 5"]),
    (f"{PLAIN},0,0", ["line 1: Delay isn't a number from 1 to 15"]),
    (f"\n{DEVICE}", ["line 2: there is no JoinEUI, AppKey"]),
    # a name that is a column's name makes no head
    (f"{PLAIN},0,1,Heard", [f"{DUE} Heard"]),
    # columns of a network that has served the device
    (f"{ALL}\n{PLAIN},3,2,5,,0,0,no\n", [f"{DEVICE} {JOIN} {KEY} 2 5"]),
    (
        f"{ALL}\n{PLAIN},3,2,5,65535,16777215,9223372036854775807,yes\n",
        [f"{DEVICE} {JOIN} {KEY} 2 5"],
    ),
    (f"{ALL.lower()},Name\n{PLAIN},,,,,,,,Mill\n", [f"{DUE} Mill"]),
    (f"{ALL}\n{PLAIN},16\n", ["line 2: Application isn't a number from 0 to 15"]),
    (f"{ALL}\n{PLAIN},3,0,1,65536\n", ["line 2: LastDevNonce isn't a number from 0 to 65535"]),
    (f"{ALL}\n{PLAIN},3,0,1,-1\n", ["line 2: LastDevNonce isn't a number from 0 to 65535"]),
    (
        f"{ALL}\n{PLAIN},3,0,1,0,16777216\n",
        ["line 2: LastJoinNonce isn't a number from 0 to 16777215"],
    ),
    (
        f"{ALL}\n{PLAIN},3,0,1,0,0,9223372036854775808\n",
        ["line 2: Heard isn't a number from 0 to 9223372036854775807"],
    ),
    (f"{ALL}\n{PLAIN},3,0,1,0,0,0,maybe\n", ["line 2: Session is neither yes nor no"]),
    # the same column twice, under two of its names
    (f"DevEUI,AppEUI,JoinEUI,AppKey\n{DEVICE},{JOIN},{JOIN},{KEY}\n", [DUE]),
    (f"DevEUI,AppEUI,JoinEUI,AppKey\n{DEVICE},{JOIN},,{KEY}\n", [DUE]),
    (
        f"DevEUI,AppEUI,JoinEUI,AppKey\n{DEVICE},{JOIN},{DEVICE},{KEY}\n",
        ["line 2: there are two values of JoinEUI"],
    ),
    # each faulty line is reported
    (
        f"{DEVICE}\n{OTHER},{JOIN},{KEY}\nx,y,z\n",
        [
            f"{OTHER} {JOIN} {KEY} 0 1",
            "line 1: there is no JoinEUI, AppKey",
            "line 3: DevEUI isn't 16 hex digits",
        ],
    ),
    (f"{PLAIN},0,1,{'x' * 65}", ["line 1: Name isn't a text of at most 64 characters"]),
    (f"{PLAIN},0,1,{'x' * 200_000}", [f"line 1: {TOO_LONG}"]),
)


def read(file: Path, content: bytes, needed: Sequence[str] = devices.NEEDED) -> devices.Devices:
    """What is read of a file with this content."""
    file.write_bytes(content)
    return devices.read(str(file), needed)


def shown(found: devices.Devices) -> list[str]:
    """Requests with names, and what is wrong, without the file's name."""
    lines = [f"{row.line().removeprefix('provision ')} {row.name}".strip() for row in found.rows]
    return lines + [line.removeprefix(f"{found.file} ") for line in found.complaints()]


@table("text, due", LISTS)
def test_lists(text: str, due: list[str], folder: Path) -> None:
    """What is read of a list."""
    assert shown(read(folder / "list.csv", text.encode())) == due


def test_list_of_a_table_program(folder: Path) -> None:
    """Excel's "Unicode text" is UTF-16 with tabs."""
    text = f"DevEUI\tJoinEUI\tAppKey\tName\r\n{DEVICE}\t{JOIN}\t{KEY}\tDach\r\n"
    assert shown(read(folder / "list.csv", text.encode("utf-16"))) == [f"{DUE} Dach"]


def test_complaints_name_the_file(folder: Path) -> None:
    """A complaint has the file, the line, and what is wrong with it."""
    found = read(folder / "list.csv", b"DevEUI,JoinEUI,AppKey,roof\n\nx\n")
    assert found.complaints() == [
        f"{folder}/list.csv the column 'roof' isn't used",
        f"{folder}/list.csv line 3: there is no JoinEUI, AppKey",
    ]


def test_nonces(folder: Path) -> None:
    """The nonces and the application of a device; one with a nonce was served before."""
    lines = (f"{PLAIN},7,,,,0", f"{OTHER},{JOIN},{KEY},,,,0", f"{OTHER[:-1]}3,{JOIN},{KEY},,,,,9")
    found = read(folder / "list.csv", "\n".join((ALL, *lines)).encode())
    assert [(row.application, row.was_served) for row in found.rows] == [
        ("7", False),
        ("", True),
        ("", True),
    ]


def test_devices_without_keys(folder: Path) -> None:
    """A reader that needs no keys takes a list without them, as `lnsd export` prints it."""
    text = f"{ALL}\n{DEVICE},{JOIN},,3,0,1,7,9,100,yes\n".encode()
    assert [row.dev_eui for row in read(folder / "list.csv", text, ("DevEUI",)).rows] == [DEVICE]
    assert shown(read(folder / "list.csv", text)) == ["line 2: there is no AppKey"]


def test_devices_that_cant_be_added() -> None:
    """To an application that isn't the line's, and if the nonces would begin again."""
    lines = (ALL, f"{PLAIN},3", f"{OTHER},{JOIN},{KEY},4", f"{OTHER[:-1]}3,{JOIN},{KEY},3,,,,1")
    found = devices.in_lines(lines)
    found.refuse("3")
    assert shown(found) == [
        DUE,
        f"line 3: {OTHER} is of application 4",
        f"line 4: {OTHER[:-1]}3: a network has served it, and its nonces go on only by "
        "`lnsd import`",
    ]


@pytest.fixture
def meters() -> list[Meter]:
    """Meters with their numbers."""
    return [Meter(number) for number in range(4)]


def listed(meters: Sequence[Meter]) -> str:
    """A list: a new device, one of another application, and two with nonces."""
    lines = [",".join(meter.row().split(",")[:3]) for meter in meters]
    ends = (",3", ",4", ",3,0,1,6,7", ",3,0,1,0,0")
    return "\n".join([ALL, *(line + end for line, end in zip(lines, ends))]) + "\n"


def test_check(meters: list[Meter], folder: Path) -> None:
    """--check counts what can't be added."""
    file = folder / "list.csv"
    file.write_text(listed(meters), encoding="utf-8")
    nonces = "2 have nonces, and only `lnsd import` adds them"
    words = ("applications-mqtt", "--check", "--devices", file)
    due = f"{file}: 4 devices, 0 lines with a fault; {nonces}\n"
    assert run(*words) == (0, due, "")
    others = "1 are of other applications"
    due = f"{file}: 3 devices, 0 lines with a fault; {nonces}; {others}\n"
    assert run(*words, "--application", 3) == (0, due, "")


def test_bridge(pilot: Pilot, meters: list[Meter]) -> None:
    """A bridge adds the devices that it can. Of one with nonces it finds out whether it is there:
    the application has provisioned the last one by hand."""
    link = Application(pilot.address, 3)
    link.asks(meters[3].provision())
    assert link.hears().startswith(f"provisioned {meters[3].dev_eui}")
    link.close()
    file = pilot.file("list.csv", listed(meters))
    pilot.broker().start("running")
    broker = ("--broker", f"{HOST}:{pilot.broker_port}", "--application", 3)
    part = pilot.own("applications-mqtt", "--network", pilot.network, *broker, "--devices", file)
    part.start()
    await_that("devices are there", lambda: part.has_said("devices are there"))
    told = [line.partition("  ")[2] for line in part.said().splitlines()]
    assert f"line 2: {meters[0].dev_eui} is provisioned, in slot 1" in told
    refused = f"line 4: {meters[2].dev_eui}: a network has served it, and its nonces go on only by"
    assert f"{refused} `lnsd import`" in told
    ends = "2 devices are there, 1 aren't; 1 were there before: their keys were not compared"
    assert told[-1] == f"{file}: {ends}; 1 are of other applications"
    assert part.end(signal.SIGINT) == 0
    assert len(pilot.program.devices()[0]) == 2 + 1, "two devices, and their number"


def test_report_of_an_application(folder: Path) -> None:
    """A report of silent devices takes a list without keys, and leaves out other applications."""
    database, file = folder / "readings.db", folder / "list.csv"
    file.write_text(f"DevEUI,Application\n{DEVICE},3\n{OTHER},4\n", encoding="utf-8")
    with sqlite3.connect(database) as opened:
        opened.execute("CREATE TABLE readings (device, session, counter, port, payload, came)")
    words = ("readings", "--db", database, "--report", "--devices", file)
    first, second = (f"{of} stored 0 missing 0 last -\n" for of in (DEVICE, OTHER))
    assert run(*words) == (0, f"{first}{second}readings 0 missing 0\n", "")
    assert run(*words, "--application", 3) == (0, f"{first}readings 0 missing 0\n", "")
    file.write_text(f"{DEVICE}\nx\ny\n", encoding="utf-8")
    due = f"readings: {file} line 2: DevEUI isn't 16 hex digits (2 lines have a fault)\n"
    assert run(*words) == (1, "", due)
