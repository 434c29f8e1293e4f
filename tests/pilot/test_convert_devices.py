"""Exports of other network servers, written by their public documentation: what is converted of
them, and that the list is read by applications-mqtt."""

import csv
import io
import json
from collections.abc import Iterable
from pathlib import Path

import pytest
from bridges import devices
from converting import exports
from converting.exports import Choices
from converting.fields import Unfit

from .parts import program_of_pilot, run
from .rows import table

CONVERT = program_of_pilot("convert-devices")
EXPORTS = Path(__file__).parent / "exports"
HEAD = "DevEUI,JoinEUI,AppKey,Application,Offset,Delay,LastDevNonce,LastJoinNonce,Name"
JOIN = "0102030405060708"
# keys of FIPS 197, appendix A
KEYS = (
    "2B7E151628AED2A6ABF7158809CF4F3C",
    "603DEB1015CA71BE2B73AEF0857D7781",
    "8E73B0F7DA0E6452C810F32B809079E5",
)
OLD = "it is of LoRaWAN 1.0.3, whose devices may draw their DevNonces at random: --older takes"
OLD += " those that count them up"
ABP = "it doesn't join over the air (ABP)"
UNKNOWN_JOIN_EUI = "its JoinEUI isn't known: give it by --join-eui"


def eui(number: int) -> str:
    """A device's DevEUI."""
    return f"70B3D57ED000000{number}"


def row(number: int, key: int, end: str, join_eui: str = JOIN) -> str:
    """A device's line."""
    return f"{eui(number)},{join_eui},{KEYS[key]},{end}"


FIRST, SECOND = row(1, 0, "3,2,5,41,12,Mill lane 1"), row(2, 1, "3,0,1,,0,mill-2", 16 * "0")
OF_JSON = [
    f"device mill-3 of water: {OLD}",
    "device gate-1 of doors: it is of LoRaWAN 1.1.0",
    f"device gate-2 of doors: {ABP}",
    "device gate-3 of doors: there is no AppKey",
    "device far-1 of doors: it isn't of EU868, but of US_902_928_FSB_2",
]
OF_DATABASE = [
    f"device {eui(2)}: {UNKNOWN_JOIN_EUI}",
    f"device {eui(3)}: {OLD}",
    f"device {eui(4)}: its DevNonces don't count up: 77 came after 5000",
    f"device {eui(5)}: {ABP}",
    f"device {eui(6)}: there is no AppKey",
    f"device {eui(7)}: it is disabled",
    f"device {eui(8)}: it isn't of EU868, but of AS923",
]
MILL, LAST = row(1, 0, "3,0,1,41,12,Mill lane 1"), row(9, 2, "3,0,1,1,16777215,gate-6")
HAS_JOINED = "it has joined, and its last JoinNonce isn't in the export"
NO_NUMBER = "its application has no number: give it by --application water=N"
# the words, the lines of devices, what is said of the others, and how many have nonces
CONVERSIONS: tuple = (
    ("things-stack things-stack.json --application 3", [FIRST, SECOND], OF_JSON, 1),
    (
        "things-stack things-stack.json --application 3 --delay 7 --joins 100 --older",
        [
            row(1, 0, "3,2,5,41,112,Mill lane 1"),
            SECOND.replace("3,0,1", "3,0,7"),
            row(3, 2, "3,0,3,65000,103,mill-3"),
        ],
        OF_JSON[1:],
        2,
    ),
    ("things-stack things-stack.json --application 3 --all-or-none", None, OF_JSON, 1),
    (
        "things-stack things-stack.csv --application 9",
        [row(1, 0, "9,0,5,,0,Mill lane 1"), SECOND.replace("3,0,1", "9,0,1")],
        ["device gate-1: it is of LoRaWAN 1.1.0"],
        0,
    ),
    (
        "chirpstack chirpstack-database.csv --application 3",
        [MILL, LAST],
        OF_DATABASE,
        2,
    ),
    (
        f"chirpstack chirpstack-database.csv --application 3 --older --joins 1 --join-eui {JOIN}",
        [
            MILL.replace(",12,", ",13,"),
            row(2, 1, "3,0,1,,0,mill-2"),
            row(3, 2, "3,0,1,900,4,old-1"),
        ],
        [*OF_DATABASE[2:], f"device {eui(9)}: it has no JoinNonce left"],
        2,
    ),
    (
        f"chirpstack chirpstack-api.json --application 3 --join-eui {JOIN}",
        [row(2, 1, "3,0,1,,0,mill-2")],
        [f"device {eui(1)}: {HAS_JOINED}", f"device {eui(3)}: it is of LoRaWAN 1.1.0"],
        0,
    ),
    (
        "chirpstack chirpstack-nonces.csv chirpstack-api.json --application 3",
        [MILL],
        [f"device {eui(2)}: {UNKNOWN_JOIN_EUI}", f"device {eui(3)}: it is of LoRaWAN 1.1.0"],
        1,
    ),
    (
        "things-stack things-stack.json --application water=3 --application doors=4",
        [FIRST, SECOND],
        OF_JSON,
        1,
    ),
    (
        "things-stack things-stack.json --application doors=4",
        [],
        [
            f"device mill-1 of water: {NO_NUMBER}",
            f"device mill-2 of water: {NO_NUMBER}",
            *OF_JSON,
        ],
        0,
    ),
)


def converted(words: str) -> tuple[int, list[str], list[str]]:
    """How a conversion of these exports ends: its status, the list, and what it says."""
    named = [str(EXPORTS / word) if (EXPORTS / word).is_file() else word for word in words.split()]
    status, out, said = run("convert-devices", *named)
    return status, out.splitlines(), said.splitlines()


@table("words, due, faults, nonces", CONVERSIONS)
def test_conversions(words: str, due: list[str] | None, faults: list[str], nonces: int) -> None:
    """The list of an export, and a line for each device that isn't in it."""
    status, listed, said = converted(words)
    count = 2 if due is None else len(due)
    assert listed == ([] if due is None else [HEAD, *due])
    summary = f"{count} devices are converted, {nonces} of them with nonces; {len(faults)} aren't"
    assert (status, said) == (1 if faults else 0, [*faults, summary])


def one(**more: object) -> dict:
    """A device of The Things Stack without nonces, and more fields."""
    ids = {"device_id": "m", "dev_eui": eui(1), "join_eui": JOIN}
    of = {"ids": ids, "lorawan_version": "1.0.4", "root_keys": {"app_key": {"key": KEYS[0]}}}
    return {**of, **more}


ONE = row(1, 0, "0,1,,0,m")
# its fields as three servers keep them
IDENTITY = {"ids": one()["ids"], "name": "m"}
NETWORK = {"ids": one()["ids"], "lorawan_version": "MAC_V1_0_4", "supports_join": True}
JOINS = {"ids": one()["ids"], "root_keys": one()["root_keys"]}
# texts of an export with one device
SHAPES: tuple = (
    json.dumps(one()),
    json.dumps([one()]),
    json.dumps(one(), indent=4) + "\n",
    json.dumps({"end_devices": [one()]}),
    json.dumps({"result": one()}),
    json.dumps({"result": {"end_device": one()}}),
    f"[{json.dumps(IDENTITY)}\n,\n{json.dumps(NETWORK)}\n,\n{json.dumps(JOINS)}\n]\n",
    "\n".join(map(json.dumps, (JOINS, IDENTITY, NETWORK))),
    f"id,dev_eui,join_eui,lorawan_version,app_key\r\nm,{eui(1)},{JOIN},1.0.4,{KEYS[0]}\r\n",
)


@pytest.mark.parametrize("encoding", ("utf-8-sig", "utf-16"))
@pytest.mark.parametrize("text", SHAPES, ids=range(len(SHAPES)))
def test_shapes(text: str, encoding: str, folder: Path) -> None:
    """One device in each shape that an export may have. Without --application the list has no such
    column."""
    file = folder / "export"
    file.write_bytes(text.encode(encoding))
    due = f"{HEAD.replace('Application,', '')}\n{ONE}\n"
    said = "1 devices are converted, 0 of them with nonces; 0 aren't\n"
    assert run("convert-devices", "things-stack", file) == (0, due, said)


# a device's fields, and why it can't be converted
UNFIT: tuple = (
    ({"multicast": True}, "it is a multicast group"),
    ({"supports_join": False}, ABP),
    ({"lorawan_version": "MAC_UNKNOWN"}, "its LoRaWAN version is unknown: 'MAC_UNKNOWN'"),
    (
        {"lorawan_version": "MAC_V1_0"},
        OLD.replace("1.0.3", "1.0.0"),
    ),
    (
        {"root_keys": {"app_key": {"encrypted_key": "AA", "kek_label": "x"}}},
        "its AppKey is encrypted",
    ),
    ({"root_keys": {"app_key": {"key": KEYS[0][1:]}}}, "AppKey isn't 32 hex digits"),
    ({"root_keys": {"app_key": {"key": 32 * "0"}}}, "there is no AppKey"),
    (
        {"resets_join_nonces": True},
        "its nonces begin again (resets_join_nonces), so its joins would be refused",
    ),
    ({"session": {"dev_addr": "260B1234"}}, HAS_JOINED),
    ({"last_dev_nonce": 5}, HAS_JOINED),
    ({"last_join_nonce": 16777216}, "last_join_nonce isn't a number from 0 to 16777215"),
    (
        {"last_join_nonce": 1, "last_dev_nonce": 65536},
        "last_dev_nonce isn't a number from 0 to 65535",
    ),
    ({"used_dev_nonces": 5, "last_join_nonce": 1}, "used_dev_nonces is no array"),
    (
        {"mac_settings": {"desired_rx1_delay": "RX_DELAY_16"}},
        "Delay isn't a number from 0 to 15",
    ),
    (
        {
            "lorawan_version": "",
            "root_keys": {"app_key": {"key": KEYS[0]}, "nwk_key": {"key": "x"}},
        },
        "it has two root keys, as devices of LoRaWAN 1.1 have",
    ),
)


@table("fields, why", UNFIT)
def test_unfit(fields: dict, why: str, folder: Path) -> None:
    """Why a device can't be converted."""
    file = folder / "export.json"
    file.write_text(json.dumps(one(**fields)), encoding="utf-8")
    counts = "0 devices are converted, 0 of them with nonces; 1 aren't"
    due = f"device m: {why}\n{counts}\n"
    head = HEAD.replace("Application,", "")
    assert run("convert-devices", "things-stack", file) == (1, f"{head}\n", due)


def test_unknown_versions_and_first_nonces(folder: Path) -> None:
    """A device of an unknown version is converted, and the summary says so. One that has joined has
    used DevNonce 0 if there is no greater one: JSON leaves zeros out."""
    file = folder / "export.json"
    file.write_text(json.dumps(one(lorawan_version="", last_join_nonce=1)), encoding="utf-8")
    unknown = "the LoRaWAN versions of 1 aren't known: only 1.0.4 can be used"
    said = f"1 devices are converted, 1 of them with nonces; 0 aren't; {unknown}\n"
    status, out, told = run("convert-devices", "things-stack", file)
    assert (status, out.splitlines()[1], told) == (0, row(1, 0, "0,1,0,1,m"), said)


# a file that is no export, and what is said of it after its name
NO_EXPORTS = (
    (b"", " is empty"),
    (b"id,name\nm,x\n", " is no JSON, and its first line has no column dev_eui"),
    (b"{", " line 1: no JSON"),
    (b'{"ids": {}}\n{,}', " line 2: no JSON"),
    (b"[1]", ": an array of JSON has a value that is no object"),
    (b"[" * 100_000, " line 1: no JSON"),
    (b"id;dev_eui\nm;x;y;z\n", " line 2: more values than columns"),
    (
        b"id,dev_eui\nm," + 200_000 * b"x",
        " line 2: field larger than field limit (131072)",
    ),
)


@table("content, why", NO_EXPORTS)
def test_no_export(content: bytes, why: str, folder: Path) -> None:
    """A file that is no export is one line, and no list."""
    file = folder / "export"
    file.write_bytes(content)
    due = (1, "", f"convert-devices: {file}{why}\n")
    assert run("convert-devices", "things-stack", file) == due
    assert run("convert-devices", "chirpstack", file) == due


def changed(value: object) -> Iterable[object]:
    """A JSON value with one of its values in place of which is another one."""
    strange: tuple = (None, True, -1, 1e99, "x", "\0", [], [None], {}, {"x": 1})
    yield from strange
    if isinstance(value, dict):
        for name, inside in value.items():
            for other in changed(inside):
                yield {**value, name: other}
    if isinstance(value, list):
        for place, inside in enumerate(value):
            for other in changed(inside):
                yield [*value[:place], other, *value[place + 1 :]]


@pytest.mark.parametrize("name", ("things-stack.json", "chirpstack-api.json"))
def test_strange_values(name: str) -> None:
    """Any value in place of any other one: at most a line about the device."""
    module = CONVERT.FORMATS["chirpstack" if "chirpstack" in name else "things-stack"]
    choices = Choices(takes_older=True)
    count = 0
    for part in exports.parts(str(EXPORTS / name)):
        for other in changed(part):
            if not isinstance(other, dict):
                continue
            for of in module.found([other]).values():
                count += 1
                try:
                    module.exported(of).values(choices)
                except Unfit as why:
                    assert str(why)
    assert count > 100


def test_list_is_read(folder: Path) -> None:
    """A converted list is read by applications-mqtt; `--check` finds no fault in it."""
    status, listed, _ = converted("things-stack things-stack.csv --application 3")
    file = folder / "list.csv"
    file.write_text("\n".join(listed) + "\n", encoding="utf-8")
    words = ("applications-mqtt", "--check", "--application", 3, "--devices", file)
    assert run(*words) == (0, f"{file}: 2 devices, 0 lines with a fault\n", "")
    found = devices.read(str(file))
    assert [row.line() for row in found.rows] == [
        f"provision {eui(1)} {JOIN} {KEYS[0]} 0 5",
        f"provision {eui(2)} {16 * '0'} {KEYS[1]} 0 1",
    ]
    assert found.names == {eui(1): "Mill lane 1", eui(2): "mill-2"}


# lists in other forms than the plain one
FORMS: tuple = (
    (
        f'\ufeffName;Dev EUI;AppEUI;AppKey\r\n"Roof; #5, north";{eui(1).lower()};{JOIN};'
        f"0x{KEYS[0].lower()}\r\n",
        f"DevEUI,JoinEUI,AppKey,Name\n{eui(1)},{JOIN},{KEYS[0]},Roof 5 north\n",
    ),
    (
        f"{eui(1)},{JOIN},{KEYS[0]},02 # north\n",
        f"DevEUI,JoinEUI,AppKey,Offset,Delay,Name\n{eui(1)},{JOIN},{KEYS[0]},2,,\n",
    ),
    # a list for `lnsd amend`: what is empty stays empty
    (
        f"lastdevnonce\tdeveui\tSession\n\t{eui(1)}\tyes\n",
        f"DevEUI,LastDevNonce\n{eui(1)},\n",
    ),
)


@table("text, due", FORMS)
def test_lists(text: str, due: str, folder: Path) -> None:
    """The plain form of a list in another one, with its columns."""
    file = folder / "list.csv"
    file.write_text(text, encoding="utf-8", newline="")
    status, out, _ = run("convert-devices", "list", file)
    assert (status, out) == (0, due)


def test_applications_of_lists(folder: Path) -> None:
    """--application is for lines without one. A faulty line is reported, and so is a device that
    another list has, too."""
    first, second = folder / "first.csv", folder / "second.csv"
    first.write_text(f"DevEUI,Application\n{eui(1)},4\n{eui(2)},\nx,\n", encoding="utf-8")
    second.write_text(f"{eui(1)}\n", encoding="utf-8")
    status, out, said = run("convert-devices", "list", first, second, "--application", 3)
    due = [f"{eui(1)},4", f"{eui(2)},3"]
    assert [
        ",".join((of["DevEUI"], of["Application"])) for of in csv.DictReader(io.StringIO(out))
    ] == due
    assert (status, said.splitlines()) == (
        1,
        [
            f"{first} line 4: DevEUI isn't 16 hex digits",
            f"{second} line 1: {eui(1)}: its DevEUI is there twice",
            "2 devices are converted, 0 of them with nonces; 2 aren't",
        ],
    )
